"""What is taken off a build: the archive's code, and how deep its functions go. For tools/figures and tools/sizes.

It needs the archive, and of what host/c/build makes the programs that measure the stack; host/test leaves both in target/.
"""
import pathlib
import re
import subprocess
import sys
import tempfile

from counted import exported
from trying import ROOT

# the marked figures of the documents that are taken off a build
NAMES = ("archive", "archive needs", "archive server", "archive client", "stack", "stack server", "stack client")


def archive():
    """The archive that ships, or what rt writes where it is not there."""
    places = (ROOT / "target" / "staticlib" / "libcendrulas.a", ROOT / "crates" / "embed_c" / "out" / "libembed_c.a")
    found = [place for place in places if place.is_file()]
    if not found:
        sys.exit("figures: no archive in target/staticlib; host/test makes it")
    return found[0]


def text_bytes(file):
    """Code and constant tables of an archive or object, in bytes; there must be no other data."""
    said = subprocess.run(["size", "-A", file], stdout=subprocess.PIPE, text=True, check=True).stdout
    sections = [(name, int(n)) for name, n in re.findall(r"^(\.\S+(?: \S+)*?) +(\d+) +\d+$", said, re.M)]
    if any(n for name, n in sections if re.match(r"\.t?(data|bss)\b", name)):
        sys.exit(f"figures: {file} has writable data")
    return sum(n for name, n in sections if re.match(r"\.(text|rodata)\b", name))


def undefined():
    """What the archive takes from the program, in words."""
    said = subprocess.run(["nm", "-u", archive()], stdout=subprocess.PIPE, text=True, check=True).stdout
    names = sorted({f"`{name}`" for name in re.findall(r"^ +U (\w+)$", said, re.M)})
    return " and ".join(filter(None, [", ".join(names[:-1]), names[-1]]))


def linked_bytes(names):
    """The bytes that a program gets which calls these functions and is linked with --gc-sections."""
    with tempfile.TemporaryDirectory(prefix="figures-") as work:
        linked = pathlib.Path(work) / "part.o"
        roots = [word for name in names for word in ("-u", name)]
        subprocess.run(["ld", "-r", "--gc-sections", *roots, "-e", names[0], archive(), "-o", linked], check=True)
        return text_bytes(linked)


def needed_by(part):
    """The same for all functions of one part, server or client."""
    return linked_bytes([name for name in exported() if name.startswith(f"cendrulas_{part}_")])


def depths():
    """How deep each function goes, the deepest first, as host/c/stack.c and host/c/drill.c print it."""
    said = ""
    for name in ("stack", "drill"):
        program = ROOT / "target" / "c" / name
        if not program.is_file():
            sys.exit(f"figures: no target/c/{name}; host/c/build makes it")
        said += subprocess.run([program], stdout=subprocess.PIPE, text=True, check=True).stdout
    found = ((int(depth), f"cendrulas_{name}") for name, depth in re.findall(r"^stack of (\w+) +(\d+) bytes$", said, re.M))
    return {name: depth for depth, name in sorted(found, reverse=True)}


def enough(deep, part):
    """The stack that does for a server or a client: one KiB more than its deepest function takes."""
    most = max(depth for name, depth in deep.items() if name.startswith(f"cendrulas_{part}_"))
    return f"{-(-most // 1024) + 1} KiB"


def built():
    deep = depths()
    rows = [f"| `{name}` | {depth:,} |" for name, depth in deep.items()]
    return {
        "archive": f"{text_bytes(archive()):,}",
        "archive needs": undefined(),
        "archive server": f"{needed_by('server'):,}",
        "archive client": f"{needed_by('client'):,}",
        "stack": "\n".join(["", "| function | bytes |", "|---|--:|", *rows, ""]),
        "stack server": enough(deep, "server"),
        "stack client": enough(deep, "client"),
    }
