"""What the marked figures of the documents stand for: counted in the text of the repository, or measured. For tools/figures; tools/built.py has those
that are taken off a build.

`counted` needs the repository and `rt`; the others are read from a log, or measure.
"""
import ast
import os
import pathlib
import re
import resource
import subprocess
import sys
import tempfile
import time

import promised
from trying import ROOT, check, copy_of, crate_lines, kept, needed

HEADER = ROOT / "include" / "cendrulas.h"
HOSTS = {"cendrulas": ROOT / "host" / "cendrulas" / "src", "plain": ROOT / "bench" / "plain" / "src", "model": ROOT / "host" / "tests" / "src" / "model"}
EXPORTS = ROOT / "crates" / "embed_c" / "src"
# those that are measured
MEASURED = ("gate-passed", "gate-time", "loop", "load", "instructions", "bench machine", "bench runs")
# figures that stand in a text of the host's side: file, and the number in it
SAID = {
    "small stack": ("host/c/painted.h", r"SMALL = (\d+) \* 1024\b"),
    "large stack": ("host/c/painted.h", r"LARGE = (\d+) \* 1024\b"),
    "asked again": ("host/incident/src/call.rs", r"^pub const AGAIN: Duration = Duration::from_millis\((\d+)\);"),
    "killed": ("host/incident/test", r'^ *"\$programs/incident" \$test (\d+) \d+$'),
    "bench row": ("bench/src/table.rs", r"^const ROW: Duration = Duration::from_millis\(([\d_]+)\);"),
    "bench sample": ("bench/src/table.rs", r"^const SAMPLE: Duration = Duration::from_micros\(([\d_]+)\);"),
    "bench fewest": ("bench/src/table.rs", r"^const FEWEST: usize = (\d+);"),
    "counted times": ("bench/instructions", r"^TIMES = (\d+)$"),
}


def lines(folder, ending):
    return sum(len(path.read_text().splitlines()) for path in folder.rglob("*" + ending))


def of_crate(crate):
    """Lines in src, specs and proofs, and the number of edits."""
    folder = ROOT / "crates" / crate
    edits = sum(len(list((folder / home).glob("*.edit"))) for home in ("must-fail", "edits"))
    return [lines(folder / "src", ".rt"), lines(folder / "specs", ".antt"), lines(folder / "proofs", ".antt"), edits]


def of_crates():
    return [sum(column) for column in zip(*map(of_crate, crate_lines()))]


def files(pattern):
    return f"{len(list(ROOT.glob(pattern))):,}"


def kit():
    return "`" + subprocess.run(["rt", "version"], stdout=subprocess.PIPE, text=True, check=True).stdout.strip() + "`"


def exported():
    """The names of the exported functions. The header declares the same ones."""
    ours = {name for file in EXPORTS.glob("*.rt") for name in re.findall(r'^ *pub extern "C" fn (\w+)\(', file.read_text(), re.M)}
    declared = set(re.findall(r"^(?!static)\w+ (cendrulas_\w+)\([^{]*?\);", HEADER.read_text(), re.M))
    if ours != declared:
        sys.exit("figures: the header and crate embed_c have different functions: " + " ".join(sorted(ours ^ declared)))
    return sorted(ours)


def public():
    """Public functions, those that docs/CONTRACTS.md names."""
    texts = (file.read_text() for crate in crate_lines() for file in (ROOT / "crates" / crate / "src").glob("*.rt"))
    return f"{sum(len(re.findall(r'^ *pub (?:const )?(?:extern .C. )?fn ', text, re.M)) for text in texts)}"


def sizes():
    """The header's sizes, by name."""
    return {f"size {name}": f"{int(value):,}" for name, value in re.findall(r"^#define CENDRULAS_(\w+) (\d+)u\b", HEADER.read_text(), re.M)}


def number(name, place):
    """The number of a definition, as in memory_size of cluster/Ranges."""
    crate, file = place.split("/")
    return value(ROOT / "crates" / crate / "specs" / f"{file}.antt", rf"^{name} = (\d+)$")


def constant(name, place):
    """The number of a constant of the code, as in MEMORY of cluster/lib, or of a refusal, as in Refusal::Layout; or of the header, the wrapper
    (cendrulas/..), the plain shelf (plain/..) or the tests' model of a state (model/..)."""
    crate, file = place.split("/")
    if crate == "include":
        return value(HEADER, rf"^#define {name} (\d+)u\b")
    if crate in HOSTS:
        return value(HOSTS[crate] / f"{file}.rs", rf"^pub const {name}: \w+ = ([\d_]+);")
    if name.startswith("Refusal::"):
        return value(ROOT / "crates" / crate / "src" / f"{file}.rt", rf"^ +{name} => (\d+),$")
    return value(ROOT / "crates" / crate / "src" / f"{file}.rt", rf"^(?:pub(?:\(crate\))? )?const {name}: \w+ = (\d+|b'(?:\\.|.)');")


def tagged():
    """Lengths that have a tag in them, by the definitions' numbers. A stamp is a number of 4 bytes, a writer and a tag; a share is a length of 2 bytes,
    the fragment, S digests, the nonce's digest and S tags."""
    ranges = {name: number(name, "cluster/Ranges") for name in ("key_size", "top_length", "top_faults", "most_servers")}
    tag, digest, faults = number("tag_size", "hmac/Hmac"), ranges["key_size"], ranges["top_faults"]
    stamp = 4 + 1 + tag
    stored = stamp + 2 + digest
    fragment = (ranges["top_length"] + faults) // (faults + 1)
    return {
        "tag": f"{tag}",
        "stamp": f"{stamp}",
        "tagged": f"{stamp + digest}",
        "candidate": f"{stamp + digest} + {tag}S",
        "stored": f"{stored} + f + {digest + tag}S",
        "most stored": f"{stored + fragment + (digest + tag) * ranges['most_servers']:,}",
    }


def value(file, pattern):
    found = re.findall(pattern, file.read_text(), re.M)
    if len(found) != 1:
        sys.exit(f"figures: {file.relative_to(ROOT)} has {len(found)} lines {pattern}")
    return ast.literal_eval(found[0])[0] if found[0].startswith("b") else int(found[0].replace("_", ""))


def first_run():
    """Minutes that a first build takes, by the table of crates' seconds from which host/building.sh tells how far it is."""
    table = ROOT / "host" / "building.sh"
    seconds = sum(map(int, re.findall(r"\[\w+\]=(\d+)", table.read_text()))) if table.is_file() else 0
    return {"first run": f"{-(-seconds // 60)}"} if seconds else {}


def counted():
    code, definitions, proof, edits = of_crates()
    whole = len(list(ROOT.glob("crates/*/must-fail/*.edit")))
    return {
        "kit": kit(),
        "crates": f"{len(crate_lines())}",
        "exports": f"{len(exported())}",
        "public": public(),
        "operations": promised.operations(),
        "code": f"{code:,}",
        "definitions": f"{definitions:,}",
        "proof": f"{proof:,}",
        "must-fail": f"{whole}",
        "edits": f"{edits - whole:,}",
        "all-edits": f"{edits:,}",
        "theorem-edits": files("theorem-edits/*.edit"),
        "plan-edits": files("theorem-edits/planned/*.edit"),
        **sizes(),
        **tagged(),
        **first_run(),
        **{name: f"{value(ROOT / file, pattern):,}" for name, (file, pattern) in SAID.items()},
    }


def machine():
    model = re.search(r"^model name\s*: (.*)$", pathlib.Path("/proc/cpuinfo").read_text(), re.M)
    return f"{os.cpu_count()} cores" + (f" ({model.group(1).strip()})" if model else "")


def of_gate(log):
    """From what `(time .ci/run) 2>&1` printed: the gate's last line, and how long it took."""
    passed, took = re.findall(r"^\d+ passed, 0 failed$", log, re.M), re.search(r"^real\s+(\d+)m([\d.]+)s$", log, re.M)
    if not passed or not took:
        sys.exit("figures: the log has no line 'N passed, 0 failed' or no line 'real ..m..s'")
    minutes = int(took.group(1)) + float(took.group(2)) / 60
    return {"gate-passed": f"`{passed[-1]}`", "gate-time": f"{minutes:.0f} minutes on {machine()}"}


def of_load(log):
    """The table of saves and loads per second, from what `./incident load` printed."""
    row = r"^ *(\d+) +(\d) +(\d+) +(\d+) +(\d+) +[\d.]+ +[\d.]+ +([\d.]+) +([\d.]+)$"
    found = [f"| {t} | {boxes} | {scopes} | {int(saves):,} | {int(loads):,} | {save} | {load} |"
             for scopes, t, boxes, saves, loads, save, load in re.findall(row, log, re.M)]
    if not found:
        sys.exit("figures: the log has no rows of `./incident load`")
    head = "| t | boxes | scopes at a time | saves/s | loads/s | a save to one with t = 1 | a load to one with t = 1 |"
    return {"load": "\n".join(["", head, "|--:" * 7 + "|", *found, ""])}


def of_instructions(log):
    """The table of instructions, as `bench/run --instructions` printed it."""
    rows = re.findall(r"^\|.*\|$", log, re.M)
    if len(rows) < 3 or "instructions" not in rows[0]:
        sys.exit("figures: the log has no table of `bench/run --instructions`")
    return {"instructions": "\n".join(["", *rows, ""])}


def timed(what, run):
    """A row, which is said at once: seconds of the processor, and by the clock."""
    before, began = resource.getrusage(resource.RUSAGE_CHILDREN), time.monotonic()
    run()
    took, after = time.monotonic() - began, resource.getrusage(resource.RUSAGE_CHILDREN)
    spent = after.ru_utime + after.ru_stime - before.ru_utime - before.ru_stime
    row = f"| {what} | {spent:.0f} | {took:.0f} |"
    print(row, file=sys.stderr, flush=True)
    return row


def loop_of(crate, proof):
    """Rows of one crate over what a check of it kept: with nothing changed, with a changed proof, and a wrong program."""
    with tempfile.TemporaryDirectory(prefix="figures-") as name:
        work = pathlib.Path(name)
        copy_of(needed(crate), work)
        kept(ROOT / "crates" / crate / "out" / "incremental", work / "crates" / crate / "out" / "incremental")

        def checked():
            status, said = check(work, crate)
            if status != 0:
                sys.exit(f"figures: {crate} is not accepted: {said[-300:]}")

        checked()
        rows = [timed(f"`rt check` in crates/{crate}, nothing changed", checked)]
        with (work / "crates" / crate / "proofs" / proof).open("a") as file:
            file.write("\n-- one line more\n")
        rows.append(timed(f".. with another text of proofs/{proof}", checked))
    edit = min((ROOT / "crates" / crate / "edits").glob("*.edit")).stem
    tried = [ROOT / "tools" / "edits", f"{crate}/{edit}"]
    return [*rows, timed(f"`tools/edits {crate}/{edit}`", lambda: subprocess.run(tried, stdout=subprocess.DEVNULL, check=True))]


def of_loop():
    """A table of how long the loop of a change takes, measured now, over crates that are proved."""
    crates = (("server", "store/store/Proof.antt"), ("client", "taking/take_in/Proof.antt"), ("atomicity", "Turns.antt"))
    rows = [row for crate, proof in crates for row in loop_of(crate, proof)]
    return {"loop": "\n".join(["", f"| on {machine()} | seconds of the processor | by the clock |", "|---|--:|--:|", *rows, ""])}
