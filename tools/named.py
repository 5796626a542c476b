"""Whether the names that documents give to definitions and theorems are there: `NAME`, `NAME` in crates/CRATE/proofs/FILE.antt, in CRATE/FILE (a file
of specs/) or in CRATE/src; `NAME` (FILE.antt) and (`NAME`, FILE.antt), of any crate; the theorems of PROOFS' table; and every `CRATE::..`, a module, a
type or a function of that crate's code. For tools/figures --check.
"""
import re

from trying import ROOT, crate_lines

NAMED = re.compile(r"((?:`[\w'.-]+`(?:, | and | )+)+)in ((?:crates/)?\w+/[\w/]*\w(?:\.antt|\.rt)?)")
ASIDE = re.compile(r"(`[\w-]+`) \((\w+\.antt)\)|\(((?:`[\w-]+`, )+)(\w+\.antt)\)")
THEOREM = re.compile(r"^\| (`[\w-]+`(?:, `[\w-]+`)*) \| (\w+/proofs/\w+\.antt(?:, \w+\.antt)*) \|", re.M)

PATH = re.compile(r"`(\w+)((?:::\w+)+)`")


def in_code(crate, parts):
    """Whether a crate's code has these: a module is a file, and what is last is a function, a type, a constant or a case of an enum."""
    files = list((ROOT / "crates" / crate / "src").glob("*.rt"))
    texts = [file.read_text() for file in files if file.stem == parts[0]] or [file.read_text() for file in files]
    name = re.escape(parts[-1])
    return any(file.stem == parts[-1] for file in files) or any(re.search(rf"(?:fn|struct|enum|const) {name}\b|^ +{name}\b", t, re.M) for t in texts)


def file_of(place):
    """The file that a document calls CRATE/FILE, CRATE/src or by its path; a folder, or one that is not there, where none of these is."""
    crate, _, file = place.removeprefix("crates/").partition("/")
    folder = ROOT / "crates" / crate
    tries = [folder / file, folder / "specs" / f"{file}.antt", folder / file / "lib.rt"]
    return next((path for path in tries if path.is_file()), tries[0])


def has(path, name):
    """Whether a file defines the last part of a name, as in Share.digests: with a type, as a record, a struct or one of its fields."""
    last = re.escape(name.split(".")[-1])
    return path.is_file() and re.search(rf"^ *(?:[\w()]+ )*{last} *(?::|\{{|\()", path.read_text(), re.M) is not None


def missing():
    """The names that are not where a document says, each with its document."""
    wrong = []
    for page in sorted((ROOT / "docs").glob("*.md")):
        if page.name in ("PORT.md", "DESIGN-PASS.md"):
            # it sets names of another time beside today's
            continue
        text = page.read_text()
        wrong += [f"{page.name}: {crate}{path}" for crate, path in PATH.findall(text) if crate in crate_lines() and not in_code(crate, path[2:].split("::"))]
        for names, place in NAMED.findall(text):
            path = file_of(place)
            wrong += [f"{page.name}: {name} in {place}" for name in re.findall(r"`([^`]+)`", names) if not path.is_dir() and not has(path, name)]
        for names, file in ((m[0] or m[2], m[1] or m[3]) for m in ASIDE.findall(text)):
            paths = [*ROOT.glob(f"crates/*/proofs/{file}"), *ROOT.glob(f"crates/*/specs/{file}")]
            wrong += [f"{page.name}: {name} in {file}" for name in re.findall(r"`([^`]+)`", names) if not any(has(p, name) for p in paths)]
        for names, places in THEOREM.findall(text):
            first, *others = places.split(", ")
            paths = [ROOT / "crates" / place for place in (first, *(f"{first.rpartition('/')[0]}/{other}" for other in others))]
            wrong += [f"{page.name}: {name}" for name in re.findall(r"`([^`]+)`", names) if not any(has(p, name) for p in paths)]
    return wrong
