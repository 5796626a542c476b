"""Public functions, the definitions that their promises cite, who calls them and which edits change them: for tools/contracts and tools/figures.

All of it is read off the text of crates/*/src and crates/*/{edits,must-fail}. A call is resolved by its path and the file's `use` lines; a method's
(`x.name(..)`) by its name alone, so that it counts for each type that has a method of that name.
"""
import itertools
import re

from trying import ROOT, crate_lines, read_edit

FUNCTION = re.compile(r"^( *)pub (?:const )?(?:extern \"C\" )?fn (\w+)(?:<[^(]*>)?\(.*?^\1\}$", re.M | re.S)
GHOST = re.compile(r"^ghost use (Rattle\S+?)\.\{(.*?)\};", re.M)
# a conversion to a type of ours; what it gives is its promise
CONVERSION = re.compile(r"^impl From<([^{]*)> for (\w+) \{\n    ghost from_gives = \{(.*?)\};\n.*?^\}$", re.M | re.S)
TYPE = re.compile(r"^impl (\w+) \{", re.M)
USE = re.compile(r"^(?:pub )?use ([\w:]+?)(?:::\{([^}]*)\})?;", re.M)
CALL = re.compile(r"(?:(\.)|(?<!fn )(?<![\w:.]))((?:\w+::)*)(\w+)(?:::<[^>(]*>)?\(")
# Document 01's form for a client's call in hand: programs lend parts of one run of bytes and call what these hand on to.
FOR_CALLERS = {f"client::{name}" for name in ("begin_write", "begin_read", "take", "give_up", "make")}
# Whole tables for many look-ups, and how many candidates kept bytes list: our own code looks up one at a time, and sees the count in what it writes.
FOR_CALLERS |= {"gf256::logarithms::powers", "gf256::logarithms::logs", "decide::count_listed"}


def cited(text, promise):
    """The definitions of the repository that a promise names, each with its file."""
    found = []
    for module, names in GHOST.findall(text):
        ours = re.match(r"Rattle\.(\w+)\.specs\.(.*)", module)
        if not ours or ours.group(1) not in crate_lines():
            continue
        crate, file = ours.groups()
        for name in (n.strip().split(" as ") for n in names.split(",")):
            if re.search(rf"(?<![\w.]){re.escape(name[-1])}(?![\w-])", promise):
                found.append(f"`{name[0]}` ({crate}/{file.replace('.', '/')})")
    return found


def sources():
    """Each source of a listed crate: the crate, the path of its module, the file and its text."""
    for crate in crate_lines():
        for file in sorted((ROOT / "crates" / crate / "src").glob("*.rt")):
            yield crate, [crate] + ([] if file.stem in ("lib", "main") else [file.stem]), file, file.read_text()


def functions():
    """Crate, path of the name, file, text of the file, and match of each public function."""
    for crate, module, file, text in sources():
        for match in FUNCTION.finditer(text):
            kinds = [m.group(1) for m in TYPE.finditer(text, 0, match.start())] if match.group(1) else []
            yield crate, "::".join([*module, *kinds[-1:], match.group(2)]), file, text, match


def conversions():
    """The same of each conversion by `From`, whose path ends in its type and `from`."""
    for crate, module, file, text in sources():
        for match in CONVERSION.finditer(text):
            yield crate, "::".join([*module, match.group(2), "from"]), file, text, match


def calls():
    """For each path how often it is called, and for each method's name how often, as (path of the file, place in its text)."""
    found = {}
    for file in sorted(ROOT.glob("crates/*/src/*.rt")):
        crate, text = file.parts[-3], file.read_text()
        here = [crate] if file.stem in ("lib", "main") else [crate, file.stem]
        known = {}
        for path, names in USE.findall(text):
            parts = path.split("::")
            start = {"crate": [crate], "super": here[:-1], "self": here}.get(parts[0], parts[:1]) + parts[1:]
            for name in filter(None, (name.strip() for name in names.split(","))):
                known[name] = [*start, name]
            if not names:
                known[start[-1]] = start
        for match in CALL.finditer(text):
            method, path, name = match.groups()
            parts = [*path.split("::")[:-1], name]
            if method:
                full = "." + name
            elif parts[0] == "Self":
                full = "::".join([*here, TYPE.findall(text, 0, match.start())[-1], name])
            else:
                start = {"crate": [crate], "super": here[:-1], "self": here}.get(parts[0]) or known.get(parts[0])
                if start is None:
                    start = parts[:1] if parts[0] in crate_lines() else [*here, parts[0]]
                full = "::".join(start + parts[1:])
            found.setdefault(full, []).append((file, match.start()))
    return found


def called(found, path, file, match):
    """How often a function is called outside its own text."""
    names = [path] + (["." + match.group(2)] if match.group(1) else [])
    places = [place for name in names for place in found.get(name, [])]
    return sum(not (f == file and match.start() <= at < match.end()) for f, at in places)


def edited(crate, file, text, match):
    """How many edits change the text of a function: an edit's old text begins in it, or it begins in the edit's old text."""

    def within(old):
        at = text.find(old)
        return at >= 0 and at < match.end() and match.start() < at + len(old)

    edits = (read_edit(edit)[1] for edit in (ROOT / "crates" / crate).glob("*/*.edit"))
    return sum(any(name == f"src/{file.name}" and within(old) for name, old, _ in pairs) for pairs in edits)


def promise(match):
    """The text of a function's promise."""
    return match.group(0).partition("ensures")[2].partition(f"\n{match.group(1)}{{\n")[0]


def operations():
    """CLAIMS' table: every public function, by its module, with the definitions that its promise cites."""

    def said(path, module, text, match):
        names = [name.split(" ")[0] for name in cited(text, promise(match))]
        return f"`{path.removeprefix(module + '::')}`: " + (", ".join(names) or "said in the promise itself")

    rows = []
    for (crate, file), group in itertools.groupby(functions(), key=lambda f: (f[0], f[2])):
        module = crate if file.stem in ("lib", "main") else f"{crate}::{file.stem}"
        rows.append(f"   | `{module}` | " + "; ".join(said(path, module, text, match) for _, path, _, text, match in group) + " |")
    return "\n\n   | module | its public functions, and the definitions that the promise of each cites |\n   |---|---|\n" + "\n".join(rows) + "\n\n   "


