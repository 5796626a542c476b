"""Edits of the crates, copies to try them in, and what the prover says of them: for tools/edits and tools/theorem-edits.

An edit file begins with what is wrong, in lines '# ..'; where a crate's edit changes a definition (specs/), 'Changes a definition:' comes first.
Blocks 'file:', 'old:', 'new:' follow; a text goes on over the next lines up to the next key; 'file:' holds for the pairs after it, and an old text
stands in its file exactly once. Later lines '# ..' are remarks.
"""
import hashlib
import itertools
import json
import os
import pathlib
import re
import shutil
import subprocess

ROOT = pathlib.Path(__file__).resolve().parent.parent
PARTS = ("src", "specs", "proofs")
KEY = re.compile(r"(file|old|new):(?: (.*)|)$")
# an error in a file; and a goal of a function without a proof file that the prover's own search did not reach, at its place in the code
ERROR = re.compile(r"(\S+?):(\d+):\d+: error: (.*)")
OPEN = re.compile(r"note: (\S+?):(\d+):\d+: (it is not proved that .* \(`([^`]+)`\).*)")
# after goals that were not reached: the function's proof files; and what such a goal says
FILES_DUE = re.compile(r"fn \S+: no proof: expected answers in \./proofs/(\S+)/Answers\.antt")
GOAL = re.compile(r"note: `([^`]+)` of proofs/(\S+)/Answers\.antt must prove: (.*)")
# an error that only passes an earlier one on
FOLLOWS = re.compile(r"\d+ declarations? that depends? on `([^`]*)`, which was (?:rejected|not admitted), (?:was|were) not checked: (.*)")
# a name, a file or the syntax: nothing is said of a fact then
UNREAD = re.compile(r"is not in scope|has no field|has no `[^`]*`|is no name|operand is missing|expected the end|cannot continue")


class Wrong(Exception):
    """The edit does not show what it should; the text says why."""


def crate_lines():
    """The lines of crates.txt, by crate."""
    lines = (line.split("#")[0].rstrip() for line in (ROOT / "crates.txt").read_text().splitlines())
    return {line.partition(":")[0].split()[0]: line for line in lines if ":" in line}


def needed(crate):
    """The lines of crates.txt that a crate needs, by crate, as they stand."""
    lines = crate_lines()
    seen = set()

    def visit(name):
        if name in lines and name not in seen:
            seen.add(name)
            for d in lines[name].partition(":")[2].split():
                visit(d)

    visit(crate)
    return {name: lines[name] for name in lines if name in seen}


def read_edit(path):
    """What is wrong, and the replacements (file, old, new)."""
    pairs, key, texts, comment = [], None, {}, []

    def close():
        if key == "new":
            pairs.append((texts["file"][0], "\n".join(texts["old"]), "\n".join(texts["new"])))

    for line in path.read_text().splitlines():
        m = KEY.match(line)
        if m:
            close()
            key = m.group(1)
            texts[key] = [m.group(2)] if m.group(2) is not None else []
        elif key is None:
            comment.append(line.lstrip("#").strip())
        elif not line.startswith("#"):
            texts[key].append(line)
    close()
    if not pairs or not comment:
        raise Wrong("it needs a comment and a pair of 'old:' and 'new:'")
    if any(file.startswith("specs/") for file, _, _ in pairs) != comment[0].startswith("Changes a definition:"):
        raise Wrong("its first line begins with 'Changes a definition:' if it changes one, and not otherwise")
    return comment, pairs


def link(source, target):
    """A second name for what was checked, which the prover replaces and never writes into, and a copy of every other file."""
    try:
        if source.endswith(".oantt"):
            return os.link(source, target)
    except OSError:
        pass
    return shutil.copy2(source, target)


def kept(source, target):
    """Gives a crate's out/ a folder of another's, where there is one: what a check kept, or the library that was built."""
    if source.is_dir():
        shutil.rmtree(target, ignore_errors=True)
        target.parent.mkdir(parents=True, exist_ok=True)
        shutil.copytree(source, target, copy_function=link)


def copy_of(crates, work):
    """The needed crates in the folder work, with their libraries as they are built here."""
    (work / "crates.txt").write_text("".join(line + "\n" for line in crates.values()))
    for name in crates:
        source, target = ROOT / "crates" / name, work / "crates" / name
        for part in PARTS:
            if (source / part).is_dir():
                shutil.copytree(source / part, target / part)
        kept(source / "out" / "rlib", target / "out" / "rlib")


def apply(pairs, folder):
    """Replaces in the files of a folder."""
    for file, old, new in pairs:
        path = (folder / file).resolve()
        if folder.resolve() not in path.parents or not path.is_file():
            raise Wrong(f"no file that the edit may change: {file}")
        text = path.read_text()
        if not old or text.count(old) != 1:
            raise Wrong(f"an old text stands {text.count(old) if old else 0} times in {file}: {old.splitlines()[:1]}")
        path.write_text(text.replace(old, new))


def functions(text):
    """The functions of a source as it is laid out: (type, "" for none, nothing in a trait's impl; name; first line, with its attributes; line before its
    body; last line), lines from 1."""
    home, begun, lines = "", None, text.split("\n")
    for at, line in enumerate(lines, 1):
        head = re.match(r'( *)(?:pub(?:\(crate\))? )?(?:const )?(?:extern "C" )?fn (\w+)', line)
        if line.startswith("impl"):
            home = None if " for " in line else re.match(r"impl(?:<.*?>)? (\w+)", line).group(1)
        elif line == "}" and begun is None:
            home = ""
        if head and begun is None:
            first = at
            while lines[first - 2].strip() and lines[first - 2].strip()[:2] != "//" and lines[first - 2][-1] not in "{}":
                first -= 1
            begun = (head.group(1), head.group(2), first)
            body = at if line.endswith("{") else None
        elif begun and body is None and (line == begun[0] + "{" or (line.endswith("{") and line.startswith(begun[0] + ")"))):
            body = at
        if begun and body and line == begun[0] + "}":
            yield home if begun[0] else "", begun[1], begun[2], body, at
            begun = None


def function_of(folder, pairs):
    """The one function in whose body, and in whose own proof, the pairs of an edit change all that they change: (source, type or "", name); or nothing."""
    found = set()
    for file, old, _ in pairs:
        if not file.startswith("src/"):
            continue
        text = (folder / file).read_text()
        if text.count(old) != 1:
            return None
        first = text.count("\n", 0, text.index(old)) + 1
        last = first + old.rstrip("\n").count("\n")
        found |= {(file, home, name) for home, name, _, body, end in functions(text) if body < first and last < end}
        if not any(body < first and last < end for _, _, _, body, end in functions(text)):
            return None
    if len(found) != 1:
        return None
    one = next(iter(found))
    if one[1] is None:
        return None
    return one if all(file.startswith("src/") or str(pathlib.PurePath(file).parent) == proof_of(*one) for file, _, _ in pairs) else None


def proof_of(source, home, name):
    """The folder of a function's own proof."""
    modules = [part for part in pathlib.PurePath(source).with_suffix("").parts[1:] if part not in ("lib", "main", "mod")]
    return "/".join(["proofs", *modules, *([home] if home else []), name])


def said_of(said, folder, function):
    """What was said of one function, whose source is as the check read it, and that the crate was refused."""
    source, home, name = function
    mine = [(head, end) for of, called, head, _, end in functions((folder / source).read_text()) if (of, called) == (home, name)]
    proof, lines, keep = proof_of(*function), [], False
    for line in said.splitlines():
        place, due, goal = ERROR.match(line) or OPEN.match(line), FILES_DUE.match(line), GOAL.match(line)
        if place:
            file = os.path.relpath(folder / place.group(1), folder)
            keep = str(pathlib.PurePath(file).parent) == proof or (file == source and any(head <= int(place.group(2)) <= end for head, end in mine))
        elif due or goal:
            keep = (due.group(1) if due else goal.group(2)) == proof.removeprefix("proofs/")
        elif not line.startswith("  "):
            keep = line.startswith("logic=")
        if keep:
            lines.append(line)
    return "\n".join(lines) + "\n"


def rt(folder, *words):
    """Runs rt in a folder: its status, and what it said."""
    run = subprocess.run(["rt", *words], cwd=folder, stdin=subprocess.DEVNULL, stdout=subprocess.PIPE, stderr=subprocess.STDOUT, text=True)
    return run.returncode, run.stdout


def check(work, crate):
    """Checks a crate of the folder work, and builds the libraries below it that changed: the status, and what was said."""
    return rt(work / "crates" / crate, "check", "--jobs", "1")


def at_a_time():
    """How many checks go side by side here: one for each processor, and 4 GB of memory for each."""
    pages = os.sysconf("SC_PHYS_PAGES") * os.sysconf("SC_PAGE_SIZE")
    return max(1, min(os.cpu_count() or 1, pages // (4 << 30)))


def summed(crates):
    """The checksum of all that a try reads but its edit: the kit, and the crates with their lines of crates.txt."""
    sums = [rt(ROOT, "version")[1], *crates.values()]
    for file in (f for name in crates for part in PARTS for f in sorted((ROOT / "crates" / name / part).rglob("*"))):
        if file.is_file():
            sums += [str(file.relative_to(ROOT)), hashlib.sha256(file.read_bytes()).hexdigest()]
    return hashlib.sha256(repr(sums).encode()).hexdigest()


class Told:
    """What the prover said of edits that were tried before on this machine, by the checksum of all that the try read, as rt keeps what it proved: the
    same is not tried again, but judged again. Kept is what was said where it refused a proof."""

    def __init__(self, anew):
        self.home = pathlib.Path(os.environ.get("XDG_CACHE_HOME") or pathlib.Path.home() / ".cache") / "cendrulas" / "tried"
        self.anew, self.sums = anew, {}

    def key(self, crate, edit):
        """Crates are read once, before anything is copied."""
        if crate not in self.sums:
            self.sums[crate] = summed(needed(crate))
        return hashlib.sha256(repr([self.sums[crate], crate, edit.name, edit.read_bytes()]).encode()).hexdigest()

    def of(self, crate, edit):
        """The status and what was said, or nothing."""
        key = self.key(crate, edit)
        try:
            status, said = json.loads((self.home / key).read_text())
            return None if self.anew else (status, said)
        except (OSError, ValueError):
            return None

    def keep(self, crate, found):
        """Keeps what was said (key, status, text), unless a file of the crates has changed since they were read."""
        found = [one for one in found if is_refusal(*one[1:])]
        if found and summed(needed(crate)) == self.sums.get(crate):
            for key, status, said in found:
                self.put(key, [status, said])

    def put(self, key, what):
        try:
            self.home.mkdir(mode=0o700, parents=True, exist_ok=True)
            new = self.home / f"{key}.{os.getpid()}"
            new.write_text(json.dumps(what))
            new.replace(self.home / key)
        except OSError:
            pass


def is_refusal(status, said):
    """The prover refused a proof: it was neither content, nor did the edit fail to reach it."""
    return status == 1 and re.search(r"^logic=not-proved", said, re.M) is not None


def fact_of(text, most=400):
    """The fact that an error refuses, or nothing where it refuses none: a name, a file or the syntax."""
    whole = [
        re.search(r"expected type (`[^`]*`),? but this has type (`[^`]*`)", text),
        re.search(r"the two types are (`[^`]*`) \(expected\) and (`[^`]*`) \(found\)", text),
    ]
    differ = r"differ (?:only )?where one has (`[^`]*`) \(expected\)(?!, at the start).*? and the other has (`[^`]*`) \(found\)"
    part = re.search(r"computed as far as they go, the two types (?:first )?" + differ, text) or re.search(differ, text)
    said = [f"expected {m.group(1)}, found {m.group(2)}" for m in whole if m]
    if said:
        short = min(said, key=len)
        return f"expected there {part.group(1)}, found {part.group(2)}" if part and len(short) > most else short
    if re.match(r"`(omega|grind)`: the goal does not follow", text):
        return re.sub(r"(?<=\.) It read .*", "", text)
    left = re.search(r"what it leaves must be a path whose two ends are equal, and (`[^`]*`) is none", text)
    if left:
        return f"no path between equal ends: {left.group(1)}"
    sides = re.search(r"the two sides (?:first )?differ (?:only )?where one has (`[^`]*`) \(left\).*? and the other has (`[^`]*`) \(right\)", text)
    sides = sides or re.search(r"(?:the equations do not join|before the equations had joined) (`[^`]*`) to (`[^`]*`)", text)
    if sides:
        return f"not joined: {sides.group(1)} and {sides.group(2)}"
    other = re.match(r"(`[^`]*`) ≟ (`[^`]*`):? does not hold", text)
    if other:
        return f"{other.group(1)} is not {other.group(2)}"
    sought = re.search(r"the first part of which no proof was found is `[^`]*`, (`[^`]*`)", text, re.I) or re.match(r"`search`: no proof of (`[^`]*`)", text)
    return f"no proof of {sought.group(1)} was found" if sought else ""


def errors(said):
    """All errors that follow from no other, as (file, line, lemma, text, fact), and the names of all that were refused. A goal that the prover's own
    search did not reach counts as an error in the code: its lemma is the goal's name, and its fact what the goal says."""
    first, names, lines = [], set(), said.splitlines()
    goals = {m.group(1, 2): m.group(3) for m in map(GOAL.match, lines) if m}
    for at, line in enumerate(lines):
        error, goal = ERROR.match(line), OPEN.match(line)
        if goal:
            due = next((m.group(1) for m in map(FILES_DUE.match, lines[at:]) if m), "")
            fact = goals.get((goal.group(4), due), "")
            names.add(goal.group(4))
            first.append((goal.group(1), int(goal.group(2)), goal.group(4), goal.group(3), f"no proof of `{fact}` was found" if fact else ""))
        elif error:
            more = itertools.takewhile(lambda text: text.startswith("  "), lines[at + 1 :])
            text = " ".join([error.group(3), *(t.strip() for t in more)])
            name = re.match(r"`([^`]*)`: (.*)", text)
            lemma, text = name.groups() if name else ("", text)
            names.add(lemma)
            passed_on = FOLLOWS.match(text)
            if passed_on:
                names.update([passed_on.group(1), *re.sub(r" \(via [^)]*\)| and \d+ more$", "", passed_on.group(2)).split(", ")])
            else:
                first.append((error.group(1), int(error.group(2)), lemma, text, fact_of(text)))
    return first, names


def refusals(said, folder):
    """The errors at a fact that follow from no other: (file in the folder, line, lemma, fact, whole text); those at a name, a file or the syntax; and
    the names of all that were refused."""
    found, names = errors(said)
    told = [(os.path.relpath(folder / file, folder), line, lemma, fact, text) for file, line, lemma, text, fact in found]
    unread = [error for error in told if not error[3] and UNREAD.search(re.sub(r"`[^`]*`", "``", error[4]))]
    return [error for error in told if error not in unread], unread, names


def cut(text, most=400):
    return text if len(text) <= most else text[:most] + " .."


def shortened(text, most):
    """The text with long terms cut in the middle, and the way back to a fact's moment left out."""

    def term(m):
        return m.group() if len(m.group()) <= 150 else f"{m.group()[:70]} .. {m.group()[-70:]}"

    return cut(re.sub(r"`[^`]*`", term, re.sub(r"(?:\.before)+", "..", text)), most)
