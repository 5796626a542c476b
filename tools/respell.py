#!/usr/bin/env python3
"""Brings the repository's own definitions and lemmas to the spelling of this Rattle: words in snake case, where a dash joins two names.

    tools/respell.py [--list]     rewrites crates/, theorem-edits/ and the Markdown pages in place; --list prints the names alone

It goes by whole words. A word turns if a file of specs/ or a lemma file of proofs/ defines it, it has a capital inside or a dash, and no library has it.
A dash stays where what follows it is the name of a definition of specs/, of a library or of a function of src/; else it becomes an underscore.
In comments and pages only words with a capital inside turn, and words in backticks. Functions of src/ keep their names. Run it once, after port.py.
"""
import collections
import pathlib
import re
import sys

ROOT = pathlib.Path(sys.argv[-1]) if len(sys.argv) > 1 and not sys.argv[-1].startswith("--") else pathlib.Path(".")
WORD = re.compile(r"[^\s(){}.;,@\"«»`\[\]:]+")
MARKS = r"(?:(?:abbrev|unfoldable|pub|opaque|private|rec)\s+)*"
SIGNATURE = re.compile(rf"^(\s*){MARKS}([^\s(){{}}.;,@\"«»`:=]+(?:\s+[^\s(){{}}.;,@\"«»`:=→λ]+)*)\s+:(?:\s|$)")
TYPED = re.compile(rf"^\s*{MARKS}(?:record|data)\s+([^\s(){{}}.;,@\"«»`]+)")
CAMEL = re.compile(r"[a-z0-9][A-Z]")
# what names of libraries are called in names of lemmas
SHORT = set("le lt eq ne mul add sub div mod pow append length cons nil zero suc min max neg mem xor and or not refl sym trans comm".split())


def own(path):
    parts = path.parts
    return "out" not in parts


def files(*ends):
    for path in sorted((ROOT / "crates").rglob("*")):
        if path.suffix in ends and path.is_file() and own(path):
            yield path


def lemma_file(path):
    rel = path.relative_to(ROOT / "crates").parts
    return len(rel) >= 3 and (rel[1] == "specs" or (rel[1] == "proofs" and len(rel) == 3)) and path.suffix == ".antt"


def snake(word):
    word = word.replace("getD", "get_or")
    word = re.sub(r"([a-z0-9])([A-Z]+)(?=$|[-_'0-9])", lambda m: m[1] + "_" + m[2].lower(), word)
    word = re.sub(r"([a-z0-9])([A-Z])", lambda m: m[1] + "_" + m[2].lower(), word)
    return re.sub(r"([A-Z]+)", lambda m: m[1].lower(), word)


def strip_comment(line):
    return re.sub(r"(^|\s)--(\s.*|$)", r"\1", line)


def collect():
    crates = {p.name for p in (ROOT / "crates").iterdir()}
    defined, spec_names, library, rust, tokens = set(), set(), set(), set(), set()
    for path in files(".antt", ".rt"):
        text = path.read_text()
        for line in text.splitlines():
            code = strip_comment(line) if path.suffix == ".antt" else line
            tokens.update(WORD.findall(code))
        for m in re.finditer(r"^\s*(?:ghost )?(?:pub |unfoldable )*use\s+([\w.'+-]+)\.\{([^}]*)\}", text, re.M):
            head = m[1].split(".")
            if not (head[0] == "Rattle" and head[1] in crates):
                for item in m[2].split(","):
                    library.update(item.split())
        if path.suffix == ".rt":
            rust.update(re.findall(r"\bfn\s+(\w+)", text))
            rust.update(re.findall(r"^\s*(?:pub )?(\w+):", text, re.M))
        if lemma_file(path):
            specs = path.relative_to(ROOT / "crates").parts[1] == "specs"
            for line in text.splitlines():
                code = strip_comment(line)
                m = SIGNATURE.match(code)
                names = m[2].split() if m else []
                m = TYPED.match(code)
                if m:
                    names = [m[1]]
                for name in names:
                    defined.add(name)
                    if specs:
                        spec_names.add(name)
                # infix or data constructors
            for m in re.finditer(r"^\s+(?:pub )?([^\s(){}.;,@\"«»`:=]+) :", text, re.M):
                defined.add(m[1])
                if specs:
                    spec_names.add(m[1])
    return defined, spec_names, library, rust, tokens


def table():
    defined, spec_names, library, rust, tokens = collect()
    known = {snake(w) if CAMEL.search(w) and w[0].islower() else w for w in spec_names} | library | rust | SHORT
    # words that are ordinary English and names only by chance
    known -= set("at of is on in by to as no one the a from with for its left right first second last here now more none some new old step read write make take get put apart".split())
    rows = {}
    for w in sorted(defined):
        if w in library or not re.match(r"[a-z]", w):
            # a fact or a type keeps its capital; what follows a dash is brought over
            if not (w[0:1].isupper() and "-" in w) or w in library:
                continue
        if not (CAMEL.search(w) or "-" in w):
            continue
        if w[0].isupper():
            new_parts = [w.split("-")[0]] + [snake(p) for p in w.split("-")[1:]]
        else:
            new_parts = [snake(p) if CAMEL.search(p) and p[0].islower() else p for p in w.replace("getD", "get_or").split("-")]
        out = new_parts[0]
        for p in new_parts[1:]:
            bare = p.rstrip("'0123456789")
            out += ("-" if (p in known or bare in known or p[:1].isupper() or not p[:1].isalpha()) else "_") + p
        if out != w:
            rows[w] = out
    # what would fall together stays apart: the second keeps a dash or gets a word more
    # what would fall together with a function of src/ or with another name: a definition gets _def, a lemma _lem
    taken = collections.Counter(rows.values())
    said = []
    for w in sorted(rows, key=lambda w: (w not in spec_names, w)):
        out = rows[w]
        if w == "storeReply":
            continue
        if out in rust:
            rows[w] = out + ("_def" if w in spec_names else "_lem")
        elif taken[out] > 1 and w not in spec_names or (out in tokens and out not in rows):
            rows[w] = out + ("_def" if CAMEL.search(w) else "_lem")
        if rows[w] != out:
            said.append((w, rows[w]))
    again = collections.Counter(rows.values())
    for w, out in rows.items():
        if again[out] > 1 or out in tokens and out not in rows:
            print("still together:", w, out, file=sys.stderr)
    return rows, said, tokens


def turn_code(text, rows, steps=False):
    """With steps, a word with a dash right after a dot stays: it is what Rattle calls a step of the code."""

    def one(m):
        if steps and "-" in m[0] and text[m.start() - 1:m.start()] == "." and not text[:m.start() - 1].endswith("}"):
            return m[0]
        return rows.get(m[0], m[0])

    return WORD.sub(one, text)


def turn_comment(text, rows):
    text = re.sub(r"`[^`\n]+`", lambda m: turn_code(m[0], rows), text)
    return WORD.sub(lambda m: rows[m[0]] if m[0] in rows and CAMEL.search(m[0]) else m[0], text)


def turn_antt(text, rows, steps=False):
    out = []
    for line in text.split("\n"):
        m = re.search(r"(^|\s)--(\s|$)", line)
        if m:
            out.append(turn_code(line[:m.start()], rows, steps) + turn_comment(line[m.start():], rows))
        else:
            out.append(turn_code(line, rows, steps))
    return "\n".join(out)


def turn_rt(text, rows):
    out = []
    for line in text.split("\n"):
        m = re.search(r"//", line)
        if m:
            out.append(turn_code(line[:m.start()], rows) + turn_comment(line[m.start():], rows))
        else:
            out.append(turn_code(line, rows))
    return "\n".join(out)


def turn_md(text, rows):
    return re.sub(r"`[^`\n]+`", lambda m: turn_code(m[0], rows), text)


def main():
    rows, said, tokens = table()
    if "--list" in sys.argv:
        for w, out in sorted(rows.items()):
            print(w, out)
        for w, out in said:
            print("TOGETHER", w, out)
        return
    for path in files(".antt"):
        path.write_text(turn_antt(path.read_text(), rows, path.name == "Proof.antt"))
    for path in files(".rt"):
        path.write_text(turn_rt(path.read_text(), rows))
    for path in list((ROOT / "crates").rglob("*.edit")) + list((ROOT / "theorem-edits").rglob("*.edit")):
        if own(path):
            path.write_text(turn_antt(path.read_text(), rows, True))
    for path in list(ROOT.glob("*.md")) + list((ROOT / "docs").rglob("*.md")) + list((ROOT / "host").rglob("*.md")):
        path.write_text(turn_md(path.read_text(), rows))


main()
