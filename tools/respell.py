#!/usr/bin/env python3
"""Brings the names of the repository's own definitions and lemmas to the spelling of today's Rattle.

usage: respell.py [--table] [ROOT]

Words are in snake case: `bitAt` is `bit_at`. A dash stays where it joins the names of two definitions, as in
`length-set_bit`; a plain word is added with `_`, as in `bit_at-set_bit_same`. A fact, which is a type, has a capital
and keeps it. What turns are the names that specs/ and proofs/ below ROOT/crates declare, but for those of files
Proof.antt, many of which the check prescribes: whole words in .antt and .rt files, and in .md files what stands
between backticks. A lemma that would have its function's name gets `_lem`; other names that would fall together
have one of their own in APART. With --table it prints old and new and writes nothing.
"""

import collections
import pathlib
import re
import sys

DECLARED = re.compile(r"^( *)(?:(?:pub|abbrev|unfoldable|data|record) )*([^\s(){}.;,@\"«»]+) :(?: |$)")
WORD = re.compile(r"[^\s(){}.;,@\"«»`]+")
HUMP = re.compile(r"(?<=[a-z0-9])(?=[A-Z])")
COMMENT = {".antt": re.compile(r"(^|\s)--(?:\s.*)?$"), ".rt": re.compile(r"(^|\s)//.*$")}
SPAN = re.compile(r"`[^`\n]+`")
# words of the library that our lemmas are named with
LIBRARY = set("all any append cons drop get_or length map min mul add replicate set sub take zero".split())
# names that would fall together with another one that stays as it is
APART = {
    "is-placed": "when_placed",
    "oneMore": "one_more_than",
    "goesOn": "choice_goes_on",
    "readTold": "tells_read",
    "tooManyBlocks": "beyond_most_blocks",
    "readBelow": "reading_below",
    "nodeBlock": "block_of_node",
    "writtenOn": "disk_written_on",
    "digitsValue": "value_of_digits",
    "publicRead-refused": "public_read_when_refused",
    "hiddenRead-refused": "hidden_read_when_refused",
    "lineRead-refused": "line_read_when_refused",
}


class Names:
    """What the files declare: all names, and those that a dash may stand before."""

    def __init__(self, files):
        self.all = set()
        self.joined = set(LIBRARY)
        for path in files:
            if path.suffix != ".antt" or path.name == "Proof.antt":
                continue
            for line in path.read_text().split("\n"):
                found = DECLARED.match(line)
                if found:
                    self.all.add(found[2])
                    if "specs" in path.parts and not found[1]:
                        self.joined.add(found[2])

    def is_joined(self, part):
        return part in self.joined or part[:1].isupper() or bool(HUMP.search(part))

    def table(self):
        spelled = {name: APART.get(name) or self.spelled(name) for name in sorted(self.all)}
        others = collections.Counter(spelled.values())
        for old, new in spelled.items():
            if others[new] > 1 and "-" in old:
                spelled[old] = new + "_lem"
        return {old: new for old, new in spelled.items() if old != new}

    def spelled(self, name):
        parts = name.split("-")
        if "" in parts:
            return name
        said = snake(parts[0])
        for part in parts[1:]:
            said += ("-" if self.is_joined(parts[0]) and self.is_joined(part) else "_") + snake(part)
        return said


def snake(part):
    """A part of a name in snake case; a fact keeps its capitals."""
    if part[:1].isupper():
        return part
    first, *rest = HUMP.split(part)
    return "_".join([first] + [piece[0].lower() + piece[1:] for piece in rest])


def turned(text, table):
    return WORD.sub(lambda word: table.get(word[0], word[0]), text)


def humps(text, table):
    """A comment: of its bare words only those turn that no English word is spelled like."""
    said = SPAN.sub(lambda span: turned(span[0], table), text)
    return WORD.sub(lambda w: table.get(w[0], w[0]) if HUMP.search(w[0]) else w[0], said)


def line_turned(line, comment, table):
    found = comment.search(line)
    code, said = (line[: found.start()], line[found.start():]) if found else (line, "")
    return turned(code, table) + humps(said, table)


def written(path, table):
    text = path.read_text()
    if path.suffix == ".md":
        return SPAN.sub(lambda span: turned(span[0], table), text)
    return "\n".join(line_turned(line, COMMENT[path.suffix], table) for line in text.split("\n"))


def main(words):
    root = pathlib.Path(next((word for word in words if not word.startswith("--")), "."))
    files = [
        path
        for kind in ("antt", "rt")
        for path in sorted(root.glob(f"crates/*/**/*.{kind}"))
        if path.relative_to(root).parts[2] in ("src", "specs", "proofs")
    ]
    names = Names(files)
    table = names.table()
    kept = names.all - set(table)
    together = collections.Counter(list(table.values()) + list(kept))
    clashes = sorted(name for name, times in together.items() if times > 1)
    if clashes:
        print("these names fall together: " + " ".join(clashes))
        return 1
    if "--table" in words:
        for old, new in table.items():
            print(f"{old}\t{new}")
        return 0
    pages = [root / "README.md", *sorted(root.glob("docs/**/*.md"))]
    for path in files + [page for page in pages if page.exists()]:
        text = written(path, table)
        if text != path.read_text():
            path.write_text(text)
    print(f"{len(table)} names respelled")
    return 0


if __name__ == "__main__":
    sys.exit(main(sys.argv[1:]))
