#!/usr/bin/env python3
"""Holds the pages to the tree: what README.md and docs/*.md name must be there. docs/landings, docs/PORT.md
and docs/DESIGN-PASS.md are history.

- A path is one of the tree, or the end of one, with or without the file's ending; CRATE, NAME and * stand for
  anything. CRATE/NAME is also a must-fail edit. What is made in a crate's out/ is named as the crate is. A link
  leads to a file, from the page on.
- A word in code marks, and any word with an underscore, is a word of the code, comments and texts apart, or
  of what programs print, or the name of a file or folder. One that begins with - or _ is the name before it
  with another end, one that begins with … the end of some name.
- In a table with a column of edits: there NAME is an edit of the crate named last, or of each crate named in
  front, as in "model and layout: NAME", up to the word "computed:"; in a column of cases NAME is one of
  tests/listing; and a word with a hyphen or an underscore is a name too, but in the first column.

Words of other papers, of the world and of what is gone are listed, with the pages that may use them.
"""
import os
import re
import sys
from pathlib import Path

ROOT = Path(__file__).resolve().parent.parent
HISTORY = {ROOT / "docs/PORT.md", ROOT / "docs/DESIGN-PASS.md"}
CODE = {".rt", ".antt", ".rs", ".h", ".c", ".out"}
ELSEWHERE = [  # document 03; what is gone; the world
    ("Book Fate NothingShows Shape bookOf fan hiddenFault hidden_fault nodeWith public_fault roundStores shapeFault",
     ["docs/REQUIREMENTS.md", "docs/DECISIONS.md"]),
    ("Plan formal_statements hidden_half public_half slot_blocks", ["docs/DECISIONS.md"]),
    ("nm", ["docs/MANUAL.md"]),
    ("rattle-kit-5b-plain", ["README.md", "docs/SPEED.md"]),
    ("rattle-kit-13f", ["README.md", "docs/DECISIONS.md"]),
    ("dac8208d650f15bf logic version", ["README.md"]),
]
NOT_CODE = re.compile(r'//[^\n]*|(?<!\S)--(?!\S)[^\n]*|^\s*#[^\n]*|/\*.*?\*/|"[^"\n]*"', re.M | re.S)
ENDING = r"\.(?:antt|rt|rs|md|edit|svg|txt|py|h|c|in|out)"
PATH = re.compile(rf"(?<![\w/.])(?:\.\./)*((?:\.ci|[A-Za-z*][\w.*-]*)(?:/[\w.*-]+)+|[\w-]+{ENDING}\b)")
WORD = re.compile(r"(?<!\w)…?[-_]?[A-Za-z]\w+(?:-\w+)*")
SPAN = re.compile(r"`((?:[^`\n]|\n(?!\n))+)`")


class Tree:
    """What there is: the ends of all paths, the edits of each crate, the cases, the words of the code."""

    def __init__(self):
        paths = []
        for folder, folders, files in os.walk(ROOT):
            folders[:] = sorted(set(folders) - {"out", "target", ".git", "__pycache__"})
            paths += [Path(folder, name).relative_to(ROOT) for name in folders + files]
        self.edits = {f"{p.parts[1]}/{p.stem}" for p in paths if p.suffix == ".edit"}
        self.cases = {p.stem for p in paths if p.match("tests/listing/*.in")}
        self.ends = set(self.edits)
        for p in paths:
            for i in range(len(p.parts)):
                self.ends.update({"/".join(p.parts[i:]), "/".join(p.with_suffix("").parts[i:])})
        self.words = {word for p in paths for word in WORD.findall(p.stem)}
        for p in paths:
            if p.suffix in CODE or str(p) == "crates.txt":
                self.words.update(WORD.findall(NOT_CODE.sub(" ", (ROOT / p).read_text())))
        self.words.update(WORD.findall(re.sub(r"(?m)^ *#.*", "", (ROOT / ".ci/run").read_text())))

    def has_path(self, path):
        path = re.sub(r"^(crates/(\w+))/out/(?:\2|lib\2\.a)$", r"\1", path.rstrip("/."))
        if re.search(r"\*|CRATE|NAME", path):
            form = re.compile(re.sub(r"\\\*|CRATE|NAME", "[^/]+", re.escape(path)))
            return any(form.fullmatch(end) for end in self.ends)
        return path in self.ends

    def name(self, word, before):
        """The name that a word stands for, or nothing; before is the name before it."""
        if word.startswith("…"):
            return next((one for one in self.words if one.endswith(word[1:])), None)
        if word.startswith(("-", "_")):
            before = before or ""
            ends = [i for i, sign in enumerate(before) if sign in "-_"] + [len(before)]
            ways = (before[:i] + word for i in reversed(ends))
            return next((one for one in ways if one in self.words), None)
        return word if word in self.words else None


def table_faults(cells, heads, tree):
    """What a row of a table with a column of edits names and is not there."""
    before, crates = "", []
    for head, cell in list(zip(heads, cells))[1:]:
        for word in (word for word in WORD.findall(SPAN.sub("", cell)) if re.search("[-_]", word)):
            name = tree.name(word, before)
            if not name:
                yield word
            before = name or before
        if head == "Case":
            for word in re.findall(r"[a-z]\w+ ?\d*", cell):
                if word.strip() not in tree.cases | {f"all {len(tree.cases)}"}:
                    yield f"case {word}"
        if "edit" in head or head == "In the definitions":
            edits = cell.partition("computed: ")[0]
            for front, crate, name in re.findall(r"((?:\w+ and )*\w+): |(?:(\w+)/)?(\w+_\w+)", edits):
                crates = front.split(" and ") if front else [crate] if crate else crates
                if name and not all(f"{one}/{name}" in tree.edits for one in crates):
                    yield f"edit {name} of {' and '.join(crates) or 'no crate'}"


def faults(page, tree):
    """What a page names and is not there: line and name."""
    text, before, heads = page.read_text(), "", []
    here = str(page.relative_to(ROOT))
    allowed = {word for words, pages in ELSEWHERE if here in pages for word in words.split()}
    for match in PATH.finditer(text):
        if not tree.has_path(match[1]):
            yield match.start(), match[1]
    for match in re.finditer(r"\]\(([^)#]+)\)", text):
        if not (page.parent / match[1]).exists():
            yield match.start(), f"link {match[1]}"
    # the same places without paths and fences
    words = PATH.sub(lambda match: " " * len(match[0]), text.replace("```", "   "))
    for match in WORD.finditer(words):
        if "_" in match[0][1:] and match[0][0] not in "-_…" and match[0] not in tree.words | allowed:
            yield match.start(), match[0]
    for span in SPAN.finditer(words):
        for word in WORD.findall(span[1]):
            name = tree.name(word, before)
            if not name and word not in allowed:
                yield span.start(), word
            before = name or before
    at = 0
    for line in text.splitlines(keepends=True):
        cells = [cell.strip() for cell in line.strip().strip("|").split("|")] if line.startswith("|") else []
        heads = (heads or cells) if cells else []
        if any("Must-fail edit" in head for head in heads) and cells != heads:
            yield from ((at, what) for what in table_faults(cells, heads, tree))
        at += len(line)


def main():
    tree, count = Tree(), 0
    for page in [ROOT / "README.md", *sorted(set((ROOT / "docs").glob("*.md")) - HISTORY)]:
        text = page.read_text()
        for at, what in sorted(set(faults(page, tree))):
            print(f"{page.relative_to(ROOT)}:{text.count(chr(10), 0, at) + 1}: {what} is not in the tree")
            count += 1
    sys.exit(count > 0)


if __name__ == "__main__":
    main()
