#!/usr/bin/env python3
"""Holds the crates to the rules of the house (docs/ARCHITECTURE.md, "Rules of the house").

1. A definition is opened (`unfolding`, also in a `#[tactic(..)]`; `unfold .. in`) only in the crate that
   defines it; elsewhere its laws are cited. What the computed figures open is one name for all, `computing…`.
2. A `pub` name of the specs and of the laws is defined once in the whole tree.
3. A `pub` law is cited outside its own text.
4. A `use` brings in no name that its file does not use. What is brought in from `std` in code is left out: a
   trait is used by its methods. So is what a `pub use` passes on.

A law stands in `proofs` itself or in a folder whose name has a capital (`Laws`, `Theorems`); in the folder of
a function stand what it answers, its invariants or its walk, which are no laws.

Prints each place that breaks a rule; the exit status is 1 where there is one.
"""
import collections
import pathlib
import re
import sys

IMPORT = re.compile(r"^(?:(?:pub|ghost|unfoldable) )*use (.*)$", re.S)
LEAF = re.compile(r"(\w+)(?: as (\w+))?(?=\s*(?:[,}]|$))")
PUBLIC = re.compile(r"^( *)(?:(?:pattern|abbrev|unfoldable) )*pub (?:abbrev |unfoldable |record |data )?([^\s:({]+)")
RECORD = re.compile(r"^( *)(?:pub )?record ")
OPENED = re.compile(r"^ *unfolding (.*)$")
OPENED_WITHIN = re.compile(r"\bunfold (.*?) in\b")
OPENED_BY_TACTIC = re.compile(r"\bunfolding\(([^()]*)\)")
WORD = re.compile(r"\[\]|&&|!=|[^\s(){};:,.&!\[\]«»]+")


class File:
    """A file of a crate: its lines without comments, and what each `use` of it brings in."""

    def __init__(self, path, root, crates):
        self.path = path.relative_to(root)
        self.crate = self.path.parts[1]
        self.crates = crates
        self.is_code = path.suffix == ".rt"
        comment = r"(^|\s)//.*$" if self.is_code else r"(^|\s)--(\s.*)?$"
        lines = [re.sub(comment, "", line) for line in path.read_text().split("\n")]
        self.brought = []  # pairs: a name, and the crate of ours that it comes from or None
        self.aliases = {}  # modules by a name of their own: the crate of ours of each or None
        self.body = []
        while lines:
            line = lines.pop(0)
            if not IMPORT.match(line):
                self.body.append(line)
                continue
            while line.count("{") > line.count("}") and lines:
                line += "\n" + lines.pop(0)
            if not line.startswith(("pub ", "unfoldable ")):
                self.bring(IMPORT.match(line)[1].rstrip("; \n"), self.is_code and line.startswith("use "))

    def bring(self, item, is_rust):
        """Notes what an import brings in: of code the names at its ends, else the names in its braces."""
        path, _, names = item.partition(".{")
        if is_rust:
            if not re.match(r"(std|core)\b", item):
                names = (other or leaf for leaf, other in LEAF.findall(item))
                self.brought += [(name, None) for name in names if name != "self"]
        elif names:
            for name in filter(None, (part.strip() for part in names.rstrip("}").split(","))):
                self.brought.append((name.split(" as ")[-1], self.crate_of(path)))
        elif " as " in path:
            self.aliases[path.split(" as ")[1]] = self.crate_of(path)

    def crate_of(self, path):
        """The crate of ours that a path or the path of a function begins with, or None."""
        found = re.match(r"(?:Rattle\.)?(\w+)(?:\.|::)", path)
        name = self.crate if found and found[1] == "crate" else found and found[1]
        return name if name in self.crates else None

    def opened(self):
        """The names that the file opens; the names of one `unfolding` may go on over deeper lines."""
        if self.is_code:
            for names in OPENED_BY_TACTIC.findall(" ".join(self.body)):
                yield from filter(None, (name.strip() for name in names.split(",")))
            return
        opening = None  # how far the `unfolding` is indented whose names these lines are
        for line in self.body:
            found, depth = OPENED.match(line), len(line) - len(line.lstrip())
            for names in OPENED_WITHIN.findall(line):
                yield from names.split()
            if found:
                opening = depth
                yield from found[1].split()
            elif opening is not None and depth > opening and not re.search("[:=]", line):
                yield from line.split()
            else:
                opening = None

    def owner_of(self, name, owners):
        """The crate of ours that an opened name is defined in, by a whole path, an alias or a `use`, or None."""
        if "::" in name or name.startswith("Rattle."):
            return self.crate_of(name)
        if "." in name:
            return self.aliases.get(name.split(".")[0], self.crate)
        return owners.get(name, self.crate)

    def words(self):
        """Each word of the file, of code also those in angle brackets, and how often it stands there."""
        words = [word for line in self.body for word in WORD.findall(line)]
        if self.is_code:
            words += [part for word in words if re.search("[<>]", word) for part in re.findall(r"\w+", word)]
        return collections.Counter(words)

    def is_law(self):
        parts = self.path.parts
        return parts[2] == "proofs" and (len(parts) == 4 or parts[-2][0].isupper())

    def definitions(self):
        """The `pub` names that the file defines, fields of records left out."""
        inside = None  # how far a record is indented whose fields these lines are
        for line in self.body:
            depth = len(line) - len(line.lstrip())
            if inside is not None and line.strip() and depth <= inside:
                inside = None
            found, record = PUBLIC.match(line), RECORD.match(line)
            if found and inside is None and found[2] not in ("mod", "use"):
                yield found[2]
            if record:
                inside = len(record[1])


def openings(files):
    for file in files:
        owners = dict(file.brought)
        for name in file.opened():
            owner = file.owner_of(name, owners)
            if owner not in (None, file.crate) and not name.startswith("computing"):
                yield f"{file.path} opens {name}, a definition of {owner}"


def doubles(files):
    places = collections.defaultdict(list)
    for file in files:
        if file.path.suffix == ".antt" and (file.is_law() or file.path.parts[2] == "specs"):
            for name in file.definitions():
                places[name].append(str(file.path))
    for name, where in sorted(places.items()):
        if len(where) > 1:
            yield f"{name} is defined in {' and in '.join(where)}"


def is_cited_within(name, file):
    """Whether a name stands in a line of its file that neither states nor defines it."""
    own = re.compile(rf"^ *(?:pub |abbrev |unfoldable )*{re.escape(name)}(?= ).*(?: :|=)")
    return any(name in WORD.findall(line) and not own.match(line) for line in file.body)


def uncited(files, words):
    total = sum(words.values(), collections.Counter())
    for file in filter(File.is_law, files):
        for name in file.definitions():
            if total[name] == words[file][name] and not is_cited_within(name, file):
                yield f"{file.path}: nobody cites {name}"


def unused(files, words):
    for file in files:
        for name, _ in file.brought:
            if not words[file][name] and not all(words[file][part] for part in name.split("◌") if part):
                yield f"{file.path}: {name} is brought in and not used"


def main(root):
    crates = {path.name for path in root.glob("crates/*")}
    folders = [folder for part in ("src", "specs", "proofs") for folder in root.glob(f"crates/*/{part}")]
    paths = sorted(path for kind in ("rt", "antt") for folder in folders for path in folder.glob(f"**/*.{kind}"))
    files = [File(path, root, crates) for path in paths]
    words = {file: file.words() for file in files}
    broken = [*openings(files), *doubles(files), *uncited(files, words), *unused(files, words)]
    for line in broken:
        print(line)
    return 1 if broken else 0


if __name__ == "__main__":
    sys.exit(main(pathlib.Path(__file__).resolve().parent.parent))
