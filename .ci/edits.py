#!/usr/bin/env python3
"""Holds each must-fail edit to what refused it, by the lines that `rt ci` printed: `python3 .ci/edits.py LOG`.

A refusal is a fact where a goal of the code is not proved, or where a law or a proof does not meet what the edit
left. It shows nothing where it would be there whatever the contracts say: where it only says that a name is
missing, that a proof file does not fit the code's shape or that something else is not proved; where it stands in
the edited text itself (an error in src/ or specs/: a slip of syntax or type); where the prover met a limit and gave
no verdict; and where there is none (an edit that is bad or was not tried). Not seen is a goal that is open since the
edit gave it another name, as one that changes what a test compares with does: such an edit keeps the test's form.

Prints how many edits there are and how many misfits; each misfit is printed, and makes the exit status 1.
"""
import pathlib
import re
import sys

ROOT = pathlib.Path(__file__).resolve().parent.parent
TRIED = re.compile(r"^rt: must-fail (\w+/[\w.-]+)\.edit: (.*)$", re.M)
REFUSED = "refused, as it must be"
OPEN_GOAL = re.compile(r"^note: (src/\S+?):\d+:\d+: it is not proved that")
ERROR = re.compile(r"^(?:\./)?(\S+?)(?::\d+:\d+)?: error: (.*)$")
SHAPE = (
    r"has no `",
    r"has no field",
    r"exports no `",
    r"takes? \d+ arguments?",
    r"is not in scope",
    r"was not admitted",
    r"was rejected, was not checked",
)


def misfit(said):
    """Why what was said of an edit shows nothing, or nothing where it is a fact."""
    if not said.startswith(REFUSED):
        return "nothing refused it"
    # after these words, where that is so: that only a name was missing or a limit met, in brackets
    words = said[len(REFUSED):].lstrip(": ")
    if OPEN_GOAL.match(words):
        return None
    found = ERROR.match(words)
    if not found:
        return words[:160] or "nothing says what refused it"
    place, error = found.groups()
    if place.startswith(("src/", "specs/")) or any(re.search(shape, error) for shape in SHAPE):
        return words[:160]
    return None


def main(log):
    """Prints the misfits and their count."""
    said = dict(TRIED.findall(pathlib.Path(log).read_text(errors="replace")))
    edits = sorted(f"{edit.parent.parent.name}/{edit.stem}" for edit in ROOT.glob("crates/*/must-fail/*.edit"))
    found = [(edit, misfit(said.get(edit, ""))) for edit in edits]
    wrong = [(edit, why) for edit, why in found if why]
    for edit, why in wrong:
        print(f"misfit: {edit}: {why}")
    print(f"edits: {len(edits)}, {len(wrong)} misfit")
    return 1 if wrong or not edits else 0


if __name__ == "__main__":
    sys.exit(main(sys.argv[1]))
