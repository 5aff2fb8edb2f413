#!/usr/bin/env python3
"""Draws docs/crates.svg, the graph of the crates, from crates.txt.

    python3 docs/crates.py            writes docs/crates.svg
    python3 docs/crates.py --check    fails where docs/crates.svg is not what crates.txt gives

A crate stands on the row of its depth, one below the deepest crate that it uses. A line leads from a crate
down to one that uses it; it is left out where a longer way leads there too. A line that passes rows has an
empty place on each. Orders of the places are tried, for few crossings and then for short lines. The kit's
crates are left out.
"""
import sys
from itertools import combinations
from math import fsum
from pathlib import Path
from random import Random
from statistics import fmean

DOCS = Path(__file__).resolve().parent
COLOURS = {"library": "#eee", "program": "#dff0d8"}
ROW, BOX, GAP, LEFT, TOP = 54, 28, 24, 52, 54  # height of a row and of a box, between boxes, margins
TRIES, SWEEPS, PULLS = 60, 6, 100


def read_crates(text):
    """What each crate uses of the others, in dependency order, and what it is, as its comment says."""
    uses, kinds, comment = {}, {}, ""
    for line in text.splitlines():
        if line.startswith("#"):
            comment = line
        elif line.strip():
            head, used = line.split(":")
            name = head.split()[0]  # of a static library the word `staticlib` follows
            uses[name] = [other for other in used.split() if other in uses]
            kinds[name] = "program" if comment.startswith("# a program") else "library"
    return uses, kinds


def reduced(uses):
    """The graph without the lines for which there is a longer way."""
    reached = {}
    for name, used in uses.items():
        reached[name] = set(used).union(*(reached[u] for u in used))
    return {name: [u for u in used if not any(u in reached[v] for v in used)] for name, used in uses.items()}


def is_empty(place):
    """A crate's place is its name; an empty one is a pair, the crate that the line comes from and the row."""
    return isinstance(place, tuple)


def rows_of(uses):
    """The places of each row, and for each place those on the row above that it is joined to."""
    depth = {}
    for name, used in uses.items():
        depth[name] = max((depth[u] + 1 for u in used), default=0)
    rows, joined = [[] for _ in range(max(depth.values()) + 1)], {}
    for name, used in uses.items():
        rows[depth[name]].append(name)
        joined[name] = []
        for u in used:
            last = u
            for row in range(depth[u] + 1, depth[name]):
                place = (u, row)
                if place not in joined:  # the lines of one crate share their empty places
                    rows[row].append(place)
                    joined[place] = [last]
                last = place
            joined[name].append(last)
    return rows, joined


def turned(joined):
    """For each place those on the row below that it is joined to."""
    below = {place: [] for place in joined}
    for place, others in joined.items():
        for other in others:
            below[other].append(place)
    return below


def crossings(rows, joined):
    count = 0
    for upper, lower in zip(rows, rows[1:]):
        lines = [(upper.index(u), i) for i, place in enumerate(lower) for u in joined[place]]
        count += sum((a[0] - b[0]) * (a[1] - b[1]) < 0 for a, b in combinations(lines, 2))
    return count


def sweep(rows, joined):
    """Orders each row by the middle of what its places are joined to on the row before it."""
    at = {}
    for row in rows:
        middle = {p: fmean(at[u] for u in joined[p]) if joined[p] else i for i, p in enumerate(row)}
        row.sort(key=middle.get)
        at = {place: i / len(row) for i, place in enumerate(row)}


def width(place):
    return 6 if is_empty(place) else 8 * len(place) + 20


def settled(row, wanted):
    """The middles of a row's places, in its order, clear of one another and near to those wanted."""
    first, end = {}, 0
    for place in row:
        first[place] = end + width(place) / 2
        end += width(place) + GAP
    runs = []  # places that touch one another: how far they move, and who they are
    for place in row:
        runs.append((wanted[place] - first[place], [place]))
        while len(runs) > 1 and runs[-2][0] > runs[-1][0]:
            (a, left), (b, right) = runs[-2:]
            runs[-2:] = [((a * len(left) + b * len(right)) / len(left + right), left + right)]
    return {place: first[place] + moved for moved, places in runs for place in places}


def placed(rows, joined):
    """The middle of each place: each is drawn to what it is joined to, as far as its row has room."""
    below, x, lines = turned(joined), {}, {}
    near = {place: joined[place] + below[place] for place in joined}
    for place in filter(is_empty, joined):  # those of one crate are drawn to the same: lines run straight
        lines.setdefault(place[0], []).extend(near[place])
    for row in rows:
        x.update(settled(row, dict.fromkeys(row, 0)))
    for turn in range(PULLS):
        for row in rows if turn % 2 == 0 else rows[::-1]:
            drawn = {p: (lines[p[0]] if is_empty(p) else near[p]) or [p] for p in row}
            x.update(settled(row, {p: fmean(x[other] for other in drawn[p]) for p in row}))
    return x


def arranged(rows, joined):
    """The middles in the best order found: the fewest crossings, then the shortest lines."""
    below, found = turned(joined), []
    for seed in range(TRIES):
        chance = Random(seed)
        tried = [sorted(row, key=lambda place: chance.random()) for row in rows]
        for _ in range(SWEEPS):
            sweep(tried[::-1], below)
            sweep(tried, joined)
        found.append((crossings(tried, joined), tried))
    fewest = min(count for count, _ in found)
    best = [placed(tried, joined) for count, tried in found if count == fewest]
    return min(best, key=lambda x: round(fsum(abs(x[a] - x[b]) for a in joined for b in joined[a]), 3))


def port(place, other, others, x):
    """Where the line to another place leaves this one: in the order of the places that its lines lead to."""
    order = sorted(others, key=x.get)
    return x[place] + (order.index(other) - (len(order) - 1) / 2) * min(16, width(place) / len(order))


def line(upper, lower, joined, below, x, top):
    """A line between two rows, over a white edge: it passes over another and joins none."""
    a, b = port(upper, lower, below[upper], x), port(lower, upper, joined[lower], x)
    start, end = top[upper] + BOX, top[lower]
    middle = (start + end) / 2
    path = f'<path d="M{a:.1f} {start}C{a:.1f} {middle:g} {b:.1f} {middle:g} {b:.1f} {end}" fill="none"'
    return f'{path} stroke="#fff" stroke-width="6"/>\n{path} stroke="#333"/>'


def box(x, y, wide, high, kind):
    return f'<rect x="{x:g}" y="{y}" width="{wide}" height="{high}" fill="{COLOURS[kind]}" stroke="#333"/>'


def text(x, y, content, more):
    return f'<text x="{x:g}" y="{y}" {more}>{content}</text>'


def drawing(rows, joined, x, kinds):
    """The picture as SVG."""
    left = LEFT - min(x[place] - width(place) / 2 for place in x)
    x = {place: round(left + middle, 1) for place, middle in x.items()}
    top = {place: TOP + ROW * i for i, row in enumerate(rows) for place in row}
    wide = max(360, round(max(x[place] + width(place) / 2 for place in x)) + 20)
    high, below = TOP + ROW * len(rows) + 14, turned(joined)
    out = [f'<svg xmlns="http://www.w3.org/2000/svg" viewBox="0 0 {wide} {high}" font-family="sans-serif"'
           f' font-size="13">\n<rect width="{wide}" height="{high}" fill="#fff"/>',
           text(20, 26, "The crates, each below those that it uses", 'font-size="15" font-weight="bold"')]
    out += [line(u, place, joined, below, x, top) for place in joined for u in joined[place]]
    for i in range(len(rows)):
        out.append(text(24, TOP + ROW * i + 18, i + 1, 'text-anchor="middle" font-size="11" fill="#666"'))
    for place in joined:
        if is_empty(place):
            out.append(f'<path d="M{x[place]:.1f} {top[place]}v{BOX}" stroke="#333"/>')
        else:
            start = round(x[place] - width(place) / 2, 1)
            out.append(box(start, top[place], width(place), BOX, kinds[place]))
            out.append(text(x[place], top[place] + 18, place, 'text-anchor="middle"'))
    for i, kind in enumerate(COLOURS):
        out.append(box(LEFT + 110 * i, high - 24, 16, 12, kind))
        out.append(text(LEFT + 110 * i + 22, high - 13, kind, 'font-size="12"'))
    return "\n".join(out + ["</svg>", ""])


def main():
    uses, kinds = read_crates((DOCS.parent / "crates.txt").read_text())
    rows, joined = rows_of(reduced(uses))
    picture = drawing(rows, joined, arranged(rows, joined), kinds)
    file = DOCS / "crates.svg"
    if sys.argv[1:] != ["--check"]:
        file.write_text(picture)
    elif not file.exists() or file.read_text() != picture:
        sys.exit("docs/crates.svg is not what crates.txt gives: python3 docs/crates.py draws it")


if __name__ == "__main__":
    main()
