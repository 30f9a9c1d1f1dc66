#!/usr/bin/env python3
"""Writes docs/architecture.svg from crates.txt: the crates in layers, what each needs, and what is proved of each. With
--check it writes nothing and fails where the file would change."""
import re
from dataclasses import dataclass
from functools import cache
from html import escape

from repository import ROOT, crates, definitions, edits, functions, needs, sources, write_or_check

PAGE = ROOT / "docs" / "architecture.svg"
FONT = "font-family='DejaVu Sans, Verdana, sans-serif'"
NAME_SIZE, SMALL_SIZE = 13, 11
LETTER = 0.66  # the width of a letter in its size, with room to spare
BOX_HEIGHT, LAYER_STEP, GAP, WAY = 54, 118, 14, 12
MARGIN, SWEEPS = 24, 40

COLOURS = {
    "exported": ("#ffd9a8", "exported calls"),
    "rules": ("#cfe3ff", "definitions and laws, no code"),
    "code": ("#ffffff", "code, proved against them"),
    "program": ("#d8f0d0", "programs"),
}

# What the functions of a crate are proved against, the one that says most; of a crate without code, what its laws are
# about. docs/ARCHITECTURE.md has the others.
PROVED = {
    "blocks": "FirstFrom", "utf8": "WellFormed", "buffer": "Appended", "decimal": "DecimalPut",
    "basics": "starts_with", "rules": "Kept (demand 3)", "quoted": "QuotedKept", "check_rules": "is_formatted",
    "group_rules": "Groups", "config_rules": "read_editor_config", "scan": "Classified", "marks": "mark_at",
    "spacing": "Normalized", "brackets": "BracketsDone", "format": "Continues", "operators": "strengths_in",
    "top_level_ops": "OpStep", "split": "Measured", "split_import": "Given", "split_operation": "Broken",
    "options": "with_editor_config", "compare": "Compared", "text": "Finished", "line": "Stepped", "place": "Puts",
    "step": "Stepped", "line_ends": "LineEnd", "lines": "AllRead", "answer": "tested", "call": "FormatAnswered",
    "check_call": "CheckAnswered", "text_kind": "KindAnswered", "text_kinds": "KindsAnswered", "gaps": "GapEnd",
    "changes": "Written", "caret": "CaretMoved", "edits": "ChangesAnswered, CaretAnswered", "group_read": "CodedAs",
    "group_open": "OpenedAll", "group_close": "Appended", "group": "GroupAnswered", "glob_pass": "Passed",
    "glob_name": "RawKinds", "ranges": "RangeNext", "glob_match": "matches", "config_lines": "KindOf",
    "config_text": "settings", "config_read": "ConfigAnswered", "wirescript": "SettingsAnswered",
    "wsfmt_run": "Printed", "replay_run": "CaseRead", "short_texts": "WholeRun", "short_sources": "Paged",
}


@cache
def proved(crate):
    """What is proved of a crate, which must be named in it; of a program, that its output is compared."""
    folder = ROOT / "crates" / crate
    if crate not in PROVED:
        return "a stored run" if (folder / "stdout").exists() else ""
    text = "".join(path.read_text() for path in [*sources(crate), *definitions(crate)])
    for name in PROVED[crate].split(" (")[0].split(", "):
        assert re.search(rf"\b{name}\b", text), f"{crate} has no {name}: picture.py says that it is proved of it"
    return f"→ {PROVED[crate]}"


@cache
def kind(crate):
    """What a crate is, told from its files."""
    text = "".join(path.read_text() for path in sources(crate))
    if any(path.name == "main.rt" for path in sources(crate)):
        return "program"
    if "#[unsafe(no_mangle)]" in text:
        return "exported"
    return "code" if functions(crate) else "rules"


# ---- layers: each crate above what it needs, its lines as short as can be


@cache
def users(crate):
    return [name for name in crates() if crate in needs(name)]


@cache
def depth(crate):
    return 1 + max((depth(name) for name in needs(crate)), default=-1)


def span(crate, layer):
    """The layers in which a crate can stand."""
    top = max(layer.values())
    low = max((layer[name] for name in needs(crate)), default=-1) + 1
    return range(low, min((layer[name] for name in users(crate)), default=top + 1))


def cost(crate, at, layer):
    """The length of its lines, then how many stand there already."""
    ends = [layer[name] for name in needs(crate) + users(crate)]
    crowd = sum(1 for name in layer if name != crate and layer[name] == at)
    return sum(abs(at - end) for end in ends), crowd


def settle(layer):
    """Each crate moved to its best layer in turn."""
    before = dict(layer)
    for crate in crates():
        layer[crate] = min(span(crate, layer), key=lambda at: (cost(crate, at, layer), at))
    return layer != before


def layers():
    layer = {crate: depth(crate) for crate in crates()}
    for _ in range(SWEEPS):
        if not settle(layer):
            break
    return layer


# ---- the order in each layer: crates, and a place for each line that goes past


@dataclass(frozen=True)
class Way:
    """Where the line from a crate to what it needs goes past a layer."""

    user: str
    needed: str
    layer: int


def chain(user, needed, layer):
    """The places of a line, from the top down."""
    past = [Way(user, needed, at) for at in range(layer[user] - 1, layer[needed], -1)]
    return [user, *past, needed]


def chains(layer):
    return [chain(user, needed, layer) for user in crates() for needed in needs(user)]


def rows_of(layer, lines):
    rows = [[] for _ in range(max(layer.values()) + 1)]
    for crate in crates():
        rows[layer[crate]].append(crate)
    for way in (place for line in lines for place in line if isinstance(place, Way)):
        rows[way.layer].append(way)
    return rows


def neighbours(lines):
    """For each place, those above and those below that it has a line to."""
    above, under = {}, {}
    for upper, lower in (pair for line in lines for pair in zip(line, line[1:])):
        under.setdefault(upper, []).append(lower)
        above.setdefault(lower, []).append(upper)
    return above, under


def mean(numbers, otherwise):
    return sum(numbers) / len(numbers) if numbers else otherwise


def sweep(rows, beside, order):
    """Each row by the mean place of its neighbours in the row before."""
    for row in order:
        at = {place: n for line in rows for n, place in enumerate(line)}
        keys = {place: mean([at[other] for other in beside.get(place, [])], at[place]) for place in rows[row]}
        rows[row].sort(key=lambda place: keys[place])


def crossings(rows, under):
    at = {place: n for row in rows for n, place in enumerate(row)}
    return sum(crossed([(at[p], at[q]) for p in row for q in under.get(p, [])]) for row in rows)


def crossed(pairs):
    return sum(1 for n, (a, b) in enumerate(pairs) for c, d in pairs[:n] if (a - c) * (b - d) < 0)


def ordered(layer, lines):
    """The order with the fewest crossings that the sweeps come to."""
    rows, (above, under) = rows_of(layer, lines), neighbours(lines)
    best = [list(row) for row in rows]
    for _ in range(SWEEPS):
        sweep(rows, under, range(1, len(rows)))
        sweep(rows, above, range(len(rows) - 2, -1, -1))
        best = min(best, [list(row) for row in rows], key=lambda found: crossings(found, under))
    return best


# ---- places across: as near to the neighbours' mean as the widths allow


@cache
def label(crate):
    tried = edits(crate)
    proved = f"{functions(crate)} fn" if functions(crate) else "no code"
    return f"{proved} · {tried} edit{'' if tried == 1 else 's'}"


def width(place):
    if isinstance(place, Way):
        return WAY
    return max(len(place) * NAME_SIZE, len(label(place)) * SMALL_SIZE, len(proved(place)) * SMALL_SIZE) * LETTER + 14


def spread(row, wanted):
    """Places in their order, none nearer to the next than their widths ask, each as near to its wanted place as can be:
    neighbours that would overlap are moved as one."""
    groups = []
    for place in row:
        groups.append(([place], [wanted[place]]))
        while len(groups) > 1 and left(groups[-1]) < right(groups[-2]):
            groups[-2:] = [joined(*groups[-2:])]
    return {place: x for group in groups for place, x in inside(group)}


def extent(group):
    return sum(width(place) + GAP for place in group[0])


def left(group):
    """Where a group starts, so that its places are on the mean where they want to be."""
    starts, at = [], 0
    for place, x in zip(*group):
        starts.append(x - at - (width(place) + GAP) / 2)
        at += width(place) + GAP
    return mean(starts, 0)


def right(group):
    return left(group) + extent(group)


def joined(first, second):
    return first[0] + second[0], first[1] + second[1]


def inside(group):
    at = left(group)
    for place in group[0]:
        yield place, at + (width(place) + GAP) / 2
        at += width(place) + GAP


def across(rows, lines):
    """The middle of each place."""
    above, under = neighbours(lines)
    x = {place: n * 100.0 for row in rows for n, place in enumerate(row)}
    for n in range(SWEEPS):
        beside = (under, above)[n % 2]
        for row in rows[:: 1 - 2 * (n % 2)]:
            x |= spread(row, {p: mean([x[q] for q in beside.get(p, [])], x[p]) for p in row})
    start = min(x[place] - width(place) / 2 for place in x)
    return {place: round(at - start + MARGIN, 1) for place, at in x.items()}


# ---- drawing


@dataclass(frozen=True)
class Plan:
    layer: dict
    lines: list
    x: dict
    top: float

    def y(self, place):
        """The middle of a place's layer."""
        layer = place.layer if isinstance(place, Way) else self.layer[place]
        return self.top + (max(self.layer.values()) - layer) * LAYER_STEP + BOX_HEIGHT / 2


def text(x, y, size, words, more=""):
    return f"<text x='{x:.1f}' y='{y:.1f}' font-size='{size}' {more}>{escape(words)}</text>"


def box(plan, crate):
    x, y, wide = plan.x[crate], plan.y(crate), width(crate)
    fill = COLOURS[kind(crate)][0]
    return [
        f"<rect x='{x - wide / 2:.1f}' y='{y - BOX_HEIGHT / 2:.1f}' width='{wide:.1f}' height='{BOX_HEIGHT}' rx='5' "
        f"fill='{fill}' stroke='#444'/>",
        text(x, y - 10, NAME_SIZE, crate, "text-anchor='middle' font-weight='bold'"),
        text(x, y + 5, SMALL_SIZE, label(crate), "text-anchor='middle' fill='#333'"),
        text(x, y + 20, SMALL_SIZE, proved(crate), "text-anchor='middle' fill='#333'"),
    ]


def path(plan, line):
    """A line from the bottom of a crate to the top of what it needs; it goes straight down past each layer between."""
    points = [(plan.x[place], plan.y(place)) for place in line]
    drawn = f"M {points[0][0]:.1f} {points[0][1] + BOX_HEIGHT / 2:.1f}"
    for (x, y), (to_x, to_y) in zip(points, points[1:]):
        start, end = y + BOX_HEIGHT / 2, to_y - BOX_HEIGHT / 2
        bend = (end - start) * 0.5
        drawn += f" L {x:.1f} {start:.1f} C {x:.1f} {start + bend:.1f} {to_x:.1f} {end - bend:.1f} {to_x:.1f} {end:.1f}"
    return f"<path d='{drawn}' fill='none' stroke='#7788aa' stroke-width='1.1'/>"


def legend(y):
    """The colours and what the figures are."""
    shown, x = [], MARGIN
    for fill, words in COLOURS.values():
        shown.append(f"<rect x='{x}' y='{y - 12}' width='22' height='15' rx='3' fill='{fill}' stroke='#444'/>")
        shown.append(text(x + 29, y, SMALL_SIZE + 1, words))
        x += 50 + len(words) * (SMALL_SIZE + 1) * LETTER
    return shown


CONTRACT = re.compile(r'^pub extern "C" fn (\w+).*?ensures \{ (?:result ≡ )?(\w+)', re.MULTILINE | re.DOTALL)


def calls():
    """The exported functions, each with the contract that it is proved against."""
    texts = (path.read_text() for path in sources("wirescript"))
    return sorted(found for words in texts for found in CONTRACT.findall(words))


def head(totals):
    how = (
        "A line goes down from a crate to what it needs; what another line leads to is left out. Behind →, what its "
        "functions or its laws are about."
    )
    lines = [
        text(MARGIN, 34, 20, "Pwalimvoshi: the crates, and what is proved of each", "font-weight='bold'"),
        text(MARGIN, 58, SMALL_SIZE + 1, totals),
        text(MARGIN, 76, SMALL_SIZE + 1, how),
        *legend(102),
        text(MARGIN, 134, SMALL_SIZE + 1, "Exported by wirescript, and the contract of each:", "font-weight='bold'"),
    ]
    for n, (name, contract) in enumerate(calls()):
        x, y = MARGIN + n % 3 * 430, 154 + n // 3 * 18
        shown = f"{name}: {'its number' if contract.isdigit() else contract}"
        lines.append(text(x, y, SMALL_SIZE + 1, shown))
    return lines, 154 + (len(calls()) + 2) // 3 * 18 + 16


def totals():
    proved, refused = sum(map(functions, crates())), sum(map(edits, crates()))
    return (
        f"{len(crates())} crates. Each of the {proved} functions (fn) is proved against its contract; each of the "
        f"{refused} must-fail edits (edits) is refused by the prover."
    )


def drawing():
    layer = layers()
    lines = chains(layer)
    x = across(ordered(layer, lines), lines)
    words, top = head(totals())
    plan = Plan(layer, lines, x, top)
    wide = max(x[crate] + width(crate) / 2 for crate in crates()) + MARGIN
    high = top + max(layer.values()) * LAYER_STEP + BOX_HEIGHT + MARGIN
    boxes = [part for crate in crates() for part in box(plan, crate)]
    return [
        f"<svg xmlns='http://www.w3.org/2000/svg' width='{wide:.0f}' height='{high:.0f}' {FONT}>",
        "<rect width='100%' height='100%' fill='#fbfbfb'/>",
        *words,
        *(path(plan, line) for line in lines),
        *boxes,
        "</svg>",
    ]


write_or_check(PAGE, "\n".join(drawing()) + "\n")
