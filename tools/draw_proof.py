#!/usr/bin/env python3
"""Draws the search that a proof text shows, once the text is accepted.

    draw_proof.py [--fixed] [--upper U] [--depth D] MODEL PROOF > tree.svg

The root stands at the left. A box is a split: its form, by the names of the columns, and the interval that is left of
its values; a number of the interval is in the colour of what shows that no point lies beyond it. The value of each
slice stands on its way. What lies below D splits is counted; without --depth as much is drawn as is easily read. What
is wrong is said on standard error, with the codes of check_proof.py."""

import sys
from pathlib import Path
from xml.sax.saxutils import escape

sys.path.insert(0, str(Path(__file__).resolve().parent))
import check_proof as cp

ROW = 30            # the height that a leaf takes
LETTER = 7.25       # the width of a letter of 12 px
WAY = 30            # between a box and the way down to its slices
MOST_ROWS = 60      # without --depth
DEEPEST = 12

# What the nodes are counted as, and their colours: of the area, and of the edge and the numbers.
THIN, PLAIN, ROWS, CUT, END = "thin", "plain", "rows", "cut", "end"
COLOURS = {
    THIN: ("#dfeafd", "#2d62c4"),
    PLAIN: ("#e0f2e2", "#2f8540"),
    ROWS: ("#ececec", "#6b6b6b"),
    CUT: ("#ffe9cf", "#c46a10"),
    END: ("#efe5fa", "#7a4fb8"),
}
BEST = "#c2185b"
STAR = "★ best point"
END_WIDTH = ' stroke-width="2"'
KINDS = (
    (THIN, "split on a thin direction", "splits on a thin direction"),
    (PLAIN, "split on a column", "splits on a column"),
    (ROWS, "leaf without a point, by rows and bounds", "leaves without a point, by rows and bounds"),
    (CUT, "leaf without a better point, by the cut", "leaves without a better point, by the cut"),
    (END, "form without a whole value between its ends", "forms without a whole value between their ends"),
)


class Node:
    """A node of the search: its kind, its words as (text, colour), and below it pairs of value and node."""

    def __init__(self, item, kind, words, hint, has_best, best_value):
        self.kind, self.words, self.hint, self.has_best, self.best_value = kind, words, hint, has_best, best_value
        self.is_end = isinstance(item, cp.Split) and not item.count
        self.is_open = isinstance(item, cp.Split) and item.count > 0
        self.below, self.counts = [], dict.fromkeys(COLOURS, 0)


def short(text, most):
    return text if len(text) <= most else text[:most - 1] + "…"


def number(v):
    return str(v).replace("-", "\u2212")


def form_text(rows, form, most=44):
    """A form by the names of its columns, in at most so many letters or a little more."""
    text, count = "", 0
    for j, f in form.items():
        name = short(rows.columns[j][0].decode(), 14 if len(form) > 1 else 30)
        sign = (" \u2212 " if f < 0 else " + ") if text else ("\u2212" if f < 0 else "")
        term = sign + ("" if abs(f) == 1 else f"{abs(f)} ") + name
        if count and len(text) + len(term) > most:
            return f"{text} + … ({len(form) - count} more)"
        text, count = text + term, count + 1
    return text


def line_text(rows, judge, line):
    """The inequalities of a line, by name."""
    parts = [f"{line.cut[1]} times the cut at {line.cut[0]}"] if line.cut else []
    n, count = len(rows.columns), 2 * len(rows.rows)
    for i, m in line.items:
        if i < count:
            name = f"row {rows.rows[i // 2][0].decode()}, {'lower' if i % 2 else 'upper'} side"
        elif i < count + 2 * n:
            name = f"{'lower' if i % 2 else 'upper'} bound of {rows.columns[(i - count) // 2][0].decode()}"
        elif i < count + 2 * n + 2 * len(judge.path):
            name = f"slice {(i - count) // 2 - n + 1} of the path"
        else:
            name = "the end"
        parts.append(f"{m} times {name}")
    return "; ".join(parts)


def read_tree(judge, rows, deepest):
    """The tree to a depth, with the counts of what lies below. Each frame: node, value, slices left, form, and whether
    the best point is there."""
    root, frames = None, []
    for item in judge.nodes():
        has_best, best_value = judge.claim is not None, None
        if frames:
            node, value, _, form, has_best = frames[-1]
            has_best = has_best and cp.dot(form, judge.claim) == value
        cause = lambda line: CUT if line.cut else ROWS
        if isinstance(item, cp.Leaf):
            kind = cause(item.line)
            words = [("no better point" if kind == CUT else "no point", COLOURS[kind][1])]
            hint = line_text(rows, judge, item.line)
        else:
            kind = THIN if item.mark == b"T" else PLAIN
            best_value = cp.dot(item.form, judge.claim) if has_best else None
            low, high = item.low, item.low + item.count - 1
            less = " ≤ " if item.count else " < "
            if not item.count:
                low, high = high, low
            ends = [COLOURS[cause(item.below)][1], COLOURS[cause(item.above)][1]]
            words = [(number(low) + less, ends[0]), (form_text(rows, item.form), None), (less + number(high), ends[1])]
            hint = (f"{form_text(rows, item.form, 10_000)}\nbelow: {line_text(rows, judge, item.below)}\n"
                    f"above: {line_text(rows, judge, item.above)}")
        node = Node(item, kind, words, hint, has_best, best_value)
        counted = [kind] + ([END] if node.is_end else [])
        for one in [node] + [frame[0] for frame in frames if frame[0]]:
            for what in counted:
                one.counts[what] += 1
        if len(frames) <= deepest:
            if frames:
                frames[-1][0].below.append((frames[-1][1], node))
            else:
                root = node
        if node.is_open:
            frames.append([node if len(frames) <= deepest else None, item.low, item.count - 1, item.form, has_best])
            continue
        while frames and frames[-1][2] == 0:
            frames.pop()
        if frames:
            frames[-1][1] += 1
            frames[-1][2] -= 1
    return root


class Box:
    """What is drawn for a node, or for some nodes one behind another that have the same words."""

    def __init__(self, node, words, hint, star):
        self.kind, self.is_end, self.has_best = node.kind, node.is_end, node.has_best
        self.words, self.hint, self.star = words, hint, star
        self.values, self.below = None, []
        self.width = sum(len(text) for text, _ in words) * LETTER + 18
        self.x = self.y = 0


def boxes(node, depth):
    """The boxes of a node and of what lies at most so many splits below."""
    star = STAR if node.has_best else ""
    if node.is_open and depth == 0:
        below = sum(node.counts[kind] for kind in (THIN, PLAIN, ROWS, CUT)) - 1
        words = node.words + [(f"   {below} node{'s' if below > 1 else ''} below", "#444444")]
        counts = "; ".join(f"{node.counts[kind]} {one if node.counts[kind] == 1 else many}"
                           for kind, one, many in KINDS if node.counts[kind])
        return Box(node, words, f"{node.hint}\nwith what lies below: {counts}", star)
    if any(child.has_best for _, child in node.below):
        star = ""
    elif star and node.best_value is not None:
        star += f" at {number(node.best_value)}"
    box = Box(node, node.words, node.hint, star)
    runs = []       # nodes that are drawn as one
    for value, child in node.below:
        if runs and not child.is_open and not child.has_best and not runs[-1][-1][1].has_best \
                and child.words == runs[-1][-1][1].words:
            runs[-1].append((value, child))
        else:
            runs.append([(value, child)])
    for run in runs:
        (first, child), (last, _) = run[0], run[-1]
        if len(run) == 1:
            below = boxes(child, depth - 1)
        else:
            below = Box(child, child.words + [(f"   each of {len(run)}", "#444444")], child.hint, "")
        below.values = (first, last)
        box.below.append(below)
    return box


def count_rows(box):
    return sum(map(count_rows, box.below)) or 1


def all_boxes(box):
    yield box
    for below in box.below:
        yield from all_boxes(below)


def way_text(values):
    return number(values[0]) if values[0] == values[1] else f"{number(values[0])}..{number(values[1])}"


def place(root, left, top):
    """Gives each box its place. Boxes of one depth stand in one column, so that no two meet."""
    levels, level = [], [root]
    while level:
        levels.append(level)
        level = [below for box in level for below in box.below]
    x = left
    for level in levels:
        if level[0].values:
            x += WAY + max(len(way_text(box.values)) for box in level) * LETTER + 16
        for box in level:
            box.x = x
        x += max((box.width for box in level if box.below), default=0)
    rows = 0

    def down(box):
        nonlocal rows
        if not box.below:
            box.y = top + rows * ROW + ROW / 2
            rows += 1
            return
        for below in box.below:
            down(below)
        box.y = (box.below[0].y + box.below[-1].y) / 2

    down(root)
    return top + rows * ROW


def text_at(x, y, words, attributes=""):
    spans = "".join(f'<tspan fill="{colour}" font-weight="bold">{escape(text)}</tspan>' if colour else escape(text)
                    for text, colour in words)
    return f'<text x="{x:.1f}" y="{y:.1f}" xml:space="preserve"{attributes}>{spans}</text>'


def head(rows, judge, counts, name):
    if judge.claim is None:
        title, point = f"{name}: INFEASIBLE, there is no point", ""
    else:
        title = f"{name}: OPTIMAL, the best value is {number(rows.value(judge.claim))}"
        shown = [f"{short(column[0].decode(), 20)} = {number(v)}" for column, v in zip(rows.columns, judge.claim) if v]
        point, left = "", len(shown)
        while shown and len(point) + len(shown[0]) < 90:
            point += (", " if point else "") + shown.pop(0)
        point = "at " + (point or "0 in each column") + (f", and {len(shown)} columns more" if shown else "")
        if left and left < len(rows.columns) and not shown:
            point += ", 0 in each other column"
    return title, point


def svg(rows, judge, root, depth, name):
    if depth is None:
        depth = 1
        while depth < DEEPEST and count_rows(boxes(root, depth + 1)) <= MOST_ROWS:
            depth += 1
    tree = boxes(root, depth)
    title, point = head(rows, judge, root.counts, name)
    keys = [(kind, f"{root.counts[kind]} {one if root.counts[kind] == 1 else many}") for kind, one, many in KINDS
            if root.counts[kind]]
    if tree.kind in (THIN, PLAIN):
        ends = {colour for box in all_boxes(tree) if box.kind in (THIN, PLAIN) for _, colour in box.words}
        keys += [("0 ≤", COLOURS[kind][1], text) for kind, text in (
            (ROWS, "no point lies beyond this number, by rows and bounds"),
            (CUT, "no better point lies beyond this number, by the cut")) if COLOURS[kind][1] in ends]
    top = 48 + (20 if point else 0)
    bottom = place(tree, 20, top) + 12
    everything = list(all_boxes(tree))
    width = max([box.x + box.width + (len(box.star) + 1) * LETTER for box in everything]
                + [len(title) * 9.2, len(point) * LETTER, *((len(key[-1]) + 5) * LETTER for key in keys)]) + 40
    height = bottom + 20 * len(keys) + 14
    out = [f'<svg xmlns="http://www.w3.org/2000/svg" width="{width:.0f}" height="{height:.0f}" '
           f'viewBox="0 0 {width:.0f} {height:.0f}" font-size="12" '
           'font-family="DejaVu Sans Mono, Menlo, Consolas, monospace">',
           f'<title>{escape(title)}</title>',
           f'<rect width="{width:.0f}" height="{height:.0f}" fill="white"/>',
           text_at(20, 28, [(title, None)], ' font-size="15" font-weight="bold"')]
    if point:
        out.append(text_at(20, 50, [(point, None)]))
    for box in everything:      # the ways first, so that boxes stand on them
        if box.below:
            right, trunk = box.x + box.width, box.x + box.width + WAY / 2
            ends = [below.y for below in box.below]
            out.append(f'<path d="M{right:.1f} {box.y:.1f}H{trunk:.1f}M{trunk:.1f} {min(ends + [box.y]):.1f}'
                       f'V{max(ends + [box.y]):.1f}" fill="none" stroke="#9a9a9a"/>')
    for box in everything:
        for below in box.below:
            trunk = box.x + box.width + WAY / 2
            out.append(f'<path d="M{trunk:.1f} {below.y:.1f}H{below.x:.1f}" stroke="#9a9a9a"/>')
            if below.has_best:
                out.append(f'<path d="M{box.x + box.width:.1f} {box.y:.1f}H{trunk:.1f}V{below.y:.1f}H{below.x:.1f}" '
                           f'fill="none" stroke="{BEST}" stroke-width="2"/>')
            out.append(text_at(trunk + 8, below.y - 4, [(way_text(below.values), None)], ' font-size="11"'))
    for box in everything:
        area, edge = COLOURS[box.kind]
        if box.is_end:
            edge = COLOURS[END][1]
        out.append(f'<g><title>{escape(box.hint)}</title><rect x="{box.x:.1f}" y="{box.y - 11:.1f}" '
                   f'width="{box.width:.1f}" height="22" rx="{11 if box.kind in (ROWS, CUT) else 3}" fill="{area}" '
                   f'stroke="{edge}"{END_WIDTH if box.is_end else ""}/>{text_at(box.x + 9, box.y + 4, box.words)}</g>')
        if box.star:
            out.append(text_at(box.x + box.width + 8, box.y + 4, [(box.star, BEST)]))
    y = bottom + 16
    for kind, *colour, text in keys:
        if colour:
            out.append(text_at(20, y, [(kind, *colour)]))
        else:
            area, edge = COLOURS[kind]
            out.append(f'<rect x="20" y="{y - 11:.1f}" width="22" height="14" rx="{7 if kind in (ROWS, CUT) else 3}" '
                       f'fill="{area if kind != END else "white"}" stroke="{edge}"{END_WIDTH if kind == END else ""}/>')
        out.append(text_at(52, y, [(text, None)]))
        y += 20
    out.append("</svg>")
    return "\n".join(out)


def draw(words):
    depth = None
    if "--depth" in words:
        place = words.index("--depth")
        if not (place + 1 < len(words) and words[place + 1].isascii() and words[place + 1].isdigit()):
            raise cp.Stop(b"WORDS", 3)
        depth = int(words[place + 1])
        words = words[:place] + words[place + 2:]
    fixed, upper, model, proof = cp.command(words)
    rows = cp.integer_rows(cp.load(fixed, upper, model))
    with open(proof, "rb") as file:
        judge = cp.Judge(rows, file)
        root = read_tree(judge, rows, DEEPEST if depth is None else depth)
    yield svg(rows, judge, root, depth, Path(model.decode()).name).encode()


if __name__ == "__main__":
    sys.setrecursionlimit(10_000)   # some times the depth of a tree, which is at most 512
    cp.run(draw, sys.stderr)
