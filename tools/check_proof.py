#!/usr/bin/env python3
"""Judges the proof text of an answer, without the program that gave the answer.

    check_proof.py [--fixed] [--upper U] MODEL PROOF

reads the model text MODEL and the proof text PROOF and says one of

    ACCEPTED OPTIMAL and a line VALUE v, or ACCEPTED INFEASIBLE     0   the claim of PROOF is proved
    WORDS                                                           3   the words are no command
    TEXT kind line                                                  4   MODEL states no model
    LIMIT MODEL, or COLUMN name, ROW name, OBJECTIVE behind LIMIT   5   MODEL or a part of it is too large
    READFAULT                                                       6   a file could not be read
    REJECTED kind line                                              9   PROOF proves nothing: its first fault

with the exit code that stands beside. The options may also stand behind the names.

This file follows docs/FORMATS.md and docs/FAULTS.md from top to bottom, in three parts that can be read alone: what a
model text means, the integer rows of a model, and the judgement of a proof text. All arithmetic is exact. What the
claim rests on is short: `integer_rows`, `Rows.is_point`, and of the class `Judge` the functions `inequality`,
`refute_by`, `node` and `nodes`. Python 3.9 or a later one is needed, and nothing else.
"""

import os
import re
import sys
from collections import namedtuple
from fractions import Fraction
from io import BytesIO
from math import ceil, floor, gcd, lcm

LONGEST_TEXT = 16_777_216   # bytes of a model text
LONGEST_LINE = 1_024        # bytes of its lines
MOST = 256                  # rows, and columns
WIDEST = 2**127 - 1         # numbers of a model text
HEAVIEST = 2**96            # columns, rows, the objective, and forms
HEAVIEST_LINE = 2**126      # lines of a proof text, by weight
LONGEST_PROOF_LINE = 98_304     # and by bytes


class Stop(Exception):
    """The report that ends the run, and its code."""

    def __init__(self, report, code):
        super().__init__(report)
        self.report, self.code = report, code


# ---- What a model text means ----------------------------------------------------------------------------------------

class Fault(Exception):
    """The kind of a line's fault."""


def need(holds, kind):
    if not holds:
        raise Fault(kind)


# Which section may follow which; none comes twice.
FOLLOWING = {
    None: (b"NAME", b"ROWS"),
    b"NAME": (b"ROWS",),
    b"ROWS": (b"COLUMNS",),
    b"COLUMNS": (b"RHS", b"RANGES", b"BOUNDS", b"ENDATA"),
    b"RHS": (b"RANGES", b"BOUNDS", b"ENDATA"),
    b"RANGES": (b"BOUNDS", b"ENDATA"),
    b"BOUNDS": (b"RANGES", b"ENDATA"),
}

# Which of its six fields a data line has. In free form their number tells which: the first entry with as many counts.
# In fixed form they are where they stand, and any entry will do.
ROW = ((1, 2),)
MARKER = ((2, 3, 5),)
ENTRIES = ((2, 3, 4), (2, 3, 4, 5, 6))
SIDES = ((3, 4), (2, 3, 4), (3, 4, 5, 6), (2, 3, 4, 5, 6))
BOUND_WITH_VALUE = ((1, 3, 4), (1, 2, 3, 4))
BOUND_WITHOUT = ((1, 3), (1, 2, 3), (1, 2, 3, 4), (1, 3, 4))

# The columns of the fields in fixed form, as places in a line, and the columns between them.
FIXED_PLACES = ((1, 3), (4, 12), (14, 22), (24, 36), (39, 47), (49, 61))
FIXED_GAPS = (0, 3, 12, 13, 22, 23, 36, 37, 38, 47, 48)

NUMBER = re.compile(rb"([+-]?)([0-9]*)(?:\.([0-9]*))?(?:[eEdD]([+-]?[0-9]+))?")


def number(field):
    """What a number of a model text means."""
    parts = NUMBER.fullmatch(field)
    need(parts and (parts[2] or parts[3]), "NotNumber")
    behind = parts[3] or b""
    digits = int(parts[2] + behind)
    exponent = int(parts[4] or 0) - len(behind)
    if digits == 0:
        return Fraction(0)
    need(-38 <= exponent <= 38, "WideNumber")
    need(digits * 10**max(exponent, 0) <= WIDEST, "WideNumber")
    return (-1 if parts[1] == b"-" else 1) * digits * Fraction(10)**exponent


def is_wide_sum(b, r):
    """Whether one of the numbers on the way to b + r is too wide."""
    (p, q), (t, s) = b.as_integer_ratio(), r.as_integer_ratio()
    e = gcd(q, s)
    return any(abs(v) > WIDEST for v in (p * (s // e), t * (q // e), p * (s // e) + t * (q // e), q // e * s))


class Column:
    def __init__(self, line, integer):
        self.line, self.integer = line, integer
        self.factors = {}
        self.lower, self.upper = Fraction(0), None
        self.lower_is_set = False


class Model:
    """The tables of a model text, filled line by line. `end` makes the model of them."""

    def __init__(self, fixed):
        self.fixed = fixed
        self.kinds = {}     # of each row: N, E, L or G
        self.count = 0      # of the rows other than N
        self.columns = {}
        self.sides = {}     # of a row, where RHS has it
        self.ranges = {}    # of a row, where RANGES has it
        self.begun = []     # the sections up to here
        self.last_column = None     # the column of the line before
        self.open_marker = False
        self.set_names = {}         # of a section

    # Lines

    def take(self, line, place):
        """Takes line number `place`. Answers whether the text ends with it."""
        need(len(line) <= LONGEST_LINE, "LongLine")
        if line[:1] == b"*" or not line.strip(b" \t"):
            return False
        need(all(byte == 9 or 32 <= byte <= 126 for byte in line), "Byte")
        if line[0] not in b" \t":
            return self.begin_section(line)
        if self.fixed:
            need(b"\t" not in line[:61], "Byte")
            need(all(line[gap] == 32 for gap in FIXED_GAPS if gap < len(line)), "Byte")
        section = self.begun[-1] if self.begun else None
        take = {b"ROWS": self.take_row, b"COLUMNS": self.take_column, b"RHS": self.take_side,
                b"RANGES": self.take_range, b"BOUNDS": self.take_bound}.get(section)
        need(take, "Section")
        if self.fixed:
            take([line[a:b].strip(b" ") for a, b in FIXED_PLACES], place)
        else:
            take(line.split(), place)
        return False

    def begin_section(self, line):
        words = line.split()
        last = self.begun[-1] if self.begun else None
        need(words[0] in FOLLOWING[last] and words[0] not in self.begun, "Section")
        need(len(words) == 1 or words[0] == b"NAME", "FieldCount")
        self.begun.append(words[0])
        return words[0] == b"ENDATA"

    def fields(self, parts, shapes):
        """The six fields, counted from 1, of the parts of a line; absent ones are empty."""
        if self.fixed:
            need(tuple(k for k in range(1, 7) if parts[k - 1]) in shapes, "FieldCount")
            return [b""] + parts
        shape = next((shape for shape in shapes if len(shape) == len(parts)), None)
        need(shape, "FieldCount")
        fields = [b""] * 7
        for place, part in zip(shape, parts):
            fields[place] = part
        return fields

    # The data lines of each section

    def take_row(self, parts, _):
        _, kind, name, *_ = self.fields(parts, ROW)
        need(kind in (b"N", b"E", b"L", b"G"), "RowKind")
        need(name not in self.kinds, "Duplicate")
        self.count += kind != b"N"
        need(self.count <= MOST, "TooManyRows")
        self.kinds[name] = kind

    def take_column(self, parts, place):
        if parts[2 if self.fixed else 1:][:1] == [b"'MARKER'"]:
            word = self.fields(parts, MARKER)[5]
            need(word == (b"'INTEND'" if self.open_marker else b"'INTORG'"), "Marker")
            self.open_marker = not self.open_marker
            self.last_column = None
            return
        fields = self.fields(parts, ENTRIES)
        name = fields[2]
        if name != self.last_column:
            need(name not in self.columns, "Duplicate")
            need(len(self.columns) < MOST, "TooManyColumns")
            self.columns[name] = Column(place, self.open_marker)
            self.last_column = name
        self.take_pairs(fields, self.columns[name].factors)

    def take_side(self, parts, _):
        fields = self.fields(parts, SIDES)
        self.judge_set(fields[2])
        self.take_pairs(fields, self.sides)

    def take_range(self, parts, _):
        fields = self.fields(parts, SIDES)
        self.judge_set(fields[2])
        self.take_pairs(fields, self.ranges, ranges=True)

    def take_pairs(self, fields, table, ranges=False):
        for row, text in (fields[3:5], fields[5:7]):
            if row:
                need(row in self.kinds, "UnknownRow")
                need(not ranges or self.kinds[row] != b"N", "RangeOnObjective")
                value = number(text)
                if ranges:
                    need(not is_wide_sum(self.sides.get(row, Fraction(0)), self.step(row, value)), "WideNumber")
                need(row not in table, "Duplicate")
                table[row] = value

    def take_bound(self, parts, _):
        kind = parts[0]
        need(kind in (b"LO", b"UP", b"FX", b"FR", b"MI", b"PL", b"BV", b"LI", b"UI"), "BoundKind")
        has_value = kind in (b"LO", b"UP", b"FX", b"LI", b"UI")
        fields = self.fields(parts, BOUND_WITH_VALUE if has_value else BOUND_WITHOUT)
        self.judge_set(fields[2])
        need(fields[3] in self.columns, "UnknownColumn")
        column = self.columns[fields[3]]
        value = number(fields[4]) if has_value else None
        if kind in (b"LO", b"FX", b"LI", b"FR", b"MI", b"BV"):
            column.lower = Fraction(0) if kind == b"BV" else value
            column.lower_is_set = True
        if kind in (b"UP", b"FX", b"UI", b"FR", b"PL", b"BV"):
            column.upper = Fraction(1) if kind == b"BV" else value
        if kind in (b"BV", b"LI", b"UI"):
            column.integer = True

    def judge_set(self, name):
        need(self.set_names.setdefault(self.begun[-1], name) == name, "SecondSet")

    # The whole text

    def step(self, row, value):
        """How far a range goes from the row's side."""
        return {b"L": -abs(value), b"G": abs(value), b"E": value}[self.kinds[row]]

    def sides_of(self, row):
        """The lower and the upper side of a row of kind E, L or G; None where there is none."""
        b = self.sides.get(row, Fraction(0))
        if row in self.ranges:
            other = b + self.step(row, self.ranges[row])
            return min(b, other), max(b, other)
        return None if self.kinds[row] == b"L" else b, None if self.kinds[row] == b"G" else b

    def end(self, upper):
        """Judges the columns; `upper` is the bound that is handed in, or None. Then names what the text states."""
        for column in self.columns.values():
            if column.upper is None and upper is not None:
                column.upper = Fraction(upper)
            for fault, kind in ((not column.integer, "Continuous"), (column.lower is None, "NoLower"),
                                (column.upper is None, "NoUpper"),
                                (column.upper is not None and column.upper < 0 and not column.lower_is_set,
                                 "NegativeUpper")):
                if fault:
                    raise Stop(b"TEXT %s %d" % (kind.encode(), column.line), 4)
        self.rows = [name for name, kind in self.kinds.items() if kind != b"N"]
        self.objective = next((name for name, kind in self.kinds.items() if kind == b"N"), None)
        self.constant = -self.sides.get(self.objective, Fraction(0))


def read_model(text, fixed, upper):
    """The model that a text states. A text that states none is refused with its first fault."""
    model, place = Model(fixed), 0
    for place, line in enumerate(BytesIO(text), 1):
        try:
            if model.take(line.removesuffix(b"\n").removesuffix(b"\r"), place):
                model.end(upper)
                return model
        except Fault as fault:
            raise Stop(b"TEXT %s %d" % (str(fault).encode(), place), 4) from None
    raise Stop(b"TEXT NoEnd %d" % place, 4)


# ---- The integer rows of a model ------------------------------------------------------------------------------------

class Rows:
    """The integer rows of a model. Factors are tables from columns, counted from 0, to whole numbers other than 0."""

    def __init__(self):
        self.columns = []   # (name, lower, upper, reach)
        self.rows = []      # (name, factors, lower or None, upper or None)
        self.costs = {}
        self.constant, self.value_factors = None, {}

    def is_point(self, x):
        return (len(x) == len(self.columns)
                and all(lower <= v <= upper for v, (_, lower, upper, _) in zip(x, self.columns))
                and all((lower is None or lower <= dot(factors, x)) and (upper is None or dot(factors, x) <= upper)
                        for _, factors, lower, upper in self.rows))

    def value(self, x):
        return self.constant + dot(self.value_factors, x)


def dot(factors, x):
    return sum(f * x[j] for j, f in factors.items())


def scale(factors):
    """What makes the factors whole numbers without a common divisor above 1."""
    if not factors:
        return Fraction(1)
    return Fraction(lcm(*(f.denominator for f in factors)), gcd(*(f.numerator for f in factors)))


def scaled(factors, s):
    return {j: int(f * s) for j, f in factors.items()}


def integer_rows(model):
    """The integer rows. A model that is too large for them is answered with its first part that is so."""
    made = Rows()

    def limit(holds, part):
        if not holds:
            raise Stop(b"LIMIT " + part, 5)

    for name, column in model.columns.items():
        lower, upper = ceil(column.lower), floor(column.upper)
        reach = max(1, abs(lower), abs(upper))
        limit(reach <= HEAVIEST, b"COLUMN " + name)
        made.columns.append((name, lower, upper, reach))

    def weight(factors):
        return sum(abs(f) * made.columns[j][3] for j, f in factors.items())

    def factors_of(row):
        return {j: column.factors[row] for j, column in enumerate(model.columns.values()) if column.factors.get(row)}

    for name in model.rows:
        factors = factors_of(name)
        s = scale(factors.values())
        sides = [None if side is None else side * s for side in model.sides_of(name)]
        if factors:
            limit(lcm(*(f.denominator for f in factors.values())) <= WIDEST, b"ROW " + name)
            limit(all(side is None or max(abs(side.numerator), side.denominator) <= WIDEST for side in sides),
                  b"ROW " + name)
        factors = scaled(factors, s)
        lower = None if sides[0] is None else ceil(sides[0])
        upper = None if sides[1] is None else floor(sides[1])
        limit(weight(factors) + abs(lower or 0) + abs(upper or 0) <= HEAVIEST, b"ROW " + name)
        made.rows.append((name, factors, lower, upper))

    made.value_factors = factors_of(model.objective)
    made.constant = model.constant
    common = lcm(made.constant.denominator, *(f.denominator for f in made.value_factors.values()))
    limit(common <= WIDEST, b"OBJECTIVE")
    limit(abs(made.constant * common) + weight(scaled(made.value_factors, common)) <= HEAVIEST, b"OBJECTIVE")
    made.costs = scaled(made.value_factors, scale(made.value_factors.values()))
    return made


# ---- The judgement of a proof text ----------------------------------------------------------------------------------

# A node is a leaf, which has no point by its line, or it is split on `count` values of a form, from `low` on: the line
# `below` shows that no point has a smaller value, `above` that none has a greater one.
Leaf = namedtuple("Leaf", "line")
Split = namedtuple("Split", "mark low count form below above")
# The cut's value and multiplier, or None; and pairs of an inequality's number and its multiplier.
Line = namedtuple("Line", "cut items")

SPELLED = re.compile(rb"0|-?[1-9][0-9]*")


class Judge:
    """Judges a proof text as it is read, a line at a time. What it keeps is the path to the node where it reads.

    Why an accepted claim is true: take a point better than the claimed one, or any point under INFEASIBLE. It lies in
    the root, and meets the rows, the bounds and every cut, since their values are at least that of the claimed point.
    In a split its form has a whole value. Were that below `low` or above the last slice, the point would meet all
    inequalities of the line of that end; so it lies in one of the slices, and on down to a leaf, where it meets all
    inequalities of the leaf's line. But the sum of these, times multipliers above 0, says 0 <= something negative."""

    def __init__(self, rows, file):
        self.rows, self.file = rows, file
        self.place = 0      # the number of the line that is judged
        self.claim, self.claim_cut = None, None     # the claimed point and its cut value, or None
        self.path = []      # (form, value) of each slice
        # Each inequality that every node has: (sign, factors, limit) says sign * factors*x <= limit. Or None.
        self.given = []
        for _, factors, lower, upper in rows.rows:
            self.given.append(None if upper is None else (1, factors, upper))
            self.given.append(None if lower is None else (-1, factors, -lower))
        for j, (_, lower, upper, _) in enumerate(rows.columns):
            self.given += [(1, {j: 1}, upper), (-1, {j: 1}, -lower)]

    def need(self, holds, kind):
        if not holds:
            raise Stop(b"REJECTED %s %d" % (kind.encode(), self.place), 9)

    # Lines and numbers

    def next_line(self):
        self.place += 1
        line = self.file.readline(LONGEST_PROOF_LINE + 1)
        self.need(line.endswith(b"\n") or len(line) <= LONGEST_PROOF_LINE, "LongLine")
        self.need(line.endswith(b"\n"), "Short")
        return line[:-1]

    def number(self, word, least, most):
        self.need(SPELLED.fullmatch(word) and len(word) < 100 and least <= int(word) <= most, "Number")
        return int(word)

    def items(self, words):
        """Splits items at their colons, before any number is looked at. There is at least one."""
        parts = [word.split(b":") for word in words]
        self.need(parts and all(len(part) == 2 and part[0] and part[1] for part in parts), "Record")
        return parts

    def rising(self, numbers):
        self.need(all(a < b for a, b in zip(numbers, numbers[1:])), "Number")

    # A line that refutes

    def inequality(self, i, end):
        """Inequality number i at the node, where the end is looked at that is not None. None where i names none."""
        e = i - len(self.given)
        if e < 0:
            return self.given[i]
        if e < 2 * len(self.path):
            form, value = self.path[e // 2]
            return (1, form, value) if e % 2 == 0 else (-1, form, -value)
        return end if e == 2 * len(self.path) else None

    def refute(self, letter, end=None):
        """Reads a line that is to refute the node, with an end or without."""
        first, *words = self.next_line().split(b" ")
        self.need(first == letter, "Record")
        return self.refute_by(words, end)

    def refute_by(self, words, end=None):
        """Judges the items of a line."""
        items = self.items(words)
        cut = None
        if items[0][0][:1] == b"Z" and len(items[0][0]) > 1:
            cut = (self.number(items[0][0][1:], -2**97, 2**97), self.number(items[0][1], 1, HEAVIEST_LINE))
            items = items[1:]
        items = [(self.number(i, 0, len(self.given) + 2 * len(self.path)), self.number(m, 1, HEAVIEST_LINE))
                 for i, m in items]
        self.rising([i for i, _ in items])
        used = [(m, self.inequality(i, end)) for i, m in items]
        self.need(all(inequality is not None for _, inequality in used), "Number")
        if cut:
            used.append((cut[1], (1, self.rows.costs, cut[0] - 1)))

        weight = sum(m * max(1, abs(limit) + sum(map(abs, factors.values()))) for m, (_, factors, limit) in used)
        self.need(weight <= HEAVIEST_LINE, "Weight")
        self.need(not cut or self.claim is not None and cut[0] >= self.claim_cut, "Cut")
        left = {}
        for m, (sign, factors, _) in used:
            for j, f in factors.items():
                left[j] = left.get(j, 0) + m * sign * f
        self.need(not any(left.values()) and sum(m * limit for m, (_, _, limit) in used) < 0, "Refute")
        return Line(cut, items)

    # Nodes

    def node(self):
        """Reads what closes the node or splits it."""
        first, *words = self.next_line().split(b" ")
        if first == b"E":
            return Leaf(self.refute_by(words))
        self.need(first == b"S" and len(words) >= 3 and words[0] in (b"T", b"P"), "Record")
        self.need(all(word and b":" not in word for word in words[1:3]), "Record")
        items = self.items(words[3:])
        low, count = self.number(words[1], -2**97, 2**97), self.number(words[2], 0, 2**98)
        items = [(self.number(j, 0, len(self.rows.columns) - 1), self.number(f, -HEAVIEST, HEAVIEST))
                 for j, f in items]
        form = dict(items)
        self.rising([j for j, _ in items])
        self.need(all(form.values()), "Number")
        self.need(count == 0 or len(self.path) < 2 * len(self.rows.columns), "Depth")
        self.need(sum(abs(f) * self.rows.columns[j][3] for j, f in items) <= HEAVIEST, "Weight")
        below = self.refute(b"B", (1, form, low - 1))
        above = self.refute(b"A", (-1, form, -(low + count)))
        return Split(words[0], low, count, form, below, above)

    def read_claim(self):
        self.need(self.next_line() == b"SLICER 1", "Head")
        word, *numbers = self.next_line().split(b" ")
        self.need(word == b"OPTIMAL" or word == b"INFEASIBLE" and not numbers, "Claim")
        self.need(all(SPELLED.fullmatch(v) for v in numbers), "Claim")
        if word == b"OPTIMAL":
            self.need(all(len(v) < 100 for v in numbers), "Point")
            self.claim = [int(v) for v in numbers]
            self.need(self.rows.is_point(self.claim), "Point")
            self.claim_cut = dot(self.rows.costs, self.claim)

    def nodes(self):
        """Judges the text, and hands out its nodes as they come: each split before its slices in rising order."""
        self.read_claim()
        left = []   # of each slice of the path: how many slices of the same split follow it
        while True:
            node = self.node()
            yield node
            if isinstance(node, Split) and node.count:
                self.path.append((node.form, node.low))
                left.append(node.count - 1)
                continue
            while left and left[-1] == 0:
                left.pop()
                self.path.pop()
            if not left:
                break
            left[-1] -= 1
            self.path[-1] = (self.path[-1][0], self.path[-1][1] + 1)
        self.need(self.next_line() == b"DONE", "Record")
        self.place += 1
        rest = self.file.readline(LONGEST_PROOF_LINE + 1)
        self.need(len(rest) <= LONGEST_PROOF_LINE or rest.endswith(b"\n"), "LongLine")
        self.need(not rest, "Tail")


# ---- The run --------------------------------------------------------------------------------------------------------

def command(words):
    """Whether fixed form is read, the bound that is handed in or None, and the names MODEL and PROOF."""
    words = [os.fsencode(word) for word in words]
    fixed, upper, names = False, None, []
    while words:
        word = words.pop(0)
        if word == b"--fixed" and not fixed:
            fixed = True
        elif word == b"--upper" and upper is None and words and re.fullmatch(rb"0|[1-9][0-9]{0,18}", words[0]):
            upper = int(words.pop(0))
        else:
            names.append(word)
    try:
        good = len(names) == 2 and names[0] != names[1] and all(
            1 <= len(name) <= 255 and name[:1] != b"-" and name.decode() for name in names)
    except UnicodeDecodeError:
        good = False
    if not good or upper is not None and upper > 2**62:
        raise Stop(b"WORDS", 3)
    return fixed, upper, *names


def load(fixed, upper, name):
    """The model in the file of that name."""
    with open(name, "rb") as file:
        text = file.read(LONGEST_TEXT + 1)
    if len(text) > LONGEST_TEXT:
        raise Stop(b"LIMIT MODEL", 5)
    return read_model(text, fixed, upper)


def check(words):
    fixed, upper, model, proof = command(words)
    rows = integer_rows(load(fixed, upper, model))
    with open(proof, "rb") as file:
        judge = Judge(rows, file)
        for _ in judge.nodes():
            pass
    yield b"ACCEPTED INFEASIBLE" if judge.claim is None else b"ACCEPTED OPTIMAL"
    if judge.claim is not None:
        yield b"VALUE %s" % str(rows.value(judge.claim)).encode()


def say(line, out):
    try:
        out.write(line + b"\n")
        out.flush()
    except OSError:
        os._exit(7)


def run(work, faults):
    """Says the lines that the work yields on the words of the command, and ends with the code."""
    try:
        for line in work(sys.argv[1:]):
            say(line, sys.stdout.buffer)
        sys.exit(0)
    except Stop as stop:
        report, code = stop.report, stop.code
    except OSError:
        report, code = b"READFAULT", 6
    except MemoryError:
        report, code = b"NOMEMORY", 8
    say(report, faults.buffer)
    sys.exit(code)


if __name__ == "__main__":
    run(check, sys.stdout)
