#!/usr/bin/env python3
"""Makes a proof text for a small model by trying: make_proof.py [--plain] [--fixed] [--upper U] MODEL > PROOF

Each node is closed by a line that the simplex method finds, or else split on the small form with the fewest values, or
with --plain on the next column, under lines of one row. Slow, and made for tests alone: its texts are judged by tools/check_proof.py, so nothing rests on it."""

import itertools
import sys
from fractions import Fraction
from math import gcd
from pathlib import Path

sys.path.insert(0, str(Path(__file__).resolve().parent.parent / "tools"))
import check_proof as cp


def multipliers(inequalities, n):
    """Whole multipliers that are not negative, with which the inequalities (factors, limit) add up to 0 <= something
    negative. None where there are none. (The first phase of the simplex method, with Bland's rule.)"""
    m = len(inequalities)
    table = [[factors.get(j, 0) for factors, _ in inequalities] + [0] for j in range(n)]
    table.append([-limit for _, limit in inequalities] + [1])
    table.append([-sum(column) for column in zip(*table)])    # the costs
    basis, divisor = [m + j for j in range(n + 1)], 1         # the numbers of the table are over the divisor
    while (enter := next((i for i in range(m) if table[-1][i] < 0), None)) is not None:
        leave = min((Fraction(row[m], row[enter]), basis[k], k) for k, row in enumerate(table[:-1]) if row[enter] > 0)[2]
        pivot = table[leave]
        for k, row in enumerate(table):
            if k != leave:
                factor = row[enter]
                table[k] = [(v * pivot[enter] - factor * w) // divisor for v, w in zip(row, pivot)]
        basis[leave], divisor = enter, pivot[enter]
    if table[-1][m] != 0:
        return None
    found = [0] * m
    for i, row in zip(basis, table):
        if i < m:
            found[i] = row[m]
    common = gcd(*found)
    return [y // common for y in found]


class Maker:
    def __init__(self, rows, forms, claim=None, weak=False):
        """`forms` answers, for a path, the forms that a split may take, best first. `claim` is a point or None. Weak
        lines have one row or the cut, and make larger trees."""
        self.rows, self.forms, self.weak, self.n = rows, forms, weak, len(rows.columns)
        self.given = cp.Judge(rows, None).given
        self.set_claim(claim)

    def set_claim(self, claim):
        self.claim = claim
        self.cut = None if claim is None else cp.dot(self.rows.costs, claim)

    def line(self, path, end=None):
        """The words of a line that refutes, or None."""
        lone, others = [], []   # (name, inequality)
        for i, given in enumerate(self.given):
            if given:
                (lone if i < 2 * len(self.rows.rows) else others).append((f"{i}", given))
        if self.cut is not None:
            lone.append((f"Z{self.cut}", (1, self.rows.costs, self.cut - 1)))
        slices = [(sign, form, sign * value) for form, value in path for sign in (1, -1)] + ([end] if end else [])
        others += [(f"{len(self.given) + e}", inequality) for e, inequality in enumerate(slices)]
        for used in [others, *([row, *others] for row in lone)] if self.weak else [lone + others]:
            table = [({j: sign * f for j, f in factors.items()}, limit) for _, (sign, factors, limit) in used]
            found = multipliers(table, self.n)
            if found is not None:
                words = [(name, m) for (name, _), m in zip(used, found) if m]
                words.sort(key=lambda word: -1 if word[0][0] == "Z" else int(word[0]))
                return " ".join(f"{name}:{m}" for name, m in words)
        return None

    def interval(self, path, form):
        """The least and the greatest value of a form that no line shows to be empty."""
        least = sum(f * self.rows.columns[j][1 if f > 0 else 2] for j, f in form.items())
        most = sum(f * self.rows.columns[j][2 if f > 0 else 1] for j, f in form.items())

        def first(low, high, is_open):
            while low < high:
                middle = (low + high) // 2
                low, high = (low, middle) if is_open(middle) else (middle + 1, high)
            return low

        low = first(least, most + 1, lambda v: self.line(path, (1, form, v)) is None)
        high = -first(-most, -low + 1, lambda v: self.line(path, (-1, form, v)) is None)
        return low, high

    def point(self, path=()):
        """Any point that is better than the claim, or None."""
        if self.line(path) is not None:
            return None
        if len(path) == self.n:
            return [value for _, value in path]
        form = {len(path): 1}
        low, high = self.interval(path, form)
        return next((x for v in range(low, high + 1) if (x := self.point([*path, (form, v)]))), None)

    def nodes(self, path=()):
        """The lines of the tree at a node. Where a better point is left, a line that refutes nothing."""
        line = self.line(path)
        if line is not None:
            yield f"E {line}"
            return
        best = None
        for mark, form in self.forms(self, path):
            low, high = self.interval(path, form)
            if best is None or high - low < best[3] - best[2]:
                best = mark, form, low, high
            if high < low:
                break
        if best is None:
            yield "E 0:1"
            return
        mark, form, low, high = best
        yield f"S {mark} {low} {high + 1 - low} " + " ".join(f"{j}:{f}" for j, f in sorted(form.items()))
        yield f"B {self.line(path, (1, form, low - 1))}"
        yield f"A {self.line(path, (-1, form, -(high + 1)))}"
        for value in range(low, high + 1):
            yield from self.nodes([*path, (form, value)])

    def text(self):
        yield "SLICER 1"
        yield "INFEASIBLE" if self.claim is None else " ".join(["OPTIMAL", *map(str, self.claim)])
        yield from self.nodes()
        yield "DONE"


def plain_forms(maker, path):
    """The first column that no slice fixes."""
    fixed = [form for form, _ in path]
    return [("P", {j: 1}) for j in range(maker.n) if {j: 1} not in fixed][:1]


def small_forms(maker, path):
    """All forms with factors of size 3 or less of which the first is not negative, and which no slice has."""
    fixed = [form for form, _ in path]
    forms = []
    for factors in itertools.product(range(-3, 4), repeat=maker.n):
        form = {j: f for j, f in enumerate(factors) if f}
        if form and next(iter(form.values())) > 0 and form not in fixed:
            forms.append((sum(map(abs, factors)), len(forms), form))
    return [("P" if list(form.values()) == [1] else "T", form) for _, _, form in sorted(forms, key=lambda f: f[:2])]


def main():
    plain = "--plain" in sys.argv
    fixed, upper, model, _ = cp.command([word for word in sys.argv[1:] if word != "--plain"] + ["PROOF"])
    rows = cp.integer_rows(cp.load(fixed, upper, model))
    maker = Maker(rows, plain_forms if plain or len(rows.columns) > 3 else small_forms)
    while (better := maker.point()) is not None:
        maker.set_claim(better)
    maker.weak = plain
    for line in maker.text():
        print(line)


if __name__ == "__main__":
    main()
