#!/usr/bin/env python3
"""Writes an accepted proof text in the format VIPR 1.0, whose rules docs/VIPR.md tells.

    to_vipr.py [--fixed] [--upper U] MODEL PROOF > proof.vipr

The constraints are the rows and bounds as the model text states them. Where the integer rows are tighter a rounding
step comes first. Then each line of the proof text is one combination, and each split a chain of unsplits. The proof
text is read twice, since the number of steps stands in front of them; memory grows with the depth of the tree alone.
What is wrong is said on standard error, with the codes of check_proof.py."""

import sys
from fractions import Fraction
from pathlib import Path

sys.path.insert(0, str(Path(__file__).resolve().parent))
import check_proof as cp


def terms(factors):
    """The number of the factors, and each behind its place."""
    return " ".join([str(len(factors)), *(f"{j} {f}" for j, f in factors.items())])


class Split:
    """A split whose slices are being worked: what is derived of the slices so far, under which assumption."""

    def __init__(self, form, value, left, derived, assumed, above, above_assumed):
        self.form, self.value, self.left = form, value, left
        self.derived, self.assumed = derived, assumed       # no point at or below a value; the form is at most that
        self.above, self.above_assumed = above, above_assumed
        self.at_least = self.at_most = None                 # the assumptions that make the slice


class Writer:
    def __init__(self, model, rows):
        self.rows = rows
        self.constraints = []
        self.used = []      # of each inequality that nodes have: (constraint, multiplier), or None
        self.roundings = []
        factors = [{j: column.factors[name] for j, column in enumerate(model.columns.values())
                    if column.factors.get(name)} for name in model.rows]
        for i, (name, row) in enumerate(zip(model.rows, rows.rows)):
            low, high = model.sides_of(name)
            s = cp.scale(factors[i].values())
            if low is not None and low == high and s * low == row[2] == row[3]:
                place = self.constraint(f"row{i}", "E", low, factors[i])
                at = [place, place]
            else:
                at = [None if high is None else self.constraint(f"row{i}_most", "L", high, factors[i]),
                      None if low is None else self.constraint(f"row{i}_least", "G", low, factors[i])]
            self.use(at[0], s, high, row[3], row[1])
            self.use(at[1], -s, low, row[2], row[1])
        for j, (column, (_, lower, upper, _)) in enumerate(zip(model.columns.values(), rows.columns)):
            place = self.constraint(f"column{j}_most", "L", column.upper, {j: 1})
            self.constraint(f"column{j}_least", "G", column.lower, {j: 1})
            self.use(place, Fraction(1), column.upper, upper, {j: 1})
            self.use(place + 1, -Fraction(1), column.lower, lower, {j: 1})
        self.next = len(self.constraints)

    def constraint(self, name, sense, side, factors):
        self.constraints.append(f"{name} {sense} {side} {terms(factors)}")
        return len(self.constraints) - 1

    def use(self, place, multiplier, side, rounded, factors):
        """How the inequality is had: from the constraint itself, or from a step that rounds it."""
        if place is None:
            self.used.append(None)
        elif side * abs(multiplier) == rounded:
            self.used.append((place, multiplier))
        else:
            sense = "L" if multiplier > 0 else "G"
            words = f"{sense} {rounded} {terms(factors)} {{ rnd 1 {place} {abs(multiplier)} }}"
            self.roundings.append((len(self.used), words))
            self.used.append(None)

    def step(self, words):
        """A derived constraint: its words behind the name. Hands out its number."""
        self.lines.append(f"step{self.next} {words} -1".encode())
        self.next += 1
        return self.next - 1

    def assume(self, form, sense, value):
        return self.step(f"{sense} {value} {terms(form)} {{ asm }}")

    def refute(self, line, slices, end=None):
        """The combination that a line of the proof text is, of limit -1 or less."""
        parts = [(self.cut, line.cut[1])] if line.cut else []
        for i, m in line.items:
            e = i - len(self.used)
            if e < 0:
                place, multiplier = self.used[i]
                parts.append((place, m * multiplier))
            elif e < 2 * len(slices):
                split = slices[e // 2]
                parts.append((split.at_most, m) if e % 2 == 0 else (split.at_least, -m))
            else:
                parts.append((end[0], m * end[1]))
        sums = {}       # both sides of an equality are one constraint
        for place, multiplier in parts:
            sums[place] = sums.get(place, 0) + multiplier
        return self.step(f"L -1 0 {{ lin {terms(sums)} }}")

    def unsplit(self, one, one_assumed, other, other_assumed):
        return self.step(f"L -1 0 {{ uns {one} {one_assumed} {other} {other_assumed} }}")

    def steps(self, judge):
        """Hands out the steps, as the proof text is read."""
        self.lines, slices = [], []
        for i, words in self.roundings:
            self.used[i] = (self.step(words), 1 if words[0] == "L" else -1)
        nodes = judge.nodes()
        node = next(nodes)
        if judge.claim is not None:
            best = cp.dot(self.rows.costs, judge.claim)
            self.cut = self.assume(self.rows.costs, "L", best - 1)
            no_cut = self.assume(self.rows.costs, "G", best)
        while node is not None:
            if isinstance(node, cp.Leaf):
                done = self.refute(node.line, slices)
            else:
                below_assumed = self.assume(node.form, "L", node.low - 1)
                below = self.refute(node.below, slices, (below_assumed, 1))
                above_assumed = self.assume(node.form, "G", node.low + node.count)
                above = self.refute(node.above, slices, (above_assumed, -1))
                if node.count:
                    slices.append(Split(node.form, node.low, node.count, below, below_assumed, above, above_assumed))
                    self.begin_slice(slices[-1])
                    done = None
                else:
                    done = self.unsplit(below, below_assumed, above, above_assumed)
            while slices and done is not None:
                split = slices[-1]
                split.derived = self.unsplit(split.derived, split.assumed, done, split.at_least)
                split.assumed, done = split.at_most, None
                split.value += 1
                split.left -= 1
                if split.left:
                    self.begin_slice(split)
                else:
                    done = self.unsplit(split.derived, split.assumed, split.above, split.above_assumed)
                    slices.pop()
            yield from self.lines
            self.lines.clear()
            node = next(nodes, None)
        if judge.claim is not None:
            costs = terms(self.rows.costs)
            bound = self.step(f"G {best} {costs} {{ uns {done} {self.cut} {no_cut} {no_cut} }}")
            s = cp.scale(self.rows.value_factors.values())
            self.step(f"G {best / s} {terms(self.rows.value_factors)} {{ lin 1 {bound} {1 / s} }}")
            yield from self.lines

    def begin_slice(self, split):
        split.at_least = self.assume(split.form, "G", split.value)
        split.at_most = self.assume(split.form, "L", split.value)


def certificate(model, open_proof):
    """The lines of the certificate, of a proof text that is opened twice."""
    rows = cp.integer_rows(model)
    with open_proof() as file:
        judge = cp.Judge(rows, file)
        count = sum(1 for _ in Writer(model, rows).steps(judge))
    claim, constant = judge.claim, rows.constant
    names = [name for name, *_ in rows.columns]
    if any(b" " in name for name in names):
        names = [b"x%d" % j for j in range(len(names))]
    writer = Writer(model, rows)
    bound = None if claim is None else rows.value(claim) - constant
    if claim is not None and constant:
        yield text(f"% The value of the model is {constant} more than that of OBJ.")
    yield text(f"VER 1.0\nVAR {len(names)}")
    yield from names
    yield text(f"INT {len(names)}\n" + " ".join(map(str, range(len(names)))))
    yield text(f"OBJ min\n{terms(rows.value_factors)}")
    yield text(f"CON {len(writer.constraints)} {2 * len(names)}")
    yield from map(text, writer.constraints)
    if claim is None:
        yield text("RTP infeas\nSOL 0")
    else:
        point = {j: v for j, v in enumerate(claim) if v}
        yield text(f"RTP range {bound} {bound}\nSOL 1\nbest {terms(point)}")
    yield text(f"DER {count}")
    with open_proof() as file:
        yield from writer.steps(cp.Judge(rows, file))


def text(lines):
    return lines.encode()


def to_vipr(words):
    fixed, upper, model, proof = cp.command(words)
    yield from certificate(cp.load(fixed, upper, model), lambda: open(proof, "rb"))


if __name__ == "__main__":
    cp.run(to_vipr, sys.stderr)
