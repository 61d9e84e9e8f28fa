#!/usr/bin/env python3
"""changed_proofs.py [--seed S] [--count C] [--against PROGRAM]

Makes random small models and proof texts, changes the texts at random C times in all, and looks whether
tools/check_proof.py accepts anything false: what is true is found by trying all points, on the numbers of the model as
they were drawn. With --against each text is also given to `PROGRAM check`, which must say the same. The certificate
that tools/to_vipr.py makes of each proof must be verified by read_vipr.py."""

import argparse
import collections
import itertools
import random
import subprocess
import sys
import tempfile
from fractions import Fraction
from io import BytesIO
from pathlib import Path

sys.path.insert(0, str(Path(__file__).resolve().parent))
import make_proof as maker
import read_vipr
cp = maker.cp
import to_vipr


class Drawn:
    """A model as drawn: the text, and the numbers apart from it."""

    def __init__(self, rng):
        self.fixed = rng.random() < 0.3
        n, rows = rng.choice([1, 2, 2, 3, 3, 3, 4]), rng.randint(0, 3)
        number = lambda: rng.choice(["1", "-1", "2", "3", "-2", "5", "0.5", "-1.5", "7", "2.5", ".25", "1e1", "0"])
        self.rows = [(rng.choice("LGE"), {}, rng.choice(["0", "3", "5", "-2", "7.5", "11", "4"]),
                      rng.choice(["2", "-3", "1.5", "0"]) if rng.random() < 0.25 else None) for _ in range(rows)]
        self.objective, self.constant, self.bounds = {}, rng.choice([None, "3", "-0.5"]), []
        for j in range(n):
            for _, factors, _, _ in self.rows:
                if rng.random() < 0.8:
                    factors[j] = number()
            if rng.random() < 0.6:
                self.objective[j] = number()
            lower = rng.choice([0, 0, 0, -2, 1, Fraction(-1, 2)])
            self.bounds.append((lower, lower + rng.choice([0, 1, 2, 3, Fraction(7, 2), 5]) if rng.random() < 0.95
                                else lower - 1))
        self.text = self.written().encode()

    def line(self, kind="", *fields):
        fields = [str(field) for field in fields]
        if not self.fixed:
            return " ".join(["", *([kind] if kind else []), *fields])
        line = f" {kind:2} "
        for place, field in zip((4, 14, 24, 39, 49), fields):
            line = line.ljust(place) + field
        return line

    def written(self):
        decimal = lambda v: str(float(v))
        lines = ["ROWS", self.line("N", "cost")] + [self.line(kind, f"r{i}") for i, (kind, *_) in enumerate(self.rows)]
        lines += ["COLUMNS", self.line("", "M", "'MARKER'", *(["", "'INTORG'"] if self.fixed else ["'INTORG'"]))]
        for j in range(len(self.bounds)):
            lines.append(self.line("", f"x{j}", "cost", self.objective.get(j, "0")))
            for i, (_, factors, _, _) in enumerate(self.rows):
                if j in factors:
                    lines.append(self.line("", f"x{j}", f"r{i}", factors[j]))
        lines += ["RHS"] + [self.line("", "S", f"r{i}", b) for i, (_, _, b, _) in enumerate(self.rows)]
        lines += [self.line("", "S", "cost", self.constant)] if self.constant else []
        lines += ["RANGES"] + [self.line("", "S", f"r{i}", r) for i, (*_, r) in enumerate(self.rows) if r is not None]
        lines += ["BOUNDS"]
        for j, (lower, upper) in enumerate(self.bounds):
            lines += [self.line("LO", "B", f"x{j}", decimal(lower)), self.line("UP", "B", f"x{j}", decimal(upper))]
        return "\n".join(lines + ["ENDATA", ""])

    def sides(self, row):
        kind, _, b, r = row
        b = Fraction(b)
        if r is None:
            return (None if kind == "L" else b), (None if kind == "G" else b)
        r = Fraction(r)
        return {"L": (b - abs(r), b), "G": (b, b + abs(r)), "E": (min(b, b + r), max(b, b + r))}[kind]

    def value(self, x):
        return sum(Fraction(f) * x[j] for j, f in self.objective.items()) - Fraction(self.constant or 0)

    def points(self):
        for x in itertools.product(*([v for v in range(-3, 9) if lower <= v <= upper] for lower, upper in self.bounds)):
            if all((low is None or low <= left) and (high is None or left <= high)
                   for row in self.rows for low, high in [self.sides(row)]
                   for left in [sum(Fraction(f) * x[j] for j, f in row[1].items())]):
                yield list(x)


def judged(rows, text):
    """The report on a proof text and the claim, where it is accepted."""
    judge = cp.Judge(rows, BytesIO(text))
    try:
        for _ in judge.nodes():
            pass
    except cp.Stop as stop:
        return stop.report.decode() + "\n", stop.code, None
    if judge.claim is None:
        return "ACCEPTED INFEASIBLE\n", 0, "INFEASIBLE"
    return f"ACCEPTED OPTIMAL\nVALUE {rows.value(judge.claim)}\n", 0, judge.claim


def random_forms(rng):
    def forms(made, path):
        if rng.random() < 0.5 and len(path) < made.n:
            form = {j: f for j in range(made.n) if (f := rng.choice([-1, 0, 1, 1, 2]))}
            if form:
                return [("T", form)]
        return maker.plain_forms(made, path)
    return forms


class Forger(maker.Maker):
    """Takes the cut or one kind of end further by 1 than it is, or none."""

    def __init__(self, rng, rows, claim):
        super().__init__(rows, random_forms(rng), claim)
        self.cut_by, below_by, above_by = rng.choice([(0, 0, 0), (1, 0, 0), (0, 1, 0), (0, 0, 1)])
        self.end_by = {1: below_by, -1: above_by}

    def line(self, path, end=None):
        end = end and (*end[:2], end[2] - self.end_by[end[0]])
        if self.cut is None:
            line = super().line(path, end)
        else:
            self.cut -= self.cut_by
            line = super().line(path, end)
            self.cut += self.cut_by
            line = line and line.replace(f"Z{self.cut - self.cut_by}:", f"Z{self.cut}:")
        return line


def written(made):
    """The text, unless it is long."""
    lines = list(itertools.islice(made.text(), 151))
    return "\n".join([*lines, ""]) if len(lines) < 151 else None


def subtree(lines, start):
    """The place behind the node that begins at a place."""
    if lines[start][:1] != "S":
        return start + 1
    place = start + 3
    for _ in range(int(lines[start].split()[3])):
        place = subtree(lines, place)
    return place


def changed(rng, text, points, n):
    lines = text.split("\n")[:-1]
    way = rng.choice(["byte", "byte", "number", "number", "number", "line", "item", "cut out", "claim", "claim", "end",
                      "deeper"])
    if way == "byte":
        k, byte = rng.randrange(len(text)), rng.choice("0123456789 -:ZESBAT\n")
        return rng.choice([text[:k] + byte + text[k + 1:], text[:k] + byte + text[k:], text[:k] + text[k + 1:]])
    if way == "end":
        return rng.choice([text[:rng.randrange(len(text))], text + rng.choice(["\n", "x", "DONE\n"]),
                           text + "x" * 98_305, text[:-5] + "DONE" + " " * 98_305 + "\n", "SLICER 2" + text[8:],
                           text[:-5] + "E\n" * 3 + text[-5:]])
    if way == "claim":
        claim = rng.choice(["INFEASIBLE", "OPTIMAL", "OPEN"] + [
            " ".join(["OPTIMAL", *map(str, rng.choice(points) if points else [0] * n)]) for _ in range(5)])
        return "\n".join([lines[0], claim, *lines[2:], ""])
    if way == "deeper":
        k = rng.choice([k for k, line in enumerate(lines) if line[:1] == "E"] or [0])
        line, form = lines[k][1:], f"S T {rng.randint(-2, 2)} 1 0:{rng.choice([1, -1, 2**90, 2**95])}"
        if k:
            lines[k:k] = [form, "B" + line, "A" + line] * rng.randint(1, 2 * n + 1)
        return "\n".join(lines + [""])
    if way == "cut out":
        splits = [k for k, line in enumerate(lines) if line[:2] == "S " and int(line.split()[3]) > 0]
        if not splits:
            return text
        split = rng.choice(splits)
        words = lines[split].split()
        first = rng.random() < 0.5
        start = split + 3
        for _ in range(0 if first else int(words[3]) - 1):
            start = subtree(lines, start)
        words[2] = str(int(words[2]) + first)
        words[3] = str(int(words[3]) - 1)
        lines[split:] = [" ".join(words), *lines[split + 1:start], *lines[subtree(lines, start):]]
        return "\n".join(lines + [""])
    k = rng.randrange(2, len(lines))
    if way == "line":
        other = rng.choice(lines)
        lines[k:k + 1] = rng.choice([[], [other], [lines[k], other], [lines[k], lines[k]]])
    else:
        words = lines[k].split(" ")
        w = rng.randrange(len(words))
        if way == "item":
            words[w:w + 1] = rng.choice([[], [words[w]] * 2, [rng.choice(words)]])
        else:
            parts = words[w].split(":")
            p = rng.randrange(len(parts))
            z, digits = ("Z", parts[p][1:]) if parts[p][:1] == "Z" else ("", parts[p])
            try:
                v = int(digits)
            except ValueError:
                return text
            parts[p] = z + str(rng.choice([v + 1, v - 1, -v, 0, 2 * v, 2**96 + v, 2**126, 2**100, f"0{v}", f"+{v}"]))
            words[w] = ":".join(parts)
        lines[k] = " ".join(words)
    return "\n".join(lines + [""])


def main():
    options = argparse.ArgumentParser()
    options.add_argument("--seed", type=int, default=1)
    options.add_argument("--count", type=int, default=2000)
    options.add_argument("--against")
    options = options.parse_args()
    rng = random.Random(options.seed)
    said = collections.Counter()
    changes = whole = forged = longest = 0
    wrong = []
    while changes < options.count:
        drawn = Drawn(rng)
        points = list(drawn.points())
        best = min(points, key=drawn.value, default=None)
        model = cp.read_model(drawn.text, drawn.fixed, None)
        rows = cp.integer_rows(model)
        if drawn.fixed and vars(cp.integer_rows(cp.read_model(drawn.text, False, None))) != vars(rows):
            wrong.append(("free form is read otherwise", drawn.text, b"", ""))

        def is_true(claim):
            if claim == "INFEASIBLE":
                return not points
            return claim in points and drawn.value(claim) == drawn.value(best)

        def judge(text, may_fail):
            text = text.encode()
            report, code, claim = judged(rows, text)
            if claim is not None and not (is_true(claim) and
                                          (claim == "INFEASIBLE" or report.split()[3] == str(drawn.value(claim)))):
                wrong.append(("accepted, and false", drawn.text, text, report))
            if claim is None and not may_fail:
                wrong.append(("not accepted", drawn.text, text, report))
            if options.against:
                with tempfile.TemporaryDirectory() as folder:
                    names = [str(Path(folder, name)) for name in "mp"]
                    for name, content in zip(names, (drawn.text, text)):
                        Path(name).write_bytes(content)
                    words = [options.against, "check", *(["--fixed"] if drawn.fixed else []), *names]
                    done = subprocess.run(words, capture_output=True)
                if (done.stdout.decode(), done.returncode) != (report, code):
                    wrong.append(("the program says " + done.stdout.decode(), drawn.text, text, report))
            return report.split()[1 if code == 9 else 0]

        text = written(maker.Maker(rows, random_forms(rng), best, weak=rng.random() < 0.7))
        if text is None:
            continue
        judge(text, may_fail=False)
        certificate = "\n".join(line.decode() for line in to_vipr.certificate(model, lambda: BytesIO(text.encode())))
        try:
            verified = read_vipr.verify(certificate)
        except read_vipr.Wrong as fault:
            verified = fault
        value = best and drawn.value(best) + Fraction(drawn.constant or 0)
        if verified != (f"range {value} {value}" if best else "infeas"):
            wrong.append((f"the certificate: {verified}", drawn.text, text.encode(), certificate))
        whole += 1
        longest = max(longest, text.count("\n"))
        for other in [None, *rng.sample(points, min(2, len(points)))]:
            if not is_true("INFEASIBLE" if other is None else other):
                forgery = written(Forger(rng, rows, other))
                if forgery is not None:
                    judge(forgery, may_fail=True)
                    forged += 1
        for _ in range(8):
            other = changed(rng, text, points, len(drawn.bounds))
            if other != text:
                said[judge(other, may_fail=True)] += 1
                changes += 1
    print(f"changed proofs: {whole} accepted and written as certificates, the longest of {longest} lines; {forged} of false claims; of {changes} changes "
          + ", ".join(f"{k} {v}" for k, v in said.most_common()) + f"; {len(wrong)} wrong")
    for what, model, proof, report in wrong[:3]:
        print(what, model.decode(), proof.decode(), report, sep="\n")
    sys.exit(bool(wrong))


if __name__ == "__main__":
    main()
