#!/usr/bin/env python3
"""Writes the models of solve.sh into a folder, each as an MPS text. The numbers are drawn by the generator of Lehmer."""
import math
import os
import sys

MODULUS = 2147483647


class Drawn:
    """The stream s(0) = start, s(k + 1) = 48271 s(k) modulo 2^31 - 1."""

    def __init__(self, start):
        self.state = start

    def next(self):
        self.state = 48271 * self.state % MODULUS
        return self.state

    def between(self, low, high):
        """A whole number from low to high."""
        return low + self.next() % (high - low + 1)

    def several(self, count, low, high):
        return [self.between(low, high) for _ in range(count)]


class Model:
    """Rows are (kind, factors, side) or (kind, factors, side, range); a bound is a pair."""

    def __init__(self, rows, bounds, cost=None):
        self.rows, self.bounds, self.cost = rows, bounds, cost or [0] * len(bounds)

    def text(self, name):
        lines = ["NAME " + name, "ROWS", " N COST"]
        lines += [" %s R%d" % (row[0], i) for i, row in enumerate(self.rows, 1)]
        lines.append("COLUMNS")
        for j, price in enumerate(self.cost):
            lines.append(" X%d COST %d" % (j + 1, price))
            lines += [" X%d R%d %d" % (j + 1, i, row[1][j]) for i, row in enumerate(self.rows, 1) if row[1][j]]
        lines.append("RHS")
        lines += [" R%d %d" % (i, row[2]) for i, row in enumerate(self.rows, 1) if row[2]]
        ranges = [" R%d %d" % (i, row[3]) for i, row in enumerate(self.rows, 1) if len(row) > 3]
        if ranges:
            lines += ["RANGES"] + ranges
        lines.append("BOUNDS")
        for j, (low, high) in enumerate(self.bounds, 1):
            lines += [" LI X%d %d" % (j, low), " UI X%d %d" % (j, high)]
        return "\n".join(lines + ["ENDATA", ""])


def market(rows, columns, start):
    """Each row's factors are below 100, and its side is half their sum."""
    drawn = Drawn(start)
    all_factors = [[drawn.next() % 100 for _ in range(columns)] for _ in range(rows)]
    return Model([("E", factors, sum(factors) // 2) for factors in all_factors], [(0, 1)] * columns)


def frobenius(weights):
    """The greatest number that is no sum of the weights (Boecker and Liptak 2007)."""
    least, rest = min(weights), sorted(weights)[1:]
    reached = [None] * least
    reached[0] = 0
    for weight in rest:
        divisor = math.gcd(least, weight)
        for start in range(divisor):
            known = [number for number in reached[start::divisor] if number is not None]
            if not known:
                continue
            number = min(known)
            for _ in range(least // divisor):
                number += weight
                place = number % least
                if reached[place] is not None and reached[place] < number:
                    number = reached[place]
                reached[place] = number
    return max(reached) - least


def coins(columns, digits, start):
    """A knapsack at its Frobenius number: no counts of these weights make it."""
    drawn = Drawn(start)
    low = 10 ** (digits - 1)
    weights = [0]
    while math.gcd(*weights) != 1:
        weights = sorted(drawn.several(columns, low, 3 * low))
    side = frobenius(weights)
    return Model([("E", weights, side)], [(0, side // weight) for weight in weights])


def strip(start):
    """A thin strip across a box of two columns, skewed by four digits."""
    drawn = Drawn(start)
    second = drawn.between(1000, 9999)
    first = second + drawn.between(1, 29)
    while math.gcd(first, second) != 1:
        first += 1
    low = drawn.between(1, 400)
    row = ("G", [first, -second], low, drawn.between(100, 500))
    return Model([row], [(0, drawn.between(200, 1000))] * 2)


def rests(count, start, has_point):
    """A number that leaves given rests by coprime divisors, at most their product, or below the least such number."""
    drawn = Drawn(start)
    divisors = []
    while len(divisors) < count:
        divisor = drawn.between(7, 60)
        if all(math.gcd(divisor, other) == 1 for other in divisors):
            divisors.append(divisor)
    number = drawn.next() % math.prod(divisors)
    top = math.prod(divisors) - 1 if has_point else max(number - 1, 10)
    return Model(*counted(number, divisors, top))


def counted(number, divisors, top):
    rows = []
    for place, divisor in enumerate(divisors, 1):
        factors = [1] + [0] * len(divisors)
        factors[place] = -divisor
        rows.append(("E", factors, number % divisor))
    return rows, [(0, top)] + [(0, top // divisor) for divisor in divisors]


def calendar(start, has_point):
    """The first day on which four cycles stand as given, up to it or to the day before."""
    drawn = Drawn(start)
    cycles = [365, 260, 584, 29, 780, 116, 399]
    chosen = [cycles.pop(drawn.next() % len(cycles)) for _ in range(4)]
    day = drawn.next() % math.lcm(*chosen)
    return Model(*counted(day, chosen, day if has_point else day - 1))


def covering(rows, columns, start):
    drawn = Drawn(start)
    all_rows = [("G", drawn.several(columns, 0, 99), drawn.between(2000, 20000)) for _ in range(rows)]
    return Model(all_rows, [(0, 1000)] * columns, drawn.several(columns, 10, 199))


def filled(columns, start):
    """A knapsack to be filled best; its prices are nearly its weights."""
    drawn = Drawn(start)
    weights = drawn.several(columns, 1000, 99999)
    prices = [-(weight + drawn.between(-200, 200)) for weight in weights]
    counts = drawn.several(columns, 3, 29)
    return Model([("L", weights, sum(weights) * drawn.between(2, 7) // 3)], [(0, count) for count in counts], prices)


def least(columns, start):
    """One column to be least under two equalities."""
    drawn = Drawn(start)
    point = drawn.several(columns, 0, 30000)
    rows = []
    for _ in range(2):
        factors = drawn.several(columns, -499, 499)
        rows.append(("E", factors, sum(map(int.__mul__, factors, point))))
    return Model(rows, [(0, 30000)] * columns, [1] + [0] * (columns - 1))


def charges(columns, start):
    """Amounts to be delivered together, each with a price and a fixed charge."""
    drawn = Drawn(start)
    most = drawn.several(columns, 1000000, 9999999)
    rows = []
    for place, bound in enumerate(most):
        factors = [0] * (2 * columns)
        factors[place], factors[columns + place] = 1, -bound
        rows.append(("L", factors, 0))
    rows.append(("G", [1] * columns + [0] * columns, sum(most) * drawn.between(40, 70) // 100))
    prices = drawn.several(columns, 1, 19) + drawn.several(columns, 1000000, 9999999)
    return Model(rows, [(0, bound) for bound in most] + [(0, 1)] * columns, prices)


def all_models():
    """Each model with the group that it is counted in."""
    for rows, columns in [(2, 10), (2, 15), (3, 10), (3, 15), (3, 20), (3, 30), (4, 25), (5, 30)]:
        for start in (1, 2, 3):
            yield "market_%dx%d" % (rows, columns), start, market(rows, columns, start)
    for digits, columns in [(5, 4), (5, 6), (5, 8), (6, 8)]:
        for start in (1, 2):
            yield "coins_%ddigits_%d" % (digits, columns), start, coins(columns, digits, start)
    for start in range(1, 5):
        yield "strip", start, strip(start)
    for start in range(1, 4):
        yield "rests_yes", start, rests(start + 2, start, True)
        yield "rests_no", start, rests(start + 2, start, False)
    for start in range(1, 4):
        yield "calendar_yes", start, calendar(start, True)
        yield "calendar_no", start, calendar(start, False)
    for rows, columns in [(3, 8), (3, 12), (4, 12), (4, 16), (5, 10), (5, 16)]:
        yield "covering", 100 * rows + columns, covering(rows, columns, 100 * rows + columns)
    for columns in (6, 8, 10, 12, 15):
        yield "filled", columns, filled(columns, columns)
    for columns in (4, 5, 6):
        yield "least", columns, least(columns, columns)
    for columns in (2, 3, 4):
        yield "charges", columns, charges(columns, columns)


def main():
    for group, start, model in all_models():
        name = "%s.%d" % (group, start)
        with open(os.path.join(sys.argv[1], name + ".mps"), "w") as file:
            file.write(model.text(name))


main()
