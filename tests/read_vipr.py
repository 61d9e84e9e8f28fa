#!/usr/bin/env python3
"""A small reader of certificates in the format VIPR 1.0, as docs/VIPR.md tells it: read_vipr.py < proof.vipr

Knows the reasons asm, lin, rnd and uns. Says `VERIFIED` and what was to be proved, or what is wrong in which step."""

import sys
from fractions import Fraction


class Wrong(Exception):
    pass


def need(holds, what):
    if not holds:
        raise Wrong(what)


class Words:
    def __init__(self, text):
        lines = text.split("\n")
        while lines and lines[0].startswith("%"):
            lines.pop(0)
        self.words = iter(" ".join(lines).split())

    def next(self):
        word = next(self.words, None)
        need(word is not None, "the text is too short")
        return word

    def expect(self, *words):
        for word in words:
            said = self.next()
            need(said == word, f"{said} in place of {word}")

    def count(self):
        word = self.next()
        need(word.isascii() and word.isdigit(), f"{word} is no count")
        return int(word)

    def number(self):
        return Fraction(self.next())

    def terms(self, below):
        found = {}
        for _ in range(self.count()):
            j, f = self.count(), self.number()
            need(j < below and j not in found, f"{j} stands for no item or for two")
            found[j] = f
        return {j: f for j, f in found.items() if f}

    def constraint(self, n):
        self.next()
        sense = self.next()
        need(sense in ("L", "G", "E"), f"{sense} is no sense")
        side = self.number()
        return sense, side, self.terms(n)


def holds(constraint, x):
    sense, side, factors = constraint
    left = sum(f * x.get(j, 0) for j, f in factors.items())
    return {"L": left <= side, "G": left >= side, "E": left == side}[sense]


def implies(one, other):
    """Whether the first constraint contradicts itself, or has the same left side and is as tight."""
    if not one[2] and not holds(one, {}):
        return True
    if one[2] != other[2]:
        return False
    if other[0] == "E":
        return one[0] == "E" and one[1] == other[1]
    return one[0] in ("E", other[0]) and (one[1] <= other[1] if other[0] == "L" else one[1] >= other[1])


def combined(known, multipliers):
    """The sum of the constraints times the multipliers."""
    sense, side, factors = "E", Fraction(0), {}
    for i, m in multipliers.items():
        its = known[i][0]
        if its != "E":
            turned = its if m > 0 else {"L": "G", "G": "L"}[its]
            need(sense in ("E", turned), "a sum of different senses")
            sense = turned
        side += m * known[i][1]
        for j, f in known[i][2].items():
            factors[j] = factors.get(j, 0) + m * f
    return sense, side, {j: f for j, f in factors.items() if f}


def verify(text):
    words = Words(text)
    words.expect("VER", "1.0", "VAR")
    n = words.count()
    names = [words.next() for _ in range(n)]
    need(len(set(names)) == n, "two variables of one name")
    words.expect("INT")
    integer = {words.count() for _ in range(words.count())}
    need(all(j < n for j in integer), "an integer variable that is not there")
    words.expect("OBJ", "min")
    objective = words.terms(n)
    words.expect("CON")
    count, _ = words.count(), words.count()
    known = [words.constraint(n) for _ in range(count)]

    words.expect("RTP")
    kind = words.next()
    need(kind in ("infeas", "range"), "nothing to prove")
    goal = ("L", Fraction(-1), {})
    if kind == "range":
        least, most = words.number(), words.number()
        goal = ("G", least, objective)
    words.expect("SOL")
    reached = False
    for _ in range(words.count()):
        words.next()
        x = words.terms(n)
        need(all(holds(constraint, x) for constraint in known), "a solution breaks a constraint")
        need(all(v.denominator == 1 for j, v in x.items() if j in integer), "a solution is not whole")
        reached = reached or kind == "range" and holds(("L", most, objective), x)
    need(reached or kind == "infeas", "no solution has the upper end of the range")

    words.expect("DER")
    assumed = [frozenset()] * len(known)        # of each constraint: the assumptions that it stands on
    for step in range(words.count()):
        try:
            derived = words.constraint(n)
            words.expect("{")
            reason = words.next()
            under = frozenset()
            if reason == "asm":
                under = frozenset([len(known)])
            elif reason in ("lin", "rnd"):
                multipliers = words.terms(len(known))
                sense, side, factors = combined(known, multipliers)
                under = under.union(*(assumed[i] for i in multipliers))
                if reason == "rnd":
                    need(sense != "E", "an equality is not rounded")
                    need(all(j in integer and f.denominator == 1 for j, f in factors.items()), "factors are not whole")
                    side = Fraction(side.__floor__() if sense == "L" else side.__ceil__())
                need(implies((sense, side, factors), derived), "the sum does not give it")
            elif reason == "uns":
                one, one_assumed, other, other_assumed = (words.count() for _ in range(4))
                need(max(one, one_assumed, other, other_assumed) < len(known), "a constraint that is not there yet")
                need(implies(known[one], derived) and implies(known[other], derived), "a part does not give it")
                need(assumed[one_assumed] == {one_assumed} and assumed[other_assumed] == {other_assumed},
                     "no assumption")
                low, high = sorted((known[one_assumed], known[other_assumed]), key=lambda c: c[0] == "G")
                need(low[0] == "L" and high[0] == "G" and low[2] == high[2] and high[1] == low[1] + 1
                     and low[1].denominator == 1
                     and all(j in integer and f.denominator == 1 for j, f in low[2].items()), "no split")
                under = (assumed[one] - {one_assumed}) | (assumed[other] - {other_assumed})
            else:
                raise Wrong(f"the reason {reason}")
            words.expect("}")
            words.next()
            known.append(derived)
            assumed.append(under)
        except Wrong as wrong:
            raise Wrong(f"step {step}: {wrong}") from None
    need(next(words.words, None) is None, "more words at the end")
    need(implies(known[-1], goal) and not assumed[-1], "the last constraint is not what was to be proved")
    return "infeas" if kind == "infeas" else f"range {least} {most}"


if __name__ == "__main__":
    try:
        print("VERIFIED", verify(sys.stdin.read()))
    except (Wrong, ValueError, ZeroDivisionError) as wrong:
        print("WRONG", wrong)
        sys.exit(1)
