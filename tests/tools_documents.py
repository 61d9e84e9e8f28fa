#!/usr/bin/env python3
"""Runs tools/check_proof.py on what docs/FAULTS.md and docs/FORMATS.md say of single texts: each small text for a
fault, the two model texts, numbers, sides and bounds, and the small proof with each of its changes. The tables are
read from the documents."""

import re
import subprocess
import sys
import tempfile
from fractions import Fraction
from pathlib import Path

TOP = Path(__file__).resolve().parent.parent
sys.path.insert(0, str(TOP / "tools"))
import check_proof as cp

CHECKER = TOP / "tools" / "check_proof.py"
FAULTS = (TOP / "docs" / "FAULTS.md").read_text()
FORMATS = (TOP / "docs" / "FORMATS.md").read_text()

# Texts that the tables describe with words.
DESCRIBED = {
    "`*`, 1,025 times": b"*" * 1025 + b"\n",
    "a blank, 1,025 times": b" " * 1025 + b"\n",
    "`R` and the byte 200": b"R\xc8\n",
    "the byte 127": b"\x7f\n",
    "`ROWS` and two carriage returns": b"ROWS\r\r\n",
    "`ROWS`, ` E` and a tab and `r`": b"ROWS\n E\tr\n",
    "the empty text": b"",
    "`ROWS`, 256 lines ` E ` with different names, ` L s`":
        b"ROWS\n" + b"".join(b" E r%d\n" % i for i in range(256)) + b" L s\n",
    "**S**, 256 lines of a column each with the entry ` r 1`, ` xy r 1`":
        b"ROWS\n N c\n E r\nCOLUMNS\n" + b"".join(b" x%d r 1\n" % i for i in range(256)) + b" xy r 1\n",
}

wrong = 0
tried = 0


def run(model, proof, *options):
    with tempfile.TemporaryDirectory() as folder:
        names = []
        for name, text in (("m", model), ("p", proof)):
            if text is not None:
                Path(folder, name).write_bytes(text)
            names.append(str(Path(folder, name)))
        done = subprocess.run([sys.executable, CHECKER, *options, *names], capture_output=True)
    return done.returncode, done.stdout.decode()


def expect(what, said, wanted):
    global wrong, tried
    tried += 1
    if said != wanted:
        wrong += 1
        print(f"{what}\n  said {said}\n  and not {wanted}")


def rows_of(text):
    """The rows of all tables, without their heads."""
    lines = text.splitlines()
    for line, after in zip(lines, lines[1:] + [""]):
        if line.startswith("| ") and not after.startswith("|---"):
            yield [cell.strip() for cell in line.split("|")[1:-1]]


def faults():
    prefixes = {}
    part = FAULTS[FAULTS.index("## A small text for each fault"):]
    fixed_at = part.index("In fixed form:")
    more_at = part.index("Where more than one fault holds:")
    for options, piece in (((), part[:fixed_at]), (("--fixed",), part[fixed_at:more_at]), ((), part[more_at:])):
        kind = None
        for cells in rows_of(piece):
            if cells[0].startswith("**"):
                name = cells[0].split()[0]
                prefixes[name] = lines(cells[1], prefixes)
                continue
            kind = cells[0] if re.fullmatch(r"[A-Z]\w+", cells[0]) else kind
            text = DESCRIBED.get(cells[2])
            if text is None:
                text = lines(cells[2], prefixes)
            expect(" ".join(cells), run(text, b"", *options), (4, f"TEXT {kind} {cells[1]}\n"))


def lines(cell, prefixes):
    text, rest = b"", cell
    while rest:
        m = re.match(r"(?:\*\*[A-Z]\*\*|`[^`]*`)(?:, |$)", rest)
        if not m:
            raise SystemExit(f"not understood: {cell}")
        word = m[0].removesuffix(", ")
        text += prefixes[word] if word.startswith("**") else word[1:-1].encode() + b"\n"
        rest = rest[m.end():]
    return text


def blocks(part):
    return [block.encode() for block in re.findall(r"```\n(.*?)```", part, re.S)]


def models():
    part = FORMATS[FORMATS.index("### Two texts"):FORMATS.index("### Lines")]
    free, fixed = blocks(part)
    best = b"SLICER 1\nOPTIMAL 0 %d\nE\nDONE\n"
    expect("free form", run(free, best % 0), (9, "REJECTED Point 2\n"))
    expect("free form", run(free, best % 1), (9, "REJECTED Point 2\n"))
    # Number 1 is the row r, 5 the lower bound of x.
    expect("free form", run(free, b"SLICER 1\nOPTIMAL 1 1\nE Z1:1 5:1\nDONE\n"), (9, "REJECTED Refute 3\n"))
    expect("fixed form", run(fixed, best % 1, "--fixed"), (9, "REJECTED Point 2\n"))
    # Numbers: x + y <= 5 is 0, x + y >= 2 is 1, x <= 0 is 2, x >= -4 is 3, x <= 9 is 4, y <= 1 is 6.
    expect("fixed form", run(fixed, b"SLICER 1\nINFEASIBLE\nE 1:1 2:1 6:1\nDONE\n", "--fixed"),
           (0, "ACCEPTED INFEASIBLE\n"))
    expect("fixed form read as free form", run(fixed, b""), (4, "TEXT FieldCount 5\n"))
    for options in ((), ("--fixed",)):
        expect("fixed form without the blank", run(fixed.replace(b"first r", b"first-r"), b"", *options),
               (9, "REJECTED Short 1\n"))
    side = b"ROWS\n L r\nCOLUMNS\n x r 1\nRHS\n r %d\nBOUNDS\n UI x 1\nENDATA\n"
    expect("a row of weight 2^96", run(side % (2**96 - 1), b""), (9, "REJECTED Short 1\n"))
    expect("a row of weight 2^96 + 1", run(side % 2**96, b""), (5, "LIMIT ROW r\n"))


def table(head):
    """The rows of the table in docs/FORMATS.md that has this head."""
    part = FORMATS[FORMATS.index(head):]
    return rows_of(part[:part.index("\n\n")])


def small_tables():
    for text, _, _, means in table("| text | M | e | means |"):
        wanted = Fraction(1, 10**37) if means == "1/10^37" else Fraction(means)
        expect(text, cp.number(text.strip("`").encode()), wanted)

    start = "ROWS\n N c\n %s r\nCOLUMNS\n M 'MARKER' 'INTORG'\n x c 0\nRHS\n r 5\n%sENDATA\n"
    for kind, alone, _, three, minus_three in table("| kind | without a range |"):
        b = {"at most b": (None, 5), "at least b": (5, None), "equal to b": (5, 5)}[alone]
        for ranges, wanted in (("", b), ("RANGES\n r 3\n", three), ("RANGES\n r -3\n", minus_three)):
            model = cp.read_model((start % (kind, ranges)).encode(), False, 1)
            if isinstance(wanted, str):
                wanted = tuple(map(int, re.findall("[0-9]+", wanted)))
            expect(f"{kind} {ranges}", model.sides_of(b"r"), wanted)

    start = "ROWS\n N c\nCOLUMNS\n M 'MARKER' 'INTORG'\n x c 0\nBOUNDS\n%sENDATA\n"
    for lines, lower, upper, upper_9 in table("| lines | from | to |"):
        text = start % "".join(line + "\n" for line in re.findall("`([^`]*)`", lines))
        for handed_in, high in ((None, upper), (9, upper_9)):
            fault = next((side.split()[1] for side in (lower, high) if side.startswith("none: ")), None)
            try:
                column = cp.read_model(text.encode(), False, handed_in).columns[b"x"]
                said = str(column.lower), str(column.upper)
            except cp.Stop as stop:
                said = stop.report.decode()
            expect(f"{lines} {handed_in}", said, f"TEXT {fault} 5" if fault else (lower, high))


def small_proof():
    part = FORMATS[FORMATS.index("### A small proof"):FORMATS.index("## Reports")]
    (proof,) = blocks(part)
    model = (b"ROWS\n N c\n L a\n L b\nCOLUMNS\n x c -5 a 6\n x b 1\n y c -4 a 4\n y b 2\nRHS\n a 24 b 6\n"
             b"BOUNDS\n UI x 10\n UI y 10\nENDATA\n")
    expect("the small proof", run(model, proof), (0, "ACCEPTED OPTIMAL\nVALUE -20\n"))
    changed = proof.split(b"\n")[:-1]

    def with_line(place, line):
        return b"\n".join(changed[:place - 1] + ([line] if line is not None else []) + changed[place:]) + b"\n"

    forms = {
        "line 4 with `0:6`": with_line(4, changed[3].replace(b"0:5", b"0:6")),
        "with `0:05`": with_line(4, changed[3].replace(b"0:5", b"0:05")),
        "with `0:0`": with_line(4, changed[3].replace(b"0:5", b"0:0")),
        "line 4 with `Z-21:3`": with_line(4, changed[3].replace(b"Z-20", b"Z-21")),
        "line 4 as `B`": with_line(4, b"B"),
        "as `B Z-20:3 `": with_line(4, b"B Z-20:3 "),
        "line 4 with the cut behind the items": with_line(4, b"B 0:5 8:2 Z-20:3"),
        "with `Z:3`": with_line(4, changed[3].replace(b"Z-20", b"Z")),
        "line 2 as `OPTIMAL 3 1`": with_line(2, b"OPTIMAL 3 1"),
        "as `INFEASIBLE`": with_line(2, b"INFEASIBLE"),
        "as `OPEN`": with_line(2, b"OPEN"),
        "line 2 as `OPTIMAL 4 1`": with_line(2, b"OPTIMAL 4 1"),
        "as `OPTIMAL 4`": with_line(2, b"OPTIMAL 4"),
        "line 2 as `OPTIMAL +4 0`": with_line(2, b"OPTIMAL +4 0"),
        "line 3 as `S T 2 1 1:1`": with_line(3, b"S T 2 1 1:1"),
        "line 3 as `S T 2 0`": with_line(3, b"S T 2 0"),
        "as `S T 2 0 2:1`": with_line(3, b"S T 2 0 2:1"),
        "as `S Q 2 0 1:1`": with_line(3, b"S Q 2 0 1:1"),
        "line 5 left out": with_line(5, None),
        "lines 1 to 5 alone": b"\n".join(changed[:5]) + b"\n",
        "the last byte left out": proof[:-1],
        "one more byte at the end": proof + b"x",
        "98,305 more bytes": proof + b"x" * 98_305,
        "the empty text": b"",
    }
    told = 0
    for change, answers in (cells for cells in rows_of(part) if len(cells) == 2 and "REJECTED" in cells[1]):
        names, answers = change.split("; "), re.findall(r"`(.*?)`", answers)
        answers *= len(names) if len(answers) == 1 else 1
        if len(names) != len(answers):
            raise SystemExit(f"not understood: {change}")
        for name, answer in zip(names, answers):
            if name not in forms:
                raise SystemExit(f"not understood: {name}")
            told += 1
            expect(name, run(model, forms[name]), (9, answer + "\n"))
    if told != len(forms):
        raise SystemExit("changes of the small proof are missing")


def words_and_files():
    for words in ([], ["m"], ["m", "m"], ["--upper", "01", "m", "p"], ["--fixed", "--fixed", "m", "p"],
                  ["--upper", str(2**62 + 1), "m", "p"], ["m", "p", "q"], ["-m", "p"], ["m", ""], ["m", b"\xff"]):
        done = subprocess.run([sys.executable, CHECKER, *words], capture_output=True)
        expect(words, (done.returncode, done.stdout), (3, b"WORDS\n"))
    expect("no model", run(None, b""), (6, "READFAULT\n"))
    model = (TOP / "examples" / "boxes_43.mps").read_bytes()
    expect("no proof", run(model, None), (6, "READFAULT\n"))
    expect("a long model", run(b"*\n" * 8_388_609, b""), (5, "LIMIT MODEL\n"))
    expect("a longest model", run(b"*\n" * 8_388_608, b""), (4, "TEXT NoEnd 8388608\n"))


faults()
models()
small_tables()
small_proof()
words_and_files()
print(f"documents: {tried} texts, {wrong} wrong")
sys.exit(wrong > 0)
