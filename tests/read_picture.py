#!/usr/bin/env python3
"""read_picture.py < tree.svg

Looks whether a picture of tools/draw_proof.py is well-formed XML in which no box and no word stands on another, and all
are inside."""

import itertools
import sys
import xml.etree.ElementTree as ET

SVG = "{http://www.w3.org/2000/svg}"


def areas(root):
    """What must not meet: (left, top, right, bottom, text) of each box and of each word outside a box."""
    inside = {id(text) for group in root.iter(SVG + "g") for text in group.iter(SVG + "text")}
    for group in root.iter(SVG + "g"):
        rect = group.find(SVG + "rect")
        x, y, width, height = (float(rect.get(k)) for k in ("x", "y", "width", "height"))
        yield x, y, x + width, y + height, "".join(group.find(SVG + "text").itertext())
    for text in root.iter(SVG + "text"):
        size, words = float(text.get("font-size", root.get("font-size"))), "".join(text.itertext())
        x, y, width = float(text.get("x")), float(text.get("y")), 0.603 * size * len(words)
        if id(text) not in inside:
            yield x, y - 0.7 * size, x + width, y, words
    for group in root.iter(SVG + "g"):
        rect, text = group.find(SVG + "rect"), group.find(SVG + "text")
        width = 0.603 * float(root.get("font-size")) * len("".join(text.itertext()))
        if float(text.get("x")) + width > float(rect.get("x")) + float(rect.get("width")):
            sys.exit(f"a word is longer than its box: {''.join(text.itertext())}")


root = ET.fromstring(sys.stdin.read())
width, height = float(root.get("width")), float(root.get("height"))
found = list(areas(root))
for left, top, right, bottom, words in found:
    if left < 0 or top < 0 or right > width or bottom > height:
        sys.exit(f"outside: {words}")
found.sort(key=lambda area: area[1])
for k, (left, top, right, bottom, words) in enumerate(found):
    for others in itertools.takewhile(lambda area: area[1] < bottom, found[k + 1:]):
        if others[0] < right and left < others[2]:
            sys.exit(f"one on another: {words} / {others[4]}")
