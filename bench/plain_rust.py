#!/usr/bin/env python3
"""Writes the search as plain Rust into a folder, to measure it without a proof: `plain_rust.py OUT` makes OUT/src, and with
`rustc` on the machine the program OUT/plain. OUT/plain [--nodes N] MODEL.. prints for each model of solve_models.py its answer,
NODES, PLAIN, VALUE and the seconds of processor time.

The contracts and proofs are left out of the sources, the crates become modules of one program, and the kit's vectors, boxes
and allocator are those of plain_kit.rs. Nothing in the program is proved; it stops where a number overflows."""
import os
import re
import subprocess
import sys

TOP = os.path.dirname(os.path.dirname(os.path.abspath(__file__)))

# The crate whose code, with all that it uses, is written, and what plain_main.rs calls besides.
ROOTS = ["slice_branch", "proof_tree", "whole_rows"]

TOKEN = re.compile(r"""\s+|//[^\n]*|b?"(?:\\.|[^"\\])*"|b?'(?:\\[^']+|[^'\\])'|'[A-Za-z_]\w*|\w+|::|->|=>|.""")

# Impls of these traits of the kit are left out.
LEFT_OUT = {"Model", "Display", "Error", "MadeWith"}

# Paths of the kit, and where plain_kit.rs has its stand-ins.
KIT_PATHS = {("std", "alloc"), ("std", "marker"), ("std", "error"), ("std", "default"), ("std", "rc")}

OPEN, CLOSE = "([{", ")]}"


def blank(token):
    return token.isspace() or token.startswith("//")


class Reader:
    """The tokens of a file, with blanks as they stand."""

    def __init__(self, text):
        self.tokens = TOKEN.findall(text)
        self.at = 0

    def peek(self, ahead=0):
        """The next token that is no blank, or a later one."""
        i = self.at
        while i < len(self.tokens):
            if not blank(self.tokens[i]):
                if ahead == 0:
                    return self.tokens[i]
                ahead -= 1
            i += 1
        return ""

    def take(self):
        """The next token that is no blank; blanks before it are passed over."""
        while blank(self.tokens[self.at]):
            self.at += 1
        self.at += 1
        return self.tokens[self.at - 1]

    def skip_group(self):
        """Passes over a group in brackets; answers its tokens."""
        first, depth = self.at, 0
        while True:
            token = self.take()
            depth += (token in OPEN) - (token in CLOSE)
            if depth == 0:
                return [t for t in self.tokens[first:self.at] if not blank(t)]

    def skip_to(self, ends):
        """Passes over all up to one of the tokens outside of brackets, and over that; a closing bracket stays."""
        while True:
            token = self.peek()
            if token in CLOSE:
                return
            if token in OPEN:
                self.skip_group()
                continue
            self.take()
            if token in ends:
                return


def attribute(reader):
    """An attribute without what rustc does not know."""
    mark = "!" if reader.peek() == "!" else ""
    if mark:
        reader.take()
    group = reader.skip_group()
    if group[1] in ("tactic", "cycle"):
        return ""
    if group[1] == "derive":
        names = [name for name in group[3:-2] if name not in (",", "Drop")]
        return "#[derive(%s)]" % ", ".join(names)
    return "#" + mark + "".join(group)


def is_clause(reader):
    """Whether a word that says `requires` or `ensures` begins a clause: a group in braces, with a name or none."""
    ahead = 1 if reader.peek() == "*" else 0
    return reader.peek(ahead) == "{" or re.fullmatch(r"\w+", reader.peek(ahead)) and reader.peek(ahead + 1) == "{"


def is_left_out(reader):
    """Whether an impl is one of a trait of the kit that is left out."""
    ahead, names = 0, []
    while reader.peek(ahead) not in ("{", "for", ""):
        names.append(reader.peek(ahead))
        ahead += 1
    return reader.peek(ahead) == "for" and not LEFT_OUT.isdisjoint(names)


def use_path(reader, name, crates):
    """The beginning of a path that is used, where it names a crate or a part of the kit."""
    first = reader.take()
    if first == "crate":
        return "crate::" + name
    if first in crates:
        return "crate::" + first
    if (first, reader.peek(1)) in KIT_PATHS:
        reader.take()
        reader.take()
        return "crate::kit"
    return first if first == "std" else "crate::kit" if reader.peek() == "::" and first in ("smallvec",) else first


def translated(text, name, crates):
    """A source of a crate as a module's."""
    reader, out, last = Reader(text), [], ""
    while reader.at < len(reader.tokens):
        token = reader.tokens[reader.at]
        reader.at += 1
        if blank(token):
            out.append(token if token.isspace() else "")
            continue
        if token == "pub" and reader.peek() == "ghost":
            continue
        if token == "ghost":
            reader.skip_to(";" if reader.peek() == "use" else ",;")
        elif token in ("requires", "ensures") and is_clause(reader):
            while reader.peek() != "{":
                reader.take()
            reader.skip_group()
        elif token == "prove" and reader.peek() == "!":
            reader.skip_to(";")
        elif token == "#":
            out.append(attribute(reader))
        elif token == "impl" and is_left_out(reader):
            while reader.peek() != "{":
                reader.take()
            reader.skip_group()
        elif token == "use":
            out.append("use " + use_path(reader, name, crates))
        elif token == "crate" and reader.peek() == "::" and reader.peek(1) == "kit":
            out.append("crate")
        elif token == "crate" and reader.peek() == "::":
            out.append("crate::" + name)
        elif token == "vec" and reader.peek() == "!" and reader.peek(2) == "in":
            reader.take(), reader.take(), reader.take()
            out.append("kit_vec![")
        elif token in ("to_vec", "collect") and last == "." and reader.peek() == "(" and reader.peek(1) != ")":
            out.append("kit_" + token)
        else:
            out.append(token)
        last = token
    return "".join(out)


def sources(name):
    """The files of a crate without its tests: their paths without the ending, and their texts."""
    top = os.path.join(TOP, "crates", name, "src")
    for folder, _folders, files in sorted(os.walk(top)):
        for file in sorted(files):
            path = os.path.relpath(os.path.join(folder, file), top)[:-3]
            if file.endswith(".rt") and not re.search(r"(^|_)tests($|[/_])", path):
                with open(os.path.join(folder, file)) as source:
                    yield path, source.read()


def needed(all_crates):
    """The crates that the code of the roots names, and those below them."""
    found, open_crates = [], list(ROOTS)
    while open_crates:
        name = open_crates.pop()
        if name in found:
            continue
        found.append(name)
        for _file, text in sources(name):
            for word in re.findall(r"^\s*(?:pub )?use (\w+)", text, re.M):
                if word in all_crates:
                    open_crates.append(word)
    return sorted(found)


def write(path, text):
    """Writes a file where it changes."""
    os.makedirs(os.path.dirname(path), exist_ok=True)
    with open(path, "w") as file:
        file.write(text)


def main():
    out = sys.argv[1]
    crates = needed(set(os.listdir(os.path.join(TOP, "crates"))))
    for name in crates:
        for file, text in sources(name):
            text = re.sub(r"#\[cfg\(test\)\]\s*(pub )?mod \w+;", "", text)
            place = "mod" if file == "lib" else file
            write(os.path.join(out, "src", name, place + ".rs"), "use crate::kit::*;\n" + translated(text, name, crates))
    for part in ("kit", "main"):
        with open(os.path.join(TOP, "bench", "plain_%s.rs" % part)) as file:
            text = file.read()
        if part == "main":
            text = "#![allow(warnings)]\n" + "".join("mod %s;\n" % name for name in ["kit"] + crates) + text
        write(os.path.join(out, "src", part + ".rs"), text)
    subprocess.run(["rustc", "--edition", "2024", "-O", "-C", "codegen-units=4", "-C", "overflow-checks=on", "-o",
                    os.path.join(out, "plain"), os.path.join(out, "src", "main.rs")], check=True)


main()
