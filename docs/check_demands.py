#!/usr/bin/env python3
"""Checks docs/DEMANDS.md: every link leads to a file, every linked name is defined in it, every must-fail edit stands in a row, and no name in a row is without a link."""
import functools
import os
import re
import sys
from pathlib import Path

DOCS = Path(__file__).resolve().parent
TOP = DOCS.parent
PAGE = DOCS / "DEMANDS.md"

# Columns in the words of the specification: what is backquoted there is Framed code, a byte or a program.
SENTENCES = {"Sentence", "What is sent back"}
# Words of the language, which may be backquoted in the other columns without a link.
WORDS = {"requires", "let .. else", "ensures knows"}

# [text][key], [text](path), or [key] alone
LINK = re.compile(r"\[([^\[\]]+)\](?:\[([^\[\]]+)\]|\(([^()]+)\))?")
TARGET = re.compile(r"\[([^\[\]]+)\]: (\S+)$")
# a record or data type; a function, theorem, field or constructor with its type
ANTT = re.compile(r"( *)(?:(?:unfoldable|abbrev|pub) )*(?:(record|data) (\S+)|(\S+) :(?: |$))")
# a function or type; a named clause of a contract
RATTLE = re.compile(r"\b(?:fn|enum|struct|ensures) (\w+)")


@functools.cache
def defined(path):
    """The names that a file defines. A field or constructor counts alone and behind its type, as `Type.field`."""
    names = set()
    lines = [line for line in path.read_text().splitlines() if not line.lstrip().startswith(("--", "//"))]
    if path.suffix == ".rt":
        for line in lines:
            names.update(RATTLE.findall(line))
        return {f"{crate(path)}::{name}" for name in names} | names
    indent, outer = 0, None
    for line in lines:
        here = len(line) - len(line.lstrip())
        if line.strip() and here <= indent:
            outer = None
        if found := ANTT.match(line):
            name = found[3] or found[4]
            names.add(name)
            if found[2]:
                indent, outer = here, name
            elif outer:
                names.add(f"{outer}.{name}")
    return names


def crate(path):
    return path.parts[len(TOP.parts) + 1] if path.is_relative_to(TOP / "crates") else None


def cells(row):
    return [cell.strip() for cell in re.split(r"(?<!\\)\|", row)[1:-1]]


def main():
    errors = []
    targets, links, in_rows, used = {}, 0, set(), set()
    lines = PAGE.read_text().splitlines()

    for number, line in enumerate(lines, 1):
        if found := TARGET.match(line):
            key = found[1].lower()  # as Markdown compares them
            if key in targets:
                errors.append(f"{number}: [{found[1]}] is given twice")
            targets[key] = found[2]

    header = None
    for number, line in enumerate(lines, 1):
        if TARGET.match(line):
            continue
        row = line.startswith("|")
        for text, key, path in LINK.findall(line):
            links += 1
            key = (key or text).lower()
            if not path and key not in targets:
                errors.append(f"{number}: [{key}] has no link")
                continue
            used.add(key)
            file = Path(os.path.normpath(DOCS / (path or targets[key])))
            if not file.is_file():
                errors.append(f"{number}: {text}: there is no {path or targets[key]}")
            elif text.startswith("`"):
                if text.strip("`") not in defined(file):
                    errors.append(f"{number}: {text} is not defined in {file.relative_to(TOP)}")
            elif not path and text.split("/") != [crate(file), *text.split("/")[1:-1], file.stem]:
                errors.append(f"{number}: {text} is not {file.relative_to(TOP)}")
            elif row and file.suffix == ".edit":
                in_rows.add(file)

        if not row:
            header = None
        elif header is None:
            header = cells(line)
        elif not line.startswith("|--"):
            columns = cells(line)
            if len(columns) != len(header):
                errors.append(f"{number}: {len(columns)} columns, not {len(header)}")
            for column, cell in zip(header, columns):
                rest = LINK.sub("", cell)
                if column not in SENTENCES:
                    errors += [f"{number}: `{name}` is no link" for name in re.findall(r"`([^`]+)`", rest) if name not in WORDS]
                errors += [f"{number}: {name} is no link" for name in re.findall(r"[\w/-]*\w[_/]\w[\w/-]*", re.sub(r"`[^`]+`", "", rest))]

    edits = set(TOP.glob("crates/*/must-fail/*.edit"))
    errors += [f"{file.relative_to(TOP)} is in no row" for file in sorted(edits - in_rows)]
    errors += [f"the link [{key}] is not used" for key in sorted(targets.keys() - used)]

    for error in errors:
        print(f"docs/DEMANDS.md: {error}")
    if not errors:
        print(f"docs/DEMANDS.md: {links} links, {len(edits)} edits, all there")
    return 1 if errors else 0


sys.exit(main())
