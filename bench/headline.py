#!/usr/bin/env python3
"""Holds docs/HEADLINE.md against the definitions that it lists, and ends with 1 where the two differ.

    bench/headline.py [--mend]

A row of a table there is a definition: its file and line, its name, how many lines it has, and what its own comment says. The tool looks for the
name in that file, or in the only other one of its kind that defines it: look whether what moved so is what was meant. It then compares the line, the count
and the text, and with --mend writes them.
So a row is added by its file and name alone, as `| `FILE:0` | `NAME` | 0 | |`. A row with files in its second column and a number in its third
has the count of all lines of these files or folders; `this page` stands for all definitions that are listed.

Lines are counted in one way: without imports, comments and blank lines. A text is the comment of a definition, of a Rust item its first sentence.
"""

import glob
import os
import re
import sys

TOP = os.path.dirname(os.path.dirname(os.path.abspath(__file__)))
PAGE = f"{TOP}/docs/HEADLINE.md"
ROW = re.compile(r"^\| `([^`:]+):(\d+)` \| `([^`]+)` \| ([\d,]*) \| (.*?) ?\|$")
SUM = re.compile(r"^\| ([^|]*) \| ((?:`[^`]+`(?:, )?)+|this page) \| ([\d,]+) \|$")
WORDS_BEFORE = {"abbrev", "unfoldable", "opaque", "pub", "record", "data"}


def lines_of(path):
    with open(f"{TOP}/crates/{path}") as it:
        return it.read().split("\n")


def is_code(line):
    """Whether a line counts: it is no import, no comment and not blank."""
    return not re.match(r"\s*($|--|//|#!?\[|(pub |ghost )*use )", line)


def begins(path, line, name):
    """Whether a definition of this name begins on a line."""
    if path.endswith(".rt"):
        return re.match(r"\s*pub (enum|struct|trait|fn|const) " + re.escape(name) + r"\b", line)
    words = line.split()
    while words and words[0] in WORDS_BEFORE:
        words.pop(0)
    return not line.startswith(" ") and words[:1] == [name] and " : " in line.partition(" = ")[0]


def places(path, name):
    """The lines, from 0, at which a file defines a name."""
    return [at for at, line in enumerate(lines_of(path)) if begins(path, line, name)] if os.path.exists(f"{TOP}/crates/{path}") else []


def find(path, name):
    """The file and line of a definition: in this file, or else in the only one of its kind that has it, of this crate or of any."""
    at = places(path, name)
    kind = "src/**/*.rt" if path.endswith(".rt") else "specs/**/*.antt"
    for root in () if at else (path.split("/")[0], "*"):
        files = sorted(glob.glob(f"{TOP}/crates/{root}/{kind}", recursive=True))
        found = [(other, places(other, name)) for other in (os.path.relpath(file, f"{TOP}/crates") for file in files)]
        found = [(other, at) for other, at in found if at]
        if len(found) == 1:
            path, at = found[0]
            break
    return (path, at[0]) if len(at) == 1 else None


def size(path, at):
    """How many lines a definition has."""
    lines = lines_of(path)
    end = at + 1
    if path.endswith(".rt"):
        while lines[end].rstrip() not in ("}", "{", "    }", "    {"):
            end += 1
        end += lines[end].rstrip() == "}"
    else:
        while end < len(lines) and lines[end] and not lines[end].startswith("--"):
            end += 1
    return sum(map(is_code, lines[at:end]))


def says(path, at):
    """What the comment of a definition says."""
    lines, words = lines_of(path), []
    while at > 0 and re.match(r"\s*(--|///|#\[|infix)", lines[at - 1]):
        at -= 1
        words.insert(0, re.sub(r"^\s*(--|///|(#\[|infix).*) ?", "", lines[at]))
    text = " ".join(words).strip()
    if path.endswith(".rt"):
        text = re.split(r"\.(\s|$)", text)[0]
    text = text.removesuffix(".").replace("|", "\\|")
    return text[:1].upper() + text[1:]


def size_of(paths):
    """How many lines files and folders have."""
    files = [file for path in paths for file in ([path] if "." in path else sorted(
        os.path.relpath(it, f"{TOP}/crates") for it in glob.glob(f"{TOP}/crates/{path}/*.antt")))]
    return sum(is_code(line) for file in files for line in lines_of(file))


def mended(page):
    """The lines of the page as they should be, and what was amiss."""
    faults, total, sums = [], 0, []
    for number, line in enumerate(page):
        row, sum_row = ROW.match(line), SUM.match(line)
        if sum_row:
            sums.append((number, sum_row))
        elif row:
            path, at, name, count, text = row.groups()
            found = find(path, name)
            if found is None:
                faults.append(f"{PAGE}:{number + 1}: no one definition of {name}")
                continue
            if found[0] != path:
                print(f"{name} is no longer in {path}: taken from {found[0]}")
            here, lines = f"{found[0]}:{found[1] + 1}", size(*found)
            total += lines
            own = says(*found)
            if not own:
                faults.append(f"{PAGE}:{number + 1}: {name} has no comment")
            page[number] = f"| `{here}` | `{name}` | {lines} | {own or text} |"
        elif re.match(r"^\| `[^`]+:\d+`", line):
            faults.append(f"{PAGE}:{number + 1}: no row of a definition: {line[:60]}")
    for number, row in sums:
        what, where, _ = row.groups()
        lines = total if where == "this page" else size_of(re.findall(r"`([^`]+)`", where))
        page[number] = f"| {what} | {where} | {lines:,} |"
    return page, faults, total


def main(words):
    with open(PAGE) as it:
        text = it.read()
    page, faults, total = mended(text.split("\n"))
    differ = [f"{PAGE}:{at}: is  {old}\n  should be {new}" for at, (old, new) in enumerate(zip(text.split("\n"), page), 1) if old != new]
    if words == ["--mend"] and differ:
        with open(PAGE, "w") as it:
            it.write("\n".join(page))
    if words != ["--mend"]:
        faults += differ
    print("\n".join([*faults, f"{total:,} lines of definitions, {len(differ)} lines of the page {'mended' if words == ['--mend'] else 'differ'}"]))
    return 1 if faults else 0


sys.exit(main(sys.argv[1:]))
