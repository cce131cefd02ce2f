#!/usr/bin/env python3
"""Reads the pages of this repository as a reader would, and ends with 1 where one of them is hard to read or leads nowhere.

    bench/pages.py [FILE..]

Without FILE: README.md, docs/*.md and bench/gate/README.md. It prints, and counts:
- each sentence of more than 40 words. Tables, code blocks, headings and quotations are left out; a piece of code within a sentence is one word;
- each word of the list below, which the pages don't use, with what they say in its place;
- each link to a file of this repository, and each file in code with its folder, that is not there. Such a file may be given from the top, from `crates/`, or from
  the folder of any crate.
"""

import glob
import os
import re
import sys

MOST_WORDS = 40
UNUSED = {
    "want of memory": "out of memory",
    "befall": "fault",
    "in whose midst": "during which",
    "so-manieth": "number n",
    "mean ill": "hostile",
}
FILE = re.compile(r"`(?:\.\./)*([\w.-]+(?:/[\w.-]+)*/[\w.-]+\.(?:rt|antt|md|py|sh|svg|rs|c))(?::\d+)?`")
TOP = os.path.dirname(os.path.dirname(os.path.abspath(__file__)))


def blocks(text):
    """The paragraphs and list items of a page, each with the number of its first line."""
    block, begun, fenced = [], 0, False
    for number, line in enumerate(text.split("\n") + [""], 1):
        if line.lstrip().startswith("```"):
            fenced = not fenced
            line = ""
        bare = re.sub(r"^\s*(>\s?)*", "", line)
        is_code = fenced or (not block and line.startswith("    "))
        is_skipped = is_code or line.lstrip().startswith(">") or bare.startswith(("|", "#", "<", "!["))
        is_item = re.match(r"([-*]|\d+\.)\s", bare)
        if block and (not bare or is_skipped or is_item):
            yield begun, " ".join(block)
            block = []
        if bare and not is_skipped:
            if not block:
                begun = number
            block.append(re.sub(r"^([-*]|\d+\.)\s+", "", bare) if is_item else bare)


def sentences(block):
    """The sentences of a paragraph, in which each piece of code is one word."""
    plain = re.sub(r"`[^`]*`", "CODE", block)
    plain = re.sub(r"\[([^\]]*)\]\([^)]*\)", r"\1", plain)
    plain = re.sub(r"\b(et al|e\.g|i\.e|cf|vs)\.", r"\1", plain)
    return re.split(r"(?<=[.!?])[)\"*]*\s+(?=[\"(*]*[A-Z0-9])", plain)


def is_there(file):
    """Whether a file is there, from the top, from `crates/` or from the folder of some crate."""
    return any(glob.glob(f"{TOP}/{folder}{file}") for folder in ("", "crates/", "crates/*/"))


def faults_of(path):
    """What is amiss in a page: lines to print."""
    with open(path) as it:
        text = it.read()
    name = os.path.relpath(path, TOP)
    for number, block in blocks(text):
        for sentence in sentences(block):
            count = len([word for word in sentence.split() if re.search(r"\w", word)])
            if count > MOST_WORDS:
                yield f"{name}:{number}: {count} words: {sentence[:100]}.."
    for number, line in enumerate(text.split("\n"), 1):
        for word, instead in UNUSED.items():
            if word in line.lower():
                yield f"{name}:{number}: says '{word}': say '{instead}'"
        for link in re.findall(r"\]\(([^)#\s]+)[^)]*\)", line):
            if "://" not in link and not os.path.exists(os.path.join(os.path.dirname(path), link)):
                yield f"{name}:{number}: no such file: {link}"
        for file in FILE.findall(line):
            if not is_there(file):
                yield f"{name}:{number}: no such file: {file}"


def main(words):
    pages = [os.path.abspath(word) for word in words] or [
        f"{TOP}/README.md", *sorted(glob.glob(f"{TOP}/docs/*.md")), f"{TOP}/bench/gate/README.md"]
    found = [fault for page in pages for fault in faults_of(page)]
    print("\n".join([*found, f"{len(pages)} pages, {len(found)} faults"]))
    return 1 if found else 0


sys.exit(main(sys.argv[1:]))
