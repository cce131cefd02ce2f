#!/usr/bin/env python3
"""Whether the labels of pictures that `trace svg` draws overlap.

    bench/trace/labels.py [PROGRAM] [FILE]..

It runs the built program on each FILE (where none is named, on all inputs of crates/examples/data), reads the SVG, and looks at the box of
each label: 6.7 pixels a character, from 9 above its line to 3 below. Two boxes that share an inner place are printed, and the status is
then 1. Where `xmllint` is installed each picture is held to it too. An input that the program refuses has no picture, and is passed over.
PROGRAM is crates/trace_main/out/trace_main where none is named; `cd crates/trace_main && rt run -- text < stdin` builds it. The gate looks at
the labels of some pictures too (`svg` in crates/examples/stdin).
"""

import pathlib
import shutil
import subprocess
import sys
import xml.etree.ElementTree

ROOT = pathlib.Path(__file__).resolve().parents[2]


def boxes(svg):
    """The boxes of all labels."""
    for text in xml.etree.ElementTree.fromstring(svg).iter("{http://www.w3.org/2000/svg}text"):
        x, y, word = float(text.get("x")), float(text.get("y")), text.text or ""
        yield x, y - 9, x + 6.7 * len(word), y + 3, word


def overlaps(svg):
    """Pairs of labels that overlap."""
    found = []
    row = []
    for box in sorted(boxes(svg)):
        row = [other for other in row if other[2] > box[0]]
        found += [(other[4], box[4]) for other in row if other[1] < box[3] and box[1] < other[3]]
        row.append(box)
    return found


def main():
    words = sys.argv[1:]
    program = words[0] if words else str(ROOT / "crates/trace_main/out/trace_main")
    files = [pathlib.Path(word) for word in words[1:]]
    inputs = [(file.name, file.read_bytes()) for file in files]
    if not files:
        data = ROOT / "crates/examples/data"
        inputs = [(str(file.relative_to(data)), file.read_bytes()) for file in sorted(data.rglob("*.in"))]
    bad = drawn = labels = 0
    for name, data in inputs:
        run = subprocess.run([program, "svg"], input=data, capture_output=True)
        if run.returncode:
            continue
        drawn += 1
        labels += len(list(boxes(run.stdout)))
        for first, second in overlaps(run.stdout):
            bad += 1
            print(f"{name}: {first!r} and {second!r} overlap")
        if shutil.which("xmllint"):
            lint = subprocess.run(["xmllint", "--noout", "-"], input=run.stdout, capture_output=True)
            if lint.returncode:
                bad += 1
                print(f"{name}: {lint.stderr.decode()}")
    print(f"{drawn} pictures with {labels} labels, {bad} faults")
    return 1 if bad else 0


if __name__ == "__main__":
    sys.exit(main())
