#!/usr/bin/env python3
"""Makes a stub of a crate, so that the crates above it can be proved while its bodies are not proved yet.

    bench/stubs/make.py CRATE FOLDER [LEMMAS ..]

Copies CRATE to FOLDER/crates/CRATE with its contracts and definitions, and with bodies that call a C function which never returns: its contract says what is false,
so each body is proved. Of the lemma files only those that are named, and those that they cite, are copied: the ones that crates above cite. Then

    cd FOLDER/crates/CRATE && RT_ALLOW_C=CRATE rt lib

builds the library. A stub proves nothing of its crate. It belongs in a scratch folder, and the gate refuses it, as it refuses all C.
"""

import os
import re
import shutil
import sys

FUNCTION = re.compile(r"^(\s*)(pub(\([a-z]+\))? )?(const )?(unsafe )?fn ")
CLAUSE = re.compile(r"^\s*(requires|ensures|decreases|where)")
NEVER = """//! A function that never returns.
unsafe extern "C" {
    // Never returns.
    safe fn never_returns() -> u8
        ensures nothing { ⊥ };
}

pub(crate) fn stub() -> bool
    ensures nothing { ⊥ }
{
    never_returns() == 0
}
"""


def body_at(lines, start, indent):
    """The line on which the body of the function at `start` begins, and whether it has one."""
    for at in range(start, len(lines)):
        line = lines[at].rstrip()
        if line == indent + "{":
            return at, True
        own = line.startswith(indent) and not line.startswith(indent + " ")
        if own and line.endswith(" {") and not CLAUSE.match(line):
            return at, True
        if line.endswith(("{}", "};")) or (line.endswith(";") and not line.startswith(indent + "  ")):
            return at, False
    raise SystemExit(f"no body: {lines[start]}")


def stubbed(text):
    """The text of a file of code, with stubs for bodies."""
    lines, out, at = text.split("\n"), [], 0
    while at < len(lines):
        found = FUNCTION.match(lines[at])
        if not found:
            # (what a tactic uses for a body says nothing for a stub)
            if not lines[at].lstrip().startswith("#[tactic(auto, "):
                out.append(lines[at])
            at += 1
            continue
        indent = found.group(1)
        begin, has_body = body_at(lines, at, indent)
        out += lines[at : begin + 1]
        at = begin + 1
        if has_body:
            out += [indent + "    crate::never::stub();", indent + "    unreachable!()", indent + "}"]
            at = lines.index(indent + "}", at) + 1
    return "\n".join(out)


def keep_lemmas(name, folder, wanted):
    """Removes the lemma files that are not wanted, and the answers of functions."""
    todo = list(wanted)
    while todo:
        with open(f"{folder}/{todo.pop()}.antt", encoding="utf-8") as it:
            cited = set(re.findall(rf"Rattle\.{name}\.proofs\.([A-Za-z]+)", it.read())) - wanted
        wanted |= cited
        todo += cited
    for it in os.listdir(folder):
        path = f"{folder}/{it}"
        if os.path.isdir(path):
            shutil.rmtree(path)
        elif it != "Lib.antt" and it.removesuffix(".antt") not in wanted:
            os.remove(path)
    with open(f"{folder}/Lib.antt", "w", encoding="utf-8") as it:
        it.write("".join(f"pub mod {module}\n" for module in sorted(wanted)))


def main(name, to, *lemmas):
    top = os.path.dirname(os.path.dirname(os.path.dirname(os.path.abspath(__file__))))
    made = f"{to}/crates/{name}"
    shutil.rmtree(made, ignore_errors=True)
    for part in ("src", "specs", "proofs"):
        if os.path.isdir(f"{top}/crates/{name}/{part}"):
            shutil.copytree(f"{top}/crates/{name}/{part}", f"{made}/{part}")
    for file in ("crates.txt", "HANDLES"):
        shutil.copyfile(f"{top}/{file}", f"{to}/{file}")
    if os.path.isdir(f"{made}/proofs"):
        keep_lemmas(name, f"{made}/proofs", set(lemmas))
    for at, _, files in os.walk(f"{made}/src"):
        for file in files:
            with open(f"{at}/{file}", encoding="utf-8") as it:
                text = it.read()
            with open(f"{at}/{file}", "w", encoding="utf-8") as it:
                it.write(stubbed(text))
    os.makedirs(f"{made}/c", exist_ok=True)
    with open(f"{made}/src/never.rt", "w", encoding="utf-8") as it:
        it.write(NEVER)
    with open(f"{made}/src/lib.rt", encoding="utf-8") as it:
        root = it.read()
    place = re.search(r"^(pub )?(mod|use) ", root, re.M).start()
    with open(f"{made}/src/lib.rt", "w", encoding="utf-8") as it:
        it.write(f"{root[:place]}mod never;\n{root[place:]}")


if len(sys.argv) < 3:
    raise SystemExit(__doc__)
main(*sys.argv[1:])
