#!/usr/bin/env python3
"""How much processor time and memory it takes to open a store of the old format, and what that leaves.

    bench/old/run.py PROGRAM [VERSIONS ..] [--folder FOLDER] [--rounds N]
    bench/old/run.py --world REPLAY [--rounds N]

PROGRAM is the program `brick`. For each number of VERSIONS (100,000 and 1,000,000 where none are named; at most 1,048,576) it writes a store of format 1 that holds
as many versions, and serves one turn from it by `PROGRAM serve LAYOUT FILE 0 1`, twice. The first run opens the old store, which brings it over to format 2. The second
one opens what the first left. A row gives the processor time of both, user and system, by millisecond and by version, and the most memory that each held at one time. Of N rounds (3 where
none are named), each with the old store written anew, the least counts. What the first run left is read too: it has to hold the versions in their order, with each
block in its slot.

The versions have blocks of 64 bytes, no two of which are equal. They lie in one of three ways:

    alone       each is the only one of its stripe
    16 in turn  a stripe has 16 of them, one stripe's behind those of another
    16 apart    a stripe has 16 of them, one for each stripe, then the next for each stripe, as writes come that go over a disk again and again

The store has room for no more records than it has versions, so that at another number nothing else is the same: the layout has just the stripes that are needed, and
the file just the frames. The rows are held against three conditions: at the most versions the first run takes at most 4 times the processor time of the second, and at most
twice its memory; and a version takes at most twice as much as at the fewest, in either run. It ends with 1 if one of them doesn't hold.

The files lie in FOLDER, a new folder of /dev/shm where it isn't given: a memory file system, so that the syncs of a disk are not what is measured. They need 300 MB at a
million versions. Let nothing else run on the machine meanwhile.

With --world the program `replay` is given in place of `brick`. It runs three first starts in a layout with `store = 1`, at the limits of `records` and `block`: each of
three bricks starts, and brings the empty old store over that it was made with. Its row gives the processor time and the most memory. The goal is 600 MB: pages of a disk that nothing was
written to are to cost little.
"""

import argparse
import itertools
import os
import pathlib
import signal
import struct
import subprocess
import sys
import tempfile
import time

BLOCK, SHARED, STRIPES = 64, 16, 65_536
RECORDS, LARGEST = 1_048_576, 4_096
OPEN = 0xA5
HEADER = struct.Struct(">B7sBHHIQB6x")
FRAME = struct.Struct(">BBI")
PLACE_AND_STAMP = struct.Struct(">IIIIQHI")
OLD_REST, NEW_REST = struct.Struct(">BH"), struct.Struct(">BI")
OLD_VERSION, NEW_VERSION, OPENINGS = 5, 8, 1
PIECE = 1_000

WORLD_GOAL = 600
TIMES, MEMORY, GROWTH = 4, 2, 2


def alone(count):
    """The stripe and the time of each version, in the order in which they are written, where each has a stripe of its own."""
    return ((number, 1) for number in range(count))


def in_turn(count):
    """The same where a stripe has 16, one stripe's behind those of another."""
    return ((number // SHARED, 1 + number % SHARED) for number in range(count))


def apart(count):
    """The same where a stripe has 16, and each stripe gets one before any gets its next."""
    stripes = -(-count // SHARED)
    return itertools.islice(((number % stripes, 1 + number // stripes) for number in itertools.count()), count)


def apart_listed(count):
    """The same versions, stripe by stripe and from the oldest on, as they are listed once they were brought over."""
    stripes = -(-count // SHARED)
    return ((stripe, moment) for stripe in range(stripes) for moment in range(1, 1 + -(-(count - stripe) // stripes)))


# What each way is called, how its versions are written, how they are listed once they were brought over, and how many a stripe has.
WAYS = [
    ("alone", alone, alone, 1),
    ("16 in turn", in_turn, in_turn, SHARED),
    ("16 apart", apart, apart_listed, SHARED),
]


def layout_of(count, each):
    """The layout with just the stripes that so many versions need, each of which has so many, in groups of 65,536 at most."""
    port = 20_000 + os.getpid() % 40_000
    text, left = f"block = {BLOCK}\nbricks = 1\nrecords = {count}\nport = {port}\n", -(-count // each)
    while left > 0:
        text += f"[[group]]\nm = 1\nmembers = [0]\nstripes = {min(left, STRIPES)}\n"
        left -= STRIPES
    return text


def frame(kind, body):
    """The bytes of a frame of a list."""
    return FRAME.pack(OPEN, kind, len(body)) + body


def version(stripe, moment):
    """The place and the stamp of a version, stripes counted through all groups, and its block."""
    group, place = divmod(stripe, STRIPES)
    return PLACE_AND_STAMP.pack(group, 1, place, 1, moment, 0, 1), struct.pack(">IHH", stripe, moment, 1) * (BLOCK // 8)


def write_old(path, count, versions):
    """Writes the store of format 1: its headers, of which A is open, and the list of its half A. Piece by piece, so that this process stays small."""
    with open(path, "wb") as file:
        for gate in (OPEN, 0):
            file.write(HEADER.pack(gate, b"FABSTOR", 1, 0, BLOCK, count, gate & 1, 0))
        for stripe, moment in versions:
            named, block = version(stripe, moment)
            file.write(frame(OLD_VERSION, named + OLD_REST.pack(0, BLOCK) + block))
        file.write(b"\0")


def is_brought_over(path, count, versions):
    """Whether a file holds the versions in the new format: header B in force, the slots behind the old halves, each block in the slot of its place, and one opening."""
    slots = HEADER.size * 2 + 2 * (2 * count + 512) * (BLOCK + 256)
    index = slots + count * BLOCK + (2 * count + 512) * 256
    with open(path, "rb") as file, open(path, "rb") as behind:
        file.seek(HEADER.size)
        if file.read(HEADER.size) != HEADER.pack(OPEN, b"FABSTOR", 2, 0, BLOCK, count, 2, 1):
            return False
        file.seek(index)
        behind.seek(slots)
        for slot in range(0, count, PIECE):
            piece = [version(*next(versions)) for _ in range(min(PIECE, count - slot))]
            listed = b"".join(frame(NEW_VERSION, named + NEW_REST.pack(0, slot + at)) for at, (named, _) in enumerate(piece))
            blocks = b"".join(block for _, block in piece)
            if file.read(len(listed)) != listed or behind.read(len(blocks)) != blocks:
                return False
        last = frame(OPENINGS, struct.pack(">I", 1)) + b"\0"
        return file.read(len(last)) == last


def run(command, printed, given=os.devnull):
    """Runs a command; gives its status, processor seconds and bytes of memory.

    Linux counts as a child's memory at least what this process held as the child began, so this process reads and writes files piece by piece."""
    with open(given, "rb") as source, open(printed, "wb") as sink:
        child = subprocess.Popen(command, stdin=source, stdout=sink)
    try:
        _, state, used = os.wait4(child.pid, 0)
    except BaseException:
        os.kill(child.pid, signal.SIGKILL)
        raise
    child.returncode = os.waitstatus_to_exitcode(state)
    return child.returncode, used.ru_utime + used.ru_stime, used.ru_maxrss * 1024


def served(program, layout, store, printed):
    """Serves one turn from a store; gives processor seconds and bytes of memory."""
    status, seconds, memory = run([program, "serve", layout, store, "0", "1"], printed)
    text = printed.read_text()
    if status != 0 or text != "serving 0\nended 1 malformed 0\n":
        raise SystemExit(f"serve ended with {status}, and printed {text!r}")
    return seconds, memory


def row(asked, folder, count, way):
    """Measures so many versions in one way; prints the row, and gives seconds and memory of both runs."""
    name, written, listed, each = way
    layout, store, printed = (pathlib.Path(folder, name) for name in ["layout", "store", "printed"])
    layout.write_text(layout_of(count, each))
    rounds = []
    for number in range(asked.rounds):
        write_old(store, count, written(count))
        first = served(asked.program, layout, store, printed)
        if number == 0 and not is_brought_over(store, count, listed(count)):
            raise SystemExit(f"{name}, {count} versions: the first run left another store than it should")
        rounds.append((first, served(asked.program, layout, store, printed)))
        store.unlink()
    first, second = (tuple(min(them) for them in zip(*runs)) for runs in zip(*rounds))
    columns = [f"{1e3 * seconds:7.0f} ms {1e9 * seconds / count:6.0f} ns a version {memory / 1e6:6.1f} MB" for seconds, memory in (first, second)]
    print(f"{count:9} {name:10} | old: {columns[0]} | brought over: {columns[1]} | {first[0] / second[0]:.2f} {first[1] / second[1]:.2f}", flush=True)
    return first, second


def holds(what, found, limit):
    """Prints whether a condition holds, and gives it."""
    print(f"{'holds' if found <= limit else 'DOES NOT HOLD'}: {what}: {found:.3f}, at most {limit:g}")
    return found <= limit


def stores(asked):
    """Prints the rows of all numbers and ways, and whether the conditions hold; gives whether all do."""
    print("versions, and how they lie | first run | second run | first by second: processor time, memory")
    good, counts = True, sorted(asked.versions or [100_000, 1_000_000])
    with tempfile.TemporaryDirectory(dir=asked.folder) as folder:
        rows = [[row(asked, folder, count, way) for count in counts] for way in WAYS]
    fewest, most = counts[0], counts[-1]
    for (name, *_), found in zip(WAYS, rows):
        (seconds, memory), (again, memory_again) = found[-1]
        good &= holds(f"{name}, processor time of the first run by that of the second", seconds / again, TIMES)
        good &= holds(f"{name}, memory of the first run by that of the second", memory / memory_again, MEMORY)
        if fewest < most:
            for which, run_of in enumerate(["first", "second"]):
                each, least = found[-1][which][0] / most, found[0][which][0] / fewest
                good &= holds(f"{name}, a version of the {run_of} run by one where there are {fewest}", each / least, GROWTH)
    return good


def world(asked):
    """Runs three first starts at the limits, and prints the row; gives whether the goal is met."""
    text = f"block = {LARGEST}\nbricks = 3\nrecords = {RECORDS}\nstore = 1\n[[group]]\nm = 1\nmembers = [0, 1, 2]\nstripes = 4\n---\n"
    with tempfile.TemporaryDirectory() as folder:
        given, printed = (pathlib.Path(folder, name) for name in ["given", "printed"])
        given.write_text(text + "".join(f"start {brick}\n" for brick in range(3)))
        found = [run([asked.world, "run"], printed, given) for _ in range(asked.rounds)]
        if any(status != 0 for status, _, _ in found):
            raise SystemExit(f"run ended with {[status for status, _, _ in found]}, and printed {printed.read_text()!r}")
        text = printed.read_text()
    seconds, memory = (min(them) for them in list(zip(*found))[1:])
    print(f"three first starts, records = {RECORDS}, block = {LARGEST}: {1e3 * seconds:.0f} ms, {memory / 1e6:.1f} MB, printed {text.splitlines()}")
    return holds("memory of three first starts, in MB", memory / 1e6, WORLD_GOAL)


def main():
    words = argparse.ArgumentParser(description=__doc__.splitlines()[0])
    words.add_argument("program", nargs="?")
    words.add_argument("versions", nargs="*", type=int)
    words.add_argument("--world", metavar="REPLAY")
    words.add_argument("--folder", default="/dev/shm")
    words.add_argument("--rounds", type=int, default=3, metavar="N")
    asked = words.parse_args()
    if (asked.program is None) == (asked.world is None):
        words.error("name one program: PROGRAM, or --world REPLAY")
    if not all(1 <= count <= RECORDS for count in asked.versions) or asked.rounds < 1:
        words.error(f"VERSIONS are 1 to {RECORDS}, and there is at least one round")
    return 0 if (world if asked.world else stores)(asked) else 1


if __name__ == "__main__":
    sys.exit(main())
