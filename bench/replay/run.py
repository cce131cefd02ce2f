#!/usr/bin/env python3
"""How much processor time `replay run` takes a line, and how much memory.

    bench/replay/run.py [PROGRAM] [--beside COMMAND].. [--lines N].. [--stops N] [--calms N] [--moved N] [--late] [--openings N]
                        [--audits N] [--seconds S]

It makes schedules of 20,000, 100,000 and 1,000,000 lines (or of those that --lines names), runs the built program on each, and prints a
row: the processor time of the run, user and system, divided by the number of lines, and the most memory that it held at one time.
PROGRAM is crates/replay_main/out/replay_main where none is named; `cd crates/replay_main && rt run -- run < stdin` builds it.

Each COMMAND, split at its spaces, is run beside it on the same input, as another program that prints the same or an older build:

    bench/replay/run.py --beside "/old/replay_main run" --beside "python3 /elsewhere/model.py run" --lines 20000

The row of a COMMAND also says whether it printed what the program printed. A run is ended after S seconds (300 where none are named).
Its row then says so, and a longer schedule is not tried with that command. Let nothing else run on the machine meanwhile.

With --stops a schedule is run in their place that stops a brick so many times and starts it again: each time it crashes, its start is cut
short at one of the calls of its disk, with one of three picks, and then it starts. Every start opens its store.

With --calms a schedule of N writes is run in their place, each alone among all bricks, by a line `calm` of its own.

With --moved a group of N stripes, which one brick keeps, is run in their place: each stripe is written, and then another brick proposes itself as the
only member of the next view, and synchronises that. In the end both bricks hear that it is synced, and the first drops all that it kept.

With --late 180 operations begin in its place, and stay open while 40,000 writes run alone, one after another. Then a line `calm` has each of the 180
run alone. A row gives what these 180 lines took together, as the difference to a run without them. And a layout of 64 groups of 65,536 stripes is run
with ten lines, beside one of one group of 4: that row gives the difference between the two.

With --openings a brick's store is filled and then opened N times, by stops and starts of that brick: once with 150,000 orders of 8
stripes, and once with 150,000 writes that end. Each is run without the stops and starts too. A row gives what the starts alone took, divided by
N and by 150,000, and the most memory of both runs. A store of the writes holds an order and a version for each, and an opening reads each block.

With --audits what is printed for schedules of N lines is audited in their place: for the one below; for one of writes that only begin, of
which a brick has 64 open before it crashes and starts again, so that almost each of its lines prints a mark; and for one each of whose
lines finds nothing to do. The row gives the processor time of `run` and that of `audit` on what it printed.

The schedule: four bricks keep 64 stripes of two data blocks of 64 bytes (any two of a stripe's four blocks give its data back, and three
bricks are a quorum). Stripe after stripe, in turn, is written whole and then read, each time by one brick and over bricks 0, 1 and 2, and
each operation ends before the next one begins. So every line does work, and none is idle. Blocks differ from one write to the next.
No store is ever full: it has room for 1,048,576 records, of which a write takes one version, and an order at a stripe's first write.

A write takes 13 lines and sends 18 messages. With f the number of the first of them:

    f .. f+3        Order, to bricks 0 to 3        deliver f, f+1, f+2
    f+4 .. f+6      Ordered                        deliver each
    f+7 .. f+10     Write, to bricks 0 to 3        deliver f+7, f+8, f+9
    f+11 .. f+13    Stored                         deliver each; the write ends
    f+14 .. f+17    Collect, never delivered

A read takes 7 lines and sends 7 messages:

    f .. f+3        Read, to bricks 0 to 3         deliver f, f+1, f+2
    f+4 .. f+6      Found                          deliver each; the read ends
"""

import argparse
import os
import pathlib
import signal
import subprocess
import sys
import tempfile
import time

ROOT = pathlib.Path(__file__).resolve().parents[2]
LAYOUT = "block = 64\nbricks = 4\nrecords = 1048576\n[[group]]\nm = 2\nmembers = [0, 1, 2, 3]\nstripes = 64\n---\n"
WRITE_STEPS = [0, 1, 2, 4, 5, 6, 7, 8, 9, 11, 12, 13]
READ_STEPS = [0, 1, 2, 4, 5, 6]

FEW = "block = 1\nbricks = 3\nrecords = 1048576\n[[group]]\nm = 1\nmembers = [0, 1, 2]\nstripes = 8\n---\n"
FILLED = 150_000
LATE = 180


def schedule(lines):
    """The input of so many lines: whole pairs of a write and a read, as far as they go."""
    rows, first, pair = [], 1, 0
    while len(rows) < lines:
        stripe, brick = pair % 64, pair % 4
        data = pair.to_bytes(8, "big").hex() * 16
        rows.append(f"writeall {brick} 0 {stripe} {data}")
        rows += [f"deliver {first + step}" for step in WRITE_STEPS]
        first += 18
        rows.append(f"readall {brick} 0 {stripe}")
        rows += [f"deliver {first + step}" for step in READ_STEPS]
        first += 7
        pair += 1
    return LAYOUT + "".join(row + "\n" for row in rows[:lines])


def stops(count):
    """The input that cuts a brick's start short and starts it again, so many times."""
    rows = []
    for number in range(count):
        rows += ["crash 1", f"start 1 cut {1 + number % 6} pick {number % 3}", "start 1"]
    return LAYOUT + "".join(row + "\n" for row in rows)


def calms(count):
    """The input of so many writes, each of which runs alone among all bricks."""
    rows = []
    for number in range(count):
        rows += [f"writeall {number % 4} 0 {number % 64} {number % 256:02x}01", f"calm {number + 1} 0 1 2 3"]
    return LAYOUT.replace("block = 64", "block = 1") + "".join(row + "\n" for row in rows)


def moved(stripes):
    """The input that moves a group of so many stripes from brick 0 to brick 1."""
    rows, first = [], 1
    # Order, Ordered, Write, Stored, and a Collect that is never delivered
    for stripe in range(stripes):
        rows.append(f"writeall 0 0 {stripe} {1 + stripe % 255:02x}")
        rows += [f"deliver {first + step}" for step in range(4)]
        first += 5
    # Prepare, Promise, Accept, Accepted, and a Learn to both
    rows += ["view 1 0 1"] + [f"deliver {first + step}" for step in range(6)]
    first += 6
    # Read, Found, OrderRead, OrderedRead, OldRead, Old, Write, Stored, and a Collect that is never delivered
    rows.append("sync 1 0")
    for stripe in range(stripes):
        rows += [f"deliver {first + step}" for step in range(8)]
        first += 9
    # Synced to both
    rows += [f"deliver {first}", f"deliver {first + 1}"]
    layout = f"block = 1\nbricks = 2\nrecords = 1048576\n[[group]]\nm = 1\nmembers = [0]\nstripes = {stripes}\n---\n"
    return layout + "".join(row + "\n" for row in rows)


def late():
    """The input of 180 operations that stay open, of 40,000 writes that each run alone, and the lines that then have each of the 180 run alone."""
    rows = [f"writeall {number % 3} 0 {number // 3} {number % 256:02x}" for number in range(LATE)]
    for number in range(40_000):
        rows += [f"writeall 3 0 {60 + number % 4} {number % 256:02x}", f"calm {LATE + number + 1} 0 1 2 3"]
    layout = LAYOUT.replace("block = 64", "block = 1").replace("m = 2", "m = 1")
    return layout + "".join(row + "\n" for row in rows), "".join(f"calm {number + 1} 0 1 2 3\n" for number in range(LATE))


def wide(groups, stripes):
    """The input of ten lines under a layout of so many groups of so many stripes."""
    group = "[[group]]\nm = 1\nmembers = [0, 1, 2]\nstripes = {}\n".format(stripes)
    return "block = 1\nbricks = 3\nrecords = 1024\n" + group * groups + "---\n" + "writeall 0 0 0 41\ncalm 1 0 1 2\n" + "tick 0\n" * 8


def orders(count):
    """The input of so many orders of 8 stripes at brick 1, each with a later stamp than those before. Brick 0, which asks, may have 64 operations open."""
    rows = []
    for number in range(count):
        if number % 64 == 0:
            rows += ["crash 0", "start 0"] if number else []
            rows.append(f"clock 0 {1 + number}")
        rows += [f"writeall 0 0 {number % 8} {number % 256:02x}", f"deliver {4 * number + 2}"]
    return FEW + "".join(row + "\n" for row in rows)


def writes(count):
    """The input of so many writes of 8 stripes that end."""
    rows = []
    for number in range(count):
        rows += [f"writeall 0 0 {number % 8} {number % 256:02x}", f"calm {number + 1} 0 1 2"]
    return FEW + "".join(row + "\n" for row in rows)


def begins(lines):
    """The input of so many lines that begins writes, and stops their brick where it has as many open as it may have."""
    rows = []
    while len(rows) < lines:
        rows += [f"writeall 0 0 {place} 8001" for place in range(64)] + ["crash 0", "start 0"]
    return LAYOUT.replace("block = 64", "block = 1") + "".join(row + "\n" for row in rows[:lines])


def idles(lines):
    """The input of so many lines that find nothing to do."""
    return LAYOUT + "deliver 1000000000\n" * lines


def inputs(asked):
    """What is run, each with its number of lines."""
    if asked.stops:
        return [(3 * asked.stops, stops(asked.stops))]
    if asked.calms:
        return [(2 * asked.calms, calms(asked.calms))]
    if asked.moved:
        text = moved(asked.moved)
        return [(text.count("\n") - text[: text.index("---\n") + 4].count("\n"), text)]
    return [(lines, schedule(lines)) for lines in asked.lines or [20_000, 100_000, 1_000_000]]


def run(command, given, printed, seconds):
    """Runs a command; gives its status (None where it was ended), processor seconds and kilobytes."""
    with open(given, "rb") as source, open(printed, "wb") as sink:
        child = subprocess.Popen(command, stdin=source, stdout=sink)
    end = time.monotonic() + seconds
    ended = False
    while True:
        pid, state, used = os.wait4(child.pid, os.WNOHANG)
        if pid:
            child.returncode = os.waitstatus_to_exitcode(state)
            break
        if not ended and time.monotonic() > end:
            os.kill(child.pid, signal.SIGKILL)
            ended = True
        time.sleep(0.01)
    return None if ended else child.returncode, used.ru_utime + used.ru_stime, used.ru_maxrss


def least(command, text, folder, asked):
    """The least processor time of five runs of an input, and its status."""
    given, printed = (pathlib.Path(folder, name) for name in ["given", "printed"])
    given.write_text(text)
    found = [run(command, given, printed, asked.seconds) for _ in range(5)]
    return min(seconds for _, seconds, _ in found), found[0][0]


def differences(asked):
    """Runs schedules with and without what is to cost little, and prints a row for each."""
    open_long, calm_lines = late()
    pairs = [
        (f"{LATE} lines calm of operations that were open long", open_long, open_long + calm_lines),
        ("a layout of 64 groups of 65,536 stripes", wide(1, 4), wide(64, 65_536)),
    ]
    with tempfile.TemporaryDirectory() as folder:
        for what, plain, more in pairs:
            for command in [[asked.program, "run"]] + [words.split() for words in asked.beside]:
                before, _ = least(command, plain, folder, asked)
                after, status = least(command, more, folder, asked)
                print(f"{1e3 * (after - before):9.1f} ms more  {before:6.3f} and {after:6.3f} s  status {status}: {what}: {' '.join(command)}")
                sys.stdout.flush()


def openings(asked):
    """Runs schedules with and without openings of a full store, and prints a row for each."""
    starts = "crash 1\nstart 1\n" * asked.openings
    with tempfile.TemporaryDirectory() as folder:
        given, printed = (pathlib.Path(folder, name) for name in ["given", "printed"])
        for what, make in [("orders", orders), ("writes", writes)]:
            text = make(FILLED)
            for command in [[asked.program, "run"]] + [words.split() for words in asked.beside]:
                found = []
                for more in ["", starts]:
                    given.write_text(text + more)
                    found.append(run(command, given, printed, asked.seconds))
                (_, before, least), (status, after, most) = found
                each = 1e9 * (after - before) / (asked.openings * FILLED)
                sizes = f"{least / 1024:.1f} and {most / 1024:.1f} MB"
                print(f"{each:9.1f} ns for each of {FILLED} {what}  {before:6.2f} and {after:6.2f} s  {sizes}  status {status}: {' '.join(command)}")
                sys.stdout.flush()


def audits(asked):
    """Runs schedules, audits what was printed, and prints a row for each."""
    with tempfile.TemporaryDirectory() as folder:
        given, printed, found = (pathlib.Path(folder, name) for name in ["given", "printed", "found"])
        for what, make in [("reads and writes", schedule), ("writes that begin", begins), ("nothing to do", idles)]:
            schedule_text = make(asked.audits)
            layout = schedule_text[: schedule_text.index("---\n") + 4]
            given.write_text(schedule_text)
            status, ran, _ = run([asked.program, "run"], given, printed, asked.seconds)
            text = printed.read_text()
            given.write_text(layout + text)
            audited, took, kilobytes = run([asked.program, "audit"], given, found, asked.seconds)
            note = f"status {status}, then {audited}, {found.read_text().strip()}"
            print(f"{text.count(chr(10)):9} lines printed  run {ran:6.2f} s  audit {took:6.2f} s  {kilobytes / 1024:8.1f} MB  {note}: {what}")
            sys.stdout.flush()


def main():
    words = argparse.ArgumentParser(description=__doc__.splitlines()[0])
    words.add_argument("program", nargs="?", default=str(ROOT / "crates/replay_main/out/replay_main"))
    words.add_argument("--beside", action="append", default=[], metavar="COMMAND")
    words.add_argument("--lines", action="append", type=int, metavar="N")
    words.add_argument("--stops", type=int, metavar="N")
    words.add_argument("--calms", type=int, metavar="N")
    words.add_argument("--moved", type=int, metavar="N")
    words.add_argument("--late", action="store_true")
    words.add_argument("--openings", type=int, metavar="N")
    words.add_argument("--audits", type=int, metavar="N")
    words.add_argument("--seconds", type=float, default=300)
    asked = words.parse_args()
    if asked.late:
        return differences(asked)
    if asked.openings:
        return openings(asked)
    if asked.audits:
        return audits(asked)
    commands = [[asked.program, "run"]] + [command.split() for command in asked.beside]
    slow = set()
    with tempfile.TemporaryDirectory() as folder:
        for lines, text in inputs(asked):
            given = pathlib.Path(folder, "given")
            given.write_text(text)
            wanted = None
            for place, command in enumerate(commands):
                if place in slow:
                    continue
                printed = pathlib.Path(folder, "printed")
                status, seconds, kilobytes = run(command, given, printed, asked.seconds)
                text = printed.read_bytes()
                note = f"status {status}" if status is not None else f"ended after {asked.seconds:g} s"
                if status is None:
                    slow.add(place)
                elif place == 0:
                    wanted = text
                elif wanted is not None:
                    note += ", prints the same" if text == wanted else ", PRINTS SOMETHING ELSE"
                print(f"{lines:9} lines  {1e6 * seconds / lines:8.2f} us a line  {kilobytes / 1024:8.1f} MB  {note}: {' '.join(command)}")
                sys.stdout.flush()


if __name__ == "__main__":
    main()
