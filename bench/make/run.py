#!/usr/bin/env python3
"""How much processor time `replay make` takes, and how much memory.

    bench/make/run.py [PROGRAM] [--beside COMMAND].. [--seconds S]

It runs `make 7 200000`, `make 5 65536` and `make 5 1048576`, and prints a row for each: the processor time, user and system, of the run and of a line, and
the most memory that it held at one time. A last row says how many times as much a line of `make 5 1048576` takes as one of `make 5 65536`. A made schedule starts
bricks again and again, and each start folds the list of its store, which grows with the lines.

PROGRAM is crates/replay_main/out/replay_main where none is named; `cd crates/replay_main && rt run -- run < stdin` builds it. Each COMMAND, split at its spaces, is run
beside it with the same words, as another program that prints the same or an older build:

    bench/make/run.py --beside "/old/replay_main" --beside "python3 -m model"

The row of a COMMAND also says whether it printed what the program printed, and how many times as long it took. A run is ended after S seconds (600 where none are
named), and its row then says so. Let nothing else run on the machine meanwhile.
"""

import argparse
import os
import pathlib
import signal
import subprocess
import sys
import tempfile
import time

ROOT = pathlib.Path(__file__).resolve().parents[2]
SCHEDULES = [(7, 200_000), (5, 65_536), (5, 1_048_576)]


def run(command, printed, seconds):
    """Runs a command; gives its status (None where it was ended), processor seconds and kilobytes."""
    with open(printed, "wb") as sink:
        child = subprocess.Popen(command, stdin=subprocess.DEVNULL, stdout=sink)
    end = time.monotonic() + seconds
    ended = False
    while True:
        pid, state, used = os.wait4(child.pid, os.WNOHANG)
        if pid:
            child.returncode = os.waitstatus_to_exitcode(state)
            break
        if not ended and time.monotonic() > end:
            os.kill(child.pid, signal.SIGKILL)
            ended = True
        time.sleep(0.01)
    return None if ended else child.returncode, used.ru_utime + used.ru_stime, used.ru_maxrss


def main():
    words = argparse.ArgumentParser(description=__doc__.splitlines()[0])
    words.add_argument("program", nargs="?", default=str(ROOT / "crates/replay_main/out/replay_main"))
    words.add_argument("--beside", action="append", default=[], metavar="COMMAND")
    words.add_argument("--seconds", type=float, default=600)
    asked = words.parse_args()
    lines_of = {}
    with tempfile.TemporaryDirectory() as folder:
        printed = pathlib.Path(folder, "printed")
        for seed, lines in SCHEDULES:
            wanted, first = None, None
            for command in [[asked.program]] + [command.split() for command in asked.beside]:
                status, seconds, kilobytes = run(command + ["make", str(seed), str(lines)], printed, asked.seconds)
                text = printed.read_bytes()
                note = f"status {status}" if status is not None else f"ended after {asked.seconds:g} s"
                if wanted is None:
                    wanted, first = text, seconds
                    lines_of[seed, lines] = seconds / lines
                elif status is not None:
                    note += f", {seconds / first:.1f} times as long" + ("" if text == wanted else ", prints something else")
                each = 1e6 * seconds / lines
                print(f"make {seed} {lines:<8} {seconds:8.2f} s  {each:7.2f} us a line  {kilobytes / 1024:8.1f} MB  {note}: {' '.join(command)}")
                sys.stdout.flush()
    few, many = lines_of[5, 65_536], lines_of[5, 1_048_576]
    print(f"a line of the long one takes {many / few:.2f} times as much")


main()
