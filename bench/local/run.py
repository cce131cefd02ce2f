#!/usr/bin/env python3
"""Whole-stripe operations a second of `brick local`, next to a bare UDP echo, and bytes a second of `brick nbd`, next to those of `brick local`.

    bench/local/run.py PROGRAM [FOLDER]

PROGRAM is the program `brick`. The stores lie in FOLDER, a new folder of /dev/shm where it isn't given: a memory file system, so that the
syncs of a disk are not what is measured. There lie also the commands, which the program reads from a file, and its answers, which it writes to
one: with pipes, what is measured would be in part how fast this harness fills and empties them. The answers are checked afterwards. For each
layout it writes and reads whole stripes, and sends datagrams of the same number and sizes over a bare UDP socket, in turn, five times, and prints
the median of both rates, their ratio, and the ratio of the median processor times, which other work on the machine hardly changes. The project asks
for at least a fifth.

Then beside.py has `brick nbd` beside `brick local`, over FOLDER or /dev/shm, there on one processor too, and, if that may be mounted, over a memory file system of huge pages, where the programs have
huge pages for their heaps too, as far as the system gives them. Its clients are Debian's libnbd-bin and python3-libnbd; without them it is left out.
The project asks for at least as many bytes a second as `brick local` has, and would like 1.3 times as many.

All of it runs at a real-time priority if that is allowed, so that other work on the machine counts less. It takes about ten minutes.
"""

import os
import shutil
import statistics
import subprocess
import sys
import tempfile

from disks import commander, make, run_timed, take_priority

OPERATIONS = 2000
ROUNDS = 5
STRIPES = 64
HEAD = 6
CALL, STAMP = 28, 18
CLIENT, REPLY = HEAD + 22, HEAD + 9

# Mounts a file system of huge pages at $0 that only this process and its children see, and has them run the words behind it.
MOUNT = 'mount -t tmpfs -o huge=always none "$0" && exec "$@"'


def sizes(write, m, n, block):
    """The datagrams of an operation: of the client, of each phase with its replies, and of a write's Collect."""
    data = m * block
    if not write:
        found = HEAD + CALL + STAMP + 1 + STAMP + 2
        replies = [found + block] * m + [found] * (n - m)
        return [CLIENT] + [HEAD + CALL + 1] * n + replies + [REPLY + 4 + data]
    order = [HEAD + CALL + STAMP] * n + [HEAD + CALL] * n
    store = [HEAD + CALL + STAMP + 2 + block] * n + [HEAD + CALL] * n
    return [CLIENT + data] + order + store + [REPLY] + [HEAD + CALL + STAMP] * n


def local(program, folder, write, m, n, block):
    """Seconds and processor seconds for the operations by `brick local`, the start of the program left out."""
    run = commander(program, folder, make(program, folder, m, n, block, STRIPES), m, n, block, STRIPES)
    whole, start = run(write, OPERATIONS), run(write, 1)
    return whole[0] - start[0], whole[1] - start[1]


def beside_echo(program, place):
    """Prints the rates of `local` next to those of a bare echo."""
    here = os.path.dirname(os.path.abspath(__file__))
    with tempfile.TemporaryDirectory() as built:
        echo = os.path.join(built, "echo")
        subprocess.run(["rustc", "-O", "-o", echo, os.path.join(here, "echo.rs")], check=True)
        print("operation m n block | local/s | echo/s | ratio | by processor time", flush=True)
        for m, n in ((1, 3), (4, 6)):
            for block in (1024, 4096):
                for write in (True, False):
                    datagrams = [str(size) for size in sizes(write, m, n, block)]
                    ours, bare = [], []
                    for _ in range(ROUNDS):
                        with tempfile.TemporaryDirectory(dir=place) as folder:
                            ours.append(local(program, folder, write, m, n, block))
                        told, _, processor = run_timed([echo, str(OPERATIONS), *datagrams], text=True, stdout=subprocess.PIPE, check=True)
                        bare.append((float(told.stdout), processor))
                    (wall, busy), (bare_wall, bare_busy) = (map(statistics.median, zip(*them)) for them in (ours, bare))
                    name = f"{'write' if write else 'read'} {m} {n} {block}"
                    print(f"{name} | {OPERATIONS / wall:.0f} | {OPERATIONS / bare_wall:.0f} | {bare_wall / wall:.2f} | {bare_busy / busy:.2f}", flush=True)


def nbd_beside(program, place):
    """Prints the rates of `nbd` next to those of `local`, over a folder and over huge pages."""
    ours = [sys.executable, os.path.join(os.path.dirname(os.path.abspath(__file__)), "beside.py"), os.path.abspath(program)]
    for bound in ([], ["--one-processor"]):
        print(f"over {place}{', on one processor' if bound else ''}:", flush=True)
        subprocess.run([*ours, place, *bound], check=True)
    with tempfile.TemporaryDirectory() as folder:
        root = [] if os.geteuid() == 0 else ["--map-root-user"]
        mounts = ["unshare", *root, "--mount", "sh", "-c", MOUNT, folder]
        if subprocess.run([*mounts, "true"], stderr=subprocess.DEVNULL).returncode == 0:
            print("over huge pages:", flush=True)
            huge = {**os.environ, "GLIBC_TUNABLES": "glibc.malloc.hugetlb=1"}
            subprocess.run([*mounts, *ours, folder], check=True, env=huge)


def has_clients():
    """Whether the clients of NBD are there."""
    return shutil.which("nbdcopy") is not None and subprocess.run(["/usr/bin/python3", "-c", "import nbd"], cwd="/", stderr=subprocess.DEVNULL).returncode == 0


def main(words):
    if not 1 <= len(words) <= 2:
        print(__doc__, file=sys.stderr)
        return 2
    take_priority()
    place = words[1] if len(words) == 2 else "/dev/shm"
    beside_echo(words[0], place)
    if has_clients():
        nbd_beside(words[0], place)
    return 0


sys.exit(main(sys.argv[1:]))
