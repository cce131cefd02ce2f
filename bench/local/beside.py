#!/usr/bin/env python3
"""Bytes a second of `brick nbd`, and of `brick local` beside it, over one memory file system.

    bench/local/beside.py PROGRAM FOLDER [--one-processor]

run.py runs it, over two file systems. The stores lie in new folders in FOLDER. m = 4, n = 6, a block has 4,096 bytes, a request of NBD 256 KiB, and a command of
`local` is a whole stripe. Each measurement moves 16 MiB. Each round makes all of them in turn, so that the two sides of a ratio are of the same few seconds. Printed are
medians of 21 rounds and, in brackets, the least and the most. Since other work on the machine only slows a round down, the ratio of the fastest rounds of both sides
is printed too, and last that of the processor times of the process `brick`; what the client takes is not in that one. What each row is docs/performance.md says.

With --one-processor all of it runs on one. Then what it takes to wake another, maybe virtual, processor is not measured: a client on one of its own has to wait for that.

The start of `brick` is left out of all, and nbdcopy's start only where its first request is. Each start, and each first request, is the median of three.
"""

import collections
import os
import statistics
import subprocess
import sys
import tempfile

from disks import commander, make, run_timed, served, take_priority, take_processor

ROUNDS = 21
STARTS = 3
M, N, BLOCK = 4, 6, 4096
DATA = M * BLOCK
COPIED, REQUEST = 16 * 2**20, 256 * 2**10
STRIPES = COPIED // DATA
# The stripes that are written or read again and again, of which as many bytes are moved as a copy has.
AGAIN = 64
# Bytes that are written to the file system, and removed, before anything is measured: memory that this machine never used may cost more at its first use.
TOUCHED = 256 * 2**20

# Bytes a second, and processor seconds a byte.
Rate = collections.namedtuple("Rate", "speed cost")

# A client of which one request is in flight, whose bytes lie in a buffer that is there. It goes over the stripes before the clock starts.
CLIENT = """
import os, time
h.connect_uri("nbd://127.0.0.1:{port}/v")
held = nbd.Buffer.from_bytearray(bytearray(os.urandom({request})))
wrote = held.to_bytearray()
round = range({again} // {request})
def ask(call, number):
    cookie = call(held, number * {request} % {again})
    while not h.aio_command_completed(cookie):
        h.poll(-1)
call = h.aio_pwrite if {write} else h.aio_pread
for number in round:
    ask(h.aio_pwrite, number)
for number in round:
    ask(call, number)
began = time.monotonic()
for number in range({requests}):
    ask(call, number)
print(time.monotonic() - began)
for number in round:
    ask(h.aio_pread, number)
    assert held.to_bytearray() == wrote
h.shutdown()
"""


def attend(program, disk, does):
    """What a client prints that does this, and the processor seconds of the program that serves it."""
    with served(program, disk) as process:
        told = subprocess.run(["/usr/bin/python3", "-m", "nbd", "-c", does], cwd="/", stdout=subprocess.PIPE, text=True, check=True).stdout
    return told, process.processor


def start_of(measure):
    """The medians of seconds and processor seconds that are measured a few times."""
    return map(statistics.median, zip(*[measure() for _ in range(STARTS)]))


def local_rate(run, write, commands):
    """The rate of so many commands of `local` but one."""
    start, start_processor = start_of(lambda: run(write, 1))
    whole, processor = run(write, commands)
    size = (commands - 1) * DATA
    return Rate(size / (whole - start), (processor - start_processor) / size)


def local_again(program, place, write):
    """The rate of `local` over 64 stripes again and again."""
    with tempfile.TemporaryDirectory(dir=place) as folder:
        run = commander(program, folder, make(program, folder, M, N, BLOCK, AGAIN), M, N, BLOCK, AGAIN)
        run(True, AGAIN)
        return local_rate(run, write, STRIPES)


def local_disk(program, place, write):
    """The rates of `local` over each stripe of a disk: of writes to a new one, and then to that one once more; or of reads from it."""
    with tempfile.TemporaryDirectory(dir=place) as folder:
        run = commander(program, folder, make(program, folder, M, N, BLOCK, STRIPES), M, N, BLOCK, STRIPES)
        if write:
            return local_rate(run, True, STRIPES), local_rate(run, True, STRIPES)
        run(True, STRIPES)
        return (local_rate(run, False, STRIPES),)


def nbd_again(program, place, write):
    """The rate of a session over 64 stripes again and again."""

    def session(requests):
        with tempfile.TemporaryDirectory(dir=place) as folder:
            disk = make(program, folder, M, N, BLOCK, AGAIN)
            told, processor = attend(program, disk, CLIENT.format(port=disk[2], request=REQUEST, again=AGAIN * DATA, write=write, requests=requests))
            return float(told), processor

    _, start_processor = start_of(lambda: session(0))
    seconds, processor = session(COPIED // REQUEST)
    return Rate(COPIED / seconds, (processor - start_processor) / COPIED)


def nbd_copies(program, place, write, size):
    """Seconds and processor seconds of nbdcopy for so many bytes, its start with it: to a new disk, and then to that one once more; or from it."""
    with tempfile.TemporaryDirectory(dir=place) as folder:
        disk = make(program, folder, M, N, BLOCK, size // DATA)
        there, back, volume = os.path.join(folder, "there"), os.path.join(folder, "back"), f"nbd://127.0.0.1:{disk[2]}/v"
        with open(there, "wb") as file:
            file.write(os.urandom(size))

        def copy(*words):
            _, start = attend(program, disk, f'h.connect_uri("{volume}"); h.shutdown()')
            with served(program, disk) as process:
                _, seconds, _ = run_timed(["nbdcopy", "--requests=1", "--connections=1", *words], check=True)
            return seconds, process.processor - start

        to, once_more, away = copy(there, volume), copy(there, volume) if write else None, copy(volume, back)
        with open(there, "rb") as one, open(back, "rb") as other:
            if one.read() != other.read():
                raise SystemExit("other bytes came back")
        return (to, once_more) if write else (away,)


def nbd_disk(program, place, write):
    """For each copy its rate, and its rate behind the first request."""
    first, _ = start_of(lambda: nbd_copies(program, place, write, REQUEST)[0])
    return [
        (Rate(COPIED / seconds, processor / COPIED), Rate((COPIED - REQUEST) / (seconds - first), processor / COPIED))
        for seconds, processor in nbd_copies(program, place, write, COPIED)
    ]


def measure(program, place, write):
    """The rows of a round: for each what `nbd` and `local` go over, and the rates of both."""
    local, session = local_again(program, place, write), nbd_again(program, place, write)
    copies, once = nbd_disk(program, place, write), local_disk(program, place, write)
    for disk, (whole, rest), each in zip(("a new disk", "the same once more") if write else ("a disk",), copies, once):
        yield f"{disk} | 64 stripes", whole, local
        yield f"{disk} | {disk}", rest, each
    yield "64 stripes | 64 stripes", session, local


def told(values, form):
    """The median of some numbers, the least and the most."""
    return f"{statistics.median(values):{form}} ({min(values):{form}} to {max(values):{form}})"


def row(pairs):
    """What is told of the rates of `nbd` and of `local` in each round."""
    nbds, locals_ = zip(*pairs)
    rates = (told([rate.speed / 1e6 for rate in side], ".0f") for side in (nbds, locals_))
    fastest = max(rate.speed for rate in nbds) / max(rate.speed for rate in locals_)
    ratio, processor = (told(them, ".2f") for them in zip(*[(nbd.speed / local.speed, local.cost / nbd.cost) for nbd, local in pairs]))
    return *rates, ratio, f"{fastest:.2f}", processor


def beside(program, place):
    """Prints the rows over the file system of a folder."""
    with tempfile.TemporaryFile(dir=place) as file:
        for _ in range(TOUCHED // 2**20):
            file.write(bytes(2**20))
    print("operation | nbd over | local over | nbd, MB/s | local, MB/s | ratio | of the fastest | by processor time", flush=True)
    for write in (True, False):
        for rounds in zip(*[list(measure(program, place, write)) for _ in range(ROUNDS)]):
            print("write" if write else "read", rounds[0][0], *row([rates for _, *rates in rounds]), sep=" | ", flush=True)


def main(words):
    bound = words[2:] == ["--one-processor"]
    if len(words) != 2 + bound:
        print(__doc__, file=sys.stderr)
        return 2
    take_priority()
    if bound:
        take_processor()
    beside(*words[:2])
    return 0


if __name__ == "__main__":
    sys.exit(main(sys.argv[1:]))
