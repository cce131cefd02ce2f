"""Disks of a layout, and `brick local` and `brick nbd` over one of them: what the programs of this folder share."""

import contextlib
import os
import resource
import subprocess
import time

LAYOUT = """block = {block}
bricks = {n}
records = {records}
port = {port}
[[group]]
m = {m}
members = [{members}]
stripes = {stripes}
[[volume]]
name = "v"
segments = [[0, 0, {stripes}]]
"""


def make(program, folder, m, n, block, stripes, records=4000):
    """The layout of a new disk in a folder, what the names of its stores begin with, and a TCP port."""
    port = 20000 + 64 * (os.getpid() % 512)
    layout = os.path.join(folder, "layout")
    with open(layout, "w") as text:
        members = ", ".join(map(str, range(n)))
        text.write(LAYOUT.format(block=block, n=n, m=m, port=port, members=members, stripes=stripes, records=records))
    stores = os.path.join(folder, "store")
    for brick in range(n):
        subprocess.run([program, "format", layout, f"{stores}.{brick}", str(brick)], check=True, stdout=subprocess.DEVNULL)
    return layout, stores, port + n


def take_priority():
    """Has all that runs from here on run at a real-time priority, if that is allowed."""
    with contextlib.suppress(PermissionError):
        os.sched_setscheduler(0, os.SCHED_FIFO, os.sched_param(1))


def take_processor():
    """Has all that runs from here on run on one processor. A client and what serves it then take turns, and neither waits for another processor to wake up."""
    os.sched_setaffinity(0, {max(os.sched_getaffinity(0))})


def run_timed(words, **options):
    """What a program ends with, and the seconds and processor seconds that it took."""
    before, began = resource.getrusage(resource.RUSAGE_CHILDREN), time.monotonic()
    ended = subprocess.run(words, **options)
    seconds, after = time.monotonic() - began, resource.getrusage(resource.RUSAGE_CHILDREN)
    return ended, seconds, after.ru_utime + after.ru_stime - before.ru_utime - before.ru_stime


def listens(port):
    """Whether a socket of this machine listens at a TCP port of 127.0.0.1."""
    with open("/proc/net/tcp") as table:
        rows = [line.split() for line in table.readlines()[1:]]
    return any(row[1] == f"0100007F:{port:04X}" and row[3] == "0A" for row in rows)


@contextlib.contextmanager
def served(program, disk):
    """`brick nbd` over a disk, until its client has said that it goes. What it took of a processor is known behind that."""
    layout, stores, port = disk
    process = subprocess.Popen([program, "nbd", layout, stores, str(port), str(10**15)], stdout=subprocess.PIPE, text=True)
    try:
        while not listens(port):
            if process.poll() is not None:
                raise SystemExit(f"nbd ended with {process.returncode}")
            time.sleep(0.005)
        yield process
        said = process.stdout.read()
        _, status, used = os.wait4(process.pid, 0)
        process.returncode = os.waitstatus_to_exitcode(status)
        process.processor = used.ru_utime + used.ru_stime
        if said != "nbd disc\n":
            raise SystemExit(f"nbd ended with {process.returncode}")
    finally:
        # It is still there if something went wrong.
        process.kill()
        process.stdout.close()


def is_answer(line, write, data):
    """Whether a line answers a command that writes, or one that reads so many bytes."""
    return line == "done\n" if write else line.startswith("data ") and len(line) == len("data ") + 2 * data + 1


def commander(program, folder, disk, m, n, block, stripes):
    """What runs so many commands over a disk of so many stripes, one stripe after another, and answers the seconds and processor seconds that it took."""
    layout, stores, _ = disk
    data = m * block
    commands, answers = os.path.join(folder, "commands"), os.path.join(folder, "answers")

    def run(write, operations):
        with open(commands, "w") as text:
            for k in range(operations):
                at = k % stripes * data
                text.write(f"write {k % n} v {at} {'5a' * data}\n" if write else f"read {k % n} v {at} {data}\n")
        with open(commands) as given, open(answers, "w") as taken:
            ended, seconds, processor = run_timed([program, "local", layout, stores, str(10**12)], stdin=given, stdout=taken)
        with open(answers) as text:
            good = sum(is_answer(line, write, data) for line in text)
        if ended.returncode != 0 or good != operations:
            raise SystemExit(f"local ended with {ended.returncode}: {good} of {operations} answered")
        return seconds, processor

    return run
