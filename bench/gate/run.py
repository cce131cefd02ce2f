#!/usr/bin/env python3
"""What the gate costs, crate by crate.

    bench/gate/run.py [FILE]

Runs `rt ci --anew` in this repository, which proves all from nothing, whatever earlier runs kept on this machine. It writes what that prints to
FILE (bench/gate/printed, if it isn't given), and then prints the processor seconds (user and system) of each crate's proof with its programs' builds,
of the tools that those started (LLVM and linkers), and of its wrong bodies, and the sum that the system counts for the whole run.
It looks at the running checks each half second, so that the last half second of each is missing: the sum of the crates is some hundredths less
than the whole. Checks that others run beside it don't count, but they slow its processors: run it with nothing else on the machine, or compare by
`layout`. It ends with the status of `rt ci`.
"""

import collections
import os
import re
import resource
import subprocess
import sys
import threading
import time

TICKS = os.sysconf("SC_CLK_TCK")
PAUSE = 0.5


def running():
    """Each running process by its number: its parent's, when it began, its words, its folder, and its processor seconds so far."""
    found = {}
    for name in os.listdir("/proc"):
        if not name.isdigit():
            continue
        try:
            with open(f"/proc/{name}/cmdline", "rb") as it:
                words = it.read().decode(errors="replace").split("\0")
            folder = os.readlink(f"/proc/{name}/cwd")
            with open(f"/proc/{name}/stat") as it:
                fields = it.read().rpartition(")")[2].split()
        except OSError:
            continue
        found[name] = fields[1], fields[19], words, folder, (int(fields[11]) + int(fields[12])) / TICKS
    return found


def is_check(words):
    """Whether these are the words of a check of a crate, or of a build."""
    return words[0].endswith("/rattle") and "--crate-name" in words


def is_ours(found, name):
    """Whether this process was started, maybe by others between, by this one."""
    while name in found and name != str(os.getpid()):
        name = found[name][0]
    return name in found


def running_checks():
    """Each check that this run started, and each tool that one started: its process and when that began, its crate, what it counts for, and its
    seconds."""
    found = running()
    for name, (_, begun, own, _, seconds) in found.items():
        above = name
        while above in found and not is_check(found[above][2]):
            above = found[above][0]
        if above in found and is_ours(found, above):
            _, _, words, folder, _ = found[above]
            kind = "wrong bodies" if "rt-edit" in folder else "proof" if is_check(own) else "tools"
            yield (name, begun), words[words.index("--crate-name") + 1], kind, seconds


def watch(found, ended):
    """Notes the running checks until `ended` is set."""
    while not ended.wait(PAUSE):
        for process, crate, kind, seconds in running_checks():
            found[process] = crate, kind, seconds


def main(words):
    top = os.path.dirname(os.path.dirname(os.path.dirname(os.path.abspath(__file__))))
    printed = words[0] if words else os.path.join(top, "bench", "gate", "printed")
    found, ended = {}, threading.Event()
    watcher = threading.Thread(target=watch, args=(found, ended))
    began = time.monotonic()
    watcher.start()
    with open(printed, "w") as out:
        status = subprocess.run(["rt", "ci", "--anew"], cwd=top, stdout=out, stderr=subprocess.STDOUT, stdin=subprocess.DEVNULL).returncode
    wall = time.monotonic() - began
    ended.set()
    watcher.join()
    used = resource.getrusage(resource.RUSAGE_CHILDREN)
    spent = {kind: collections.Counter() for kind in ("proof", "tools", "wrong bodies")}
    for crate, kind, seconds in found.values():
        spent[kind][crate] += seconds
    print("crate | proof and builds, s | their tools, s | wrong bodies, s")
    for crate in sorted({name for of in spent.values() for name in of}, key=lambda it: -spent["proof"][it]):
        print(" | ".join([crate, *(f"{of[crate]:.0f}" for of in spent.values())]))
    print(" | ".join(["all crates", *(f"{sum(of.values()):.0f}" for of in spent.values())]))
    print(f"the whole run: {(used.ru_utime + used.ru_stime) / 60:.1f} processor minutes, {wall / 60:.1f} minutes on {os.cpu_count()} processors")
    with open(printed) as it:
        last = [line for line in it if re.search(r"\d+ passed, \d+ failed", line)]
    print(last[-1].strip() if last else "rt ci did not end")
    return status


sys.exit(main(sys.argv[1:]))
