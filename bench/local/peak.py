#!/usr/bin/env python3
"""The most memory of `brick nbd` as a client writes 32 MiB by one request, less that of a session that stays idle.

    bench/local/peak.py PROGRAM [FOLDER]

PROGRAM is the program `brick`. The stores lie in FOLDER, a new folder of /dev/shm where it isn't given. The disk has m = 4, n = 6 and blocks of 4,096 bytes.
Since the bricks keep their blocks in memory, all of the disk is written before, by requests of 256 KiB. Then one session comes as far as its first
request, and another writes the 32 MiB by one request, the largest that the program takes. The client is that of Debian's python3-libnbd. The most memory
is the peak of what is resident, as the system tells it (VmHWM) before the session ends, and so it has what an open operation on a stripe holds. The
median of five of each is printed, and how much more the second is. The project asks for at most 40 MiB, besides the open operation; it ends with 1 if it is
more than 40 MiB with it.
"""

import re
import statistics
import subprocess
import sys
import tempfile

from disks import make, served

MOST_BYTES = 32 * 2**20
ROUNDS = 5
M, N, BLOCK = 4, 6, 4096
STRIPES = MOST_BYTES // (M * BLOCK)
ALLOWED = 40 * 2**20

# What the client does: it comes to the disk, writes its bytes by requests of so many, tells that it is ready, and ends once it is told.
CLIENT = """
import sys
h.connect_uri("nbd://127.0.0.1:{port}/v")
for at in range(0, {written}, {piece}):
    h.pwrite(bytearray({piece}), at)
print("ready", flush=True)
sys.stdin.readline()
h.shutdown()
"""


def peak(program, disk, written, piece):
    """The most bytes that were resident in the program, with a client that writes so many bytes by requests of so many."""
    with served(program, disk) as process:
        does = CLIENT.format(port=disk[2], written=written, piece=piece)
        client = subprocess.Popen(["/usr/bin/python3", "-m", "nbd", "-c", does], cwd="/", stdin=subprocess.PIPE, stdout=subprocess.PIPE, text=True)
        if client.stdout.readline() != "ready\n":
            raise SystemExit("the client was not served")
        with open(f"/proc/{process.pid}/status") as status:
            most = int(re.search(r"VmHWM:\s+(\d+) kB", status.read())[1]) * 1024
        client.communicate("\n", timeout=60)
    return most


def peaks(program, place):
    """The most memory of an idle session over a disk that is written, and of one that writes it again by one request."""
    with tempfile.TemporaryDirectory(dir=place) as folder:
        disk = make(program, folder, M, N, BLOCK, STRIPES, records=16000)
        peak(program, disk, MOST_BYTES, 2**18)
        return peak(program, disk, 0, MOST_BYTES), peak(program, disk, MOST_BYTES, MOST_BYTES)


def main(words):
    if not 1 <= len(words) <= 2:
        print(__doc__, file=sys.stderr)
        return 2
    place = words[1] if len(words) == 2 else "/dev/shm"
    idle, writing = map(statistics.median, zip(*(peaks(words[0], place) for _ in range(ROUNDS))))
    print(f"idle {idle / 2**20:.1f} MiB, a write of 32 MiB {writing / 2**20:.1f} MiB, {(writing - idle) / 2**20:.1f} MiB more")
    return 0 if writing - idle <= ALLOWED else 1


sys.exit(main(sys.argv[1:]))
