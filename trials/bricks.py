"""Bricks that are served by the program, on real files and sockets of this machine."""

import os
import signal
import subprocess
import time

LAYOUT = """block = {block}
bricks = {bricks}
records = {records}
port = {port}
store = {store}
[[group]]
m = {m}
members = [{members}]
stripes = {stripes}
"""

FOREVER = str(10**15)


def free_port():
    """The first port of 64 for this process, so that two trials may run side by side."""
    return 20000 + 64 * (os.getpid() % 512)


class Bricks:
    """The stores of a layout in a folder, and the processes that serve them."""

    def __init__(self, program, folder, bricks=3, m=1, block=16, records=1000, stripes=8, store=2):
        self.program, self.folder, self.count = program, folder, bricks
        self.m, self.block, self.stripes = m, block, stripes
        self.port = free_port()
        self.layout = os.path.join(folder, "layout")
        members = ", ".join(str(brick) for brick in range(bricks))
        with open(self.layout, "w") as text:
            text.write(LAYOUT.format(block=block, bricks=bricks, records=records, port=self.port, m=m,
                                     members=members, stripes=stripes, store=store))
        self.running = {}

    def store(self, brick):
        return os.path.join(self.folder, f"store.{brick}")

    def run(self, *words):
        """Runs the program to its end: its status and what it printed."""
        ended = subprocess.run([self.program, *words], capture_output=True, text=True, timeout=60)
        return ended.returncode, ended.stdout

    def format(self):
        for brick in range(self.count):
            self.format_at(self.store(brick), brick)

    def format_at(self, store, brick):
        status, text = self.run("format", self.layout, store, str(brick))
        if status != 0:
            raise SystemExit(f"format ended with {status}: {text}")

    def first_start_seconds(self):
        """How long the first start of a store takes, by a store that is made for this alone."""
        store = os.path.join(self.folder, "timed")
        self.format_at(store, 0)
        begin = time.monotonic()
        self.run("serve", self.layout, store, "0", "0")
        return time.monotonic() - begin

    def serve(self, brick):
        """Begins to serve a brick."""
        return subprocess.Popen([self.program, "serve", self.layout, self.store(brick), str(brick), FOREVER],
                                stdout=subprocess.PIPE, text=True)

    def start_and_kill(self, brick, seconds):
        """Begins to serve a brick, and kills it after so long: whether it served by then."""
        process = self.serve(brick)
        time.sleep(seconds)
        process.kill()
        said, _ = process.communicate()
        return said == f"serving {brick}\n"

    def start(self, brick):
        """Serves a brick, and waits until its link is open."""
        process = self.serve(brick)
        said = process.stdout.readline()
        if said != f"serving {brick}\n":
            process.kill()
            raise SystemExit(f"brick {brick} did not start: {said!r}, status {process.wait()}")
        self.running[brick] = process

    def kill(self, brick):
        process = self.running.pop(brick)
        process.send_signal(signal.SIGKILL)
        process.wait()
        process.stdout.close()

    def lives(self, brick):
        return self.running[brick].poll() is None

    def stop(self):
        for brick in list(self.running):
            self.kill(brick)

    def opens(self, brick):
        """Whether the store of a brick that isn't served opens."""
        words = ("serve", self.layout, self.store(brick), str(brick), "0")
        return self.run(*words) == (0, f"serving {brick}\nended 0 malformed 0\n")
