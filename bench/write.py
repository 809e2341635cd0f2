#!/usr/bin/env python3
"""Measures what `fastcat write` takes for lines as `show --json` writes them.

usage: bench/write.py [PROGRAM]

PROGRAM is crates/fastcat/out/fastcat if left out. Three feeds are made: the order book and the trades of bench/speed.py, and
messages of 200 fields, all sent. `show --json` makes lines of each, of 200,000 bytes of feed and of ten times as many, which
`write` writes again. A line of the table has the lines' size, `write`'s instructions (by valgrind), without those that reading
the templates takes, for each byte of the lines, and the greatest memory that it had when it had read the small lines and the
large ones. The status is 1 where not the canonical feed is written, where a byte of the book's lines takes more than 97
instructions, or where memory grows by more than a tenth.
"""
import os
import random
import re
import subprocess
import sys
import tempfile

import packets
import speed

SIZE = 200_000
FIELDS = 200
LIMIT = 97


def wide(size, spelled):
    """Messages that send their identifier and each of their fields."""
    chance = random.Random(4)
    feed = bytearray()
    while len(feed) < size:
        fields = b"".join(packets.value(chance, at) for at in range(FIELDS))
        feed += speed.presence([1] * (FIELDS + 1)) + speed.unsigned(1) + fields
    return bytes(feed)


FEEDS = {"book": speed.book, "trade": speed.trade, "200 fields": wide}


def templates(kind, folder):
    if kind != "200 fields":
        return os.path.join(speed.TOP, f"examples/{kind}.json")
    path = os.path.join(folder, "wide.json")
    with open(path, "w") as file:
        file.write('{"templates": [%s]}' % packets.json.dumps(packets.template(1, "Wide", FIELDS)))
    return path


def ran(words, given):
    return subprocess.run(words, input=given, capture_output=True, check=True).stdout


def instructions(words, lines):
    run = ["valgrind", "--tool=callgrind", "--callgrind-out-file=/dev/null", *words]
    said = subprocess.run(run, input=lines, stdout=subprocess.DEVNULL, stderr=subprocess.PIPE, check=True).stderr.decode()
    return int(re.search(r"refs:\s+([\d,]+)", said).group(1).replace(",", ""))


def memory(words, lines):
    """The greatest memory in bytes, once all lines have been put into the program's pipe."""
    with subprocess.Popen(words, stdin=subprocess.PIPE, stdout=subprocess.DEVNULL) as run:
        run.stdin.write(lines)
        run.stdin.flush()
        with open(f"/proc/{run.pid}/status") as file:
            greatest = int(re.search(r"VmHWM:\s+(\d+) kB", file.read()).group(1)) * 1024
    if run.returncode:
        sys.exit(f"{words}: status {run.returncode}")
    return greatest


def main():
    program = sys.argv[1] if len(sys.argv) > 1 else os.path.join(speed.TOP, "crates/fastcat/out/fastcat")
    good = True
    print("| Lines of | MB | Instructions a byte | Memory, MB | of ten times as many, MB |")
    print("|---|---|---|---|---|")
    with tempfile.TemporaryDirectory() as folder:
        for kind, make in FEEDS.items():
            options = ["--templates", templates(kind, folder)]
            write = [program, "write", *options]
            feeds = [ran([program, "canon", *options], make(size, False)) for size in (SIZE, 10 * SIZE)]
            lines = [ran([program, "show", "--json", *options], feed) for feed in feeds]
            good &= all(ran(write, one) == feed for one, feed in zip(lines, feeds))
            taken = (instructions(write, lines[0]) - instructions(write, b"")) / len(lines[0])
            small, large = (memory(write, one) for one in lines)
            print(f"| {kind} | {len(lines[0]) / 1e6:.1f} | {taken:.0f} | {small / 1e6:.1f} | {large / 1e6:.1f} |", flush=True)
            good &= large <= 1.1 * small
            good &= kind != "book" or taken <= LIMIT
    sys.exit(0 if good else "other bytes are written, or a line takes more than it may")


if __name__ == "__main__":
    main()
