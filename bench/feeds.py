#!/usr/bin/env python3
"""Measures what a stream costs that comes in small chunks.

usage: bench/feeds.py [PROGRAM]

PROGRAM is crates/feed_bench/out/feed_bench if left out (`rt run -- data/book.json data/book.bin 1` in crates/feed_bench
builds it). The feeds of bench/speed.py and streams of one long string each are fed to a decoder 4,096 bytes at a time and
one, and a line of the table has the instructions for each byte of both (by valgrind), and how many times the second is
the first. The status is 1 where the two say another number of messages.
"""
import json
import os
import re
import subprocess
import sys
import tempfile

import speed

LONG = 65_535
TEXTS = {
    "string": {"kind": "string"},
    "Unicode string": {"kind": "string", "charset": "unicode"},
    "byte vector": {"kind": "byteVector"},
}


def long_text(name):
    """A message of one long text, and its templates."""
    field = {"name": "Text", **TEXTS[name]}
    templates = {"templates": [{"name": "Long", "id": 1, "instructions": [field]}]}
    text = b"x" * LONG
    value = text[:-1] + b"\xf8" if name == "string" else speed.unsigned(LONG) + text
    return json.dumps(templates), b"\xc0\x81" + value


def run(program, templates, path, step):
    """The number of messages, and the instructions for each byte."""
    words = ["valgrind", "--tool=callgrind", "--callgrind-out-file=/dev/null", program, templates, path, str(step)]
    ran = subprocess.run(words, capture_output=True, text=True, check=True)
    count = int(re.search(r"refs:\s+([\d,]+)", ran.stderr).group(1).replace(",", ""))
    return ran.stdout.strip(), count / os.path.getsize(path)


def line(program, name, templates, path):
    (messages, large), (again, small) = (run(program, templates, path, step) for step in (4096, 1))
    print(f"| {name} | {large:.0f} | {small:.0f} | {small / large:.2f} |", flush=True)
    return messages == again


def main():
    program = sys.argv[1] if len(sys.argv) > 1 else os.path.join(speed.TOP, "crates/feed_bench/out/feed_bench")
    good = True
    print("| Stream | Instructions a byte, 4,096 at a time | one at a time | Times |")
    print("|---|---|---|---|")
    with tempfile.TemporaryDirectory() as folder:
        path = os.path.join(folder, "stream")
        for kind, feed in speed.FEEDS.items():
            for name, spelled in (("canonical", False), ("spelled out", True)):
                with open(path, "wb") as file:
                    file.write(feed(1_000_000, spelled))
                good &= line(program, f"{kind}, {name}", os.path.join(speed.TOP, f"examples/{kind}.json"), path)
        templates = os.path.join(folder, "templates.json")
        for name in TEXTS:
            text, stream = long_text(name)
            with open(templates, "w") as file:
                file.write(text)
            with open(path, "wb") as file:
                file.write(stream * 16)
            good &= line(program, f"{LONG:,} bytes of a {name}", templates, path)
    sys.exit(0 if good else "the number of messages depends on the chunks")


if __name__ == "__main__":
    main()
