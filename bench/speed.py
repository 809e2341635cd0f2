#!/usr/bin/env python3
"""Measures how fast the program reads streams, and how much memory it takes.

usage: bench/speed.py [PROGRAM]

PROGRAM is crates/fastcat/out/fastcat if left out (`rt run` in crates/fastcat builds it). Two feeds are made anew over the
templates of examples/, an order book and trades, canonical and with fields spelled out, of 1 MB and of 10 MB. A line of
the table has the instructions for each byte of the small feed (by valgrind; `-` where there is none), the least
processor time of three runs for each MB of the large feed, how many times that of the small one the large feed takes,
and the greatest memory, which up to 15 MB is the start of the script itself. The status is 1 where `canon` does not give
the canonical feed.
"""
import os
import random
import re
import shutil
import subprocess
import sys
import tempfile

TOP = os.path.join(os.path.dirname(os.path.abspath(__file__)), "..")


def entity(groups):
    return bytes(groups[:-1]) + bytes([groups[-1] | 0x80])


def unsigned(value):
    groups = [value & 0x7F]
    while value >= 0x80:
        value >>= 7
        groups.insert(0, value & 0x7F)
    return entity(groups)


def signed(value):
    groups = [value & 0x7F]
    while not -64 <= value <= 63:
        value >>= 7
        groups.insert(0, value & 0x7F)
    return entity(groups)


def text(value):
    return entity(list(value.encode())) if value else b"\x80"


def presence(bits):
    while len(bits) > 1 and not bits[-1]:
        bits.pop()
    bits += [0] * (-len(bits) % 7)
    return entity([int("".join(map(str, bits[at:at + 7])), 2) for at in range(0, len(bits), 7)])


def copied(bits, out, old, new, form, spelled):
    """A field with copy: bit 0 where the value is the one before, unless it is spelled out."""
    bits.append(int(spelled or new != old))
    if bits[-1]:
        out += form(new)
    return new


def book(size, spelled):
    chance = random.Random(1)
    feed, seq, symbol, side, price, amount = bytearray(), 0, None, None, 0, None
    template = None
    while len(feed) < size:
        bits, out = [], bytearray()
        slack = spelled and chance.random() < 0.25
        template = copied(bits, out, template, 1, unsigned, slack)
        seq += 1
        bits.append(int(slack or seq == 1))
        if bits[-1]:
            out += unsigned(seq)
        name = "ES" if chance.random() < 0.9 or symbol is None else chance.choice(["ES", "NQ", "CL"])
        symbol = copied(bits, out, symbol, name, text, slack)
        count = chance.randint(1, 6)
        out += unsigned(count)
        for _ in range(count):
            inner, element = [], bytearray()
            side = copied(inner, element, side, chance.randint(0, 1), unsigned, slack)
            inner.append(0)
            step = chance.randint(-50, 50) if price else 450_000
            price += step
            element += signed(step)
            lot = amount if amount and chance.random() < 0.5 else chance.randint(1, 500)
            amount = copied(inner, element, amount, lot, unsigned, slack)
            out += presence(inner) + element
        feed += presence(bits) + out
    return bytes(feed)


def trade(size, spelled):
    chance = random.Random(2)
    feed, template, symbol, price, buyer = bytearray(), None, "", 0, None
    first = True
    while len(feed) < size:
        bits, out = [], bytearray()
        slack = spelled and chance.random() < 0.25
        template = copied(bits, out, template, 2, unsigned, slack)
        out += signed(34_200_000 if first else chance.randint(0, 2_000))
        new = "ESZ6" if first else symbol if chance.random() < 0.7 else "ES" + chance.choice(["H7", "M7", "U7", "Z6"])
        if slack:
            out += signed(len(symbol)) + text(new)
        elif new == symbol:
            out += signed(0) + text("")
        else:
            same = len(os.path.commonprefix([symbol, new]))
            out += signed(len(symbol) - same) + text(new[same:])
        symbol = new
        step = chance.randint(-40, 40) if price else 450_000
        out += signed(-2 if first else 0) + signed(step)
        price += step
        lot = 100 if chance.random() < 0.4 else chance.randint(1, 900)
        bits.append(int(slack or lot != 100))
        if bits[-1]:
            out += unsigned(lot)
        who = buyer if buyer and chance.random() < 0.8 else bytes([chance.randint(0, 9), chance.randint(0, 255)])
        buyer = copied(bits, out, buyer, who, lambda v: unsigned(len(v) + 1) + v, slack)
        feed += presence(bits) + out
        first = False
    return bytes(feed)


FEEDS = {"book": book, "trade": trade}


def spent(words, path):
    """The processor time in seconds and the greatest memory in bytes of a run."""
    with open(os.devnull, "w") as nothing:
        pid = subprocess.Popen(words + [path], stdout=nothing)
        _, status, usage = os.wait4(pid.pid, 0)
    if status:
        sys.exit(f"{words} on {path}: status {status}")
    return usage.ru_utime + usage.ru_stime, usage.ru_maxrss * 1024


def instructions(words, path):
    if not shutil.which("valgrind"):
        return "-"
    run = subprocess.run(["valgrind", "--tool=callgrind", "--callgrind-out-file=/dev/null"] + words + [path],
                         stdout=subprocess.DEVNULL, stderr=subprocess.PIPE, text=True)
    count = int(re.search(r"refs:\s+([\d,]+)", run.stderr).group(1).replace(",", ""))
    return f"{count / os.path.getsize(path):.0f}"


def main():
    program = sys.argv[1] if len(sys.argv) > 1 else os.path.join(TOP, "crates/fastcat/out/fastcat")
    good = True
    print("| Feed | Command | Instructions a byte | Seconds a MB | 10 MB against 1 MB | Memory, MB |")
    print("|---|---|---|---|---|---|")
    with tempfile.TemporaryDirectory() as folder:
        for kind in FEEDS:
            templates = os.path.join(TOP, f"examples/{kind}.json")
            for name, spelled in (("canonical", False), ("spelled out", True)):
                paths = []
                for size in (1_000_000, 10_000_000):
                    paths.append(os.path.join(folder, f"{kind}{size}"))
                    # in a process of its own, so that the feed does not count as memory of the program
                    subprocess.run([sys.executable, __file__, "--make", kind, str(size), str(spelled), paths[-1]], check=True)
                if not spelled:
                    words = [program, "canon", "--templates", templates, paths[0]]
                    with subprocess.Popen(words, stdout=subprocess.PIPE) as run:
                        good &= subprocess.run(["cmp", "-s", "-", paths[0]], stdin=run.stdout).returncode == 0
                for command in ("check", "canon", "show"):
                    words = [program, command, "--templates", templates]
                    small = min(spent(words, paths[0])[0] for _ in range(3))
                    runs = [spent(words, paths[1]) for _ in range(3)]
                    large, memory = min(r[0] for r in runs), max(r[1] for r in runs)
                    megabytes = os.path.getsize(paths[1]) / 1e6
                    print(f"| {kind}, {name} | `{command}` | {instructions(words, paths[0])} | {large / megabytes:.3f} "
                          f"| {large / small:.1f} | {memory / 1e6:.1f} |", flush=True)
    sys.exit(0 if good else "canon does not give the canonical feed")


if __name__ == "__main__":
    if sys.argv[1:2] == ["--make"]:
        kind, size, spelled, path = sys.argv[2:]
        with open(path, "wb") as file:
            file.write(FEEDS[kind](int(size), spelled == "True"))
    else:
        main()
