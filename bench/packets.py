#!/usr/bin/env python3
"""Measures what recordings of packets cost against the same messages in blocks.

usage: bench/packets.py [PROGRAM]

PROGRAM is crates/fastcat/out/fastcat if left out. Three feeds of packets are made, which send all that they need, so that
`--blocks` reads the same messages:

full: 2,000 datagrams that are filled up to 1,300 bytes with refreshes of one to five entries each;
refresh: 20,000 packets of one such refresh;
flat: 20,000 packets of one to three messages of four templates, in which each field is sent, a string among four.

A fourth feed, texts, has packets that put strings into undefined entries in each way: whole, as a difference, as a tail, as
an initial value, and NULL behind one. Its lines say how often memory is asked for by 2,000 packets, and by ten times as many.

They stand over templates with 45 entries in all, and over these and a hundred more that no message names, with 1,945. A
line of the table has `check`'s instructions (by valgrind), without those that reading the templates takes, in millions, and
the greatest memory of ten times as many packets against that of these. The status is 1 where the two read other messages,
where the packets that are full take more than 1.1 of what blocks take, and where packets take more than 1.2 with 1,945
entries of what they take with 45, or more memory if they are more, or ask for memory packet by packet.
"""
import json
import os
import random
import re
import subprocess
import sys
import tempfile

import refused
import speed

PACKETS = 20_000
FIELDS = 11
# how often memory may be asked for where buffers grow with a recording
GROWTHS = 20
KINDS = ("uInt32", "string", "int64", "uInt64")


def field(kind, name, **more):
    return {"kind": kind, "name": name, **more}


def template(number, name, fields):
    instructions = [field(KINDS[at % len(KINDS)], f"F{at}", operator="copy") for at in range(fields)]
    return {"name": name, "id": number, "dictionary": "template", "instructions": instructions}


def text_of(used, more):
    """Templates that are used, and so many more that are not, of 19 fields each."""
    return json.dumps({"templates": used + [template(100 + number, f"More{number}", 19) for number in range(more)]})


def flat_templates():
    return [template(number, f"Used{number}", FIELDS) for number in range(1, 5)]


def refresh_templates():
    """A refresh, in the style of a feed of prices, and one template more that makes the entries 45."""
    entries = [
        field("uInt32", "Action", operator="copy"),
        field("string", "EntryType", operator="copy"),
        field("uInt64", "SecurityID", operator="copy"),
        field("uInt32", "RptSeq", operator="increment"),
        field("decimal", "Price"),
        field("int32", "Size"),
        field("uInt32", "Orders", presence="optional"),
        field("uInt32", "Time", operator="copy"),
        field("uInt32", "Level", operator="default", value="1"),
        field("string", "Session", presence="optional", operator="default", value="2"),
    ]
    refresh = [
        field("string", "Version", operator="constant", value="9"),
        field("string", "Type", operator="constant", value="X"),
        field("string", "Sender", operator="constant", value="EXCH"),
        field("uInt32", "SeqNum"),
        field("uInt64", "SendingTime"),
        field("uInt32", "PossDup", presence="optional", operator="default"),
        field("uInt32", "TradeDate", operator="copy"),
        field("sequence", "Entries", instructions=entries),
    ]
    return [{"name": "Refresh", "id": 1, "instructions": refresh}, template(2, "Other", 26)]


def value(chance, at):
    kind = KINDS[at % len(KINDS)]
    if kind == "string":
        return speed.text("".join(chance.choice("ABCDEFGH") for _ in range(4)))
    if kind == "int64":
        return speed.signed(chance.randint(-100_000, 100_000))
    return speed.unsigned(chance.randint(0, 1_000_000))


def flat_message(chance):
    """One that sends its identifier and each of its fields."""
    fields = b"".join(value(chance, at) for at in range(FIELDS))
    return speed.presence([1] * (FIELDS + 1)) + speed.unsigned(chance.randint(1, 4)) + fields


def flat_packet(chance, number):
    return b"".join(flat_message(chance) for _ in range(chance.randint(1, 3)))


def entry(chance, before, now):
    """One entry of a refresh: what is as in the one before is left out."""
    predicted = {**before, "sequence": before["sequence"] + 1} if before else {}
    bits, sent = [], b""
    for name, spell in (("action", speed.unsigned), ("type", speed.text), ("security", speed.unsigned), ("sequence", speed.unsigned)):
        bits.append(int(predicted.get(name) != now[name]))
        sent += spell(now[name]) if bits[-1] else b""
    sent += speed.signed(-2) + speed.signed(chance.randint(100_000, 130_000))
    sent += speed.signed(chance.randint(1, 500)) + speed.unsigned(chance.randint(0, 30) + 1)
    bits.append(int(predicted.get("time") != now["time"]))
    sent += speed.unsigned(now["time"]) if bits[-1] else b""
    level = chance.choice((1, 1, 2, 3, 5))
    bits.append(int(level != 1))
    sent += speed.unsigned(level) if bits[-1] else b""
    return speed.presence(bits + [0]) + sent


def refresh(chance, number, before):
    """A refresh, from the entry before it in its packet, if one is; and its last entry."""
    count = chance.randint(1, 5)
    sent = b"" if before else speed.unsigned(20260101)
    message = speed.presence([int(not before), 0, int(not before)]) + (b"" if before else speed.unsigned(1))
    message += speed.unsigned(number) + speed.unsigned(20260101000000000 + 700 * number) + sent + speed.unsigned(count)
    for _ in range(count):
        now = {
            "action": chance.choice((0, 1, 1, 1, 2)),
            "type": chance.choice("01"),
            "security": before["security"] if before else chance.choice((998350, 23252, 800001)),
            "sequence": before["sequence"] + 1 if before else 1000 + 10 * number,
            "time": 90_000_000 + number // 4,
        }
        message += entry(chance, before, now)
        before = now
    return message, before


def refresh_packet(chance, number):
    return refresh(chance, number, None)[0]


def full_packet(chance, number):
    packet, before = b"", None
    while len(packet) < 1_200:
        message, before = refresh(chance, number + len(packet), before)
        packet += message
    return packet


def recording(packet, packets):
    chance = random.Random(3)
    made = bytearray()
    for number in range(packets):
        bytes_of = packet(chance, number)
        made += speed.unsigned(len(bytes_of)) + bytes_of
    return bytes(made)


def text_templates():
    """Strings that are kept, of each type and in each way that puts one into an undefined entry."""
    kept = [
        field("string", "Symbol", operator="copy"),
        field("string", "Order", operator="delta"),
        field("string", "Trader", operator="tail"),
        field("string", "Venue", operator="copy", value="XETR"),
        field("string", "Note", operator="copy", presence="optional"),
        field("string", "Name", charset="unicode", operator="copy"),
        field("string", "Owner", charset="unicode", operator="delta"),
        field("byteVector", "Tag", operator="tail"),
        field("byteVector", "Mark", operator="copy"),
    ]
    return [{"name": "Texts", "id": 1, "dictionary": "template", "instructions": kept}]


def vector(units):
    return speed.unsigned(len(units)) + units


def text_packet(chance, number):
    """Two messages: the first sends all but the venue, the second what was there and more of it, and no note."""
    text = f"{chance.randrange(10**8):08}"
    units = text.encode()
    behind, null = speed.signed(0), bytes([0x80])
    sent = [speed.text(text), behind + speed.text(text), speed.text(text), speed.text(text)]
    sent += [vector(units), behind + vector(units), vector(units), vector(units)]
    # the identifier's bit, and those of symbol, trader, venue, note, name, tag and mark
    first = speed.presence([1, 1, 1, 0, 1, 1, 1, 1]) + speed.unsigned(1) + b"".join(sent)
    more = [behind + speed.text("Z"), null, behind + vector(b"Z")]
    return first + speed.presence([0, 0, 0, 0, 1, 0, 0, 0]) + b"".join(more)


def measure_asked(program, folder, packets):
    """Prints how often packets with strings ask for memory, and ten times as many; for each command, whether that is as often."""
    library = refused.library_in(folder)
    text, path = os.path.join(folder, "texts.json"), os.path.join(folder, "texts")
    with open(text, "w") as file:
        file.write(json.dumps({"templates": text_templates()}))
    good = []
    for command in ("check", "canon", "show"):
        asked = []
        for count in (packets, 10 * packets):
            with open(path, "wb") as file:
                file.write(recording(text_packet, count))
            words = [program, command, "--packets", "--templates", text, path]
            end, times, _ = refused.runs(words, library, [0])[0]
            asked.append((end, times))
        few, many = (times for _, times in asked)
        print(f"{packets:,} packets with strings, `{command}`: memory asked for {few} times, by ten times as many {many}", flush=True)
        good.append(all(end == refused.WELL for end, _ in asked) and many <= few + GROWTHS)
    return good


FEEDS = {
    "full": (refresh_templates, full_packet, PACKETS // 10),
    "refresh": (refresh_templates, refresh_packet, PACKETS),
    "flat": (flat_templates, flat_packet, PACKETS),
}


def check(words, path):
    """What the program says, and its instructions."""
    run = ["valgrind", "--tool=callgrind", "--callgrind-out-file=/dev/null", *words, path]
    ran = subprocess.run(run, capture_output=True, text=True, check=True)
    return ran.stdout, int(re.search(r"refs:\s+([\d,]+)", ran.stderr).group(1).replace(",", ""))


def messages(said):
    return re.search(r"messages=\d+", said).group(0)


def measure(program, feed, folder):
    """Prints a feed's lines; whether both read the same messages, and what packets take of blocks and with more entries."""
    templates, packet, packets = FEEDS[feed]
    small, large, empty = (os.path.join(folder, name) for name in ("small", "large", "empty"))
    for path, count in ((small, packets), (large, 10 * packets), (empty, 0)):
        with open(path, "wb") as file:
            file.write(recording(packet, count))
    same, taken, memory = True, {}, 0
    for entries, more in ((45, 0), (1945, 100)):
        text = os.path.join(folder, f"{entries}.json")
        with open(text, "w") as file:
            file.write(text_of(templates(), more))
        said = {}
        for way in ("--blocks", "--packets"):
            words = [program, "check", way, "--templates", text]
            said[way], all_of_it = check(words, small)
            taken[way, entries] = all_of_it - check(words, empty)[1]
        same &= messages(said["--blocks"]) == messages(said["--packets"])
        words = [program, "check", "--packets", "--templates", text]
        memory = speed.spent(words, large)[1] / speed.spent(words, small)[1]
        blocks, of_packets = taken["--blocks", entries], taken["--packets", entries]
        print(f"| {feed} | {entries:,} | {blocks / 1e6:.1f} | {of_packets / 1e6:.1f} | {of_packets / blocks:.2f} | {memory:.2f} |", flush=True)
    times = taken["--packets", 45] / taken["--blocks", 45]
    return same and memory < 1.1 and taken["--packets", 1945] <= 1.2 * taken["--packets", 45], times


def main():
    program = sys.argv[1] if len(sys.argv) > 1 else os.path.join(speed.TOP, "crates/fastcat/out/fastcat")
    print("| Feed | Entries | `--blocks` | `--packets` | Times | Memory, ten times as many |")
    print("|---|---|---|---|---|---|")
    good = True
    with tempfile.TemporaryDirectory() as folder:
        for feed in FEEDS:
            well, times = measure(program, feed, folder)
            good &= well and (feed != "full" or times <= 1.1)
        good &= all(measure_asked(program, folder, PACKETS // 10))
    sys.exit(0 if good else "packets cost more than they may, or are read as other messages")


if __name__ == "__main__":
    main()
