#!/usr/bin/env python3
"""Holds the program to how much it may take of input that was made to cost much: memory, and of strings that come in
few bytes at a time, processor time; and packets to asking for no memory each.

usage: bench/bounds.py [PROGRAM] [--long]

PROGRAM is crates/fastcat/out/fastcat if left out (`rt run` in crates/fastcat builds it). Each line of the tables is one
run: the command, how many bytes it reads, how many it writes, its processor time and the greatest memory that it had.
A run fails that is refused, or takes more than is said here to be enough; the last line is 'N passed, M failed'. With
--long some inputs are larger, so that what they take can be seen to grow with nothing but them.
"""
import argparse
import filecmp
import json
import os
import subprocess
import sys
import tempfile

import packets

TOP = os.path.join(os.path.dirname(os.path.abspath(__file__)), "..")

# A sequence of a constant with a long name, whose length is copied: once it was sent, each further message is one byte.
REPEATED = {
    "templates": [
        {
            "name": "S",
            "id": 1,
            "instructions": [
                {
                    "kind": "sequence",
                    "name": "Q",
                    "length": {"operator": "copy"},
                    "instructions": [{"kind": "uInt32", "name": "N" * 60, "operator": "constant", "value": "7"}],
                }
            ],
        }
    ]
}
FIRST = bytes.fromhex("e081017fff")
AGAIN = b"\x80"


def packet(stream):
    """One packet of a stream, behind a size of two bytes."""
    return bytes([len(stream) >> 7, len(stream) & 127 | 128]) + stream


# (command, what stands around the messages, how many, those of --long, the memory in MB that is enough: the lines of one read
# take 213 MB and more)
RUNS = [
    ("show", bytes, 1, 1, 16),
    ("show", bytes, 100, 4089, 16),
    ("show --packets", packet, 200, 4089, 16),
    ("check", bytes, 400, 4089, 24),
]

# Lines of one message that are gigabytes: a string that is copied, and a constant each unit of which takes four bytes.
COPIED = {
    "templates": [
        {
            "name": "S",
            "id": 1,
            "instructions": [
                {
                    "kind": "sequence",
                    "name": "Q",
                    "instructions": [{"kind": "string", "name": "S", "operator": "copy"}],
                }
            ],
        }
    ]
}
CONSTANT = {
    "templates": [
        {
            "name": "S",
            "id": 1,
            "instructions": [
                {
                    "kind": "sequence",
                    "name": "Q",
                    "instructions": [
                        {"kind": "string", "name": "S", "operator": "constant", "value": "\x7f" * 65535}
                    ],
                }
            ],
        }
    ]
}

def copied(elements):
    return b"\xc0\x81" + length_of(elements) + b"\xc0" + b"A" * 65534 + b"\xc1" + b"\x80" * (elements - 1)


def constants(elements):
    return b"\xc0\x81" + length_of(elements)


def length_of(elements):
    """A length of three bytes."""
    return bytes([elements >> 14, elements >> 7 & 127, elements & 127 | 128])


# (what, templates, the stream, elements, those of --long, the memory in MB that is enough beside the bytes of the message:
# the line takes 1,074 MB and more)
LINES = [("a copied string", COPIED, copied, 16384, 32767, 16), ("a constant", CONSTANT, constants, 4096, 32767, 16)]

# As many entries as a set can have, each of a field that is absent; and one message of 13 MB, which is one segment. They are
# written piece by piece: what this script holds would count as the program's.
def slots():
    yield '{"templates":[{"name":"T","id":1,"instructions":['
    for number in range(65535):
        yield '%s{"kind":"uInt32","name":"F%d","presence":"optional","operator":"copy"}' % ("," if number else "", number)
    yield "]}]}"


def texts():
    yield '{"templates":[{"name":"T","id":1,"instructions":['
    yield '{"kind":"sequence","name":"Q","instructions":[{"kind":"string","name":"S"}]}]}]}'


def absent():
    yield b"\xc0\x81"


def long_message():
    yield b"\xc0\x81\x01\xc8"
    for _ in range(200):
        yield b"A" * 65534 + b"\xc1"


# (what, templates, a canonical stream, the memory in MB that is enough: `check` and `canon` hold the message, in a room that may
# be twice as long)
GREATEST = [("65,535 entries", slots, absent, 128), ("a message of 13 MB", texts, long_message, 48)]

# A string, a byte vector and a Unicode string of 65,535 bytes.
STRINGS = {
    "templates": [
        {"name": "Text", "id": 1, "instructions": [{"kind": "string", "name": "S"}]},
        {"name": "Bytes", "id": 2, "instructions": [{"kind": "byteVector", "name": "B"}]},
        {"name": "Unicode", "id": 3, "instructions": [{"kind": "string", "charset": "unicode", "name": "S"}]},
    ]
}


def short(template, text):
    """As many bytes, in messages of this text each."""
    return b"\xc0" + template + text + (b"\x80" + text) * (65535 // (len(text) + 1))


# (what, a stream of the longest, one of short ones)
LONGEST = [
    ("string", b"\xc0\x81" + b"A" * 65534 + b"\xc1", short(b"\x81", b"A" * 15 + b"\xc1")),
    ("byte vector", b"\xc0\x82\x03\x7f\xff" + b"A" * 65535, short(b"\x82", b"\x90" + b"A" * 16)),
    ("Unicode string", b"\xc0\x83\x03\x7f\xff" + b"A" * 65535, short(b"\x83", b"\x90" + b"A" * 16)),
]

# How many times the seconds of short ones are enough for the longest, and how many seconds more, as no clock is exact. Were what
# is held read again with each byte, it would take more.
TIMES, MORE = 2.0, 0.05


def memory_of(pid):
    """The greatest memory in MB that a running process had since it began to be this program."""
    with open(f"/proc/{pid}/status", encoding="utf-8") as status:
        for line in status:
            if line.startswith("VmHWM:"):
                return int(line.split()[1]) / 1024
    return 0


def counted(command, program, templates, stream):
    """Runs a command, and answers its status, how many bytes it wrote, its processor time and its greatest memory in MB.

    That memory is looked at with each MB that is written; of a run that writes less it is its whole, of which this script's
    own start takes 14 MB.
    """
    with open(stream, "rb") as read:
        run = subprocess.Popen([program, *command.split(), "--templates", templates], stdin=read, stdout=subprocess.PIPE)
        written = 0
        memory = 0
        while chunk := run.stdout.read(1 << 20):
            written += len(chunk)
            memory = max(memory, memory_of(run.pid))
        _, status, used = os.wait4(run.pid, 0)
    return os.waitstatus_to_exitcode(status), written, used.ru_utime + used.ru_stime, memory or used.ru_maxrss / 1024


def stays(program, templates, stream):
    """Whether a canonical stream is its own."""
    with open(stream, "rb") as read, open(f"{stream}.canon", "wb") as written:
        run = subprocess.run([program, "canon", "--templates", templates], stdin=read, stdout=written, check=False)
    return run.returncode == 0 and filecmp.cmp(stream, f"{stream}.canon", shallow=False)


def trickled(program, templates, stream, step):
    """Checks a stream of which a read gives so many bytes at a time, and answers the status and the processor time."""
    # such a pipe gives at each read what one write has put into it
    read, write = os.pipe2(os.O_DIRECT | os.O_CLOEXEC)
    run = subprocess.Popen([program, "check", "--templates", templates], stdin=read, stdout=subprocess.DEVNULL)
    os.close(read)
    for at in range(0, len(stream), step):
        os.write(write, stream[at : at + step])
    os.close(write)
    _, status, used = os.wait4(run.pid, 0)
    return os.waitstatus_to_exitcode(status), used.ru_utime + used.ru_stime


def write_to(path, templates):
    with open(path, "w", encoding="utf-8") as file:
        json.dump(templates, file)


def main():
    words = argparse.ArgumentParser()
    words.add_argument("program", nargs="?", default=f"{TOP}/crates/fastcat/out/fastcat")
    words.add_argument("--long", action="store_true")
    words = words.parse_args()
    program = os.path.abspath(words.program)
    are_enough = []
    print("| Command | Bytes read | Bytes written | Seconds | Memory, MB |")
    print("|---|---|---|---|---|")
    with tempfile.TemporaryDirectory() as folder:
        templates, stream = f"{folder}/templates.json", f"{folder}/stream"
        write_to(templates, REPEATED)
        for command, framed, few, many, enough in RUNS:
            with open(stream, "wb") as file:
                file.write(framed(FIRST + AGAIN * ((many if words.long else few) - 1)))
            status, written, seconds, memory = counted(command, program, templates, stream)
            print(f"| `{command}` | {os.path.getsize(stream):,} | {written:,} | {seconds:.1f} | {memory:.1f} |")
            are_enough.append(status == 0 and memory <= enough)
        print()
        print("| A line of | Bytes read | Bytes written | Seconds | Memory, MB |")
        print("|---|---|---|---|---|")
        for name, written_templates, stream_of, few, many, enough in LINES:
            write_to(templates, written_templates)
            message = stream_of(many if words.long else few)
            with open(stream, "wb") as file:
                file.write(message)
            status, written, seconds, memory = counted("show", program, templates, stream)
            print(f"| {name} | {len(message):,} | {written:,} | {seconds:.1f} | {memory:.1f} |")
            are_enough.append(status == 0 and memory <= enough + len(message) / 1e6)
        print()
        print("| A canonical stream of | Command | Bytes read | Seconds | Memory, MB |")
        print("|---|---|---|---|---|")
        for name, written_templates, canonical, enough in GREATEST:
            with open(templates, "w", encoding="utf-8") as file:
                file.writelines(written_templates())
            with open(stream, "wb") as file:
                file.writelines(canonical())
            for command in ("check", "canon", "show"):
                status, _, seconds, memory = counted(command, program, templates, stream)
                print(f"| {name} | `{command}` | {os.path.getsize(stream):,} | {seconds:.1f} | {memory:.1f} |")
                are_enough.append(status == 0 and memory <= enough)
            are_enough.append(stays(program, templates, stream))
        print()
        print("| 65,535 bytes of a | Seconds, 4,096 bytes a read | one a read | of 16 characters each, one a read |")
        print("|---|---|---|---|")
        write_to(templates, STRINGS)
        for name, longest, shorter in LONGEST:
            runs = [trickled(program, templates, *it) for it in ((longest, 4096), (longest, 1), (shorter, 1))]
            at_once, trickling, in_short = (seconds for _, seconds in runs)
            print(f"| {name} | {at_once:.2f} | {trickling:.2f} | {in_short:.2f} |")
            are_enough.append(not any(status for status, _ in runs) and max(at_once, trickling) <= TIMES * in_short + MORE)
    print()
    with tempfile.TemporaryDirectory() as folder:
        are_enough += packets.measure_asked(program, folder, 200)
    failed = are_enough.count(False)
    print(f"{are_enough.count(True)} passed, {failed} failed")
    return failed > 0


if __name__ == "__main__":
    sys.exit(main())
