#!/usr/bin/env python3
"""Measures what a message costs besides its fields, and feeds whose messages take turns.

usage: bench/frames.py [PROGRAM]

PROGRAM is crates/fastcat/out/fastcat if left out. A line of the table has `check`'s instructions for one message (by valgrind),
and those of `check`, `check --strict` and `show` for one byte, without what reading the templates and the program's start take:

alike: messages without fields, of the template of the one before, a byte each;
in turn: the same of two templates, so that each sends its identifier;
elements: an element of a sequence, of one field that is copied, behind a map of its own;
mixed: messages of twelve templates of 2 to 20 fields, in random turn, most fields as the message before had them;
packets: each of these messages as a packet, which sends all that it needs.

The status is 1 where `check` doesn't accept a feed, or `canon` writes other bytes than were made, but of packets: these are
made as they come.
"""
import json
import os
import random
import subprocess
import sys
import tempfile

import speed
from packets import check, field

MESSAGES = 20_000
KINDS = ("uInt32", "int64", "string", "uInt64", "int32")
OPERATORS = ("copy", "copy", "increment", "default", "delta")


def template(number, instructions):
    return {"name": f"T{number}", "id": number, "dictionary": "template", "instructions": instructions}


def empty_templates():
    return [template(1, []), template(2, [])]


def alike(chance):
    return [b"\xc0\x81" if number == 0 else b"\x80" for number in range(MESSAGES)]


def in_turn(chance):
    return [b"\xc0" + speed.unsigned(1 + number % 2) for number in range(MESSAGES)]


def element_templates():
    return [template(1, [{"kind": "sequence", "name": "Q", "instructions": [field("uInt32", "F", operator="copy")]}])]


def elements(chance):
    """Each element is counted as a message."""
    return [b"\xc0\x81" + speed.unsigned(MESSAGES), *(b"\xc0" + speed.unsigned(number % 100) for number in range(MESSAGES))]


def mixed_fields(number):
    """Which type and operator each field has: a string is copied, and only numbers are counted on."""
    fields = []
    for at in range(2 + 18 * (number - 1) // 11):
        kind = KINDS[(number + at) % len(KINDS)]
        operator = "copy" if kind == "string" else OPERATORS[(number * 3 + at) % len(OPERATORS)]
        fields.append((kind, operator))
    return fields


def mixed_templates():
    return [
        template(number, [
            field(kind, f"F{at}", operator=operator, **({"value": "7"} if operator == "default" else {}))
            for at, (kind, operator) in enumerate(mixed_fields(number))
        ])
        for number in range(1, 13)
    ]


def sent(kind, value):
    if kind == "string":
        return speed.text(value)
    return speed.signed(value) if kind.startswith("int") else speed.unsigned(value)


def value_of(kind, chance):
    return chance.choice(("AAPL", "MSFT", "ES", "ZN")) if kind == "string" else chance.randint(8, 5_000)


def message(number, chance, before, last):
    """A message of a template behind these values of its fields and this template, in its best form."""
    bits, out = [], bytearray()
    speed.copied(bits, out, last, number, speed.unsigned, False)
    for at, (kind, operator) in enumerate(mixed_fields(number)):
        old = before.get((number, at))
        stays = old is not None and chance.random() < 0.7
        if operator == "delta":
            new = old if stays else value_of(kind, chance)
            out += speed.signed(new - (old or 0))
        else:
            given = 7 if operator == "default" else old if operator == "copy" or old is None else old + 1
            new = given if stays or operator == "default" and chance.random() < 0.7 else value_of(kind, chance)
            bits.append(int(new != given))
            if bits[-1]:
                out += sent(kind, new)
        before[number, at] = new
    return speed.presence(bits) + bytes(out)


def mixed(chance):
    before, last, made = {}, None, []
    for _ in range(MESSAGES):
        number = chance.randint(1, 12)
        made.append(message(number, chance, before, last))
        last = number
    return made


def packets(chance):
    made = []
    for _ in range(MESSAGES):
        one = message(chance.randint(1, 12), chance, {}, None)
        made.append(speed.unsigned(len(one)) + one)
    return made


# (name, templates, what is made of them, the words of the command)
FEEDS = [
    ("alike", empty_templates, alike, []),
    ("in turn", empty_templates, in_turn, []),
    ("elements", element_templates, elements, []),
    ("mixed", mixed_templates, mixed, []),
    ("packets", mixed_templates, packets, ["--packets"]),
]


def main():
    program = os.path.abspath(sys.argv[1] if len(sys.argv) > 1 else f"{speed.TOP}/crates/fastcat/out/fastcat")
    good = True
    print("| Feed | Bytes | Instructions a message | a byte | strict | show |\n|---|---|---|---|---|---|")
    with tempfile.TemporaryDirectory() as folder:
        templates, path, none = (os.path.join(folder, name) for name in ("templates.json", "feed", "none"))
        open(none, "wb").close()
        for name, templates_of, made_of, words in FEEDS:
            with open(templates, "w", encoding="utf-8") as file:
                json.dump({"templates": templates_of()}, file)
            made = b"".join(made_of(random.Random(1)))
            with open(path, "wb") as file:
                file.write(made)
            taken = []
            for command in (["check"], ["check", "--strict"], ["show"]):
                command = [program, *command, *words, "--templates", templates]
                taken.append(check(command, path)[1] - check(command, none)[1])
            of_a_byte = " | ".join(f"{it / len(made):.0f}" for it in taken)
            print(f"| {name} | {len(made):,} | {taken[0] / MESSAGES:.0f} | {of_a_byte} |", flush=True)
            if not words:
                canon = [program, "canon", "--templates", templates, path]
                good &= subprocess.run(canon, stdout=subprocess.PIPE, check=False).stdout == made
    sys.exit(0 if good else "canon does not give the feed that was made")


if __name__ == "__main__":
    main()
