#!/usr/bin/env python3
"""Measures how long template sets of extreme shapes take to load, and how much memory.

usage: bench/load.py [PROGRAM]

PROGRAM is crates/fastcat/out/fastcat if left out (`rt run` in crates/fastcat builds it), which checks a stream of no
bytes. Each text is made anew, loaded three times, and answered by one line of a table: the text's size, what the
program says, the least processor time and the greatest memory. A last line has the instructions, by valgrind, that 200
templates of 19 fields take. The status is 1 where an answer is not the one expected, or more is taken than is said here
to be enough.
"""
import json
import os
import re
import subprocess
import sys
import tempfile

MOST = 65_535

ACCEPTED = "ok messages=0 bytes=0 canonical=0"


def field(name, **more):
    return {"kind": "uInt32", "name": name, **more}


def template(name, *instructions):
    return {"name": name, "instructions": list(instructions)}


def refers(name, *others):
    return template(name, *({"kind": "templateRef", "name": other} for other in others))


def doubling(last):
    return [refers(f"N{n}", f"N{n + 1}", f"N{n + 1}") for n in range(1, 130)] + [template("N130", *last)]


def chain():
    return [refers(f"N{n}", f"N{n + 1}") for n in range(1, MOST)] + [template(f"N{MOST}")]


def ring():
    return chain()[:-1] + [refers(f"N{MOST}", "N1")]


def between_cycles():
    """A ring of two, a path from it, and at its end another ring of two, which the last template closes."""
    path = [refers(f"P{n}", f"P{n + 1}") for n in range(1, MOST - 4)]
    return path + [refers(f"P{MOST - 4}", "C"), refers("A", "B"), refers("B", "A", "P1"), refers("C", "D"), refers("D", "C")]


def long_text():
    """Some 16 MB: names of 255 characters."""
    return [template(f"{n:0>255}", field(f"{n:a>200}")) for n in range(32_000)]


def long_value():
    return template("S", {"kind": "string", "name": "C", "operator": "constant", "value": "c" * MOST})


def usual():
    return [template(f"T{n}", *(field(f"F{m}", operator="copy") for m in range(19))) for n in range(200)]


# How many instructions are enough for 200 templates of 19 fields, with all that the program does before and after.
ENOUGH_INSTRUCTIONS = 31_000_000

# The memory in MB that is enough, where it is bounded.
ENOUGH_MEMORY = {"65,535 templates of one field": 120, "2,390,000 objects that are no templates": 1000}

CASES = [
    ("no template", lambda: [], ACCEPTED),
    ("130 templates, each referring twice to the next, the last one empty", lambda: doubling([]), ACCEPTED),
    ("the same, the last one with a field: more than 2^64 instructions", lambda: doubling([field("F")]),
     "templates refused TooMany template=1 instruction=0"),
    ("a chain of 65,535 templates", chain, ACCEPTED),
    ("the same, the last one first", lambda: chain()[::-1], ACCEPTED),
    ("a ring of 65,535 templates", ring, "templates refused Cycle template=1 instruction=0"),
    ("a path of 65,531 templates between two cycles", between_cycles,
     "templates refused Cycle template=65532 instruction=0"),
    ("65,535 instructions in one template, one key each",
     lambda: [template("T", *(field(f"F{n}", operator="copy") for n in range(MOST)))], ACCEPTED),
    ("the same, with one key", lambda: [template("T", *(field("F", operator="copy", key="K") for _ in range(MOST)))],
     ACCEPTED),
    ("65,535 templates whose names differ at their ends", lambda: [template(f"{n:x>80}", field("F")) for n in range(MOST)],
     ACCEPTED),
    ("65,535 templates of one field", lambda: [template(f"T{n}", field("F", operator="copy")) for n in range(MOST)], ACCEPTED),
    ("2,390,000 objects that are no templates", lambda: [{"": 0}] * 2_390_000, "templates refused S1 template=1 instruction=0"),
    ("names of 255 characters", long_text, ACCEPTED),
    ("20,000 references to a value of 65,535 characters", lambda: [refers("T", *("S" for _ in range(20_000))), long_value()],
     ACCEPTED),
    ("16 templates, each referring twice to the next, the last one with that value: 65,535 instructions",
     lambda: [refers(f"N{n}", f"N{n + 1}", f"N{n + 1}") for n in range(1, 15)] + [refers("N15", "S", "S"), long_value()],
     ACCEPTED),
]


def write(path, templates):
    """Writes a template text, in a process of its own: what that takes would count as the program's."""
    child = os.fork()
    if child == 0:
        with open(path, "w") as text:
            json.dump({"templates": templates()}, text, separators=(",", ":"))
        os._exit(0)
    os.waitpid(child, 0)


def run(program, path):
    """What the program says of a file, the processor seconds it takes, and its greatest memory in MB."""
    words = [program, "check", "--templates", path]
    how = dict(stdin=subprocess.DEVNULL, stdout=subprocess.PIPE, stderr=subprocess.STDOUT)
    with subprocess.Popen(words, **how) as child:
        said = child.stdout.read().decode().strip()
        _, _, used = os.wait4(child.pid, 0)
        child.returncode = 0
    return said, used.ru_utime + used.ru_stime, used.ru_maxrss / 1024


def instructions(program, path):
    """The instructions that loading a file takes."""
    run = ["valgrind", "--tool=callgrind", "--callgrind-out-file=/dev/null", program, "check", "--templates", path]
    ran = subprocess.run(run, stdin=subprocess.DEVNULL, capture_output=True, text=True, check=True)
    return int(re.search(r"refs:\s+([\d,]+)", ran.stderr).group(1).replace(",", ""))


def main():
    here = os.path.dirname(os.path.abspath(__file__))
    default = os.path.join(here, "../crates/fastcat/out/fastcat")
    program = sys.argv[1] if len(sys.argv) > 1 else default
    wrong = 0
    print("| Templates | Text, MB | Answer | Seconds | Memory, MB |\n|---|---|---|---|---|")
    with tempfile.TemporaryDirectory() as folder:
        path = os.path.join(folder, "templates.json")
        for name, templates, expected in CASES:
            write(path, templates)
            runs = [run(program, path) for _ in range(3)]
            said = runs[0][0]
            wrong += said != expected
            size = os.path.getsize(path) / 1e6
            memory = max(r[2] for r in runs)
            print(f"| {name} | {size:.1f} | {said} | {min(r[1] for r in runs):.2f} | {memory:.0f} |")
            if said != expected:
                print(f"{name}: expected {expected}", file=sys.stderr)
            if memory > ENOUGH_MEMORY.get(name, memory):
                print(f"{name}: more than {ENOUGH_MEMORY[name]} MB", file=sys.stderr)
                wrong += 1
        write(path, usual)
        counted = instructions(program, path)
        print(f"\n200 templates of 19 fields: {counted / 1e6:.1f} million instructions")
        if counted > ENOUGH_INSTRUCTIONS:
            print(f"200 templates of 19 fields: more than {ENOUGH_INSTRUCTIONS:,} instructions", file=sys.stderr)
            wrong += 1
    return 1 if wrong else 0


if __name__ == "__main__":
    sys.exit(main())
