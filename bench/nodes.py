#!/usr/bin/env python3
"""Measures what messages as data cost, for a caller in C and for one in Python.

usage: bench/nodes.py [TEMPLATES STREAM LIMIT]..

`lib/build` has made the library. Each stream, or without any the feeds of bench/speed.py, is read in chunks of 65,536 bytes. A
line of the table has, by valgrind and without what reading the templates takes: the instructions for each node that a caller
in C takes (bench/nodes.c), and those for each node of `fastcat.messages` in Python, with _nodes.c and without, and of
`json.loads` over the lines of the same messages, without those that make the lines. Behind it stands what one message of
62,000 bytes takes that repeats a string of 60,000 characters 2,000 times: bytes of strings, and memory in C, besides what a
short message takes (a program's own pages come in as they are first used), and in Python.

The status is 1 where C takes more instructions a node than LIMIT, where Python with _nodes.c takes more than two thirds of
those of `json.loads`, or where the message takes more than a megabyte.
"""
import json
import os
import re
import subprocess
import sys
import tempfile

import speed

SIZE = 200_000
REPEATS = {"templates": [{"name": "Repeats", "id": 1, "instructions": [
    {"kind": "sequence", "name": "Rows", "instructions": [{"kind": "string", "name": "Text", "operator": "copy"}]}]}]}


def repeats(elements, characters):
    """A message of so many elements, of which the first has a string, and the others have it again."""
    return b"\xc0\x81" + speed.unsigned(elements) + b"\xc0" + speed.text("x" * characters) + b"\x80" * (elements - 1)


def instructions(words, environment):
    """What a program prints, and its instructions."""
    run = ["valgrind", "--tool=callgrind", "--callgrind-out-file=/dev/null", *words]
    ran = subprocess.run(run, capture_output=True, text=True, check=True, env={**os.environ, **environment})
    return ran.stdout, int(re.search(r"refs:\s+([\d,]+)", ran.stderr).group(1).replace(",", ""))


def greatest():
    """The greatest memory so far (that of getrusage begins with what started the program)."""
    with open("/proc/self/status") as file:
        return 1024 * int(re.search(r"VmHWM:\s+(\d+) kB", file.read()).group(1))


def in_python(templates, stream, lines, mode):
    """Does one of the three in this process, and prints by how much its greatest memory grew."""
    import fastcat

    with open(templates) as one, open(stream, "rb") as two, open(lines) as three:
        read, stream, lines = fastcat.Templates(one.read()), two.read(), three.read().splitlines()
    list(fastcat.messages(read, b""))
    before = greatest()
    if mode == "json":
        for line in lines:
            json.loads(line)
    elif mode == "read":
        for _ in fastcat.messages(read, stream):
            pass
    print(greatest() - before)


def built(folder):
    """The program in C, and the packages with _nodes.c and without."""
    program = os.path.join(folder, "nodes")
    subprocess.run(["cc", "-std=c99", "-O2", "-I", f"{speed.TOP}/include", "-o", program, f"{speed.TOP}/bench/nodes.c",
                    f"{speed.TOP}/lib/libfastcat.a", "-lm", "-lpthread"], check=True)
    build = [sys.executable, "-W", "ignore", "setup.py", "--quiet", "build"]
    subprocess.run([*build, "--build-base", f"{folder}/built", "--build-lib", f"{folder}/package"],
                   cwd=f"{speed.TOP}/python", check=True)
    if not any(name.startswith("_nodes.") and name.endswith(".so") for name in os.listdir(f"{folder}/package/fastcat")):
        sys.exit("python/fastcat/_nodes.c: no compiler or no headers of Python")
    return program, f"{folder}/package", f"{speed.TOP}/python"


def line_of(folder, name, templates, stream, limit):
    program, with_c, without = built(folder)
    base = instructions([program, templates, stream, "none"], {})[1]
    told, read = instructions([program, templates, stream, "read"], {})
    messages, nodes = map(int, told.split()[:2])
    sys.path.insert(0, without)
    import fastcat

    lines = f"{folder}/lines"
    with open(templates) as one, open(stream, "rb") as two, open(lines, "w") as three:
        three.write(fastcat.show(one.read(), two.read(), json=True))

    def taken(package, mode):
        words = [sys.executable, __file__, "--python", templates, stream, lines, mode]
        found = {"PYTHONPATH": package, "FASTCAT_LIBRARY": f"{speed.TOP}/lib/libfastcat.so", "PYTHONHASHSEED": "1"}
        return instructions(words, found)[1]

    none = taken(with_c, "none")
    figures = [read - base, taken(with_c, "read") - none, taken(without, "read") - none, taken(with_c, "json") - none]
    row = [name, messages, nodes, *(round(it / nodes) for it in figures), f"{figures[1] / figures[3]:.2f}"]
    print("| " + " | ".join(map(str, row)) + " |", flush=True)
    return (limit is None or figures[0] <= limit * nodes) and figures[1] <= figures[3] * 2 / 3


def repeated(folder):
    program, with_c, _ = built(folder)
    templates, stream, short = (f"{folder}/{name}" for name in ("repeats.json", "repeats.fast", "short.fast"))
    with open(templates, "w") as one, open(stream, "wb") as two, open(short, "wb") as three:
        json.dump(REPEATS, one)
        two.write(repeats(2000, 60_000))
        three.write(repeats(2, 10))

    def told(path):
        ran = subprocess.run([program, templates, path, "read"], capture_output=True, text=True, check=True)
        return map(int, ran.stdout.split())

    _, nodes, strings, in_c = told(stream)
    in_c -= [*told(short)][3]
    words = [sys.executable, __file__, "--python", templates, stream, os.devnull, "read"]
    found = {**os.environ, "PYTHONPATH": with_c, "FASTCAT_LIBRARY": f"{speed.TOP}/lib/libfastcat.so"}
    in_python = int(subprocess.run(words, capture_output=True, text=True, check=True, env=found).stdout)
    print(f"\n{os.path.getsize(stream)} bytes: {nodes} nodes and {strings} bytes of strings, "
          f"{in_c / 1e6:.2f} MB in C, {in_python / 1e6:.2f} MB in Python")
    return strings <= 1_000_000 and in_c <= 1_000_000


def main():
    if sys.argv[1:2] == ["--python"]:
        in_python(*sys.argv[2:])
        return
    print("| Feed | Messages | Nodes | C | Python | Python without _nodes.c | `json.loads` | Python of `json.loads` |")
    print("|---|---|---|---|---|---|---|---|")
    good = True
    with tempfile.TemporaryDirectory() as folder:
        given = [(os.path.basename(one), one, two, float(limit)) for one, two, limit in zip(*[iter(sys.argv[1:])] * 3)]
        for kind in () if given else ("book", "trade"):
            path = f"{folder}/{kind}"
            with open(path, "wb") as file:
                file.write(getattr(speed, kind)(SIZE, False))
            given.append((kind, f"{speed.TOP}/examples/{kind}.json", path, None))
        for one in given:
            good &= line_of(folder, *one)
        good &= repeated(folder)
    sys.exit(not good)


if __name__ == "__main__":
    main()
