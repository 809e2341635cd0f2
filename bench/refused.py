#!/usr/bin/env python3
"""Runs each test of some crates with its first allocation refused, then its second, and so on to the last.

usage: bench/refused.py CRATE.. [--only WORD] [--skip WORD].. [--most N]

`rt test` in a crate, or `rt ci` at the top, has built its tests; with --only, only those whose names have the word are
run, and with --skip those that have none of its words. Each run must end well or with want of memory. A test that
spares what it only stands on, by the marks of crates/template_tests/src/growths.rt, has all others refused, if they are
no more than 8,000. Of one that asks more often, or has no marks and asks more than N times (1,000, if left out), the
first half of them are refused in turn, and of the others as many, evenly spread. A line for each test says how many were refused, of how many, and how the runs ended; the last line is
'N passed, M failed', a test each.
"""
import argparse
import collections
import os
import subprocess
import sys
import tempfile

WELL, WANT_OF_MEMORY = "well", "want"

# How many are refused of a test that spares what it only stands on: one load of templates asks for hundreds.
MOST_BEHIND_MARKS = 8_000

# How a test says that it ended for want of memory: an allocation, a call's own answer, a decoder, serde_json, or the
# test itself, where there is no memory to keep what another one said.
SAID = ("rror: AllocError", "rror: Memory", "rror: Fault { cause: Memory", "rror: Error(out of memory)",
        "rror: AllocFailed")


def library_in(folder):
    """Makes what is preloaded."""
    library = os.path.join(folder, "refused.so")
    source = os.path.join(os.path.dirname(os.path.abspath(__file__)), "refused.c")
    subprocess.run(["cc", "-shared", "-fPIC", "-O1", "-o", library, source, "-ldl"], check=True)
    return library


def runs(words, library, refused):
    """How a run ends with each of these allocations refused, how many it asked for then, and its marks: by number."""
    reader, writer = os.pipe()
    os.set_inheritable(writer, True)
    # (of many in turn their list would be too long for an environment)
    listed = f"{refused[0]}-{refused[-1]}" if isinstance(refused, range) else " ".join(map(str, refused))
    environment = {"LD_PRELOAD": library, "REFUSED": listed, "SAID": "\n".join(SAID),
                   "JOBS": str(os.cpu_count()), "TOLD": str(writer)}
    started = subprocess.Popen(words, env=environment, pass_fds=[writer])
    os.close(writer)
    with os.fdopen(reader) as told:
        lines = [line.split() for line in told]
    if started.wait():
        sys.exit(f"{' '.join(words)}: could not be run with allocations refused")
    return {int(number): (end, int(asked), int(marks)) for number, end, asked, marks in lines}


def numbers(asked, most):
    """Which allocations are refused."""
    if asked <= most:
        return range(1, asked + 1)
    first = most // 2
    step = (asked - first) / (most - first)
    return [*range(1, first + 1), *(first + int(step * (turn + 1)) for turn in range(most - first))]


def main():
    words = argparse.ArgumentParser()
    words.add_argument("crates", nargs="+")
    words.add_argument("--only", default="")
    words.add_argument("--skip", action="append", default=[])
    words.add_argument("--most", type=int, default=1000)
    words = words.parse_args()
    here = os.path.dirname(os.path.abspath(__file__))
    passed = failed = 0
    with tempfile.TemporaryDirectory() as folder:
        library = library_in(folder)
        for crate in words.crates:
            program = os.path.join(here, f"../crates/{crate}/out/{crate}_tests")
            listed = subprocess.run([program, "--list"], capture_output=True, text=True, check=True).stdout.splitlines()
            for test in [line.removesuffix(": test") for line in listed if line.endswith(": test")]:
                if words.only not in test or any(word in test for word in words.skip):
                    continue
                end, asked, marks = runs([program, test], library, [0])[0]
                refused = numbers(asked, max(words.most, MOST_BEHIND_MARKS) if marks else words.most)
                ended = runs([program, test], library, refused) if refused else {}
                ends = [ended[number][0] for number in refused]
                counts = collections.Counter(ends)
                others = [(number, it) for number, it in zip(refused, ends) if it not in (WELL, WANT_OF_MEMORY)]
                is_good = end == WELL and not others
                passed, failed = passed + is_good, failed + (not is_good)
                print(f"{crate} {test}: {len(ends)} of {asked} refused in turn, want of memory {counts[WANT_OF_MEMORY]}, "
                      f"well {counts[WELL]}, otherwise {others[:5]}", flush=True)
    print(f"{passed} passed, {failed} failed")
    return failed > 0


if __name__ == "__main__":
    sys.exit(main())
