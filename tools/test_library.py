"""Tests of the library as Python calls it, over the examples. Expected values are those of README.md, of docs/FORMAT.md
and of the files of examples/."""

import collections.abc
import copy
import ctypes
import dataclasses
import decimal
import gc
import io
import itertools
import json
import os
import pathlib
import pickle
import random
import re
import resource
import shutil
import socket
import subprocess
import sys
import tempfile
import threading
import unittest
import warnings

TOP = pathlib.Path(__file__).resolve().parent.parent
sys.path.insert(0, str(TOP / "python"))

import fastcat as library  # noqa: E402


def outcome(call, *arguments, **named):
    """What a call returns, or the error that it raises."""
    try:
        return call(*arguments, **named)
    except (library.FastcatError, TypeError, ValueError) as error:
        return error


def as_told(it):
    """An outcome to be compared, an error by what it says."""
    return (type(it), str(it), getattr(it, "answer", None), getattr(it, "written", None)) if isinstance(it, Exception) else it


def twice(call):
    """The call with a template text, and with `Templates` of it, which do the same."""

    def calls(templates, data, *arguments, **named):
        data, again = itertools.tee(data) if isinstance(data, collections.abc.Iterator) else (data, data)
        done = outcome(call, templates, data, *arguments, **named)
        with_read = outcome(read_and, call, templates, again, *arguments, **named)
        if as_told(done) != as_told(with_read):
            raise AssertionError(f"{done!r} with a text, {with_read!r} with templates that were read")
        if isinstance(done, Exception):
            raise done
        return done

    return calls


def read_and(call, templates, *arguments, **named):
    with library.Templates(templates) as read:
        return call(read, *arguments, **named)


class Both:
    """The library, whose calls are made with a text and with templates that were read."""

    canon, check, show, write = map(staticmethod, map(twice, (library.canon, library.check, library.show, library.write)))

    def __getattr__(self, name):
        return getattr(library, name)


fastcat = Both()

EXAMPLES = TOP / "examples"


def text(name):
    return (EXAMPLES / name).read_text()


def data(name):
    return bytes.fromhex(text(name))


WORKED = text("worked.json")
ONE = bytes.fromhex("f0818141c2fe00e4")
PROGRAM = TOP / "crates/fastcat/out/fastcat"
HEADER = (TOP / "include/fastcat.h").read_text()


def name_in_c(name):
    """`BlockEnd` as BLOCK_END, `D2` as it is; JSON is the bit of a mode."""
    return {"NONE": "NO_CAUSE", "Json": "NOT_JSON"}.get(name) or re.sub(r"(?<=[a-z])(?=[A-Z])", "_", name).upper()


class Examples(unittest.TestCase):
    def test_each_in_each_mode(self):
        for name in ("worked", "book", "trade"):
            templates, canonical, lines = text(f"{name}.json"), data(f"{name}.canon"), text(f"{name}.lines")
            for stream, blocks in ((data(f"{name}.hex"), False), (canonical, False), (data(f"{name}.blocks"), True)):
                for strict in (False, True):
                    with self.subTest(name=name, blocks=blocks, strict=strict):
                        self.assertEqual(fastcat.canon(templates, stream, strict, blocks), canonical)
                        self.assertEqual(fastcat.show(templates, stream, strict, blocks), lines)
                        answer = fastcat.check(templates, stream, strict, blocks)
                        self.assertEqual(answer.messages, lines.count("\n"))
                        self.assertEqual((answer.read, answer.written), (len(stream), len(canonical)))

    def test_json(self):
        for name in ("worked", "book", "trade"):
            self.assertEqual(fastcat.show(text(f"{name}.json"), data(f"{name}.hex"), json=True), text(f"{name}.jsonl"))

    def test_packets(self):
        templates, canonical = text("moex.json"), data("moex.canon")
        for recording in (data("moex.packets"), canonical):
            self.assertEqual(fastcat.canon(templates, recording, packets=True), canonical)
            self.assertEqual(fastcat.show(templates, recording, packets=True), text("moex.lines"))
            self.assertEqual(fastcat.show(templates, recording, packets=True, json=True), text("moex.jsonl"))
            answer = fastcat.check(templates, recording, packets=True)
            self.assertEqual((answer.read, answer.written), (len(recording), len(canonical)))
            self.assertEqual(answer.messages, text("moex.lines").count("\n"))
            self.assertEqual(answer.packets, len(set(re.findall(r'^{"packet":(\d+),', text("moex.jsonl"), re.M))))

    def test_each_front_of_a_recording(self):
        """A front ends between two packets or is Truncated, and the packets before are written."""
        templates, canonical = text("moex.json"), data("moex.canon")
        for length in range(len(canonical)):
            try:
                self.assertEqual(fastcat.canon(templates, canonical[:length], packets=True), canonical[:length])
            except fastcat.FastcatError as error:
                self.assertIs(error.answer.cause, fastcat.Cause.Truncated)
                self.assertEqual(error.written, canonical[:len(error.written)])
                self.assertEqual(error.answer.packets, error.answer.packet - 1)
                self.assertEqual(fastcat.check(templates, error.written, packets=True).packets, error.answer.packets)

    def test_each_front(self):
        """A front of a stream ends between two messages or is Truncated, and what is before it is written."""
        canonical = data("book.canon")
        for length in range(len(canonical)):
            try:
                self.assertEqual(fastcat.canon(text("book.json"), canonical[:length]), canonical[:length])
            except fastcat.FastcatError as error:
                self.assertIs(error.answer.cause, fastcat.Cause.Truncated)
                self.assertTrue(canonical.startswith(error.written))
                self.assertEqual(error.answer.messages, error.answer.message - 1)

    def test_templates_as_bytes(self):
        self.assertEqual(fastcat.canon(WORKED.encode(), bytearray(ONE)), ONE)
        self.assertIsNone(fastcat.check_templates(WORKED.encode()))

    def test_templates_of_a_file(self):
        self.assertEqual(fastcat.canon(EXAMPLES / "worked.json", ONE), ONE)
        self.assertIsNone(fastcat.check_templates(EXAMPLES / "worked.json"))

    def test_what_is_no_bytes(self):
        for stream in ("f081", 5):
            for call in (fastcat.canon, fastcat.check, fastcat.show):
                with self.subTest(stream=stream), self.assertRaisesRegex(TypeError, "^stream: bytes are wanted"):
                    call(WORKED, stream)
        with self.assertRaisesRegex(TypeError, "^templates: bytes are wanted"):
            fastcat.check_templates(5)

    def test_version(self):
        self.assertEqual(fastcat.__version__, "0.2.0")


class Refusals(unittest.TestCase):
    def refusal(self, call, *arguments, **named):
        with self.assertRaises(fastcat.FastcatError) as caught:
            call(*arguments, **named)
        return caught.exception

    def test_strict(self):
        stream = bytes.fromhex("f08100008141c2fe00e4")
        self.assertEqual(fastcat.check(WORKED, stream).written, 8)
        for call in (fastcat.canon, fastcat.check, fastcat.show):
            error = self.refusal(call, WORKED, stream, strict=True)
            self.assertEqual(str(error), "refused R6 message=1 offset=2 template=1 instruction=1")

    def test_packets(self):
        error = self.refusal(fastcat.show, WORKED, b"\x88" + ONE + b"\x83\x80\x80\x81", packets=True)
        self.assertEqual(str(error), "refused D5 packet=2 message=1 offset=11 template=0 instruction=0")
        self.assertEqual(error.written, b'1 Quote Seq=1 Sym="AB" Px=100e-2 Qty=-\n')
        self.assertEqual((error.packet, error.message, error.offset), (2, 1, 11))
        error = self.refusal(fastcat.canon, WORKED, b"\x88" + ONE, packets=True, blocks=True)
        self.assertEqual(str(error), "unknown mode")

    def test_truncated(self):
        error = self.refusal(fastcat.canon, WORKED, ONE + b"\x80")
        self.assertEqual(str(error), "refused Truncated message=2 offset=9 template=1 instruction=3")
        self.assertEqual((error.written, error.answer.messages), (ONE, 1))
        self.assertEqual((error.status, error.cause), (fastcat.Status.STREAM_REFUSED, fastcat.Cause.Truncated))
        self.assertEqual((error.message, error.offset, error.template, error.instruction, error.packet), (2, 9, 1, 3, 0))
        self.assertNotIn("written=b", repr(error))
        self.assertNotIn("\\x", repr(error))
        copied = pickle.loads(pickle.dumps(error))
        self.assertEqual((copied.written, copied.answer), (error.written, error.answer))
        error = self.refusal(fastcat.show, WORKED, ONE + b"\x80")
        self.assertEqual(error.written, b'1 Quote Seq=1 Sym="AB" Px=100e-2 Qty=-\n')

    def test_no_identifier(self):
        error = self.refusal(fastcat.check, WORKED, b"\x80")
        self.assertEqual(str(error), "refused D5 message=1 offset=1 template=0 instruction=0")

    def test_templates(self):
        rows = {
            "": "S1 template=0 instruction=0",
            "[]": "S1 template=0 instruction=0",
            '{"templates":[{"name":"A","instructions":[]},{"name":"A","instructions":[]}]}': "DuplicateName template=2 instruction=0",
            '{"templates":[{"name":"A","instructions":[{"kind":"templateRef","name":"B"}]}]}': "D8 template=1 instruction=1",
        }
        for templates, expected in rows.items():
            with self.subTest(templates=templates):
                self.assertEqual(str(self.refusal(fastcat.check_templates, templates)), "templates refused " + expected)
                self.assertEqual(str(self.refusal(fastcat.canon, templates, ONE)), "templates refused " + expected)

    def test_empty(self):
        self.assertEqual(fastcat.canon(WORKED, b""), b"")
        self.assertEqual(fastcat.show(WORKED, b""), "")
        self.assertEqual(fastcat.check(WORKED, b"").messages, 0)


def messages(lines):
    """Messages of lines, whose decimals keep all their digits."""
    return [json.loads(line, parse_float=decimal.Decimal) for line in lines.splitlines()]


def quote(price, **others):
    """A message of the template Quote."""
    return {"template": "Quote", "fields": {"Seq": 1, "Sym": "AB", "Px": price} | others}


class Writing(unittest.TestCase):
    def test_what_is_shown_is_written(self):
        for name, packets in (("worked", False), ("book", False), ("trade", False), ("moex", True)):
            templates, canonical, lines = text(f"{name}.json"), data(f"{name}.canon"), text(f"{name}.jsonl")
            self.assertEqual(fastcat.show(templates, canonical, packets=packets, json=True), lines)
            for given in (lines, lines.encode(), bytearray(lines.encode()), lines.splitlines(), lines.splitlines(keepends=True),
                          iter(lines.encode().splitlines()), messages(lines), tuple(messages(lines))):
                with self.subTest(name=name, given=type(given)):
                    self.assertEqual(fastcat.write(templates, given, packets=packets), canonical)

    def test_templates_of_a_file(self):
        with open(EXAMPLES / "worked.jsonl", encoding="utf-8") as lines:
            self.assertEqual(fastcat.write(EXAMPLES / "worked.json", lines), data("worked.canon"))

    def test_decimals(self):
        """Behind the map, 1 and AB: the exponent and the mantissa, in groups of seven bits."""
        rows = (
            (decimal.Decimal("4500.250"), "fd0212569a"),
            (decimal.Decimal("4500.25"), "fe1b3be9"),
            (decimal.Decimal("4.50025E+3"), "fe1b3be9"),
            (decimal.Decimal("-1"), "80ff"),
            (decimal.Decimal("1E+2"), "8281"),
            (4500, "802394"),
            ("4500.250", "fd0212569a"),
        )
        for price, expected in rows:
            with self.subTest(price=price):
                self.assertEqual(fastcat.write(WORKED, [quote(price)]).hex(), "f0818141c2" + expected)

    def test_bytes(self):
        for raw in (b"\x01\xff", bytearray(b"\x01\xff"), memoryview(b"\x01\xff"), "01ff", "01FF"):
            with self.subTest(raw=raw):
                message = {"id": 15, "fields": {"Px": decimal.Decimal("1.00"), "Raw": raw}}
                self.assertEqual(fastcat.write(WORKED, [message]).hex(), "e08f00e48301ff")

    def test_a_line_feed_in_a_string(self):
        self.assertEqual(fastcat.write(WORKED, [quote(decimal.Decimal("1.00"), Sym="A\nB")]).hex(), "f08181410ac2fe00e4")

    def test_room_is_grown(self):
        """A hundred fields that are left out are a byte each."""
        instructions = [{"kind": "uInt32", "name": f"F{n}", "presence": "optional"} for n in range(100)]
        templates = json.dumps({"templates": [{"name": "T", "id": 1, "instructions": instructions}]})
        self.assertEqual(fastcat.write(templates, [{"id": 1, "fields": {}}]), b"\xc0\x81" + b"\x80" * 100)

    def test_nothing(self):
        for given in ("", b"", [], " \r\n\t\n"):
            self.assertEqual(fastcat.write(WORKED, given), b"")
            self.assertEqual(fastcat.write(WORKED, given, packets=True), b"")

    def refusal(self, *arguments, **named):
        with self.assertRaises(fastcat.FastcatError) as caught:
            fastcat.write(*arguments, **named)
        return caught.exception

    def test_refused(self):
        good = quote(decimal.Decimal("1.00"))
        error = self.refusal(WORKED, [good, good | {"fields": {"Seq": 2, "Sym": 5, "Px": 1}}, good])
        self.assertEqual(str(error), "refused Mismatch line=2 template=1 instruction=2")
        self.assertEqual((error.written, error.answer.written), (ONE, 8))
        self.assertIs(error.answer.status, fastcat.Status.LINE_REFUSED)
        self.assertEqual(error.answer.message, 2)
        copied = pickle.loads(pickle.dumps(error))
        self.assertEqual((copied.written, copied.answer), (error.written, error.answer))
        error = self.refusal(WORKED, text("worked.jsonl") + "\n" + '{"id":14,"fields":{"K":8,"D":3}}')
        self.assertEqual(str(error), "refused NotConstant line=4 template=14 instruction=1")
        self.assertEqual(error.written, data("worked.canon"))
        self.assertEqual(str(self.refusal("[]", [good])), "templates refused S1 template=0 instruction=0")

    def test_refused_in_packets(self):
        good = quote(decimal.Decimal("1.00"))
        numbered = [good | {"packet": 1}, good | {"packet": 3}]
        self.assertEqual(fastcat.write(WORKED, numbered, packets=True), (b"\x88" + ONE) * 2)
        error = self.refusal(WORKED, [good | {"packet": 2}, good | {"packet": 1}], packets=True)
        self.assertEqual(str(error), "refused Line line=2 template=0 instruction=0")
        self.assertEqual(error.written, b"\x88" + ONE)
        self.assertIs(self.refusal(WORKED, [good], packets=True).answer.cause, fastcat.Cause.Line)
        self.assertIs(self.refusal(WORKED, [good | {"packet": 1}]).answer.cause, fastcat.Cause.Line)

    def test_a_packet_is_full(self):
        """A packet has at most 65,535 bytes; what stands before the line that is too much is written."""
        templates = '{"templates":[{"name":"T","id":5,"instructions":[{"kind":"string","charset":"unicode","name":"U"}]}]}'
        message = {"packet": 1, "id": 5, "fields": {"U": "A" * 40_000}}
        error = self.refusal(templates, [message, message], packets=True)
        self.assertEqual(str(error), "refused Limit line=2 template=0 instruction=0")
        self.assertEqual(error.written, bytes.fromhex("0238c5c0850238c0") + b"A" * 40_000)
        error = self.refusal(templates, [{"id": 5, "fields": {"U": "A" * 65_536}}])
        self.assertEqual(str(error), "refused Limit line=1 template=5 instruction=1")

    def test_what_is_no_message(self):
        for price in (4500.5, float("nan")):
            with self.assertRaisesRegex(TypeError, "decimal.Decimal"):
                fastcat.write(WORKED, [quote(price)])
        with self.assertRaisesRegex(TypeError, "decimal.Decimal"):
            fastcat.write(WORKED, [{"id": 4, "fields": {"L": [{"P": 1.5}]}}])
        for given in (5, None, quote(1), [5], [None], [[]]):
            with self.subTest(given=given), self.assertRaisesRegex(TypeError, "^messages: "):
                fastcat.write(WORKED, given)
        line = text("worked.jsonl").splitlines()[0]
        for item in (line + "\n" + line, line.encode() + b"\n\n"):
            with self.assertRaisesRegex(ValueError, "one line"):
                fastcat.write(WORKED, [item])


class Causes(unittest.TestCase):
    """Each cause has the number of fastcat.h and of the table, and is what its row is refused for."""

    ROWS = [line.split(" ", 4) for line in (TOP / "tools/causes.txt").read_text().splitlines() if line[0] != "#"]

    def test_numbers(self):
        header = dict(re.findall(r"FASTCAT_(\w+) = (\d+),? */\* [^\n]*", HEADER.split("enum fastcat_cause")[1].split("};")[0]))
        header["NO_CAUSE"] = "0"
        self.assertEqual(header, {name: number for _, name, number, _, _ in self.ROWS})
        self.assertEqual({name_in_c(it.name): str(it.value) for it in fastcat.Cause}, header)
        statuses = dict(re.findall(r"FASTCAT_(\w+) = (\d+)", HEADER.split("enum fastcat_status")[1].split("};")[0]))
        self.assertEqual({it.name: str(it.value) for it in fastcat.Status}, statuses)

    def test_modes(self):
        """Each bit of a mode has the number of fastcat.h, by its name."""
        modes = dict(re.findall(r"FASTCAT_(\w+) = (\d+)", HEADER.split("enum fastcat_status")[0]))
        names = ("strict", "blocks", "packets", "json")
        self.assertEqual(modes, {it.upper(): str(fastcat._calls.mode_of(*(it == other for other in names))) for it in names})

    def test_answer(self):
        """The parts of an answer stand in the order of fastcat.h, and are as wide."""
        parts = re.findall(r"uint(\d+)_t (\w+);", HEADER.split("struct fastcat_answer {")[1].split("};")[0])
        self.assertEqual([(name.removesuffix("_id"), int(bits)) for bits, name in parts],
                         [(name, 8 * ctypes.sizeof(kind)) for name, kind in fastcat._library.RawAnswer._fields_])

    def test_fields(self):
        """Fields, sizes, what a reader counts and kinds are those of fastcat.h."""
        for name, raw in (("field", fastcat._library.RawField), ("sizes", fastcat._library.RawSizes),
                          ("counts", fastcat._library.RawCounts)):
            declared = HEADER.split(f"struct fastcat_{name} {{")[1].split("};")[0]
            parts = [(one.removesuffix("_id"), int(bits)) for bits, names in re.findall(r"uint(\d+)_t ([\w, ]+);", declared)
                     for one in names.split(", ")]
            self.assertEqual(parts, [(one, 8 * ctypes.sizeof(kind)) for one, kind in raw._fields_])
        kinds = re.findall(r"FASTCAT_(\w+) = (\d+)", HEADER.split("enum fastcat_kind")[1].split("};")[0])
        named = {"bytes": "bytevector"}
        others = ("MESSAGE", "ABSENT", "ELEMENT")
        self.assertEqual({int(number): named.get(name.lower(), name.lower()) for name, number in kinds if name not in others},
                         {number: kind.lower() for number, kind in fastcat._templates.KINDS.items()})

    def test_names(self):
        """Statuses and causes have the names of fastcat.h for people."""
        names = dict(re.findall(r'case FASTCAT_(\w+): return "([^"]*)";', HEADER))
        of = {it.name: it.name.lower().replace("_", " ") for it in fastcat.Status}
        of |= {name_in_c(it.name): "" if it is fastcat.Cause.NONE else it.name for it in fastcat.Cause}
        self.assertEqual(names, of)

    @unittest.skipUnless(PROGRAM.exists(), "the program is not built")
    def test_the_program(self):
        """The program names causes so."""
        with tempfile.TemporaryDirectory() as folder:
            over, file = pathlib.Path(folder, "over"), pathlib.Path(folder, "file")
            for kind, name, _, mode, what in self.ROWS:
                with self.subTest(name=name):
                    if kind == "over":
                        over.write_text(what)
                        continue
                    templates = folder + "/templates" if kind == "templates" else str(over)
                    if kind == "templates":
                        pathlib.Path(templates).write_text(what)
                    file.write_text("" if kind == "templates" else what)
                    words = ["write"] if kind == "line" else ["check", "--hex"]
                    words += ["--strict"] * (mode in "13") + ["--blocks"] * (mode in "23")
                    ended = subprocess.run([PROGRAM, *words, "--templates", templates, file], capture_output=True, text=True)
                    cause = ended.stderr.removeprefix("templates ").split()[1]
                    self.assertEqual(name_in_c(cause), name)

    def test_rows(self):
        over = next(row[4] for row in self.ROWS if row[0] == "over")
        for kind, name, number, mode, what in self.ROWS:
            with self.subTest(name=name):
                if kind == "stream":
                    call, given = fastcat.check, (over, bytes.fromhex(what), mode in "13", mode in "23")
                elif kind == "line":
                    call, given = fastcat.write, (over, what)
                elif kind == "templates":
                    call, given = fastcat.check_templates, (what,)
                else:
                    continue
                with self.assertRaises(fastcat.FastcatError) as caught:
                    call(*given)
                self.assertEqual(name_in_c(caught.exception.answer.cause.name), name)
                self.assertEqual(int(caught.exception.answer.cause), int(number))


class Rooms(unittest.TestCase):
    def test_room_is_grown(self):
        """Fifty messages of three bytes each have lines of 39 and more."""
        stream = ONE + bytes.fromhex("808081") * 50
        lines = fastcat.show(WORKED, stream).splitlines()
        self.assertEqual(len(lines), 51)
        self.assertEqual(lines[1], '1 Quote Seq=2 Sym="AB" Px=101e-2 Qty=-')

    def test_no_memory(self):
        """There is memory for the room of 12 MB, and not for as many bytes a second time."""
        # (of a process of its own: this one has memory that it freed)
        script = (
            "import fastcat, pathlib, resource, sys\n"
            "templates, one = sys.argv[1], bytes.fromhex(sys.argv[2])\n"
            "stream = one + bytes.fromhex('808081') * 4_000_000\n"
            "taken = int(pathlib.Path('/proc/self/statm').read_text().split()[0]) * resource.getpagesize()\n"
            "resource.setrlimit(resource.RLIMIT_AS, (taken + (20 << 20), taken + (20 << 20)))\n"
            "try: fastcat.canon(templates, stream)\n"
            "except fastcat.FastcatError as error: print(error)\n"
        )
        environment = {**os.environ, "PYTHONPATH": str(TOP / "python")}
        said = subprocess.run([sys.executable, "-B", "-c", script, WORKED, ONE.hex()], env=environment, capture_output=True, text=True)
        self.assertEqual((said.stdout, said.stderr), ("no memory\n", ""))

    def test_threads(self):
        wrong = []

        def run():
            for _ in range(20):
                if fastcat.canon(WORKED, data("worked.hex")) != data("worked.canon"):
                    wrong.append(1)

        threads = [threading.Thread(target=run) for _ in range(4)]
        for thread in threads:
            thread.start()
        for thread in threads:
            thread.join()
        self.assertEqual(wrong, [])


class Sets(unittest.TestCase):
    """Templates that are read once, and used again."""

    def test_kinds(self):
        for given in (WORKED, WORKED.encode(), bytearray(WORKED.encode()), EXAMPLES / "worked.json"):
            with self.subTest(given=type(given)), library.Templates(given) as read:
                for _ in range(3):
                    self.assertEqual(library.canon(read, ONE), ONE)
                self.assertEqual(library.check(read, ONE).messages, 1)
                self.assertEqual(library.show(read, ONE), '1 Quote Seq=1 Sym="AB" Px=100e-2 Qty=-\n')
                self.assertEqual(library.write(read, [quote(decimal.Decimal("1.00"))]), ONE)
                self.assertIsNone(library.check_templates(read))

    def test_refused(self):
        for given, expected in (("[]", library.FastcatError), (5, TypeError), (None, TypeError)):
            with self.assertRaises(expected):
                library.Templates(given)
        self.assertEqual(str(outcome(library.Templates, "[]")), "templates refused S1 template=0 instruction=0")

    def test_closed(self):
        read = library.Templates(WORKED)
        error = outcome(library.canon, read, ONE + b"\x80")
        self.assertEqual((error.answer.messages, error.written), (1, ONE))
        for _ in range(2):
            read.close()
            for call, given in ((library.canon, ONE), (library.check, ONE), (library.show, ONE), (library.write, [])):
                self.assertIs(outcome(call, read, given).answer.status, library.Status.WRONG_HANDLE)
            self.assertEqual(str(outcome(library.check_templates, read)), "wrong handle")
        with self.assertRaises(library.FastcatError):
            with library.Templates(WORKED) as left:
                pass
            library.canon(left, ONE)

    def test_not_copied(self):
        with library.Templates(WORKED) as read:
            for copied in (copy.copy, copy.deepcopy, pickle.dumps):
                with self.assertRaisesRegex(TypeError, "their text"):
                    copied(read)

    def test_handle(self):
        """A handle has the fields of fastcat.h."""
        fields = re.findall(r"(void \*|uint32_t )(\w+);", HEADER.split("struct fastcat_set {")[1].split("};")[0])
        kinds = {"void *": ctypes.c_void_p, "uint32_t ": ctypes.c_uint32}
        self.assertEqual([(name, kinds[kind]) for kind, name in fields], library._library.RawSet._fields_)

    def test_memory_is_given_back(self):
        """A hundred sets of a megabyte and more, one after the other, take no more than a few."""
        instructions = [{"kind": "uInt32", "name": "N" * 100 + str(n)} for n in range(3000)]
        given = json.dumps({"templates": [{"name": "T", "id": 1, "instructions": instructions}]})
        library.Templates(given).close()
        before = resource.getrusage(resource.RUSAGE_SELF).ru_maxrss
        for n in range(100):
            read = library.Templates(given)
            if n % 2:
                read.close()
            del read
        gc.collect()
        self.assertLess(resource.getrusage(resource.RUSAGE_SELF).ru_maxrss - before, 50_000)

    def test_fields(self):
        with library.Templates(WORKED) as read:
            self.assertEqual(read.names, ("Quote", "Wrap", "Opt", "Legs", "Marks", "Bare", "Clash", "Tail", "Init", "Delta",
                                          "Common", "Grp", "Uni", "Empty", "Const", "Fixed", "First"))
            self.assertEqual(read.ids, dict(zip(range(1, 17), (it for it in read.names if it != "Common"))))
            field = library.Field
            self.assertEqual(read.fields(1), (field("Seq", "uInt32", 1, False), field("Sym", "ascii", 2, False),
                                              field("Px", "decimal", 3, False), field("Qty", "uInt32", 4, True)))
            self.assertEqual(read.fields("Opt")[0], field("Px", "decimal", 1, True))
            self.assertEqual(read.fields("Legs"), (field("L", "sequence", 1, True, (field("P", "uInt32", 2, False),)),))
            self.assertEqual(read.fields(11), (field("Hd", "group", 1, True, (field("A", "uInt32", 2, False),)),
                                               field("B", "uInt32", 3, False)))
            self.assertEqual(read.fields("Common"), (field("B", "uInt32", 1, False),))
            self.assertEqual(read.fields(12)[0].kind, "unicode")
            self.assertEqual(read.fields("Fixed")[1], field("Raw", "byteVector", 2, True))
            for wanted in (0, 17, "quote", ""):
                with self.assertRaises(KeyError):
                    read.fields(wanted)
        self.assertEqual(read.names[0], "Quote")
        error = outcome(getattr, library.Templates('{"templates":[]}'), "names")
        self.assertEqual(error, ())
        closed = library.Templates(WORKED)
        closed.close()
        self.assertIs(outcome(closed.fields, 1).status, library.Status.WRONG_HANDLE)

    def test_fields_of_examples(self):
        """The fields are those of the text, its references replaced."""

        def fields_of(instructions, numbers):
            for it in instructions:
                if it["kind"] == "templateRef":
                    yield from fields_of(named[it["name"]], numbers)
                    continue
                kind = it.get("charset", "ascii") if it["kind"] == "string" else it["kind"]
                number = next(numbers)
                inside = tuple(fields_of(it.get("instructions", ()), numbers))
                yield library.Field(it["name"], kind, number, it.get("presence") == "optional", inside)

        for name in ("worked", "book", "trade", "moex", "cme", "eurex", "b3"):
            with self.subTest(name=name), library.Templates(EXAMPLES / f"{name}.json") as read:
                templates = json.loads(text(f"{name}.json"))["templates"]
                named = {it["name"]: it["instructions"] for it in templates}
                self.assertEqual(list(read.names), list(named))
                self.assertEqual(read.ids, {it["id"]: it["name"] for it in templates if "id" in it})
                for template in templates:
                    wanted = tuple(fields_of(template["instructions"], itertools.count(1)))
                    self.assertEqual(read.fields(template["name"]), wanted)
                    if "id" in template:
                        self.assertEqual(read.fields(template["id"]), wanted)

    def test_threads(self):
        """Threads use one object, and it may be closed meanwhile: a call is done or refused."""
        read, wrong = library.Templates(WORKED), []
        stream, canonical = data("worked.hex"), data("worked.canon")

        def run():
            for _ in range(200):
                done = outcome(library.canon, read, stream)
                closed = isinstance(done, library.FastcatError) and done.answer.status is library.Status.WRONG_HANDLE
                if done != canonical and not closed:
                    wrong.append(done)

        threads = [threading.Thread(target=run) for _ in range(4)]
        for thread in threads:
            thread.start()
        read.close()
        for thread in threads:
            thread.join()
        self.assertEqual(wrong, [])


def in_pieces(stream, size):
    return [stream[at : at + size] for at in range(0, len(stream), size)]


def packets_of(recording):
    """The packets of a recording: of each a size, in groups of seven bits up to a stop bit, and as many bytes."""
    at = 0
    while at < len(recording):
        size = 0
        while True:
            size, at = size << 7 | recording[at] & 0x7F, at + 1
            if recording[at - 1] & 0x80:
                break
        yield recording[at : at + size]
        at += size


def changed(chance, recording):
    """A recording with bytes put in the place of others, and maybe cut."""
    given = bytearray(recording)
    for _ in range(chance.choice((0, 1, 1, 2))):
        at, left_out, put = chance.randrange(len(given)), chance.choice((0, 1, 1, 2)), chance.choice((0, 1, 1, 2))
        given[at : at + left_out] = bytes(chance.choices((0, 1, 0x7F, 0x80, 0x81, 0xC0, 0xFF), k=put))
    return bytes(given[: chance.choice((len(given), chance.randrange(len(given) + 1)))])


def as_line(value):
    """A value of a message as `json.loads` has it."""
    if isinstance(value, dict):
        return {name: as_line(inner) for name, inner in value.items()}
    if isinstance(value, list):
        return [as_line(inner) for inner in value]
    return value.hex() if isinstance(value, bytes) else value


class Reading(unittest.TestCase):
    """Messages as data are those of the lines in JSON."""

    def test_pieces(self):
        for name in ("worked", "book", "trade"):
            wanted = messages(text(f"{name}.jsonl"))
            for stream, blocks in ((data(f"{name}.hex"), False), (data(f"{name}.blocks"), True)):
                for size in (1, 2, 3, 7, 65536):
                    with self.subTest(name=name, blocks=blocks, size=size):
                        for given in (stream, in_pieces(stream, size)):
                            read = list(library.messages(EXAMPLES / f"{name}.json", given, blocks=blocks, chunk=size))
                            self.assertEqual(as_line(read), wanted)

    def test_written_again(self):
        for name in ("worked", "book", "trade"):
            with library.Templates(text(f"{name}.json")) as read:
                self.assertEqual(library.write(read, library.messages(read, data(f"{name}.hex"))), data(f"{name}.canon"))

    def test_packets(self):
        read = list(library.messages(EXAMPLES / "moex.json", packets_of(data("moex.packets")), packets=True))
        self.assertEqual(as_line(read), messages(text("moex.jsonl")))
        self.assertEqual(library.write(EXAMPLES / "moex.json", read, packets=True), data("moex.canon"))

    def test_packets_that_are_refused(self):
        """A packet is refused by itself: the messages before its fault come first, and the next one is read."""
        given = [ONE, ONE + b"\xc0\xff", ONE]
        read = library.messages(WORKED, given, packets=True)
        self.assertEqual([next(read)["packet"], next(read)["packet"]], [1, 2])
        error = outcome(next, read)
        self.assertEqual(str(error), "refused D9 packet=2 message=2 offset=9 template=0 instruction=0")
        self.assertEqual((error.packet, error.answer.packets, error.answer.messages), (2, 1, 1))
        with library.Reader(WORKED) as reader:
            counts = [0, 0, 0]
            for number, packet in enumerate(given):
                try:
                    for message in reader.packet(packet):
                        self.assertEqual(list(message), ["template", "id", "fields"])
                        counts[number] += 1
                except library.FastcatError as error:
                    self.assertEqual(str(error), "refused D9 message=2 offset=9 template=0 instruction=0")
            self.assertEqual(counts, [1, 1, 1])
        self.assertEqual(str(outcome(list, library.messages(WORKED, [ONE[:-1]], packets=True))),
                         "refused Truncated packet=1 message=1 offset=5 template=1 instruction=3")

    def test_recordings(self):
        """Bytes and files are a recording, from which packets are taken however it comes."""
        recording, wanted = data("moex.packets"), messages(text("moex.jsonl"))
        with tempfile.TemporaryDirectory() as folder, library.Templates(EXAMPLES / "moex.json") as read:
            file = pathlib.Path(folder, "recording")
            file.write_bytes(recording)
            for size in (1, 2, 7, 65536):
                with open(file, "rb") as opened, open(file, "rb", buffering=0) as raw:
                    for given in (recording, bytearray(recording), memoryview(recording), file, opened, raw, io.BytesIO(recording)):
                        with self.subTest(given=type(given), size=size):
                            told = list(library.messages(read, given, packets=True, chunk=size))
                            self.assertEqual(as_line(told), wanted)
        self.assertEqual(list(library.messages(WORKED, b"", packets=True)), [])

    def test_packets_as_they_come(self):
        """The messages of a packet are there once its last byte is."""
        ours, theirs = os.pipe()
        with open(ours, "rb") as given, open(theirs, "wb", buffering=0) as sender:
            read = library.messages(WORKED, given, packets=True)
            for number in (1, 2):
                sender.write(b"\x88" + ONE)
                self.assertEqual(next(read)["packet"], number)
            sender.write(b"\x88" + ONE + b"\x83")
            self.assertEqual(next(read)["packet"], 3)
            sender.close()
            self.assertEqual(str(outcome(next, read)), "refused Truncated packet=4 message=1 offset=28 template=0 instruction=0")

    def test_recordings_that_are_refused(self):
        """The packets before a fault come first, and the messages before it; its offset is that in the recording."""
        packet = b"\x88" + ONE
        # (what stands behind two packets, how many of its messages are told, and the refusal)
        for behind, strict, count, wanted in (
            (b"\x80" + packet, False, 0, "D12 packet=3 message=1 offset=18 template=0 instruction=0"),
            (b"\x00\x80", True, 0, "R6 packet=3 message=1 offset=18 template=0 instruction=0"),
            (b"\x04\x00\x80", False, 0, "Limit packet=3 message=1 offset=18 template=0 instruction=0"),
            (bytes(10), True, 0, "Limit packet=3 message=1 offset=18 template=0 instruction=0"),
            # (the recording ends in a size, behind it, in a message and between two)
            (b"\x01", False, 0, "Truncated packet=3 message=1 offset=18 template=0 instruction=0"),
            (b"\x88", False, 0, "Truncated packet=3 message=1 offset=19 template=0 instruction=0"),
            (packet[:-1], False, 0, "Truncated packet=3 message=1 offset=24 template=1 instruction=3"),
            (b"\x89" + ONE, False, 1, "Truncated packet=3 message=2 offset=27 template=0 instruction=0"),
            (b"\x89" + ONE[:1] + b"\xff", False, 0, "D9 packet=3 message=1 offset=20 template=0 instruction=0"),
            # (a packet ends in a message, and the recording goes on)
            (b"\x87" + ONE[:-1] + packet, False, 0, "BlockEnd packet=3 message=1 offset=24 template=1 instruction=3"),
            (b"\x89" + ONE + b"\x80" + packet, False, 1, "BlockEnd packet=3 message=2 offset=28 template=1 instruction=3"),
            (b"\x8a" + ONE + b"\xc0\xff", False, 1, "D9 packet=3 message=2 offset=28 template=0 instruction=0"),
        ):
            for size in (1, 65536):
                with self.subTest(behind=behind.hex(), size=size):
                    read = library.messages(WORKED, packet * 2 + behind, packets=True, strict=strict, chunk=size)
                    self.assertEqual([next(read)["packet"] for _ in range(2 + count)], [1, 2, 3][: 2 + count])
                    error = outcome(next, read)
                    self.assertEqual(str(error), "refused " + wanted)
                    self.assertEqual((error.answer.packets, error.answer.messages, error.answer.read), (2, count, 0))
        error = outcome(list, library.messages(WORKED, packet * 2, packets=True, most_bytes=1))
        self.assertEqual((error.status, error.packet, error.message, error.offset), (library.Status.MESSAGE_TOO_LARGE, 1, 1, 0))
        for given in (packet, b""):
            error = outcome(list, library.messages(WORKED, given, packets=True, blocks=True))
            self.assertIs(error.status, library.Status.UNKNOWN_MODE)

    def test_recordings_that_were_changed(self):
        """Messages and refusals are those of the lines, whatever the recording."""
        chance, refused = random.Random(77), 0
        worked = (b"\x88" + ONE) * 3 + b"\x8b" + ONE + b"\x80\x80\x81"
        for name, recording in (("moex", data("moex.packets")), ("worked", worked)):
            with library.Templates(EXAMPLES / f"{name}.json") as read:
                for turn in range(400):
                    given, strict = changed(chance, recording), chance.random() < 0.5
                    try:
                        lines, wanted = library.show(read, given, strict, packets=True, json=True), None
                    except library.FastcatError as error:
                        lines, wanted = str(error.written, "utf-8"), dataclasses.replace(error.answer, written=0)
                    told, answer = [], None
                    try:
                        size = chance.choice((1, 3, 65536))
                        for message in library.messages(read, given, packets=True, strict=strict, chunk=size):
                            told.append(message)
                    except library.FastcatError as error:
                        answer, refused = error.answer, refused + 1
                    self.assertEqual((as_line(told), answer), (messages(lines), wanted), (name, turn))
        self.assertGreater(refused, 400)

    def test_what_is_no_packets(self):
        with socket.socket() as unconnected:
            for given in ("f0", 5, None, unconnected):
                wanted = "a recording or packets one after the other are wanted"
                with self.subTest(given=type(given)), self.assertRaisesRegex(TypeError, wanted):
                    list(library.messages(WORKED, given, packets=True))
        for given, what in ((["f0"], "packet"), (io.StringIO("f0"), "recording")):
            with self.assertRaisesRegex(TypeError, f"^{what}: bytes are wanted"):
                list(library.messages(WORKED, given, packets=True))

    def test_a_message_that_is_too_large(self):
        self.assertEqual(len(list(library.messages(WORKED, ONE * 2, most_bytes=2))), 2)
        error = outcome(list, library.messages(WORKED, ONE, most_bytes=1))
        self.assertEqual((str(error), error.status, error.message), ("message too large", library.Status.MESSAGE_TOO_LARGE, 1))

    def test_closed(self):
        with library.Templates(WORKED) as read:
            reader = library.Reader(read)
        self.assertEqual(len(list(reader.feed(ONE))), 1)
        reader.close()
        for call in (lambda: list(reader.feed(ONE)), reader.finish, reader.reset):
            self.assertIs(outcome(call).status, library.Status.WRONG_HANDLE)
        self.assertIs(outcome(library.Reader, read).status, library.Status.WRONG_HANDLE)

    def test_threads(self):
        """Threads with readers of their own, over templates that they share."""
        stream, wrong = data("book.hex"), []
        with library.Templates(text("book.json")) as read:
            wanted = list(library.messages(read, stream))

            def reads():
                for size in range(1, 40):
                    if list(library.messages(read, stream, chunk=size)) != wanted:
                        wrong.append(size)

            threads = [threading.Thread(target=reads) for _ in range(2)]
            for it in threads:
                it.start()
            for it in threads:
                it.join()
        self.assertEqual(wrong, [])

    def test_a_string_that_is_repeated(self):
        """A message of 62,000 bytes that has a string of 60,000 characters 2,000 times has it once."""
        repeats = {"templates": [{"name": "Repeats", "id": 1, "instructions": [{"kind": "sequence", "name": "Rows", "instructions": [
            {"kind": "string", "name": "Text", "operator": "copy"}]}]}]}
        stream = b"\xc0\x81\x0f\xd0" + b"\xc0" + b"x" * 59_999 + b"\xf8" + b"\x80" * 1_999
        [message] = library.messages(json.dumps(repeats), stream)
        texts = [row["Text"] for row in message["fields"]["Rows"]]
        self.assertEqual((len(texts), set(texts)), (2_000, {"x" * 60_000}))
        self.assertEqual(len(set(map(id, texts))), 1)

    def test_sources(self):
        stream, wanted = data("worked.hex"), messages(text("worked.jsonl"))
        with tempfile.TemporaryDirectory() as folder:
            file = pathlib.Path(folder, "stream")
            file.write_bytes(stream)
            ours, theirs = socket.socketpair()
            with ours, open(file, "rb") as opened:
                theirs.sendall(stream)
                theirs.close()
                pieces = iter([stream[:3], stream[3:]])
                for given in (file, opened, io.BytesIO(stream), ours, bytearray(stream), memoryview(stream), pieces):
                    with self.subTest(given=type(given)):
                        self.assertEqual(list(library.messages(WORKED, given)), wanted)
        for given in (5, "f0", None):
            with self.assertRaisesRegex(TypeError, "wanted"):
                list(library.messages(WORKED, given))

    def test_values(self):
        [message] = library.messages(WORKED, ONE)
        fields = {"Seq": 1, "Sym": "AB", "Px": decimal.Decimal("1.00"), "Qty": None}
        self.assertEqual(message, {"template": "Quote", "id": 1, "fields": fields})
        self.assertEqual(str(message["fields"]["Px"]), "1.00")
        self.assertEqual(list(message["fields"]), ["Seq", "Sym", "Px", "Qty"])
        [message] = library.messages(WORKED, ONE, decimals="pair", fields="pairs")
        self.assertEqual(message["fields"], [("Seq", 1), ("Sym", "AB"), ("Px", (100, -2)), ("Qty", None)])
        [message] = library.messages(WORKED, bytes.fromhex("e08f00e48301ff"))
        self.assertEqual(message["fields"]["Raw"], b"\x01\xff")

    def test_a_name_that_stands_twice(self):
        inside = [{"kind": "uInt32", "name": "A"}, {"kind": "uInt32", "name": "A"}]
        for instructions in (inside, [{"kind": "group", "name": "A", "instructions": inside}]):
            given = json.dumps({"templates": [{"name": "T", "id": 5, "instructions": instructions}]})
            with self.assertRaisesRegex(ValueError, 'the name "A" stands twice in "T"'):
                library.Reader(given)
        for named in ({"fields": "list"}, {"decimals": "float"}):
            with self.assertRaises(ValueError):
                library.Reader(WORKED, **named)
        [message] = library.messages(given, b"\xc0\x85\x86\x87", fields="pairs")
        self.assertEqual(message["fields"], [("A", [("A", 6), ("A", 7)])])

    def test_faults(self):
        """The messages before a fault come first, and the error is kept."""
        with library.Reader(WORKED) as reader:
            read = reader.feed(ONE + b"\x80\x80\x81" + b"\xc0\xff")
            self.assertEqual([next(read)["fields"]["Seq"], next(read)["fields"]["Seq"]], [1, 2])
            for call in (lambda: next(read), lambda: list(reader.feed(ONE)), reader.finish):
                error = outcome(call)
                self.assertEqual(str(error), "refused D9 message=3 offset=12 template=0 instruction=0")
                self.assertEqual(error.answer.messages, 2)
            reader.reset()
            self.assertEqual(len(list(reader.feed(ONE + b"\x80"))), 1)
            self.assertEqual(str(outcome(reader.finish)), "refused Truncated message=2 offset=9 template=1 instruction=3")
        error = outcome(list, library.messages(WORKED, bytes.fromhex("f08100008141c2fe00e4"), strict=True))
        self.assertEqual(str(error), "refused R6 message=1 offset=2 template=1 instruction=1")

    def test_in_turn(self):
        reader = library.Reader(WORKED)
        first = reader.feed(ONE * 2)
        next(first)
        with self.assertRaisesRegex(RuntimeError, "not all taken"):
            next(reader.feed(ONE))
        reader.close()
        reader.close()

    def test_much_in_one_chunk(self):
        """A chunk that ends 200,000 messages, of a million nodes."""
        stream = ONE + bytes.fromhex("808081") * 199_999
        last = None
        for count, last in enumerate(library.messages(WORKED, stream, chunk=len(stream)), 1):
            pass
        self.assertEqual((count, last["fields"]["Seq"]), (200_000, 200_000))

    def test_templates_of_a_text_are_read_once(self):
        """Hundreds of readers of one text take no more memory than a few."""
        given = json.loads(WORKED)["templates"]
        templates = json.dumps({"templates": [{**one, "name": f"{one['name']}{at}", "id": 100 * at + one.get("id", 99)}
                                              for at in range(20) for one in given if one["name"] not in ("Common", "Grp")]})
        for turn in range(205):
            list(library.messages(templates, b""))
            if turn == 5:
                before = resource.getrusage(resource.RUSAGE_SELF).ru_maxrss
        self.assertLess(resource.getrusage(resource.RUSAGE_SELF).ru_maxrss - before, 4_000)

    def test_memory_is_flat(self):
        pieces = itertools.chain([ONE], itertools.repeat(bytes.fromhex("808081") * 20_000, 20))
        # (a packet has 42,005 bytes, of the same messages)
        packet = b"\x02\x48\x95" + ONE + bytes.fromhex("808081") * 13_999
        with tempfile.TemporaryFile() as recording:
            for _ in range(28):
                recording.write(packet)
            recording.seek(0)
            for read, count in (
                (library.messages(WORKED, pieces), 400_001),
                (library.messages(WORKED, recording, packets=True), 392_000),
            ):
                next(read)
                before = resource.getrusage(resource.RUSAGE_SELF).ru_maxrss
                self.assertEqual(sum(1 for _ in read), count - 1)
                self.assertLess(resource.getrusage(resource.RUSAGE_SELF).ru_maxrss - before, 20_000)


class Xml(unittest.TestCase):
    """Templates in XML stand for what the converter makes of them."""

    def test_examples(self):
        for name in ("worked", "book", "trade", "moex"):
            packets = name == "moex"
            for given in (EXAMPLES / f"{name}.xml", text(f"{name}.xml"), (EXAMPLES / f"{name}.xml").read_bytes(),
                          "\ufeff" + text(f"{name}.xml")):
                with self.subTest(name=name, given=type(given)), warnings.catch_warnings():
                    warnings.simplefilter("ignore", library.XmlWarning)
                    lines = fastcat.show(given, data(f"{name}.canon"), packets=packets)
                    self.assertEqual(lines, text(f"{name}.lines"))

    def test_encodings(self):
        """A text is a text, whatever encoding it declares; bytes have the one that they declare."""
        templates = ('<?xml version="1.0" encoding="%s"?><templates xmlns="http://www.fixprotocol.org/ns/fast/td/1.1">'
                     '<template name="T" id="1"><string name="S" charset="unicode"><constant value="\u00e4"/></string></template>'
                     '</templates>')
        for encoding in ("iso-8859-1", "utf-8", "utf-16"):
            for given in (templates % encoding, (templates % encoding).encode(encoding)):
                with self.subTest(encoding=encoding, given=type(given)):
                    self.assertEqual(library.show(given, b"\xc0\x81"), '1 T S="\\xc3\\xa4"\n')
                    self.assertEqual(library.show(given, b"\xc0\x81", json=True),
                                     '{"template":"T","id":1,"fields":{"S":"\u00e4"}}\n')

    def test_refused(self):
        error = outcome(library.canon, '<templates>\n<template name="T"><real name="A"/></template></templates>', b"")
        self.assertIsInstance(error, library.XmlError)
        self.assertEqual(error.line, 2)
        self.assertRegex(str(error), "^line 2: <real ")
        copied = pickle.loads(pickle.dumps(error))
        self.assertEqual(str(copied), str(error))

    def test_drop(self):
        templates = '<templates><template name="T" id="1" x="y"><uInt32 name="A"/></template></templates>'
        self.assertIsInstance(outcome(library.json_of_xml, templates), library.XmlError)
        for drop in (["x"], "x"):
            self.assertEqual(json.loads(library.json_of_xml(templates, drop=drop)),
                             {"templates": [{"name": "T", "id": 1, "instructions": [{"kind": "uInt32", "name": "A"}]}]})
        with self.assertRaisesRegex(ValueError, "^drop: name is FAST's own"):
            library.json_of_xml(templates, drop=["name"])

    def test_warning(self):
        templates = '<templates><template name="Reset" id="1"/></templates>'
        with self.assertWarnsRegex(library.XmlWarning, "^line 1: "):
            library.Templates(templates).close()


class Package(unittest.TestCase):
    """The package, as a folder that lies elsewhere."""

    VERSION = re.search(r'#define FASTCAT_VERSION "(.*)"', HEADER)[1]
    SAY = "import fastcat; print(fastcat.__version__, fastcat._library.library._name)"

    def said(self, folder, **names):
        """What a program says that finds the package in a folder, by these names of its environment."""
        environment = {name: value for name, value in os.environ.items() if name not in ("FASTCAT_LIBRARY", "LD_LIBRARY_PATH")}
        ended = subprocess.run([sys.executable, "-B", "-c", self.SAY], capture_output=True, text=True, cwd=folder,
                               env=environment | {"PYTHONPATH": str(folder)} | names)
        return (ended.stdout + ended.stderr).splitlines()[-1]

    def setUp(self):
        room = tempfile.TemporaryDirectory()
        self.addCleanup(room.cleanup)
        self.folder = pathlib.Path(room.name).resolve()
        shutil.copytree(TOP / "python" / "fastcat", self.folder / "fastcat", ignore=shutil.ignore_patterns("__pycache__"))
        self.library = (TOP / "lib" / "libfastcat.so").resolve()

    def test_version(self):
        declared = (TOP / "python" / "pyproject.toml").read_text()
        self.assertEqual(re.search(r'^version = "(.*)"$', declared, re.M)[1], self.VERSION)
        self.assertEqual(library._library.CALLED, "libfastcat.so." + self.VERSION.rpartition(".")[0])

    def test_where_the_library_is(self):
        self.assertRegex(self.said(self.folder), "ImportError: no library at .*; lib/build makes it")
        self.assertEqual(self.said(self.folder, FASTCAT_LIBRARY=str(self.library)), f"{self.VERSION} {self.library}")
        self.assertRegex(self.said(self.folder, FASTCAT_LIBRARY="nowhere.so"), "ImportError: no library at .*/nowhere.so; ")
        # (the loader knows a library by what it calls itself)
        self.assertEqual(self.said(self.folder, LD_LIBRARY_PATH=str(TOP / "lib")), f"{self.VERSION} {library._library.CALLED}")
        beside = self.folder / "fastcat" / "libfastcat.so"
        shutil.copy(self.library, beside)
        self.assertEqual(self.said(self.folder, LD_LIBRARY_PATH=str(TOP / "lib")), f"{self.VERSION} {beside}")

    def test_another_version(self):
        module = self.folder / "fastcat" / "_library.py"
        module.write_text(module.read_text().replace(library._library.CALLED, "libfastcat.so.99.1"))
        self.assertRegex(self.said(self.folder, FASTCAT_LIBRARY=str(self.library)), "ImportError: the library is of version")

    def test_installed(self):
        needed = "import importlib.util as it, sys; sys.exit(not all(map(it.find_spec, ('pip', 'setuptools', 'wheel'))))"
        interpreters = [it for it in (sys.executable, shutil.which("python3", path=os.defpath))
                        if it and subprocess.run([it, "-c", needed], capture_output=True).returncode == 0]
        if not interpreters:
            self.skipTest("no Python has pip, setuptools and wheel")
        source, target = self.folder / "source", self.folder / "target"
        shutil.copytree(TOP / "python", source, ignore=shutil.ignore_patterns("__pycache__", "build", "*.egg-info"))
        subprocess.run([interpreters[0], "-m", "pip", "install", "--quiet", "--no-index", "--no-build-isolation", "--no-deps",
                        "--target", target, source], check=True, capture_output=True)
        self.assertTrue((target / "fastcat" / "py.typed").exists())
        self.assertEqual(self.said(target, FASTCAT_LIBRARY=str(self.library)), f"{self.VERSION} {self.library}")


if __name__ == "__main__":
    unittest.main()
