"""Tests of python/fastcat/_nodes.c, which does in C what _values.py does: test_nodes.py. It is built as setup.py builds it, and again
with the compiler's sanitizers where it has them; without a compiler, setuptools or Python's headers nothing is tested."""

import importlib.util
import itertools
import os
import pathlib
import random
import shutil
import subprocess
import sys
import sysconfig
import tempfile
import threading
import tracemalloc
import unittest

TOP = pathlib.Path(__file__).resolve().parent.parent
SANITIZERS = "-fsanitize=address,undefined -fno-sanitize-recover=all"
# (a package that was built is found first)
BUILT = os.environ.get("FASTCAT_BUILT")
if BUILT:
    sys.path.insert(0, BUILT)
    import fastcat
    from fastcat import _messages, _nodes, _values

    sys.path[1:1] = [str(TOP / "tools"), str(TOP / "bench")]
    import speed
    import test_library

    IS_SANITIZED = "FASTCAT_SANITIZED" in os.environ
    LEAVES = range(_values.ABSENT, _values.GROUP)

    class InC(test_library.Reading):
        """Messages are those of the lines, read by _nodes.c."""

        def setUp(self):
            self.assertIs(_messages.Decoder, _nodes.Decoder)

        @unittest.skipIf(IS_SANITIZED, "the sanitizers keep what is freed")
        def test_memory_is_flat(self):
            super().test_memory_is_flat()

        @unittest.skipIf(IS_SANITIZED, "the sanitizers keep what is freed")
        def test_templates_of_a_text_are_read_once(self):
            super().test_templates_of_a_text_are_read_once()

    def layout(chance, depth=0):
        """Fields of random names, some of them groups or sequences."""
        many = chance.randint(0, 4)
        names = chance.sample(["a", "B", "Price", "MDEntryPx", "é", "x" * 40, "s", "T"], many)
        return tuple((name, layout(chance, depth + 1) if depth < 3 and chance.random() < 0.3 else None) for name in names)

    def node(kind, number=0, mantissa=0, length=0, exponent=0, instruction=0):
        return [kind, instruction, number, mantissa, length, exponent]

    TEXTS = ["", "A", "ES", "NQX4", "0123456789abcdef", "0123456789abcdefg", "y" * 63, "z" * 64, "long" * 500, "é", "\0",
             "\U0001f600" * 20]

    def nodes_of(chance, fields, data):
        """Nodes that these fields may have; their strings go behind the bytes, or are some that are there."""
        for _, inside in fields:
            kind = chance.choice(LEAVES)
            if inside is not None:
                kind = chance.choice((_values.ABSENT, _values.GROUP, _values.SEQUENCE, _values.SEQUENCE))
            if kind == _values.GROUP:
                yield node(kind)
                yield from nodes_of(chance, inside, data)
            elif kind == _values.SEQUENCE:
                many = chance.choice((0, 1, 2, 9))
                yield node(kind, many)
                for _ in range(many):
                    yield node(_values.ELEMENT)
                    yield from nodes_of(chance, inside, data)
            elif _values.ASCII <= kind <= _values.BYTES:
                string = chance.choice(TEXTS).encode()
                at = data.find(string) if chance.random() < 0.5 else -1
                if at < 0:
                    at = len(data)
                    data += string
                yield node(kind, at, 0, len(string))
            else:
                number = chance.choice((0, 1, 255, 256, 2**31, 2**32 - 1, 2**63, 2**64 - 1))
                mantissa = chance.choice((0, 1, -1, 450025, -(2**63), 2**63 - 1))
                yield node(kind, number, mantissa, 0, chance.choice((0, -2, 2, 63, -63)))

    def tape(chance, layouts):
        data, nodes = bytearray(), []
        for _ in range(chance.randint(0, 5)):
            number = chance.choice(list(layouts))
            nodes += [node(_values.MESSAGE, instruction=number), *nodes_of(chance, layouts[number][1], data)]
        return nodes, data

    def packed(nodes):
        return b"".join(_values.NODE.pack(*it) for it in nodes)

    def mutated(chance, nodes, data):
        """The same with a value changed, a node left out, or bytes that are too few or no UTF-8."""
        nodes = [list(it) for it in nodes]
        at = chance.randrange(len(nodes))
        way = chance.randrange(5)
        if way == 0:
            nodes[at][0] = chance.choice((*range(14), 2**32 - 1))
        elif way == 1:
            nodes[at][2] = chance.choice((0, 1, 2, len(data), len(data) + 1, 2**40, 2**64 - 1))
        elif way == 2:
            nodes[at][4] = chance.choice((0, 1, len(data), len(data) + 1, 2**32 - 1))
        elif way == 3:
            del nodes[at]
        elif data:
            data = data[: chance.randrange(len(data))] if chance.random() < 0.5 else data.replace(data[:1], b"\xff")
        return nodes, data

    def outcome(decoder, nodes, data, packet):
        room, count = packed(nodes) + b"\xaa" * 64, len(nodes)
        try:
            return repr(decoder.decode(room, count, bytes(data) + b"more", len(data), packet))
        except ValueError:
            return "refused"

    class Alike(unittest.TestCase):
        def decoders(self, layouts, chance):
            made = chance.choice((_values.exact_decimal, None)), chance.random() < 0.5
            return [it.Decoder(layouts, *made) for it in (_values, _nodes)]

        def test_generated(self):
            """Of generated templates and nodes both make the same, or nothing."""
            refused = 0
            for seed in range(400):
                chance = random.Random(seed)
                layouts = {number: (f"T{number}", layout(chance)) for number in chance.sample([0, 1, 2, 70000, 2**32 - 1], 3)}
                decoders = self.decoders(layouts, chance)
                for turn in range(12):
                    nodes, data = tape(chance, layouts)
                    if turn % 2 and nodes:
                        nodes, data = mutated(chance, nodes, data)
                    packet = chance.choice((None, 1, 2**40))
                    one, other = (outcome(it, nodes, data, packet) for it in decoders)
                    self.assertEqual(one, other, (seed, turn))
                    refused += one == "refused"
                    self.assertTrue(turn % 2 or one != "refused", (seed, turn))
            self.assertGreater(refused, 500)

        def read_by(self, decoder, *given, **named):
            """The messages of a stream and how it ended, read by this decoder."""
            read, own = [], _messages.Decoder
            _messages.Decoder = decoder
            try:
                read.extend(fastcat.messages(*given, **named))
            except fastcat.FastcatError as error:
                read.append(str(error))
            finally:
                _messages.Decoder = own
            return repr(read)

        def test_streams(self):
            """Of streams, also of such that have changed, both make the same."""
            for name in ("worked", "book", "trade"):
                with fastcat.Templates(test_library.text(f"{name}.json")) as templates:
                    stream = test_library.data(f"{name}.hex")
                    for seed in range(150):
                        chance = random.Random(seed)
                        changed = bytearray(stream)
                        for _ in range(seed and chance.randint(1, 3)):
                            changed[chance.randrange(len(changed))] = chance.randrange(256)
                        named = {"fields": chance.choice(("dict", "pairs")), "decimals": chance.choice(("Decimal", "pair")),
                                 "most_bytes": chance.choice((0, 10))}
                        one, other = (self.read_by(it.Decoder, templates, bytes(changed), **named) for it in (_values, _nodes))
                        self.assertEqual(one, other, (name, seed))

        def test_feeds(self):
            """Of the feeds of bench/speed.py, and the lines of the same messages."""
            for kind in ("book", "trade"):
                stream = getattr(speed, kind)(30_000, True)
                lines = fastcat.show(test_library.text(f"{kind}.json"), stream, json=True)
                with fastcat.Templates(test_library.text(f"{kind}.json")) as templates:
                    for it in (_values, _nodes):
                        own, _messages.Decoder = _messages.Decoder, it.Decoder
                        try:
                            read = list(fastcat.messages(templates, stream))
                        finally:
                            _messages.Decoder = own
                        self.assertEqual(test_library.as_line(read), test_library.messages(lines))

        def test_packets(self):
            packets = list(test_library.packets_of(test_library.data("moex.packets")))
            for given in (packets, [*packets, b"\xc0"], test_library.data("moex.packets") + b"\x82\xc0"):
                one, other = (self.read_by(it.Decoder, TOP / "examples/moex.json", given, packets=True) for it in (_values, _nodes))
                self.assertEqual(one, other)

        def test_one_string(self):
            """A string that is told by its place again is one value."""
            for it in (_values, _nodes):
                decoder = it.Decoder({1: ("T", (("L", (("S", None),)),))}, None, False)
                string = [node(_values.ELEMENT), node(_values.ASCII, 1, 0, 70)]
                nodes = [node(_values.MESSAGE, instruction=1), node(_values.SEQUENCE, 2), *string, *string]
                [message] = decoder.decode(packed(nodes), len(nodes), b"y" + b"x" * 70, 71, None)
                first, second = message["fields"]["L"]
                self.assertEqual(first["S"], "x" * 70)
                self.assertIs(first["S"], second["S"])

        def test_what_is_given(self):
            """What is no room, and layouts that are none."""
            decoder = _nodes.Decoder({1: ("T", (("a", None),))}, None, False)
            for given in ((b"", 1, b"", 0, None), (b"", 0, b"", 1, None), (b"", -1, b"", 0, None), (b"x" * 31, 1, b"", 0, None)):
                with self.assertRaises(ValueError):
                    decoder.decode(*given)
            for given in ((), ("", 0, "", 0, None), (b"", 0, None, 0, None), (b"", "0", b"", 0, None)):
                with self.assertRaises(TypeError):
                    decoder.decode(*given)
            for layouts in (None, {1: None}, {1: ("T", [])}, {1: ("T", (1,))}, {"1": ("T", ())}, {1: (b"T", ())}):
                with self.assertRaises(TypeError):
                    _nodes.Decoder(layouts, None, False)
            for number in (-1, 2**32, 2**64):
                with self.assertRaises(OverflowError):
                    _nodes.Decoder({number: ("T", ())}, None, False)
            failing = _nodes.Decoder({1: ("T", (("a", None),))}, lambda text: 1 // 0, False)
            with self.assertRaises(ZeroDivisionError):
                failing.decode(packed([node(_values.MESSAGE, instruction=1), node(_values.DECIMAL)]), 2, b"", 0, None)

        @unittest.skipIf(IS_SANITIZED, "the sanitizers count for themselves")
        def test_nothing_is_lost(self):
            """What is made and what is refused leaves nothing behind."""
            chance = random.Random(5)
            layouts = {1: ("T", layout(chance)), 2: ("U", (("L", layout(chance)), ("a", None), ("b", None)))}
            tapes = []
            for _ in range(40):
                nodes, data = tape(chance, layouts)
                tapes += [(nodes, data), *([mutated(chance, nodes, data)] if nodes else [])]

            def all_of_it():
                for is_pairs in (False, True):
                    decoder = _nodes.Decoder(layouts, _values.exact_decimal, is_pairs)
                    for nodes, data in tapes:
                        for packet in (None, 1000):
                            outcome(decoder, nodes, data, packet)
                for given in ({1: ("T", (("a", None), 1))}, {1: ("T", ()), 2: None}):
                    with self.assertRaises(TypeError):
                        _nodes.Decoder(given, None, False)

            tracemalloc.start()
            for _ in range(3):
                all_of_it()
            before, _ = tracemalloc.get_traced_memory()
            for _ in range(20):
                all_of_it()
            after, _ = tracemalloc.get_traced_memory()
            tracemalloc.stop()
            self.assertLess(after - before, 5_000)

        @unittest.skipUnless(importlib.util.find_spec("_testcapi"), "this Python cannot refuse memory")
        def test_want_of_memory(self):
            """Each allocation refused in turn, there is a decoder and there are messages, or MemoryError."""
            import _testcapi

            layouts = {1: ("T", (("L", (("a", None), ("G", (("b", None),)))), ("s", None), ("d", None)))}
            element = [node(_values.ELEMENT), node(_values.UINT64, 2**63), node(_values.GROUP), node(_values.ASCII, 0, 0, 70)]
            nodes = [node(_values.MESSAGE, instruction=1), node(_values.SEQUENCE, 2), *element, *element, node(_values.BYTES, 0, 0, 20),
                     node(_values.DECIMAL, 0, 77, 0, -2)]
            room, data = packed(nodes * 3), b"x" * 70
            before = sys.getallocatedblocks()
            for is_pairs in (False, True):
                for decimal in (_values.exact_decimal, None):
                    wanted = repr(_nodes.Decoder(layouts, decimal, is_pairs).decode(room, len(nodes) * 3, data, 70, 9999))
                    refused = 0
                    for at in itertools.count():
                        read = None
                        _testcapi.set_nomemory(at, at + 1)
                        try:
                            read = _nodes.Decoder(layouts, decimal, is_pairs).decode(room, len(nodes) * 3, data, 70, 9999)
                        except MemoryError:
                            refused += 1
                        finally:
                            _testcapi.remove_mem_hooks()
                        self.assertTrue(read is None or repr(read) == wanted)
                        if read is not None and at > 300:
                            break
                    self.assertGreater(refused, 30)
            self.assertLess(sys.getallocatedblocks() - before, 100)

        def test_threads(self):
            """Threads that read with readers of their own, over templates that they share."""
            stream = test_library.data("book.hex")
            with fastcat.Templates(test_library.text("book.json")) as templates:
                wanted, wrong = repr(list(fastcat.messages(templates, stream))), []

                def reads():
                    for size in range(1, 60):
                        if repr(list(fastcat.messages(templates, stream, chunk=size))) != wanted:
                            wrong.append(size)

                threads = [threading.Thread(target=reads) for _ in range(4)]
                for it in threads:
                    it.start()
                for it in threads:
                    it.join()
                self.assertEqual(wrong, [])


def build(folder, flags, **named):
    """The package, and how its build ended."""
    shutil.copytree(TOP / "python", folder / "source", ignore=shutil.ignore_patterns("__pycache__", "build", "*.egg-info", "*.so"))
    environment = {**os.environ, "CFLAGS": f"-Wall -Wextra -Werror {flags}", "LDFLAGS": flags, **named}
    ran = subprocess.run([sys.executable, "-W", "ignore", "setup.py", "--quiet", "build", "--build-lib", folder / "package"],
                         cwd=folder / "source", env=environment, capture_output=True, text=True)
    return folder / "package", ran


def has_nodes(package):
    return any((package / "fastcat").glob("_nodes.*.so"))


def is_able():
    has_headers = pathlib.Path(sysconfig.get_path("include"), "Python.h").exists()
    return shutil.which("cc") and has_headers and importlib.util.find_spec("setuptools")


def has_sanitizers(folder):
    one = folder / "one.c"
    one.write_text("int main(void) { return 0; }\n")
    return subprocess.run(["cc", *SANITIZERS.split(), "-o", folder / "one", one], capture_output=True).returncode == 0


def main():
    if not is_able():
        print("skipped: no compiler, no headers of Python, or no setuptools")
        return 0
    failed = 0
    with tempfile.TemporaryDirectory() as folder:
        folder = pathlib.Path(folder)
        for flags in ("", SANITIZERS) if has_sanitizers(folder) else ("",):
            at = folder / ("sanitized" if flags else "plain")
            package, ran = build(at, flags)
            if ran.returncode != 0 or not has_nodes(package):
                print(ran.stderr)
                failed += 1
                continue
            environment = {**os.environ, "FASTCAT_BUILT": str(package)}
            environment.setdefault("FASTCAT_LIBRARY", str(TOP / "lib" / "libfastcat.so"))
            if flags:
                preloaded = subprocess.run(["cc", "-print-file-name=libasan.so"], capture_output=True, text=True).stdout.strip()
                # (what Python keeps to its end is no leak; its own allocator would hide what is read behind a block)
                environment |= {"LD_PRELOAD": preloaded, "ASAN_OPTIONS": "detect_leaks=0", "PYTHONMALLOC": "malloc",
                                "FASTCAT_SANITIZED": "1"}
            run = [sys.executable, "-B", __file__, *sys.argv[1:]]
            failed += subprocess.run(run, env=environment).returncode != 0
        # (without a compiler there is the package without it)
        package, ran = build(folder / "without", "", CC="/nonexistent")
        failed += ran.returncode != 0 or has_nodes(package) or not (package / "fastcat" / "_values.py").exists()
    return failed > 0


if __name__ == "__main__":
    sys.exit(unittest.main() if BUILT else main())
