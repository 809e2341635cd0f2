#!/usr/bin/env python3
"""Tests of tools/pcap-packets.

usage: tools/test_pcap_packets.py

tools/captures has files that tcpdump and editcap wrote over the loopback; where tcpdump is there and may record, a test
has it write one more. All others are built here.
"""
import contextlib
import importlib.machinery
import importlib.util
import ipaddress
import os
import shutil
import signal
import socket
import struct
import subprocess
import sys
import tempfile
import time
import unittest
from dataclasses import dataclass
from pathlib import Path
from unittest import mock

TOP = Path(__file__).resolve().parent.parent
PROGRAM = TOP / "tools" / "pcap-packets"
CAPTURES = TOP / "tools" / "captures"

GROUP, OTHER = "239.1.1.1", "239.1.1.2"
GROUP_6 = "ff02::1"
PORT = 16001
NANOSECONDS = 1_700_000_000_123_456_000

ETHERNET, NULL, RAW, LOOP, COOKED, COOKED_2 = 1, 0, 101, 108, 113, 276
IPV4, IPV6, ARP = 0x0800, 0x86DD, 0x0806


# What recorders write


def datagram(payload, port=PORT, size=None):
    return struct.pack(">HHHH", 999, port, 8 + len(payload) if size is None else size, 0) + payload


def ipv4(body, group=GROUP, protocol=17, options=b"", flags=0x4000, size=None):
    length = 20 + len(options) + len(body) if size is None else size
    return struct.pack(">BBHHHBBH4s4s", 0x45 + len(options) // 4, 0, length, 7, flags, 16, protocol, 0, bytes(4),
                       ipaddress.ip_address(group).packed) + options + body


def ipv6(body, group=GROUP_6, following=17):
    return struct.pack(">IHBB16s16s", 6 << 28, len(body), following, 1, bytes(16), ipaddress.ip_address(group).packed) + body


def ethernet(packet, kind=IPV4, tags=(), behind=b""):
    return bytes(12) + b"".join(struct.pack(">HH", tag, 5) for tag in tags) + struct.pack(">H", kind) + packet + behind


def frame(payload, **more):
    """A frame with a datagram of the flow."""
    return ethernet(ipv4(datagram(payload), **more))


def pcap(*frames, order="<", unit=1000, link=ETHERNET, kept=None):
    """A file whose records come a second and a nanosecond's unit one after the other, cut to so many bytes."""
    magic = 0xA1B2C3D4 if unit == 1000 else 0xA1B23C4D
    parts = [struct.pack(order + "IHHiIII", magic, 2, 4, 0, 0, 65535, link)]
    for number, data in enumerate(frames):
        cut = data[:kept]
        when = NANOSECONDS + number * 1_000_000_000
        parts.append(struct.pack(order + "IIII", when // 10**9, when % 10**9 // unit, len(cut), len(data)) + cut)
    return b"".join(parts)


def block(order, kind, body):
    body += bytes(-len(body) % 4)
    size = struct.pack(order + "I", 12 + len(body))
    return struct.pack(order + "I", kind) + size + body + size


def section(order):
    return block(order, 0x0A0D0D0A, struct.pack(order + "IHHq", 0x1A2B3C4D, 1, 0, -1))


def interface(order, link=ETHERNET, most=0, options=b""):
    return block(order, 1, struct.pack(order + "HHI", link, 0, most) + options)


def option(order, code, value):
    return struct.pack(order + "HH", code, len(value)) + value + bytes(-len(value) % 4)


def enhanced(order, data, when, place=0, size=None):
    size = len(data) if size is None else size
    return block(order, 6, struct.pack(order + "IIIII", place, when >> 32, when & 0xFFFFFFFF, len(data), size)
                 + data + bytes(-len(data) % 4) + option(order, 1, b"a comment") + option(order, 0, b""))


# What is to be written


def unsigned(number):
    groups = [number & 127 | 128]
    while number := number >> 7:
        groups.insert(0, number & 127)
    return bytes(groups)


def recording(*packets):
    return b"".join(unsigned(len(packet)) + packet for packet in packets)


def mark(identifier, number, when, preamble):
    return b"\xc0" + unsigned(identifier) + unsigned(number) + unsigned(when) + unsigned(len(preamble)) + preamble


def counts(packets, not_udp=0, others=0, empty=0):
    return (f"{packets} packets; passed over: {not_udp} records without UDP, {others} of other flows, "
            f"{empty} with nothing behind the preamble\n")


def load():
    """The program as a module."""
    sys.dont_write_bytecode = True
    loader = importlib.machinery.SourceFileLoader("pcap_packets", str(PROGRAM))
    module = importlib.util.module_from_spec(importlib.util.spec_from_loader(loader.name, loader))
    sys.modules[loader.name] = module
    loader.exec_module(module)
    return module


program = load()


@dataclass
class Answer:
    returncode: int
    stdout: bytes
    stderr: bytes


@contextlib.contextmanager
def redirected(descriptor, file):
    kept = os.dup(descriptor)
    os.dup2(file.fileno(), descriptor)
    try:
        yield
    finally:
        os.dup2(kept, descriptor)
        os.close(kept)


def call(*words, given=b""):
    """What the program does with these words and this standard input, a file."""
    with tempfile.TemporaryFile() as source, tempfile.TemporaryFile() as output, tempfile.TemporaryFile() as errors:
        source.write(given)
        source.seek(0)
        with redirected(0, source), redirected(1, output), redirected(2, errors), \
                mock.patch.object(sys, "argv", ["pcap-packets", *map(str, words)]), \
                open(2, "w", closefd=False) as told, contextlib.redirect_stderr(told):
            try:
                status = program.run()
            except SystemExit as ended:
                status = ended.code
        output.seek(0)
        errors.seek(0)
        return Answer(status, output.read(), errors.read())


def call_process(*words, given=b"", **more):
    """The same as a process, whose standard input is a pipe."""
    return subprocess.run([str(PROGRAM), *map(str, words)], input=given, capture_output=True, timeout=120, check=False, **more)


class TestCase(unittest.TestCase):
    maxDiff = None

    def gives(self, given, packets, *words, not_udp=0, others=0, empty=0):
        """The file is this recording, and so much of it is passed over."""
        answer = call(*words, given=given)
        self.assertEqual(answer.stderr.decode(), counts(len(packets), not_udp, others, empty))
        self.assertEqual((answer.returncode, answer.stdout), (0, recording(*packets)))

    def refused(self, given, why, *words, packets=()):
        """The file is refused so, behind these packets."""
        answer = call(*words, given=given)
        self.assertEqual(answer.stderr.decode().splitlines()[0], f"standard input: {why}")
        self.assertEqual((answer.returncode, answer.stdout), (1, recording(*packets)))


class Files(TestCase):
    def test_pcap_of_both_orders_and_units(self):
        for order in "<>":
            for unit in (1000, 1):
                given = pcap(frame(b"A"), frame(b"BC"), order=order, unit=unit)
                self.gives(given, [b"A", b"BC"])
                self.gives(pcap(frame(b"\xc0\x85"), order=order, unit=unit),
                           [mark(9, 1, NANOSECONDS, b"") + b"\xc0\x85"], "--mark", 9)

    def test_a_file_of_no_record(self):
        self.gives(pcap(), [])
        self.gives(section("<"), [])

    def test_pcapng_of_both_orders(self):
        for order in "<>":
            given = (section(order) + interface(order) + block(order, 5, bytes(12))
                     + enhanced(order, frame(b"\xc0A"), NANOSECONDS // 1000) + block(order, 0xABC, b"abc")
                     + block(order, 3, struct.pack(order + "I", len(frame(b"\xc0BC"))) + frame(b"\xc0BC")))
            self.gives(given, [mark(0, 1, NANOSECONDS, b"") + b"\xc0A", mark(0, 2, 0, b"") + b"\xc0BC"], "--mark", 0)

    def test_resolutions_and_offsets(self):
        for value, when, wanted in ((b"\x09", NANOSECONDS, NANOSECONDS), (b"\x06", 5, 5000), (b"\x00", 3, 3_000_000_000),
                                    (b"\x0c", 5_999, 5), (b"\x81", 3, 1_500_000_000), (b"\xa0", 1 << 31, 500_000_000)):
            options = option("<", 2, b"lo") + option("<", 9, value) + option("<", 0, b"")
            given = section("<") + interface("<", options=options) + enhanced("<", frame(b"\xc0"), when)
            self.gives(given, [mark(1, 1, wanted, b"") + b"\xc0"], "--mark", 1)
        options = option(">", 14, struct.pack(">q", 60)) + option(">", 9, b"\x09")
        given = section(">") + interface(">", options=options) + enhanced(">", frame(b"\xc0"), 7)
        self.gives(given, [mark(1, 1, 60_000_000_007, b"") + b"\xc0"], "--mark", 1)

    def test_interfaces_and_sections(self):
        given = (section("<") + interface("<") + interface("<", RAW) + enhanced("<", ipv4(datagram(b"A")), 0, place=1)
                 + enhanced("<", frame(b"B"), 0) + section(">") + interface(">", LOOP)
                 + enhanced(">", b"\0\0\0\x02" + ipv4(datagram(b"C")), 0))
        self.gives(given, [b"A", b"B", b"C"])

    def test_old_and_simple_blocks(self):
        data = frame(b"AB")
        old = block("<", 2, struct.pack("<HHIIII", 0, 0, 0, 5, len(data), len(data)) + data)
        self.gives(section("<") + interface("<", most=60) + old, [b"AB"])
        cut = block("<", 3, struct.pack("<I", len(data)) + data[:40])
        self.refused(section("<") + interface("<", most=40) + cut,
                     f"record 1 was cut short by the recorder: 40 bytes were kept of {len(data)}; record with a longer "
                     "snapshot (tcpdump -s 0)")

    def test_files_of_tcpdump_and_editcap(self):
        packets = [bytes.fromhex("c08185"), bytes.fromhex("c0818680")]
        for name in ("nano.pcap", "nano.pcapng", "cooked.pcap", "cooked2.pcap"):
            given = (CAPTURES / name).read_bytes()
            with self.subTest(name):
                self.gives(given, packets, "--port", PORT, "--preamble", 4, others=1, empty=1)
                self.gives(given, packets[1:], "--group", "::1", "--preamble", 4, others=3)
                self.gives(given, [b"other"], "--port", 16002, others=3)
        nano, ng = (call("--port", PORT, "--preamble", 4, "--mark", 0, CAPTURES / name).stdout
                    for name in ("nano.pcap", "nano.pcapng"))
        self.assertEqual(nano, ng)
        self.refused((CAPTURES / "cut.pcap").read_bytes(),
                     "record 1 was cut short by the recorder: 45 bytes were kept of 49; record with a longer snapshot "
                     "(tcpdump -s 0)", "--port", PORT)

    def test_the_example(self):
        answer = call("--port", PORT, "--preamble", 4, TOP / "examples" / "moex.pcap")
        self.assertEqual((answer.returncode, answer.stderr.decode()), (0, counts(5, not_udp=1, others=1)))
        self.assertEqual(answer.stdout, bytes.fromhex((TOP / "examples" / "moex.packets").read_text()))

    @unittest.skipUnless(shutil.which("tcpdump") and os.geteuid() == 0, "tcpdump may not record here")
    def test_what_tcpdump_records(self):
        with tempfile.TemporaryDirectory() as folder, socket.socket(socket.AF_INET, socket.SOCK_DGRAM) as ear:
            ear.bind(("127.0.0.1", 0))
            port = ear.getsockname()[1]
            # (as a user of its own it could not write here)
            words = ["tcpdump", "-Z", "root", "-U", "-i", "lo", "-c", "3", "-w", f"{folder}/lo.pcap", "udp", "port", str(port)]
            with subprocess.Popen(words, stderr=subprocess.PIPE) as recorder:
                begun = recorder.stderr.readline()
                while b"listening" not in begun:
                    if not begun:
                        self.skipTest("tcpdump may not record here")
                    begun = recorder.stderr.readline()
                packets = [b"\xc0one", b"\xc0", bytes(1400)]
                for packet in packets:
                    ear.sendto(b"\0\0\0\1" + packet, ("127.0.0.1", port))
                try:
                    recorder.wait(20)
                except subprocess.TimeoutExpired:
                    recorder.kill()
                    self.skipTest("tcpdump records nothing here")
            given = Path(folder, "lo.pcap").read_bytes()
        self.gives(given, packets, "--port", port, "--preamble", 4)


class Frames(TestCase):
    def test_ethernet(self):
        packet = ipv4(datagram(b"A"))
        self.gives(pcap(ethernet(packet), ethernet(packet, behind=bytes(20)), ethernet(packet, tags=(0x8100,)),
                        ethernet(packet, tags=(0x88A8, 0x8100)), ethernet(packet, tags=(0x9100, 0x8100, 0x8100))), [b"A"] * 5)
        # the length of the frame's check stands above the link type
        self.gives(pcap(ethernet(packet, behind=bytes(4)), link=0x24000001), [b"A"])

    def test_cooked(self):
        packet = ipv4(datagram(b"A"))
        self.gives(pcap(bytes(14) + struct.pack(">H", IPV4) + packet, link=COOKED), [b"A"])
        self.gives(pcap(bytes(14) + struct.pack(">HHH", 0x8100, 3, IPV4) + packet, link=COOKED), [b"A"])
        self.gives(pcap(struct.pack(">H", IPV6) + bytes(18) + ipv6(datagram(b"A")), link=COOKED_2), [b"A"])
        self.gives(pcap(struct.pack(">H", ARP) + bytes(40), link=COOKED_2), [], not_udp=1)

    def test_raw(self):
        for link in (12, 14, RAW, 228, 229):
            self.gives(pcap(ipv4(datagram(b"A")), ipv6(datagram(b"B")), bytes(60), link=link), [b"A", b"B"], not_udp=1)

    def test_loopback(self):
        for family in (10, 24, 28, 30):
            for order in "<>":
                given = pcap(struct.pack(order + "I", 2) + ipv4(datagram(b"A")),
                             struct.pack(order + "I", family) + ipv6(datagram(b"B")),
                             struct.pack(order + "I", 7) + bytes(50), link=NULL)
                self.gives(given, [b"A", b"B"], not_udp=1)
        self.gives(pcap(b"\0\0\0\x02" + ipv4(datagram(b"A")), link=LOOP), [b"A"])

    def test_ipv4(self):
        self.gives(pcap(frame(b"A", options=bytes(4)), frame(b"B", options=bytes(40))), [b"A", b"B"])
        # of what the card was to cut into packets the length is 0
        self.gives(pcap(frame(b"A", size=0)), [b"A"])
        self.gives(pcap(frame(b"A" * 40, protocol=6), ethernet(bytes(40), ARP), ethernet(b"", 0x88CC)), [], not_udp=3)

    def test_ipv6(self):
        body = datagram(b"A")

        def header(following, size=8):
            return bytes((following, size // 8 - 1)) + bytes(size - 2)

        for packet in (ipv6(body), ipv6(header(17) + body, following=0), ipv6(header(17, 24) + body, following=60),
                       ipv6(header(43) + header(60, 16) + header(17) + body, following=0),
                       ipv6(bytes((17, 4)) + bytes(22) + body, following=51),
                       # the only fragment of a packet is all of it
                       ipv6(bytes((17, 0, 0, 0, 0, 0, 0, 9)) + body, following=44)):
            self.gives(pcap(ethernet(packet, IPV6)), [b"A"])
        self.gives(pcap(ethernet(ipv6(bytes(40), following=58), IPV6), ethernet(ipv6(header(6) + bytes(40), following=0), IPV6)),
                   [], not_udp=2)

    def test_payloads_of_each_size(self):
        payloads = [bytes((size % 251,)) * size for size in (1, 127, 128, 1472, 2047, 2048, 16383, 16384, 65507)]
        self.gives(pcap(*(frame(payload) for payload in payloads)), payloads)


class Flows(TestCase):
    FRAMES = (frame(b"A"), frame(b"B", group=OTHER), ethernet(ipv4(datagram(b"C", PORT + 1))),
              ethernet(ipv6(datagram(b"D")), IPV6), ethernet(bytes(40), ARP))

    def test_groups_and_ports(self):
        for words, packets, others in (
            ((), [b"A", b"B", b"C", b"D"], 0),
            (("--group", GROUP), [b"A", b"C"], 2),
            (("--group", OTHER), [b"B"], 3),
            (("--group", "FF02:0::1"), [b"D"], 3),
            (("--port", PORT), [b"A", b"B", b"D"], 1),
            (("--port", PORT, "--group", GROUP), [b"A"], 3),
            (("--port", 1), [], 4),
        ):
            self.gives(pcap(*self.FRAMES), packets, *words, others=others, not_udp=1)
            # and where no frame is a plain one
            tagged = [data[:12] + b"\x81\0\0\0" + data[12:] for data in self.FRAMES]
            self.gives(pcap(*tagged), packets, *words, others=others, not_udp=1)

    def test_preambles(self):
        given = pcap(frame(b"1234A"), frame(b"1234"), frame(b"12"), frame(b""), frame(b"5678BC"))
        self.gives(given, [b"A", b"BC"], "--preamble", 4, empty=3)
        self.gives(given, [b"1234A", b"1234", b"12", b"5678BC"], empty=1)
        self.gives(given, [b"4A", b"4", b"8BC"], "--preamble", 3, empty=2)

    def test_marks(self):
        given = pcap(frame(b"\0\0\0\x07\xc0\x85"), frame(b"\0\0\0\x08"), frame(b"\0\0\0\x09\xe0"))
        second = NANOSECONDS + 2_000_000_000
        self.gives(given, [mark(300, 1, NANOSECONDS, b"\0\0\0\x07") + b"\xc0\x85", mark(300, 3, second, b"\0\0\0\x09") + b"\xe0"],
                   "--mark", 300, "--preamble", 4, empty=1)
        # a first message that leaves its identifier out would be one of the mark's template
        answer = call("--mark", 0, given=pcap(frame(b"\x80\x81"), frame(b"\xc0\x81")))
        self.assertEqual(answer.stdout, recording(b"\x80\x81", mark(0, 2, NANOSECONDS + 10**9, b"") + b"\xc0\x81"))
        self.assertEqual(answer.stderr.decode(), counts(2).rstrip() + "; 1 packets have no mark\n")

    def test_payloads_that_are_no_packet(self):
        given = struct.pack("<I", 65_536) + bytes(65_536)
        self.refused(given, "record 1 has a packet of 65536 bytes, and 65535 are the most; see that its form and its preamble "
                     "are those of the file", "--records", "u32le")
        self.gives(given, [bytes(65_535)], "--records", "u32le", "--preamble", 1)


class Refusals(TestCase):
    def test_what_the_recorder_cut_short(self):
        whole = frame(b"0123456789")
        for kept in range(13, len(whole)):
            wanted = (f"record 2 was cut short by the recorder: {kept} bytes were kept of {len(whole)}; record with a longer "
                      "snapshot (tcpdump -s 0)")
            cut = pcap(whole, kept=kept)[24:]
            self.refused(pcap(frame(b"A")) + cut, wanted, "--port", PORT, "--group", GROUP, packets=[b"A"])
        # of another flow, as far as its headers are there
        self.gives(pcap(whole, kept=44), [], "--port", PORT + 1, others=1)
        self.gives(pcap(whole, kept=44), [], "--group", OTHER, others=1)
        self.gives(pcap(frame(bytes(20), protocol=6), kept=44), [], not_udp=1)
        # of padding alone nothing is missed
        self.gives(pcap(ethernet(ipv4(datagram(b"A")), behind=bytes(17)), kept=50), [b"A"])

    def test_frames_with_too_few_bytes(self):
        whole = frame(b"0123456789")
        self.refused(pcap(whole[:-3]), f"record 1 was cut short by the recorder: {len(whole) - 3} bytes were kept of "
                     f"{len(whole)}; record with a longer snapshot (tcpdump -s 0)")
        self.gives(pcap(whole[:30], b""), [], not_udp=2)

    def test_fragments(self):
        why = ("record 1 is a fragment of a datagram; put fragments together first, or name the flow by --group or --port "
               "where it is of another")
        first, later = frame(b"A", flags=0x2000), ethernet(ipv4(bytes(40), flags=0x0005))
        self.refused(pcap(first), why)
        self.refused(pcap(later), why, "--port", PORT)
        self.gives(pcap(first), [], "--port", PORT + 1, others=1)
        self.gives(pcap(first, later), [], "--group", OTHER, others=2)
        self.gives(pcap(ethernet(ipv4(bytes(40), flags=0x2000, protocol=6))), [], not_udp=1)
        for flags, others in ((b"\0\x01", 1), (b"\0\x08", None), (b"\0\x09", None)):
            packet = ethernet(ipv6(bytes((17, 0)) + flags + bytes(4) + datagram(b"A"), following=44), IPV6)
            self.refused(pcap(packet), why)
            if others:
                self.gives(pcap(packet), [], "--port", PORT + 1, others=others)

    def test_link_types(self):
        self.refused(pcap(bytes(60), link=105), "record 1 has the link type 105, which is not read; have tshark print "
                     "udp.payload, and read that by --hex-lines")
        given = section("<") + interface("<") + interface("<", 189) + enhanced("<", frame(b"A"), 0)
        self.gives(given, [b"A"])
        self.refused(given + enhanced("<", bytes(60), 0, place=1), "record 2 has the link type 189, which is not read; have "
                     "tshark print udp.payload, and read that by --hex-lines", packets=[b"A"])

    def test_files_that_end_inside_something(self):
        copied = "see that it was copied whole"
        given = pcap(frame(b"A"), frame(b"B"))
        size = len(pcap(frame(b"A")))
        for end in range(4, len(given)):
            if end != size and end != 24:
                what = "its header" if end < 24 else "record 1" if end < size else "record 2"
                self.refused(given[:end], f"the file ends inside {what}; {copied}", packets=[b"A"] if end > size else [])
        record = enhanced("<", frame(b"A"), 0)
        given = section("<") + interface("<") + record
        for end in range(len(given) - len(record) + 1, len(given)):
            what = "a block behind record 0" if end < len(given) - len(record) + 8 else "record 1"
            self.refused(given[:end], f"the file ends inside {what}; {copied}")
        self.refused(section("<")[:20], f"the file ends inside a section's header; {copied}")

    def test_files_that_are_no_captures(self):
        self.refused(b"", "the file begins neither as pcap nor as pcapng; name its form by --records or --hex-lines, or "
                     "convert it (tshark -F pcapng)")
        self.refused(b"\x1f\x8b\x08\0", "the file is compressed; gunzip -c FILE | tools/pcap-packets ..")
        changed = "see that the file was not changed on its way"
        self.refused(pcap() + struct.pack("<IIII", 0, 0, 1 << 30, 1 << 30),
                     f"record 1 says that it has {1 << 30} bytes; {changed}")
        self.refused(section("<") + enhanced("<", frame(b"A"), 0),
                     f"record 1 is of an interface that the file does not have; {changed}")
        self.refused(section("<") + struct.pack("<II", 6, 13), f"a block behind record 0 says that it has 13 bytes; {changed}")
        broken = enhanced("<", frame(b"A"), 0)
        self.refused(section("<") + interface("<") + broken[:-4] + bytes(4),
                     f"record 1 ends with another length than it begins with; {changed}")
        self.refused(b"\x0a\x0d\x0d\x0a" + bytes(24), f"a section's header has no byte order; {changed}")

    def test_lengths_that_do_not_agree(self):
        why = "record 1 has lengths in its headers that do not agree; see that the file was not changed on its way"
        self.refused(pcap(ethernet(ipv4(datagram(b"A", size=7)))), why)
        self.refused(pcap(ethernet(ipv4(datagram(b"A", size=20)), behind=bytes(30))), why)
        self.refused(pcap(ethernet(ipv6(datagram(b"A", size=0)), IPV6)), why)


class Records(TestCase):
    def test_each_form(self):
        payloads = [b"A", b"", b"BC", bytes(300)]
        for form, code in (("u16be", ">H"), ("u16le", "<H"), ("u32be", ">I"), ("u32le", "<I")):
            given = b"".join(struct.pack(code, len(payload)) + payload for payload in payloads)
            self.gives(given, [b"A", b"BC", bytes(300)], "--records", form, empty=1)
            self.gives(given, [b"C", bytes(299)], "--records", form, "--preamble", 1, empty=2)
            self.refused(given[:-1], "the file ends inside record 4; see that it was copied whole", "--records", form,
                         packets=[b"A", b"BC"])
            self.refused(given + b"\0", "the file ends inside record 5; see that it was copied whole", "--records", form,
                         packets=[b"A", b"BC", bytes(300)])
        self.gives(b"", [], "--records", "u16be")

    def test_hex_lines(self):
        given = b"0a0B0c\n\n0A:0b:0c\r\n  ff \n0d0e"
        self.gives(given, [b"\x0a\x0b\x0c", b"\x0a\x0b\x0c", b"\xff", b"\x0d\x0e"], "--hex-lines", not_udp=1)
        self.gives(given, [b"\x0c", b"\x0c"], "--hex-lines", "--preamble", 2, not_udp=1, empty=2)
        self.gives(b"\n0a0bc0\n", [mark(5, 2, 0, b"\x0a\x0b") + b"\xc0"], "--hex-lines", "--preamble", 2, "--mark", 5, not_udp=1)
        why = "line 2 is not hex text of one payload; tshark -T fields -e udp.payload prints such lines"
        for line in (b"0a0", b"0x0a", b"0a,0b", b"zz", "é".encode()):
            self.refused(b"0a\n" + line + b"\n", why, "--hex-lines", packets=[b"\x0a"])
        self.refused(b"0" * (1 << 20), f"line 1 has {1 << 20} bytes or more; see that it is hex text", "--hex-lines")


    @unittest.skipUnless(shutil.which("tshark"), "tshark is not there")
    def test_what_tshark_prints(self):
        for file in (CAPTURES / "nano.pcapng", CAPTURES / "cooked2.pcap"):
            words = ["tshark", "-r", file, "-Y", f"udp.dstport == {PORT}", "-T", "fields", "-e", "udp.payload"]
            lines = subprocess.run(words, stdout=subprocess.PIPE, stderr=subprocess.DEVNULL, check=True).stdout
            wanted = call("--port", PORT, "--preamble", 4, file)
            answer = call("--hex-lines", "--preamble", 4, given=lines)
            self.assertEqual((answer.returncode, answer.stdout), (0, wanted.stdout))
            self.assertEqual(answer.stderr.decode(), counts(2, empty=1))


class Parts(TestCase):
    def parts(self, given, *words):
        """The parts of a file, one behind the other, for some numbers of them."""
        with tempfile.NamedTemporaryFile() as file:
            file.write(given)
            file.flush()
            whole = call(*words, file.name).stdout
            for split in (1, 2, 3, 7, 100):
                answers = [call(*words, "--split", split, "--part", part, file.name) for part in range(1, split + 1)]
                self.assertEqual({answer.returncode for answer in answers}, {0})
                self.assertEqual(b"".join(answer.stdout for answer in answers), whole)
                if split == 3:
                    # each has its share
                    self.assertTrue(all(len(answer.stdout) > len(whole) / 5 for answer in answers))

    def test_parts_are_the_whole(self):
        payloads = [b"\xc0" + bytes((number,)) * (1 + number % 5) for number in range(40)]
        frames = [frame(payload) for payload in payloads]
        self.parts(pcap(*frames), "--mark", 4)
        ng = section("<") + interface("<", options=option("<", 9, b"\x09"))
        self.parts(ng + b"".join(enhanced("<", data, number) for number, data in enumerate(frames)), "--mark", 4)
        self.parts(b"".join(struct.pack(">H", len(it)) + it for it in payloads), "--records", "u16be")
        self.parts(b"".join(it.hex().encode() + b"\n" for it in payloads), "--hex-lines", "--mark", 0)

    def test_a_pipe_has_no_parts(self):
        answer = call_process("--split", 2, "--part", 1, given=pcap(frame(b"A")))
        self.assertEqual((answer.returncode, answer.stdout), (1, b""))
        self.assertEqual(answer.stderr.decode().splitlines()[0],
                         "standard input: it is cut into parts by its size, and has none; name a file")

    def test_a_part_of_the_standard_input(self):
        self.assertEqual(call("--split", 2, "--part", 2, given=pcap(frame(b"A"), frame(b"B"))).stdout, recording(b"B"))


class Programs(TestCase):
    def test_command_lines(self):
        for words in (("--split", 2), ("--part", 1), ("--split", 2, "--part", 3), ("--split", 0, "--part", 0), ("--port", 0),
                      ("--port", 65536), ("--port", "x"), ("--group", "localhost"), ("--preamble", -1), ("--mark", 2**32),
                      ("--records", "u8"), ("--records", "u16be", "--port", 1), ("--hex-lines", "--group", GROUP),
                      ("--records", "u16be", "--hex-lines"), ("a", "b")):
            answer = call(*words)
            self.assertEqual((answer.returncode, answer.stdout), (2, b""))
            self.assertIn(b"usage: pcap-packets", answer.stderr)

    def test_files(self):
        with tempfile.TemporaryDirectory() as folder:
            Path(folder, "x.pcap").write_bytes(pcap(frame(b"A")))
            answer = call_process("x.pcap", cwd=folder)
            self.assertEqual((answer.returncode, answer.stdout), (0, recording(b"A")))
            answer = call_process("y.pcap", cwd=folder)
            self.assertEqual((answer.returncode, answer.stdout), (3, b""))
            self.assertEqual(answer.stderr.decode().splitlines()[0], "y.pcap: cannot be read: No such file or directory")
            answer = call_process(".", cwd=folder)
            self.assertEqual(answer.stderr.decode().splitlines()[0], ".: cannot be read: Is a directory")
        self.assertEqual(call("-", given=pcap(frame(b"A"))).stdout, recording(b"A"))

    def test_an_output_that_fails(self):
        with open("/dev/full", "wb") as full:
            answer = subprocess.run([str(PROGRAM)], input=pcap(frame(b"A")), stdout=full, stderr=subprocess.PIPE, check=False)
        self.assertEqual(answer.returncode, 3)
        self.assertEqual(answer.stderr, b"standard output: cannot be written: No space left on device\n")

    def test_a_reader_that_ends(self):
        given = pcap(*[frame(bytes(1000))] * 2000)
        with tempfile.NamedTemporaryFile() as file:
            file.write(given)
            file.flush()
            with subprocess.Popen([str(PROGRAM), file.name], stdout=subprocess.PIPE, stderr=subprocess.PIPE) as process:
                process.stdout.read(1)
                process.stdout.close()
                self.assertEqual(process.stderr.read(), b"")
        self.assertEqual(process.returncode, -signal.SIGPIPE)

    def test_memory_is_flat(self):
        """Of 2 and of 60 MB that come through a pipe it keeps the same."""
        most = []
        for times in (1, 30):
            given = pcap(*[frame(bytes(1000))] * 2000)
            with subprocess.Popen([str(PROGRAM)], stdin=subprocess.PIPE, stdout=subprocess.DEVNULL,
                                  stderr=subprocess.DEVNULL) as process:
                process.stdin.write(given)
                for _ in range(times - 1):
                    process.stdin.write(given[24:])
                process.stdin.close()
                _, status, used = os.wait4(process.pid, 0)
                process.returncode = os.waitstatus_to_exitcode(status)
            self.assertEqual(process.returncode, 0)
            most.append(used.ru_maxrss)
        self.assertLess(most[1], most[0] + 2048)

    def test_it_is_quick(self):
        """A record takes microseconds, and no more the later it comes."""
        given = pcap(*[frame(bytes(40))] * 20_000)
        begun = time.monotonic()
        self.assertEqual(call(given=given).returncode, 0)
        self.assertLess(time.monotonic() - begun, 20)


if __name__ == "__main__":
    ended = unittest.main(exit=False).result
    ill = len(ended.failures) + len(ended.errors)
    print(f"{ended.testsRun - ill} passed, {ill} failed")
    sys.exit(not ended.wasSuccessful())
