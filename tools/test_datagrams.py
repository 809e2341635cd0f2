"""Sends the packets of a recording to a program as datagrams, and prints what it does: test_datagrams.py PROGRAM TEMPLATES RECORDING"""

import pathlib
import socket
import subprocess
import sys


def packets(recording):
    at = 0
    while at < len(recording):
        size, is_last = 0, False
        while not is_last:
            size, is_last, at = size << 7 | recording[at] & 0x7F, recording[at] >= 0x80, at + 1
        yield recording[at : at + size]
        at += size


def free_port():
    with socket.socket(socket.AF_INET, socket.SOCK_DGRAM) as one:
        one.bind(("127.0.0.1", 0))
        return one.getsockname()[1]


def main(program, templates, recording):
    port = free_port()
    with subprocess.Popen([program, templates, "--udp", str(port)], stdout=subprocess.PIPE, text=True) as running:
        assert running.stdout.readline() == "ready\n"
        with socket.socket(socket.AF_INET, socket.SOCK_DGRAM) as sender:
            # (an empty one ends it)
            for packet in [*packets(pathlib.Path(recording).read_bytes()), b""]:
                sender.sendto(packet, ("127.0.0.1", port))
        print(running.communicate(timeout=10)[0], end="")


if __name__ == "__main__":
    main(*sys.argv[1:])
