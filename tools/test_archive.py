#!/usr/bin/env python3
"""Tests of examples/archive.py, with a program in place of fastcat that hands packets on as they are.

usage: tools/test_archive.py
"""
import hashlib
import os
import shutil
import subprocess
import sys
import tempfile
import unittest
from pathlib import Path

TOP = Path(__file__).resolve().parent.parent
ARCHIVE, PACKETS = TOP / "examples" / "archive.py", TOP / "tools" / "pcap-packets"
WORDS = ("--port", "16001", "--preamble", "4")
# It wants the words that the program has for this.
FASTCAT = '#!/bin/sh\n[ "$*" = "canon --packets --templates $TEMPLATES" ] && exec cat\n'


def python_with_dask():
    """A Python that has the package of Dask, if there is one."""
    for python in (sys.executable, "/usr/bin/python3"):
        if shutil.which(python) and not subprocess.run([python, "-c", "import distributed"], capture_output=True).returncode:
            return python
    return None


class Archives(unittest.TestCase):
    def setUp(self):
        self.room = tempfile.TemporaryDirectory()
        self.addCleanup(self.room.cleanup)
        self.folder = Path(self.room.name, "recordings")
        self.folder.mkdir()
        program = Path(self.room.name, "fastcat")
        program.write_text(FASTCAT)
        program.chmod(0o755)
        for file in (TOP / "examples" / "moex.pcap", TOP / "tools" / "captures" / "nano.pcapng"):
            shutil.copy(file, self.folder)

    def call(self, python, large, **more):
        templates = TOP / "examples" / "moex.json"
        environment = {**os.environ, "PATH": f"{self.room.name}:{os.environ['PATH']}", "LARGE": str(large), "WORKERS": "2",
                       "TEMPLATES": str(templates), **more}
        return subprocess.run([python, "-B", ARCHIVE, templates, self.folder, *WORDS], capture_output=True, text=True,
                              cwd=self.room.name, env=environment, timeout=120, check=False)

    def digests(self):
        """What is to be printed: of each file the digest of its packets."""
        lines = []
        for file in sorted(self.folder.iterdir()):
            packets = subprocess.run([PACKETS, *WORDS, file], stdout=subprocess.PIPE, stderr=subprocess.DEVNULL, check=True)
            lines.append(f"{hashlib.sha256(packets.stdout).hexdigest()} {file.name}\n")
        return "".join(lines)

    def gives_digests(self, python, **more):
        # of whole files, and of files in parts
        for large in (1 << 20, 100):
            answer = self.call(python, large, **more)
            self.assertEqual((answer.returncode, answer.stdout), (0, self.digests()), answer.stderr)
        shutil.copy(TOP / "tools" / "captures" / "cut.pcap", self.folder)
        for large in (1 << 20, 100):
            answer = self.call(python, large, **more)
            self.assertEqual((answer.returncode, answer.stdout.splitlines()[0]), (1, "refused cut.pcap"))

    def test_processes(self):
        # a module of the name that cannot be brought in
        Path(self.room.name, "distributed.py").write_text("raise ImportError\n")
        self.gives_digests(sys.executable, PYTHONPATH=self.room.name)

    @unittest.skipUnless(python_with_dask(), "Dask is not there")
    def test_two_workers_of_dask(self):
        self.gives_digests(python_with_dask())


if __name__ == "__main__":
    ended = unittest.main(exit=False).result
    ill = len(ended.failures) + len(ended.errors)
    print(f"{ended.testsRun - ill} passed, {ill} failed")
    sys.exit(not ended.wasSuccessful())
