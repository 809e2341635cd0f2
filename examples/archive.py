#!/usr/bin/env python3
"""Prints the SHA-256 of the canonical recording of each capture in a folder: examples/archive.py TEMPLATES FOLDER [WORD..]

The words are those of tools/pcap-packets. A file is a task, and one of more than LARGE bytes (256 MiB) several, since the
parts of a recording are canonical one by one. The tasks run on WORKERS of Dask where its package is there (on those of
the scheduler that DASK_SCHEDULER_ADDRESS names, or else here), and otherwise in as many processes; each worker needs the
folder, this repository and `fastcat` under the same paths. The status is 1 where a file is refused.
"""
import hashlib
import os
import pathlib
import subprocess
import sys

PACKETS = pathlib.Path(__file__).resolve().parent.parent / "tools" / "pcap-packets"
PIPE = 'set -o pipefail; "${@:2}" | fastcat canon --packets --templates "$1"'


def canonical(templates, words, file, part, split):
    """The canonical bytes of a part, the digest of a file that has one; none where it is refused."""
    told = [templates, PACKETS, *words, f"--split={split}", f"--part={part}", file]
    ran = subprocess.run(["bash", "-c", PIPE, "archive", *told], stdout=subprocess.PIPE, check=False)
    return None if ran.returncode else ran.stdout if split > 1 else hashlib.sha256(ran.stdout).hexdigest()


def pool(workers):
    try:
        from distributed import Client
        return Client(n_workers=workers)
    except ImportError:
        from concurrent.futures import ProcessPoolExecutor
        return ProcessPoolExecutor(workers)


def main(templates, folder, *words):
    large, workers = int(os.environ.get("LARGE", 1 << 28)), int(os.environ.get("WORKERS", os.cpu_count()))
    status, templates = 0, os.path.abspath(templates)
    with pool(workers) as run:
        files = {file.resolve(): -(-file.stat().st_size // large) or 1 for file in sorted(pathlib.Path(folder).iterdir())}
        tasks = {file: [run.submit(canonical, templates, words, file, part, split) for part in range(1, split + 1)]
                 for file, split in files.items()}
        for file, parts in tasks.items():
            found = [part.result() for part in parts]
            whole = None if None in found else found[0] if len(found) == 1 else hashlib.sha256(b"".join(found)).hexdigest()
            print(whole or "refused", file.name, flush=True)
            status = status if whole else 1
    return status


if __name__ == "__main__":
    sys.exit(main(*sys.argv[1:]))
