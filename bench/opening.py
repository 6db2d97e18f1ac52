#!/usr/bin/env python3
"""How the cost of opening disks grows with the blobs that they hold.

Puts 2,500 and 10,000 blobs of 100 bytes over three replicas with default disks, each count in a folder of its own, and then times
sessions without a line over these folders and over one of new logs. Prints the time that opening takes for a blob, as a ratio to the
first: `python3 bench/opening.py`. The goal is at most 1.5: an opening is one pass over the used bytes.
"""
import subprocess
import sys
import tempfile
import time
from pathlib import Path

COUNTS = (2_500, 10_000)
PROGRAM = Path(__file__).resolve().parent.parent / "ambry_lab"


def session(work, folder, text):
    begun = time.perf_counter()
    done = subprocess.run([str(PROGRAM), "run", "--folder", folder], cwd=work, input=text, stdout=subprocess.PIPE, check=False)
    taken = time.perf_counter() - begun
    if done.returncode != 0:
        sys.exit(f"the program answered {done.returncode}")
    return taken, done.stdout.count(b" ok ")


def opening(work, folder):
    return min(session(work, folder, b"")[0] for _ in range(5))


def main():
    with tempfile.TemporaryDirectory() as work:
        session(work, "new", b"")
        least = opening(work, "new")
        first = None
        for count in COUNTS:
            folder = f"blobs{count}"
            puts = "".join(f"put a{i} hex {'ab' * 100}\nwait\n" for i in range(count))
            stored = session(work, folder, puts.encode())[1]
            if stored != count:
                sys.exit(f"{stored} of {count} puts ended ok")
            per_blob = (opening(work, folder) - least) / count
            first = first or per_blob
            print(f"{count:6} blobs: {per_blob * 1e6:8.2f} us a blob to open, ratio {per_blob / first:5.2f}", flush=True)


main()
