#!/usr/bin/env python3
"""How the log's appends compare with the bare calls of the system.

Lets the proved program `log_bench` append records of 100, 1,000 and 10,000 bytes to the log of a new file, and makes
the same calls on a file of the same size beside it, as a loop: a write of the record's bytes behind the gate, a sync, a
write of the gate, a sync. Prints the appends and the bytes per second, and the ratio of the time to that of the loop:
`python3 bench/log.py [FOLDER]`. The files are made in FOLDER, or here, since a sync costs what the file system makes it
cost. The loop is Python's: where a sync costs next to nothing, the ratio says more of Python than of the log.
"""
import os
import subprocess
import sys
import tempfile
import time

CRATE = "crates/log_bench"
PROGRAM = os.path.abspath(f"{CRATE}/out/log_bench")
DISK = 4096 + 2 * 16_777_216
APPENDS = ((100, 1_000), (1_000, 1_000), (10_000, 1_000))
ROUNDS = 5


def build():
    # Without words the program only says how it is used.
    subprocess.run(["rt", "run"], cwd=CRATE, stdout=subprocess.DEVNULL, stderr=subprocess.DEVNULL, check=False)
    if not os.path.exists(PROGRAM):
        sys.exit("the program could not be built")


def run(folder, count, size):
    with tempfile.TemporaryDirectory(dir=folder) as inside:
        begun = time.perf_counter()
        done = subprocess.run([PROGRAM, str(count), str(size)], cwd=inside, stdout=subprocess.PIPE, check=False)
        taken = time.perf_counter() - begun
    if done.stdout != f"{count} records of {size} bytes\n".encode():
        sys.exit(f"the program answered {done.returncode}, {done.stdout}")
    return taken


def loop(folder, count, size):
    with tempfile.TemporaryDirectory(dir=folder) as inside:
        file = os.open(f"{inside}/bare", os.O_RDWR | os.O_CREAT)
        os.pwrite(file, bytes(DISK), 0)
        os.fsync(file)
        rest, gate = bytes(size), b"\x4f"
        begun = time.perf_counter()
        for place in range(4096, 4096 + count * size, size):
            os.pwrite(file, rest, place + 1)
            os.fdatasync(file)
            os.pwrite(file, gate, place)
            os.fdatasync(file)
        taken = time.perf_counter() - begun
        os.close(file)
    return taken


def main():
    folder = sys.argv[1] if len(sys.argv) > 1 else "."
    build()
    for size, count in APPENDS:
        runs, empty, loops = [], [], []
        for _ in range(ROUNDS):
            runs.append(run(folder, count, size))
            # What the program takes without an append is the making of its file.
            empty.append(run(folder, 0, size))
            loops.append(loop(folder, count, size))
        # The least of each, so that one slow making of a file doesn't make the appends look fast.
        taken, bare = min(runs) - min(empty), min(loops)
        if taken <= 0:
            sys.exit("the appends took no longer than the making of the file: try more of them")
        print(
            f"{size:6} bytes: {count / taken:8.0f} appends and {count * size / taken / 1e6:7.2f} MB a second,"
            f" the loop {count / bare:8.0f}, ratio {taken / bare:5.2f}"
        )


main()
