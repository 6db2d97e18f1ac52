#!/usr/bin/env python3
"""How much memory an opening takes beside the index.

Makes a disk of 64 segments of 16 MiB whose records, in all but the free segment, are deletes of one id, so that the index
has one entry, and a new one of the same settings. Opens each by a session without a line, and prints the most memory that
the sessions held, with their difference: `python3 bench/opening_memory.py`. The goal is at most 200 MB: an opening keeps a
record, the segment table and one lsn of 64, however long a log is. It takes 1 GiB of the temporary folder.
"""
import os
import struct
import subprocess
import sys
import tempfile
from pathlib import Path

PROGRAM = Path(__file__).resolve().parent.parent / "ambry_lab"
SEGMENT, SEGMENTS, INDEX = 16_777_216, 64, 256
WORDS = f"run --nodes 1 --partitions 1 --segment {SEGMENT} --segments {SEGMENTS} --index {INDEX}".split()
# The version, a simple blob, partition 0, and a random UUID.
ID = bytes([1, 0, 0, 0]) + bytes.fromhex("0123456789ab4def8123456789abcdef")


def delete(lsn):
    return b"\x4f\x02" + struct.pack(">Q", lsn) + ID + bytes(8)


def manifest():
    live = b"".join(struct.pack(">HQ", number, number) for number in range(SEGMENTS - 1))
    return struct.pack(">BIHHQQH", 1, SEGMENT, SEGMENTS, INDEX, SEGMENTS - 1, 0, SEGMENTS - 1) + live


def make(path):
    fit = (SEGMENT - 1) // len(delete(0))
    with open(path, "wb") as file:
        file.truncate(4096 + SEGMENTS * SEGMENT)
        value = manifest()
        file.write(b"\x4f" + struct.pack(">QI", 1, len(value)) + value)
        for number in range(SEGMENTS - 1):
            file.seek(4096 + number * SEGMENT)
            file.write(b"".join(delete(lsn) for lsn in range(number * fit, (number + 1) * fit)))
    return (SEGMENTS - 1) * fit


def most_memory(work, folder):
    """The most that the session held, in KB."""
    session = subprocess.Popen([str(PROGRAM), *WORDS, "--folder", folder], cwd=work, stdin=subprocess.DEVNULL)
    _, status, took = os.wait4(session.pid, 0)
    if status != 0:
        sys.exit(f"the program answered {os.waitstatus_to_exitcode(status)}")
    return took.ru_maxrss


def main():
    # So that the launcher has nothing left to build.
    subprocess.run([str(PROGRAM), "run", "--folder", "unused", "--nodes", "0"], stdout=subprocess.DEVNULL, check=False)
    with tempfile.TemporaryDirectory() as work:
        new = most_memory(work, "new")
        os.mkdir(f"{work}/full")
        deletes = make(f"{work}/full/n1p0")
        full = most_memory(work, "full")
    print(f"a new disk: {new} KB; {deletes} deletes of one id: {full} KB; {(full - new) / 1000:.1f} MB more")


main()
