#!/usr/bin/env python3
"""How the cost of a script line grows with the lines before it.

Runs scripts of 1,000, 10,000 and 100,000 puts and as many gets of 100 bytes through the proved program, over one node and
over three replicas with the plain schedule, and prints the lines per second and the time a line takes in each, as a ratio
to the first: `python3 bench/session.py`. The goal is at most 1.5. Each run has new disks, in memory where the machine has a
folder for that, since each put waits until its disks are synced.
"""
import subprocess
import sys
import tempfile
import time
from pathlib import Path

SIZES = (1_000, 10_000, 100_000)
CLUSTERS = (("one node", ("run", "--nodes", "1")), ("three replicas", ("run",)))
PROGRAM = Path(__file__).resolve().parent.parent / "ambry_lab"
MEMORY = "/dev/shm" if Path("/dev/shm").is_dir() else None


def script(count):
    body = "ab" * 100
    puts = "".join(f"put a{i} hex {body}\n" for i in range(count))
    gets = "".join(f"get b{i} $a{i}\n" for i in range(count))
    return (puts + gets).encode()


def run(words, text):
    with tempfile.TemporaryDirectory(dir=MEMORY) as work:
        begun = time.perf_counter()
        done = subprocess.run([str(PROGRAM), *words], cwd=work, input=text, stdout=subprocess.PIPE, check=False)
        taken = time.perf_counter() - begun
    if done.returncode != 0:
        sys.exit(f"the program answered {done.returncode}")
    return taken, done.stdout.count(b" ok ")


def measure(words):
    run(words, script(1))
    empty = min(run(words, b"")[0] for _ in range(5))
    first = None
    for count in SIZES:
        text = script(count)
        rounds = max(1, 10_000 // count)
        times = []
        for _ in range(3):
            total = 0.0
            for _ in range(rounds):
                taken, ended = run(words, text)
                if ended != 2 * count:
                    sys.exit(f"{ended} of {2 * count} operations ended ok")
                total += taken - empty
            times.append(total / rounds)
        per_line = min(times) / (2 * count)
        first = first or per_line
        print(f"{count:7} puts and gets: {1 / per_line:9.0f} lines a second, ratio {per_line / first:5.2f}", flush=True)


def main():
    for name, words in CLUSTERS:
        print(name, flush=True)
        measure(words)


main()
