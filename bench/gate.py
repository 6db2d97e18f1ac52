#!/usr/bin/env python3
"""What the merge gate costs: the processor minutes of each crate's proof, tests and must-fail edits, each from nothing.

At the top of the repository:

    python3 bench/gate.py run [-- NAME..]     runs `rt ci [NAME..]`, passes on what it says and its exit status, and measures
                                              each check that it starts
    python3 bench/gate.py table [--write]     prints the table of all that was measured, or writes it into docs/PERFORMANCE.md,
                                              between the two lines that begin with `<!-- gate`
    python3 bench/gate.py functions NAME..    proves these crates once more from nothing, with one job each, and measures each function
    python3 bench/gate.py merge FILE..        adds what runs in other copies of the repository measured: their bench/gate.json

The numbers are kept in bench/gate.json, each under a sum of the texts that it was measured for: the crate's src/, specs/ and
proofs/, and of an edit its own text. What a run takes over from an earlier one isn't measured again and keeps its number, and what
is measured again replaces it. What was never measured, or changed since, has no number, and the table says so.

A check's time is what its process and all that it started took of the processors, read a few times a second, so it may lack the
last quarter of a second. A proof includes the building of the crate's library or program; the edits include the check of the
unchanged crate that they begin with and the one that they end with. A check that failed has no number, nor has one that was cut off.
A function's time is what its crate's check took from the line that says that the function before was checked to its own line, so it
includes the lemmas and contracts that none before it needed. The first function of a crate has none: before its line all is read.
"""
import fcntl
import hashlib
import json
import os
import re
import resource
import shutil
import signal
import subprocess
import sys
import threading
import time
from collections import Counter
from pathlib import Path

STORE = Path("bench/gate.json")
PAGE = Path("docs/PERFORMANCE.md")
MARKS = ("<!-- gate: written by bench/gate.py -->", "<!-- gate: end -->")
STEP = 0.2
TICKS = os.sysconf("SC_CLK_TCK")
PARTS = ("src", "specs", "proofs")
MOST = 10


class Crate:
    """A crate as it stands when this is made: its texts by their path in it, and what each of its edits makes of them."""

    def __init__(self, name, uses, below):
        self.name, self.uses, self.below = name, uses, below
        folder = Path("crates", name)
        files = sorted(it for part in PARTS for it in folder.glob(f"{part}/**/*") if it.is_file())
        self.texts = {str(it.relative_to(folder)): it.read_text(encoding="utf-8", errors="replace") for it in files}
        self.edits = {it.stem: it.read_text(encoding="utf-8", errors="replace") for it in sorted(folder.glob("must-fail/*.edit"))}
        self.edited = {name: edited(text, self.texts) for name, text in self.edits.items()}
        self.has_tests = any(re.search(r"#\[\s*test\s*\]", text) for path, text in self.texts.items() if path.endswith(".rt"))

    def sum(self, edit=""):
        """The sum of the texts that a number of this crate, or of this edit, was measured for."""
        found = hashlib.sha256(repr(sorted(self.texts.items())).encode())
        found.update(self.edits.get(edit, "").encode())
        return found.hexdigest()[:16]

    def items(self):
        """What the gate does for the crate, by the name that its number is kept under, each with its sum."""
        found = {f"{self.name}/proof": self.sum()}
        if self.has_tests:
            found[f"{self.name}/tests"] = self.sum()
        if len(self.edits) > 1:
            found[f"{self.name}/edits"] = self.sum()
        return found | {f"{self.name}/edits/{it}": self.sum(it) for it in self.edits}

    def tried_in(self, room):
        """The name of the item whose texts stand in the folder of an edit's check, or None where no edit makes them."""
        for name, texts in self.edited.items():
            if texts and all(text == text_in(room, path) for path, text in texts.items()):
                return f"{self.name}/edits/{name}"
        paths = {path for texts in self.edited.values() for path in texts}
        is_own = all(self.texts[path] == text_in(room, path) for path in paths)
        return f"{self.name}/edits" if is_own else None


def edited(text, texts):
    """The texts that an edit changes, by their path, as they are with it; none where it can't be applied."""
    path, old, made = "", "", {}
    for line in text.split("\n"):
        if line.startswith("file: "):
            path = line[6:].strip()
        elif line.startswith("old: "):
            old = line[5:]
        elif line.startswith("new:"):
            was = made.get(path, texts.get(path, ""))
            if was.count(old) != 1:
                return {}
            made[path] = was.replace(old, line[4:].removeprefix(" "))
    return made


def text_in(room, path):
    try:
        return Path(room, path).read_text(encoding="utf-8", errors="replace")
    except OSError:
        return None


def crates():
    """The repository's crates by their name, in the order of crates.txt."""
    if not Path("crates.txt").is_file():
        sys.exit("gate.py runs at the top of the repository, where crates.txt stands")
    lines = [it.partition("#")[0].partition(":") for it in Path("crates.txt").read_text(encoding="utf-8").splitlines()]
    named = {head.split()[0]: tail.split() for head, colon, tail in lines if colon}
    return {name: Crate(name, uses, [it for it in uses if it in named]) for name, uses in named.items()}


def processes():
    """Each process's ticks of the processors (with those of its children that ended) and start by its id, and its children's ids by its own."""
    found, children = {}, {}
    for pid in filter(str.isdigit, os.listdir("/proc")):
        try:
            with open(f"/proc/{pid}/stat", "rb") as file:
                fields = file.read().rpartition(b")")[2].split()
        except OSError:
            continue
        found[int(pid)] = sum(map(int, fields[11:15])), int(fields[19])
        children.setdefault(int(fields[1]), []).append(int(pid))
    return found, children


def ticks_of(pid, now, children):
    """What a process and all that it started took."""
    return now[pid][0] + sum(ticks_of(it, now, children) for it in children.get(pid, []))


class Watch:
    """The checks that a process has started: each one's item once it is known, and the ticks that it has taken."""

    def __init__(self, pid, known):
        self.pid, self.known = pid, known
        self.items, self.ticks, self.alive = {}, {}, set()

    def look(self):
        """Notes what each check has taken so far. Returns whether one has ended."""
        now, children = processes()
        before, self.alive = self.alive, set()
        for pid in children.get(self.pid, []):
            check = pid, now[pid][1]
            self.alive.add(check)
            if self.items.get(check) is None:
                self.items[check] = self.item_of(pid)
            self.ticks[check] = max(self.ticks.get(check, 0), ticks_of(pid, now, children))
        return bool(before - self.alive)

    def item_of(self, pid):
        """The name of the item that a process is a check of, "" where it is none, or None while that isn't known yet."""
        try:
            words = Path("/proc", str(pid), "cmdline").read_bytes().decode(errors="replace").split("\0")
            folder = os.readlink(f"/proc/{pid}/cwd")
        except OSError:
            return None
        program = Path(words[0]).name
        if program == "rattle-link":
            name = Path(folder).name
        elif program == "rattle" and words[1] in ("check", "build") and "--crate-name" in words:
            name = words[words.index("--crate-name") + 1]
        else:
            # A check begins as a copy of rt itself, which Python runs.
            return None if program.startswith("python") else ""
        if Path(folder).name.startswith("rt-edit-"):
            return self.known[name].tried_in(folder) if name in self.known else None
        is_of_tests = "--test" in words or any(it.endswith("_tests") for it in words)
        return f"{name}/{'tests' if is_of_tests else 'proof'}"

    def ended(self):
        """The processor seconds of each item whose checks have all ended."""
        going = {self.items.get(it) for it in self.alive}
        found, number = Counter(), Counter()
        for check, item in self.items.items():
            if item and item not in going:
                found[item] += self.ticks[check] / TICKS
                number[item] += 1
        # The edits of a crate begin and end with a check of it as it stands.
        return {it: seconds for it, seconds in found.items() if not it.endswith("/edits") or number[it] > 1}


def keep(measured):
    """Adds numbers, by item and sum, to those that are kept, also where another run does so meanwhile."""
    with open(STORE, "a+", encoding="utf-8") as file:
        fcntl.flock(file, fcntl.LOCK_EX)
        file.seek(0)
        kept = json.loads(file.read() or "{}")
        for item, numbers in measured.items():
            kept[item] = {**kept.get(item, {}), **numbers}
        file.seek(0)
        file.truncate()
        json.dump(kept, file, indent=1, sort_keys=True)


def pass_on(pipe, failed):
    """Prints what the gate says, and notes the items of which it says that they failed."""
    for line in pipe:
        sys.stdout.write(line)
        sys.stdout.flush()
        if told := re.match(r"rt: (\w+)(: its tests are)? NOT PROVED", line):
            failed.add(f"{told[1]}/{'tests' if told[2] else 'proof'}")
        elif told := re.match(r"rt: must-fail (\w+)/(\S+)\.edit: NOT TRIED", line):
            failed.add(f"{told[1]}/edits/{told[2]}")


def run(names):
    known, failed = crates(), set()
    sums = {item: sum for crate in known.values() for item, sum in crate.items().items()}
    # Ctrl-C reaches rt itself, which ends what it started.
    signal.signal(signal.SIGINT, lambda *_: None)
    gate = subprocess.Popen(["rt", "ci", *names], stdout=subprocess.PIPE, text=True, errors="replace")
    signal.signal(signal.SIGTERM, lambda *_: gate.terminate())
    teller = threading.Thread(target=pass_on, args=(gate.stdout, failed))
    teller.start()
    watch = Watch(gate.pid, known)

    def measured():
        return {it: {sums[it]: round(seconds, 2)} for it, seconds in watch.ended().items() if it in sums and it not in failed}

    while gate.poll() is None:
        if watch.look():
            keep(measured())
        time.sleep(STEP)
    teller.join()
    keep(measured())
    told = sum(seconds for numbers in measured().values() for seconds in numbers.values())
    took = resource.getrusage(resource.RUSAGE_CHILDREN)
    every = (took.ru_utime + took.ru_stime) / 60
    print(f"gate.py: measured {len(measured())} items, {told / 60:.1f} of the {every:.1f} processor minutes that rt ci took", file=sys.stderr)
    return gate.returncode if gate.returncode >= 0 else 128 - gate.returncode


def functions(names):
    known = crates()
    for name in names:
        if name not in known:
            sys.exit(f"{name} is no crate of crates.txt")
    for name in names:
        # This builds the libraries below, and proves no function of the crate itself.
        subprocess.run(["rt", "check", "--only", ""], cwd=f"crates/{name}", stdout=subprocess.DEVNULL, check=False)
        how = {"stdout": subprocess.PIPE, "stderr": subprocess.STDOUT, "text": True, "errors": "replace"}
        check = subprocess.Popen(check_words(known[name], known), cwd=f"crates/{name}", **how)
        times = times_of_functions(check)
        if check.wait():
            sys.exit(f"{name} was not proved")
        keep({f"{name}/functions": {known[name].sum(): times}})
        print(f"{name}: {len(times)} functions, {sum(times.values()):.0f} processor seconds", flush=True)


def times_of_functions(check):
    """The processor seconds between each function's line of a check and the line before."""
    times, before = {}, None
    for line in check.stdout:
        now, children = processes()
        if (told := re.match(r"checked (\S+), \d+ of \d+", line)) and check.pid in now:
            ticks = ticks_of(check.pid, now, children)
            if before is not None:
                times[told[1]] = round((ticks - before) / TICKS, 2)
            before = ticks
    return times


def check_words(crate, known):
    """The words that check a crate from nothing over the built libraries below it."""
    kit = Path(shutil.which("rt")).resolve().parent.parent
    root = "src/main.rt" if Path("crates", crate.name, "src/main.rt").exists() else "src/lib.rt"
    words = [f"{kit}/bin/rattle", "check", "--crate-name", crate.name, root, "-L", f"dependency={kit}/rlibs"]
    for name in ["std", *crate.uses]:
        built = Path("crates", name, "out/rlib").resolve() if name in known else kit / "rlibs"
        words += ["--extern", f"{name}={built}/{name}.rlib"]
    for name in below(crate, known):
        words += ["-L", f"dependency={Path('crates', name, 'out/rlib').resolve()}"]
    logic = ["--antt-project", f"{kit}/rattle/logic/antt-project.json", "--logic-built", f"{kit}/logic_built"]
    return [*words, *logic, "--links", f"{crate.name}=", "--jobs", "1", "--progress"]


def below(crate, known):
    found, ahead = set(), [*crate.below]
    while ahead:
        name = ahead.pop()
        if name not in found:
            found.add(name)
            ahead += known[name].below
    return found


def chain_of(name, known, proofs, found):
    """The dearest chain of proofs that ends in a crate, as its minutes and its names, lowest first. Those found before are in a dictionary."""
    if name not in found:
        below = [chain_of(it, known, proofs, found) for it in known[name].below]
        minutes, names = max(below, default=(0, []))
        found[name] = minutes + proofs[name], [*names, name]
    return found[name]


def cell(seconds):
    """The minutes of some items, of which those that have no number are told."""
    known = [it for it in seconds if it is not None]
    lacking = len(seconds) - len(known)
    if not seconds:
        return "none"
    if not known:
        return "not measured"
    minutes = f"{sum(known) / 60:.1f}"
    return f"at least {minutes} ({lacking} not measured)" if lacking else minutes


def row(head, numbers, count):
    """A line of the table: the minutes of the proofs, of the tests and of the edits among some items, and of all."""
    parts = [[number for item, number in numbers.items() if item.split("/")[1] == part] for part in ("proof", "tests", "edits")]
    return f"| {' | '.join([head, *map(cell, parts), str(count), cell([*numbers.values()])])} |"


def table():
    kept = json.loads(STORE.read_text(encoding="utf-8")) if STORE.exists() else {}
    known = crates()
    number = {item: kept.get(item, {}).get(sum) for crate in known.values() for item, sum in crate.items().items()}
    lines = ["| Crate | Proof | Tests | Edits | Number of edits | All |", "|---|---|---|---|---|---|"]
    for name, crate in known.items():
        lines.append(row(f"`{name}`", {it: number[it] for it in crate.items()}, len(crate.edits)))
    lines += [row("all", number, sum(len(crate.edits) for crate in known.values())), ""]
    lines += [chain_line(known, number), "", dearest_edits(number), "", dearest_functions(known, kept)]
    return "\n".join(lines)


def chain_line(known, number):
    proofs = {it: (number[f"{it}/proof"] or 0) / 60 for it in known}
    tests = {it: (number.get(f"{it}/tests") or 0) / 60 for it in known}
    found = {}
    chains = [chain_of(it, known, proofs, found) for it in known]
    minutes, names = max((minutes + tests[names[-1]], names) for minutes, names in chains)
    lacking = [it for it in names if number[f"{it}/proof"] is None]
    told = f"at least {minutes:.1f}" if lacking else f"{minutes:.1f}"
    rest = f" ({', '.join(f'`{it}`' for it in lacking)} not measured)" if lacking else ""
    chain = ", ".join(f"`{it}`" for it in names)
    return f"Longest chain, as the sum of the processor minutes of its proofs, and of the tests of its last crate: {told}{rest}: {chain}."


def dearest_edits(number):
    edits = {it.replace("/edits/", "/"): seconds for it, seconds in number.items() if "/edits/" in it and seconds is not None}
    dearest = sorted(edits.items(), key=lambda it: -it[1])[:MOST]
    return f"Dearest edits, in processor seconds: {', '.join(f'`{it}` {seconds:.0f}' for it, seconds in dearest) or 'none measured'}."


def dearest_functions(known, kept):
    measured = {it: kept.get(f"{it}/functions", {}).get(crate.sum()) for it, crate in known.items()}
    of = [it for it, times in measured.items() if times]
    times = {function: seconds for name in of for function, seconds in measured[name].items()}
    dearest = sorted(times.items(), key=lambda it: -it[1])[:MOST]
    if not of:
        return "Dearest functions: not measured."
    told = ", ".join(f"`{it}` {seconds:.0f}" for it, seconds in dearest)
    return f"Dearest functions of {', '.join(f'`{it}`' for it in of)} (the others weren't measured), in processor seconds: {told}."


def write():
    if not PAGE.is_file() or any(it not in PAGE.read_text(encoding="utf-8") for it in MARKS):
        sys.exit(f"{PAGE} needs two lines for the table to stand between: {MARKS[0]} and {MARKS[1]}")
    text = PAGE.read_text(encoding="utf-8")
    before, after = text.partition(MARKS[0])[0], text.partition(MARKS[1])[2]
    PAGE.write_text(f"{before}{MARKS[0]}\n{table()}\n{MARKS[1]}{after}", encoding="utf-8")


def main(words):
    if words[:1] == ["run"]:
        return run([it for it in words[1:] if it != "--"])
    if words == ["table"]:
        print(table())
    elif words == ["table", "--write"]:
        write()
    elif words[:1] == ["functions"] and words[1:]:
        functions(words[1:])
    elif words[:1] == ["merge"] and words[1:]:
        for file in words[1:]:
            keep(json.loads(Path(file).read_text(encoding="utf-8")))
    else:
        print(__doc__, end="", file=sys.stderr)
        return 2
    return 0


if __name__ == "__main__":
    sys.exit(main(sys.argv[1:]))
