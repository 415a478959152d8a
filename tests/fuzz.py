"""Runs a program on mutated cases: tests/fuzz.sh says what is tried and what fails."""
import os
import pathlib
import random
import resource
import subprocess
import sys
import tempfile
import time

OWN = {"words", "out", "err", "status", "c.words", "c.out", "c.err", "c.status", "m.c", "why"}
WORDS = [b"|*", b"*|", b"=>", b"main := ", b"when", b"%%{", b"}%%", b"'", b'"', b"\\", b"{1,3}", b"**", b":>>", b"fhold;", b"fcall main;",
         b"include 'm.rl';", b"alphtype int;", b"-1", b"99999999999999999999", b"/* rl-data 2 m */", b"}", b"(", b"\0", b"\xff"]


def limit():
    resource.setrlimit(resource.RLIMIT_AS, (1 << 30, 1 << 30))
    resource.setrlimit(resource.RLIMIT_STACK, (1 << 20, 1 << 20))


def mutate(data, chance):
    """Returns the bytes with one to four changes."""
    for _ in range(chance.randint(1, 4)):
        at = chance.randint(0, len(data))
        to = min(len(data), at + chance.randint(0, 12))
        change = chance.randrange(6)
        if change == 0:
            data = data[:at] + data[to:]
        elif change == 1:
            data = data[:at] + bytes([chance.randrange(256)]) + data[at + 1:]
        elif change == 2:
            data = data[:at] + chance.choice(WORDS) + data[at:]
        elif change == 3:
            data = data[:to] + data[at:]
        elif change == 4:
            lines = data.split(b"\n")
            chance.shuffle(lines)
            data = b"\n".join(lines) if len(lines) < 8 else data
        else:
            other = chance.randint(0, len(data))
            data = data[:at] + data[other:other + 20] + data[to:]
    return data


def fault_of(run):
    """Returns what is wrong with how a run ended, or None."""
    if run.returncode < 0 or run.returncode > 7:
        return f"ended with {run.returncode}"
    if run.returncode == 5:
        return "wants memory"
    lines = run.stderr.count(b"\n")
    if lines != (0 if run.returncode == 0 else 1):
        return f"wrote {lines} lines to the error output with the status {run.returncode}"
    return None


def one(program, folders, seed):
    """Runs one mutated case, and returns what is wrong."""
    chance = random.Random(seed)
    case = chance.choice(folders)
    words = (case / "words").read_text(errors="surrogateescape").splitlines()
    files = sorted(it for it in case.iterdir() if it.is_file() and it.name not in OWN)
    changed = chance.choice(files)
    with tempfile.TemporaryDirectory() as room:
        for it in files:
            data = it.read_bytes()
            pathlib.Path(room, it.name).write_bytes(mutate(data, chance) if it is changed else data)
        try:
            run = subprocess.run([program, *words], cwd=room, stdin=subprocess.DEVNULL, capture_output=True, timeout=10, preexec_fn=limit)
        except subprocess.TimeoutExpired:
            return f"{case.name}: did not end"
    fault = fault_of(run)
    return fault and f"{case.name} with {changed.name} changed: {fault}"


def main():
    program, cases, seed, count, seconds = sys.argv[1], pathlib.Path(sys.argv[2]), *map(int, sys.argv[3:6])
    folders = sorted(it.parent for it in cases.glob("*/*/words"))
    folders = [it for it in folders if any(f.is_file() and f.name not in OWN for f in it.iterdir())]
    end, tried, wrong = time.monotonic() + seconds, 0, 0
    for number in range(seed, seed + count):
        if time.monotonic() > end:
            break
        fault = one(os.path.abspath(program), folders, number)
        tried += 1
        if fault:
            wrong += 1
            print(f"fuzz: seed {number}: {fault}")
    print(f"fuzz: {tried} mutated cases, {wrong} failures")
    sys.exit(1 if wrong else 0)


main()
