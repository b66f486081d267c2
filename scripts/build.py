#!/usr/bin/env python3
"""Proves and builds the program and the libraries below it, side by side, the lowest first.

    scripts/build.py PROGRAM

As many crates are worked on at once as there are processors and as memory allows. What it is at goes to standard
error, one line a crate; standard output stays empty. Ends with status 0 where crates/PROGRAM/out/PROGRAM is built.
"""

import os
import subprocess
import sys
import tempfile
import time
from concurrent.futures import FIRST_COMPLETED, ThreadPoolExecutor, wait

TOP = os.path.dirname(os.path.dirname(os.path.abspath(__file__)))
A_CHECK = 3_000_000_000  # bytes that the check of a large crate takes
ABOUT = "on four processors half an hour or more where nothing is kept, and seconds for what is proved already"


def say(text):
    print(f"vssplan: {text}", file=sys.stderr, flush=True)


def crates_below(program):
    """The crates of the repository that the program stands on, each with those that it stands on itself."""
    stands_on = {}
    with open(os.path.join(TOP, "crates.txt"), encoding="utf-8") as lines:
        for line in lines:
            name, colon, below = line.partition("#")[0].partition(":")
            if colon:
                stands_on[name.split()[0]] = below.split()
    found, left = {}, [program]
    while left:
        name = left.pop()
        if name not in found:
            found[name] = [it for it in stands_on[name] if it in stands_on]
            left += found[name]
    return found


def at_once():
    """How many crates are worked on side by side."""
    with open("/proc/meminfo", encoding="utf-8") as lines:
        free = next(int(line.split()[1]) * 1024 for line in lines if line.startswith("MemAvailable"))
    return max(1, min(len(os.sched_getaffinity(0)), free // A_CHECK))


def prove(name, is_program):
    """Whether the crate is proved and built, how many seconds that took, and what was said."""
    start = time.monotonic()
    with tempfile.TemporaryFile() as said:
        # `rt run` builds the program and runs it, without words here: whether it was built shows in the file alone
        ran = subprocess.run(["rt", "run" if is_program else "lib"], cwd=os.path.join(TOP, "crates", name),
                             stdin=subprocess.DEVNULL, stdout=said, stderr=subprocess.STDOUT)
        said.seek(0)
        text = said.read().decode("utf-8", "replace")
    built = os.path.join(TOP, "crates", name, "out", name)
    is_well = os.access(built, os.X_OK) if is_program else ran.returncode == 0
    return is_well, round(time.monotonic() - start), text


def build(program):
    crates = crates_below(program)
    lanes = at_once()
    say(f"proving and building {len(crates)} crates, {lanes} at once: {ABOUT}")
    done, running = set(), {}
    with ThreadPoolExecutor(lanes) as pool:
        while len(done) < len(crates):
            for name in sorted(crates):
                is_ready = all(it in done for it in crates[name])
                if name not in done and name not in running.values() and is_ready and len(running) < lanes:
                    running[pool.submit(prove, name, name == program)] = name
                    say(f"{name} begins")
            ended, _ = wait(running, return_when=FIRST_COMPLETED)
            for task in ended:
                name = running.pop(task)
                is_well, seconds, text = task.result()
                if not is_well:
                    sys.stderr.write("".join(text.splitlines(True)[-20:]))
                    say(f"{name} could not be proved and built; 'rt check' in crates/{name} says why")
                    return 1
                done.add(name)
                say(f"{name} is proved, {seconds} s: {len(done)} of {len(crates)}")
    return 0


if __name__ == "__main__":
    if len(sys.argv) != 2:
        sys.exit(__doc__)
    sys.exit(build(sys.argv[1]))
