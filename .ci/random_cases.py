#!/usr/bin/env python3
"""Runs the built program on random small documents and compares its answers with one another and with brute force.

    .ci/random_cases.py PROGRAM [--seed N] [--cases N] [--seconds N] [--only judge]

Each case is a network of one of a few kinds (a line, a ring, a junction, a crossing) with up to three trains. For it

- plans that are put together from runs of the trains are judged as the rules say, step by step;
- `optimise` ends with a design that `judge` finds lawful and a refutation that `check` finds proved, or with a refutation;
- with at most six candidates, `verify` is asked of every layout: it has to answer as a search through all runs of all trains
  does, and the least layout with a plan has as many borders as the design of `optimise`;
- `generate` finds a design for that number of borders, and none for one fewer.

The seed is fixed, so that each run is the same; no case begins behind the given seconds. Ends with 'N passed, M failed'.
"""

import argparse
import itertools
import json
import os
import random
import subprocess
import sys
import tempfile
import time

sys.dont_write_bytecode = True
from random_networks import Case

DONE, IMPOSSIBLE, BREACH = 0, 1, 8


class Failure(Exception):
    """What the program said and shouldn't have."""


class Program:
    """Calls of the program in a folder with the documents of a case."""

    def __init__(self, path, folder):
        self.path, self.folder = path, folder

    def write(self, name, text):
        with open(os.path.join(self.folder, name), "w", newline="") as file:
            file.write(text)

    def documents(self, network, timetable):
        self.write("network.json", json.dumps(network))
        self.write("timetable.json", json.dumps(timetable))

    def call(self, task, *words):
        """What is printed, and the status."""
        call = subprocess.run([self.path, task, "network.json", "timetable.json", *words],
                              cwd=self.folder, stdout=subprocess.PIPE, timeout=60)
        return call.stdout.decode("latin-1"), call.returncode

    def expect(self, wanted, task, *words):
        said = self.call(task, *words)
        if said != wanted:
            raise Failure("%s %s said %r, not %r" % (task, " ".join(words), said, wanted))

    def outcome(self, task, *words):
        """The design's count or None, and what is refuted or None; each is judged or checked."""
        text, status = self.call(task, *words)
        lines = text.split("\n")
        if status not in (DONE, IMPOSSIBLE):
            raise Failure("%s ends with status %d: %r" % (task, status, text[:200]))
        self.write("report.txt", text)
        count = refuted = None
        for line in lines:
            if line.startswith("design "):
                count = int(line[len("design "):])
            if line.startswith("refutes "):
                refuted = line[len("refutes "):]
        if (count is None) != (status == IMPOSSIBLE) or (status == IMPOSSIBLE and refuted is None):
            raise Failure("%s: status %d with %r" % (task, status, text[:200]))
        if count is not None:
            self.expect(("lawful %d\n" % count, DONE), "judge", "report.txt")
        if refuted is not None:
            proved = "proved given\n" if refuted == "given" else "proved most %s\n" % refuted
            self.expect((proved, DONE), "check", "report.txt")
        return count, refuted, "smaller none" in lines


def drawn_case(draw):
    """A random case; another one where a train has no run, which may have none again."""
    case = Case(draw)
    if all(next(case.runs(train), None) for train in range(len(case.trains))):
        return case
    return Case(draw)


def judge_plans(program, case, draw):
    """Judges a few plans of random runs, under random layouts."""
    runs = [list(itertools.islice(case.runs(train), 2000)) for train in range(len(case.trains))]
    if not all(runs):
        return
    for _ in range(6):
        plan = [draw.choice(of_train) for of_train in runs]
        borders = case.layout(draw)
        program.write("plan.txt", case.report(borders, plan))
        said, status = program.call("judge", "plan.txt")
        clash = case.clash(borders, plan)
        wanted = (("lawful %d\n" % len(borders), DONE) if clash is None
                  else ("breach apart %s %s %d %s %s\n" % clash, BREACH))
        if (said, status) != wanted:
            raise Failure("judge said %r, not %r, of\n%s" % ((said, status), wanted, case.report(borders, plan)))


def least_count(program, case):
    """The fewest borders of a layout with a lawful plan, by `verify` on every layout; none where no layout has one."""
    least = None
    others = [place for place in range(len(case.candidates)) if place not in case.kept]
    for size in range(len(others) + 1):
        for added in itertools.combinations(others, size):
            borders = sorted(case.kept + list(added))
            program.documents(case.network_with(borders), case.timetable)
            count, refuted, _ = program.outcome("verify")
            known = case.is_feasible(borders)
            if known is not None and known != (count is not None):
                raise Failure("verify of %r says %r, and the search through all runs %r" % (borders, count, known))
            if count is not None and (count != len(borders) or refuted is not None):
                raise Failure("verify of %r says %r, %r" % (borders, count, refuted))
            if count is not None and least is None:
                least = count
    program.documents(case.network, case.timetable)
    return least


def optimise(program, case):
    """Tries `optimise` and `generate`, and compares with all layouts where there are few."""
    count, refuted, none_smaller = program.outcome("optimise")
    kept = len(case.kept)
    if count is None:
        wanted = (str(len(case.candidates)), False)
    else:
        wanted = (str(count - 1) if count > kept else None, count == kept)
    if (refuted, none_smaller) != wanted:
        raise Failure("optimise: %r refuted, smaller none %r, with %r borders" % (refuted, none_smaller, count))
    if count is not None:
        found, against, _ = program.outcome("generate", "--borders", str(count))
        if found is None or found > count or against is not None:
            raise Failure("generate of %d finds %r, refutes %r" % (count, found, against))
        if count > 0:
            found, against, _ = program.outcome("generate", "--borders", str(count - 1))
            if found is not None or against != str(count - 1):
                raise Failure("generate of %d finds %r, refutes %r" % (count - 1, found, against))
    if len(case.candidates) <= 6 and least_count(program, case) != count:
        raise Failure("optimise says %r, but of all layouts the least has another count" % count)


def main():
    options = argparse.ArgumentParser()
    options.add_argument("program")
    options.add_argument("--seed", type=int, default=1)
    options.add_argument("--cases", type=int, default=150)
    options.add_argument("--seconds", type=int, default=100)
    options.add_argument("--only", choices=["judge"])
    options = options.parse_args()
    until = time.monotonic() + options.seconds
    passed = failed = 0
    for number in range(options.cases):
        if time.monotonic() > until:
            print("stopped behind %d cases, for want of time" % number)
            break
        draw = random.Random("%d %d" % (options.seed, number))
        with tempfile.TemporaryDirectory() as folder:
            program = Program(os.path.abspath(options.program), folder)
            case = drawn_case(draw)
            try:
                program.documents(case.network, case.timetable)
                judge_plans(program, case, draw)
                if options.only is None:
                    optimise(program, case)
                passed += 1
            except (Failure, subprocess.TimeoutExpired) as fault:
                failed += 1
                print("failed: case %d: %s" % (number, fault))
                print(json.dumps(case.network))
                print(json.dumps(case.timetable))
    print("%d passed, %d failed" % (passed, failed))
    sys.exit(1 if failed else 0)


if __name__ == "__main__":
    main()
