#!/usr/bin/env python3
"""Times the checker of logs, a hint, beside a plain C program of the same rules on the same data.

    bench/check_log.py [--program PATH] [--times N] [--candidates N] [--steps N]

The documents are those of one track and one train, which can't arrive in time. The report's log adds clauses about the
counter of borders: where these borders stand, at least so many of all do. Each takes a hint for each border from the first
of them on, so that a log of 20,000 steps over 100 borders has some million hints. No step is wrong, and none adds the empty
clause. `check` with `a 1 0 0` as the first line of the log reads and encodes the same, and stops there: the difference of
the two calls is the checking. The C program is given the clauses and the log as numbers and times its own checking alone.
All calls take turns; printed are medians. The goal is at most 1.2 times the C program's time.
"""

import argparse
import json
import os
import random
import shutil
import statistics
import subprocess
import sys
import tempfile
import time

TOP = os.path.dirname(os.path.dirname(os.path.abspath(__file__)))
HEAD = "vssplan report 1\nverdict impossible\nrefutes %d\n"

CHECKER = r"""
// The rules of the checker, plainly: each step's literals are false, and its hints are read in turn.
#include <stdio.h>
#include <stdlib.h>
#include <time.h>

static int number(void) {
    int value;
    if (scanf("%d", &value) != 1) exit(2);
    return value;
}

int main(void) {
    int vars = number(), clauses = number(), steps = number(), total = number();
    int *lits = malloc(sizeof(int) * total), *begin = malloc(sizeof(int) * (clauses + steps + 2));
    int *hints = malloc(sizeof(int) * total), *hint_begin = malloc(sizeof(int) * (steps + 1));
    signed char *values = calloc(2 * vars + 1, 1);
    int *known = malloc(sizeof(int) * (2 * vars + 1)), used = 0, hint_count = 0;
    for (int clause = 1; clause <= clauses + steps; clause++) {
        begin[clause] = used;
        for (int lit = number(); lit != 0; lit = number()) lits[used++] = lit;
        if (clause <= clauses) continue;
        hint_begin[clause - clauses - 1] = hint_count;
        for (int hint = number(); hint != 0; hint = number()) hints[hint_count++] = hint;
    }
    begin[clauses + steps + 1] = used;
    hint_begin[steps] = hint_count;
    signed char *value = values + vars;
    struct timespec from, to;
    clock_gettime(CLOCK_MONOTONIC, &from);
    for (int step = 0; step < steps; step++) {
        int id = clauses + step + 1, count = 0, found = 0;
        for (int place = begin[id]; place < begin[id + 1]; place++) {
            int lit = lits[place];
            if (lit == 0 || lit > vars || lit < -vars || value[lit] || value[-lit]) return 3;
            value[-lit] = 1;
            known[count++] = -lit;
        }
        for (int place = hint_begin[step]; place < hint_begin[step + 1]; place++) {
            int hint = hints[place], open = 0;
            if (hint < 1 || hint >= id || found) return 4;
            for (int at = begin[hint]; at < begin[hint + 1]; at++) {
                int lit = lits[at];
                if (value[-lit]) continue;
                if (open) return 5;
                open = lit;
            }
            if (open == 0) { found = 1; continue; }
            if (value[open]) return 6;
            value[open] = 1;
            known[count++] = open;
        }
        if (!found) return 7;
        for (int place = 0; place < count; place++) value[known[place]] = 0;
    }
    clock_gettime(CLOCK_MONOTONIC, &to);
    printf("%d %.9f\n", hint_count, (to.tv_sec - from.tv_sec) + (to.tv_nsec - from.tv_nsec) * 1e-9);
    return 0;
}
"""


def documents(candidates):
    """One track with so many cuts, and a train that would have to be at its end at once."""
    network = {
        "nodes": [{"name": "A", "kind": "end"}, {"name": "B", "kind": "end"}],
        "tracks": [{"name": "t1", "from": "A", "to": "B", "length_m": 100 * (candidates + 1)}],
        "sections": [{"name": "s1", "tracks": ["t1"]}],
    }
    train = {"name": "X", "length_m": 100, "speed_kmh": 6, "from": "A", "to": "B", "entry_s": 0, "arrive_s": 180}
    return network, {"space_step_m": 100, "time_step_s": 60, "horizon_s": 600, "trains": [train]}


class Formula:
    """Where the counter stands in the formula: behind all other clauses, and before the unit of the bound."""

    def __init__(self, candidates, clauses, variables):
        self.n = candidates
        self.clauses = clauses
        self.variables = variables
        self.first_variable = variables - candidates * (candidates + 1) // 2 + 1
        self.lits = {}
        self.sums = {}
        self.carries = {}
        self.steps_up = {}
        self.number = clauses - (2 * candidates * candidates + candidates - 1)
        for i in range(1, candidates + 1):
            for j in range(1, i + 1):
                self.add_gate(i, j)

    def at_least(self, i, j):
        """The variable that says that at least j of the first i borders stand."""
        return self.first_variable + (i - 1) * i // 2 + (j - 1)

    def add(self, *lits):
        self.lits[self.number] = lits
        self.number += 1
        return self.number - 1

    def add_gate(self, i, j):
        s, x = self.at_least(i, j), i
        if i == 1:
            self.carries[i, j] = self.add(-x, s)
            self.add(-s, x)
            return
        p, q = self.at_least(i - 1, j), self.at_least(i - 1, j - 1)
        if j == 1:
            self.steps_up[i, j] = self.add(-p, s)
            self.carries[i, j] = self.add(-x, s)
            self.add(-s, p, x)
        elif j == i:
            self.carries[i, j] = self.add(-x, -q, s)
            self.add(-s, x)
            self.add(-s, q)
        else:
            self.steps_up[i, j] = self.add(-p, s)
            self.carries[i, j] = self.add(-x, -q, s)
            self.add(-s, p, x)
            self.add(-s, p, q)

    def step(self, draw):
        """Where these borders stand, at least so many of all do: the clause, and its hints."""
        borders = sorted(draw.sample(range(1, self.n + 1), draw.randint(1, self.n)))
        standing, hints, j = set(borders), [], 0
        for i in range(borders[0], self.n + 1):
            if i in standing:
                j += 1
                hints.append(self.carries[i, j])
            else:
                hints.append(self.steps_up[i, j])
        return [-border for border in borders] + [self.at_least(self.n, j)], hints


class Calls:
    """The program's calls in a folder with the two documents."""

    def __init__(self, program, folder, candidates):
        self.program, self.folder, self.bound = program, folder, candidates - 1
        for name, content in zip(("network.json", "timetable.json"), documents(candidates)):
            with open(os.path.join(folder, name), "w") as file:
                json.dump(content, file)

    def write(self, name, lines):
        with open(os.path.join(self.folder, name), "w", newline="") as file:
            file.write(HEAD % self.bound)
            file.writelines(lines)
            file.write("end\n")

    def check(self, name):
        """What is said of the report, and how long that took."""
        begin = time.perf_counter()
        call = subprocess.run([self.program, "check", "network.json", "timetable.json", name],
                              cwd=self.folder, stdout=subprocess.PIPE)
        return call.stdout.decode("latin-1"), time.perf_counter() - begin

    def fault(self, line):
        self.write("probe.txt", [line])
        said = self.check("probe.txt")[0]
        if not said.startswith("not proved 4 "):
            sys.exit("the probe %r got %r" % (line, said))
        return said.split()[3]

    def last(self, line, fault):
        """The greatest number for which the line has the fault."""
        low, high = 0, 1
        while self.fault(line % high) == fault:
            low, high = high, 2 * high
        while high - low > 1:
            middle = (low + high) // 2
            if self.fault(line % middle) == fault:
                low = middle
            else:
                high = middle
        return low


def main():
    options = argparse.ArgumentParser()
    options.add_argument("--program", default=os.path.join(TOP, "crates/vssplan/out/vssplan"))
    options.add_argument("--times", type=int, default=5)
    options.add_argument("--candidates", type=int, default=100)
    options.add_argument("--steps", type=int, default=20000)
    options = options.parse_args()
    program = os.path.abspath(options.program)
    if not os.path.isfile(program):
        sys.exit("%s isn't built yet: a call of ./vssplan builds it" % program)
    compiler = shutil.which("cc") or shutil.which("gcc")
    if compiler is None:
        sys.exit("skipped: no C compiler")
    with tempfile.TemporaryDirectory() as folder:
        calls = Calls(program, folder, options.candidates)
        clauses = calls.last("a %d 0 0\n", "IdOrder")
        known = "a %d %%d 0 0\n" % (clauses + 1)
        variables = calls.last(known, "NoConflict")
        print("formula: %d clauses, %d variables" % (clauses, variables))
        formula = Formula(options.candidates, clauses, variables)
        draw = random.Random(1)
        steps = [formula.step(draw) for _ in range(options.steps)]
        compare(calls, compiler, formula, steps, options.times)


def compare(calls, compiler, formula, steps, times):
    """Writes the log for both, and prints their times."""
    words = [(" ".join(map(str, lits)), " ".join(map(str, hints))) for lits, hints in steps]
    lines = ["a %d %s 0 %s 0\n" % (formula.clauses + 1 + place, *lists) for place, lists in enumerate(words)]
    calls.write("log.txt", lines)
    calls.write("stopped.txt", ["a 1 0 0\n"] + lines)
    source, yardstick = (os.path.join(calls.folder, name) for name in ("checker.c", "checker"))
    with open(source, "w") as file:
        file.write(CHECKER)
    subprocess.run([compiler, "-O2", "-o", yardstick, source], check=True)
    numbers = os.path.join(calls.folder, "numbers.txt")
    with open(numbers, "w") as file:
        total = sum(len(lits) + len(hints) for lits, hints in steps) + sum(map(len, formula.lits.values()))
        file.write("%d %d %d %d\n" % (formula.variables, formula.clauses, len(steps), total))
        for number in range(1, formula.clauses + 1):
            file.write(" ".join(map(str, formula.lits.get(number, ()))) + " 0\n")
        for lits, hints in words:
            file.write("%s 0 %s 0\n" % (lits, hints))

    whole = "not proved %d NoEmptyClause\n" % (len(steps) + 4)
    checking, plain = [], []
    for _ in range(times):
        said, took = calls.check("log.txt")
        if said != whole:
            sys.exit("check said %r, not %r" % (said, whole))
        stopped, read = calls.check("stopped.txt")
        if stopped != "not proved 4 IdOrder\n":
            sys.exit("check said %r of the first step" % stopped)
        checking.append(took - read)
        with open(numbers) as file:
            count, seconds = subprocess.run([yardstick], stdin=file, stdout=subprocess.PIPE, check=True).stdout.split()
        plain.append(float(seconds))
    count = int(count)
    mine, other = statistics.median(checking), statistics.median(plain)
    ratio = statistics.median(one / two for one, two in zip(checking, plain))
    print("%d steps, %d hints: checking %.1f ms (%.1f ns a hint); C: %.1f ms (%.1f ns a hint); ratio %.2f (goal: at most 1.2)"
          % (len(steps), count, mine * 1000, mine * 1e9 / count, other * 1000, other * 1e9 / count, ratio))


if __name__ == "__main__":
    main()
