#!/usr/bin/env python3
"""Times the encoder on a list near the limit of literals, beside a C loop that writes the same arrays.

    bench/encode.py [--program PATH] [--times N] [--cells N] [--steps N] [--trains N]

The network is one track of 400 cells with a candidate at each cut, and three trains that can't reach its end in their 13 steps:
so no sweep has a variable, and the list is that of borders on walks, of what trains touch together, and of the counter, of which
the sizes are told in closed form. `check` is asked of a report that claims to refute that 3 borders are enough, with a log of one
line, `a 1 0 0`: it reads the documents, encodes the task, and refuses that line. A call of `judge` on the same documents and a
report that is no report takes what reading the documents takes, and is taken off.

The C program writes the literals of the same clauses, each of eight bytes, and the place behind each clause, also of eight bytes,
into two arrays that were reserved, and prints how many there are. The calls take turns. Printed are medians, of the ratio too. The
goal is that the encoder writes at least half as many literals a second as the C loop.
"""

import argparse
import json
import os
import statistics
import subprocess
import sys
import tempfile
import time

SPACE_STEP_M = 500
TIME_STEP_S = 60
SPEED_KMH = 30  # one cell of 500 m in 60 s
MOST = 3

TOP = os.path.dirname(os.path.dirname(os.path.abspath(__file__)))

LOOP = r"""
#include <stdint.h>
#include <stdio.h>
#include <stdlib.h>

/* a literal, as the program stores it: a variable of four bytes, and whether it is positive */
typedef struct { uint32_t var; uint32_t positive; } lit;

static lit *lits;
static uint64_t *ends;
static uint64_t count, clauses;

static inline void put(uint32_t var, uint32_t positive) { lits[count].var = var; lits[count].positive = positive; count++; }
static inline void end(void) { ends[clauses++] = count; }

int main(int argc, char **argv) {
    uint32_t n = atoi(argv[1]), steps = atoi(argv[2]), trains = atoi(argv[3]), most = atoi(argv[4]);
    uint64_t room = strtoull(argv[5], 0, 10), places = strtoull(argv[6], 0, 10);
    lits = malloc(room * sizeof(lit));
    ends = malloc(places * sizeof(uint64_t));
    if (!lits || !ends) return 1;
    uint32_t candidates = n - 1, gap = candidates + 1;
    for (uint32_t e = 0; e < n; e++)
        for (uint32_t f = e + 1; f < n; f++) {
            put(gap++, 0);
            for (uint32_t c = e; c < f; c++) put(c + 1, 1);
            end();
        }
    uint32_t first = gap, size = steps * n + steps - 1;
    for (uint32_t a = 0; a < trains; a++) end();
    for (uint32_t a = 0; a < trains; a++)
        for (uint32_t t = 1; t + 1 < steps; t++) {
            uint32_t ended = first + a * size + steps * n + t - 1;
            put(ended, 0); put(ended + 1, 1); end();
        }
    for (uint32_t a = 0; a < trains; a++)
        for (uint32_t b = a + 1; b < trains; b++)
            for (uint32_t t = 0; t < steps; t++)
                for (uint32_t e = 0; e < n; e++)
                    for (uint32_t f = 0; f < n; f++) {
                        put(first + a * size + t * n + e, 0);
                        put(first + b * size + t * n + f, 0);
                        if (e != f) {
                            uint32_t low = e < f ? e : f, high = e < f ? f : e;
                            put(candidates + 1 + low * (2 * n - low - 1) / 2 + (high - low - 1), 1);
                        }
                        end();
                    }
    uint32_t counter = first + trains * size;
#define Q(i, j) (counter + (i) * ((i) - 1) / 2 + (j) - 1)
    for (uint32_t i = 1; i <= candidates; i++)
        for (uint32_t j = 1; j <= i; j++) {
            uint32_t s = Q(i, j), x = i;
            if (i == 1) { put(x, 0); put(s, 1); end(); put(s, 0); put(x, 1); end(); continue; }
            uint32_t p = Q(i - 1, j), q = Q(i - 1, j - 1);
            if (j == 1) {
                put(p, 0); put(s, 1); end(); put(x, 0); put(s, 1); end(); put(s, 0); put(p, 1); put(x, 1); end();
            } else if (j == i) {
                put(x, 0); put(q, 0); put(s, 1); end(); put(s, 0); put(x, 1); end(); put(s, 0); put(q, 1); end();
            } else {
                put(p, 0); put(s, 1); end(); put(x, 0); put(q, 0); put(s, 1); end();
                put(s, 0); put(p, 1); put(x, 1); end(); put(s, 0); put(p, 1); put(q, 1); end();
            }
        }
    for (uint32_t j = 1; j < candidates; j++) { put(Q(candidates, j + 1), 0); put(Q(candidates, j), 1); end(); }
    if (most < candidates) { put(Q(candidates, most + 1), 0); end(); }
    uint64_t sum = 0;
    for (uint64_t place = 0; place < count; place += 4096) sum += lits[place].var;
    printf("%llu %llu %llu\n", (unsigned long long)clauses, (unsigned long long)count, (unsigned long long)sum);
    return 0;
}
"""


def sizes_of(cells, steps, trains):
    """How many clauses and literals the list has, with the unit of its bound."""
    n, borders, pairs = cells, cells - 1, trains * (trains - 1) // 2
    clauses = n * (n - 1) // 2 + trains + trains * (steps - 2) + pairs * steps * n * n + 2 * borders * borders + borders - 1 + 1
    walks = n * (n - 1) // 2 + (n - 1) * n * (n + 1) // 6
    counter = 4 + sum(14 + 11 * (i - 2) for i in range(2, borders + 1)) + 2 * (borders - 1)
    lits = walks + 2 * trains * (steps - 2) + pairs * steps * (3 * n * n - n) + counter + 1
    return clauses, lits


def network(cells):
    return {
        "nodes": [{"name": "A", "kind": "end"}, {"name": "B", "kind": "end"}],
        "tracks": [{"name": "t1", "from": "A", "to": "B", "length_m": cells * SPACE_STEP_M}],
        "sections": [{"name": "s1", "tracks": ["t1"]}],
    }


def timetable(steps, trains):
    return {
        "space_step_m": SPACE_STEP_M,
        "time_step_s": TIME_STEP_S,
        "horizon_s": steps * TIME_STEP_S,
        "trains": [
            {"name": "T%d" % train, "length_m": SPACE_STEP_M, "speed_kmh": SPEED_KMH, "from": "A", "to": "B", "entry_s": 0}
            for train in range(trains)
        ],
    }


def seconds_of(command, folder, wanted):
    """How long the command takes; it has to print and answer as wanted."""
    begin = time.perf_counter()
    call = subprocess.run(command, cwd=folder, stdout=subprocess.PIPE)
    took = time.perf_counter() - begin
    said = (call.stdout.decode("latin-1"), call.returncode)
    if not wanted(said):
        sys.exit("%s said %r" % (command, said))
    return took


def main():
    options = argparse.ArgumentParser()
    options.add_argument("--program", default=os.path.join(TOP, "crates/vssplan/out/vssplan"))
    options.add_argument("--times", type=int, default=5)
    options.add_argument("--cells", type=int, default=400)
    options.add_argument("--steps", type=int, default=13)
    options.add_argument("--trains", type=int, default=3)
    options = options.parse_args()
    program = os.path.abspath(options.program)
    if not os.path.isfile(program):
        sys.exit("%s isn't built yet: a call of ./vssplan builds it" % program)

    clauses, lits = sizes_of(options.cells, options.steps, options.trains)
    print("list: %d clauses, %d literals" % (clauses, lits))
    with tempfile.TemporaryDirectory() as folder:
        files = {
            "network.json": json.dumps(network(options.cells)),
            "timetable.json": json.dumps(timetable(options.steps, options.trains)),
            "report.txt": "vssplan report 1\nverdict impossible\nrefutes %d\na 1 0 0\nend\n" % MOST,
            "empty.txt": "",
            "loop.c": LOOP,
        }
        for name, content in files.items():
            with open(os.path.join(folder, name), "w", newline="") as file:
                file.write(content)
        subprocess.run(["cc", "-O2", "-o", "loop", "loop.c"], cwd=folder, check=True)
        numbers = [options.cells, options.steps, options.trains, MOST, lits, clauses]
        calls = [
            # the log's one line is refused, since clause 1 is there: the list isn't too long, which would time nothing
            ([program, "check", "network.json", "timetable.json", "report.txt"], lambda said: said == ("not proved 4 IdOrder\n", 9)),
            ([program, "judge", "network.json", "timetable.json", "empty.txt"], lambda said: said == ("refused report BadLine lines 1\n", 3)),
            (["./loop"] + [str(number) for number in numbers], lambda said: said[0].startswith("%d %d " % (clauses, lits))),
        ]
        # The calls take turns, so that a slow moment of the machine meets all alike.
        rounds = [[seconds_of(command, folder, wanted) for command, wanted in calls] for _ in range(options.times)]
    checked, read, looped = (statistics.median(column) for column in zip(*rounds))
    ratio = statistics.median(loop / (check - reading) for check, reading, loop in rounds)
    print("check: %.0f ms; reading the documents: %.0f ms; C loop: %.0f ms" % (checked * 1000, read * 1000, looped * 1000))
    print("encoder: %.0f million literals a second; C loop: %.0f; ratio %.2f (goal: at least 0.5)"
          % (lits / (checked - read) / 1e6, lits / looped / 1e6, ratio))


if __name__ == "__main__":
    main()
