#!/usr/bin/env python3
"""Times the table of sweeps and the walks of gaps at their limits.

    bench/tables.py [--program PATH] [--times N]

Two questions are asked of `check`, with a report that claims to refute them with a log of one line, `a 1 0 0`; it reads the
documents, encodes the task, and refuses that line. A call of `judge` on the same documents and a report that is no report takes
what reading the documents takes, and is taken off. Neither train can reach its goal in its two steps, so no sweep has a variable,
and next to nothing but the tables and the walks is made.

The first network is a row of rings, each with two tracks between its points and a section of its own; its train has 64 cells and
an advance of 20, so that its sweeps have 64 to 84 cells, nearly 50,000 of them. The second is a section of six rings in a row with
64 walks from end to end and a candidate at each cut; its train has one cell. Printed are medians. The goal is that each takes well
under a second.
"""

import argparse
import json
import os
import statistics
import subprocess
import sys
import tempfile
import time

SPACE_STEP_M = 500
TIME_STEP_S = 120
SPEED_KMH = 300  # 20 cells of 500 m in 120 s
STEPS = 2
RINGS, SINGLE, DOUBLE = 7, 22, 26
MOST_SWEEPS = 50000
MOST_CELLS = 1000

TOP = os.path.dirname(os.path.dirname(os.path.abspath(__file__)))


class Rings:
    """A row of rings of two tracks each, with a single track before and behind each, which ends at a joint."""

    def __init__(self, rings, single, double, virtual):
        self.rings, self.single, self.double, self.virtual = rings, single, double, virtual

    def period(self):
        return 2 * self.single + self.double

    def cells(self):
        return self.rings * (self.period() + self.double)

    def ways(self, first, count):
        """In how many ways so many cells lie behind one another from a place of the row on."""
        begins = [ring * self.period() + self.single for ring in range(self.rings)]
        return 2 ** sum(1 for begin in begins if first < begin + self.double and begin < first + count)

    def sweeps(self, length, advance):
        """How many sweeps such a train has, up and down."""
        places = self.rings * self.period()
        counts = range(length, length + advance + 1)
        return 2 * sum(self.ways(first, count) for count in counts for first in range(places - count + 1))

    def network(self, apart):
        nodes, tracks = [{"name": "A", "kind": "end"}, {"name": "B", "kind": "end"}], []
        for ring in range(self.rings):
            left, right = "L%d" % ring, "R%d" % ring
            before = "J%d" % ring if ring > 0 else "A"
            behind = "J%d" % (ring + 1) if ring + 1 < self.rings else "B"
            tracks.append(self.track("a%d" % ring, before, left, self.single))
            tracks.append(self.track("u%d" % ring, left, right, self.double))
            tracks.append(self.track("v%d" % ring, left, right, self.double))
            tracks.append(self.track("b%d" % ring, right, behind, self.single))
            nodes.append({"name": left, "kind": "point", "tip": "a%d" % ring})
            nodes.append({"name": right, "kind": "point", "tip": "b%d" % ring})
            if ring > 0:
                nodes.append({"name": before, "kind": "joint"})
        names = [track["name"] for track in tracks]
        parts = [names[4 * ring : 4 * ring + 4] for ring in range(self.rings)] if apart else [names]
        sections = [{"name": "s%d" % number, "tracks": part} for number, part in enumerate(parts)]
        return {"nodes": nodes, "tracks": tracks, "sections": sections}

    def track(self, name, source, target, cells):
        return {"name": name, "from": source, "to": target, "length_m": cells * SPACE_STEP_M, "virtual": self.virtual}


def timetable(length):
    return {
        "space_step_m": SPACE_STEP_M,
        "time_step_s": TIME_STEP_S,
        "horizon_s": STEPS * TIME_STEP_S,
        "trains": [
            {"name": "X", "length_m": length * SPACE_STEP_M, "speed_kmh": SPEED_KMH, "from": "A", "to": "B", "entry_s": 0}
        ],
    }


def seconds_of(command, folder, wanted):
    """How long the command takes; it has to print and answer as wanted."""
    begin = time.perf_counter()
    call = subprocess.run(command, cwd=folder, stdout=subprocess.PIPE)
    took = time.perf_counter() - begin
    said = (call.stdout.decode("latin-1"), call.returncode)
    if said != wanted:
        sys.exit("%s said %r, not %r" % (command, said, wanted))
    return took


def timed(program, network, trains, times):
    """The medians of a call that encodes the task, and of one that reads its documents."""
    with tempfile.TemporaryDirectory() as folder:
        files = {
            "network.json": json.dumps(network),
            "timetable.json": json.dumps(trains),
            "report.txt": "vssplan report 1\nverdict impossible\nrefutes 0\na 1 0 0\nend\n",
            "empty.txt": "",
        }
        for name, content in files.items():
            with open(os.path.join(folder, name), "w", newline="") as file:
                file.write(content)
        calls = [
            ([program, "check", "network.json", "timetable.json", "report.txt"], ("not proved 4 IdOrder\n", 9)),
            ([program, "judge", "network.json", "timetable.json", "empty.txt"], ("refused report BadLine lines 1\n", 3)),
        ]
        # The calls take turns, so that a slow moment of the machine meets both alike.
        rounds = [[seconds_of(command, folder, wanted) for command, wanted in calls] for _ in range(times)]
    return [statistics.median(column) for column in zip(*rounds)]


def main():
    options = argparse.ArgumentParser()
    options.add_argument("--program", default=os.path.join(TOP, "crates/vssplan/out/vssplan"))
    options.add_argument("--times", type=int, default=5)
    options = options.parse_args()
    program = os.path.abspath(options.program)
    if not os.path.isfile(program):
        sys.exit("%s isn't built yet: a call of ./vssplan builds it" % program)

    many_sweeps = Rings(RINGS, SINGLE, DOUBLE, False)
    many_walks = Rings(6, 2, 8, True)
    assert many_sweeps.sweeps(64, 20) <= MOST_SWEEPS and many_sweeps.cells() <= MOST_CELLS
    print("sweeps: %d, in %d cells" % (many_sweeps.sweeps(64, 20), many_sweeps.cells()))
    for name, rings, apart, length in (("sweeps", many_sweeps, True, 64), ("walks", many_walks, False, 1)):
        checked, read = timed(program, rings.network(apart), timetable(length), options.times)
        print("%s: %.0f ms, beside %.0f ms for reading the documents (goal: well under a second)"
              % (name, (checked - read) * 1000, read * 1000))


if __name__ == "__main__":
    main()
