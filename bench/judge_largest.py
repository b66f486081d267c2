#!/usr/bin/env python3
"""Times the judge on the largest lawful plan of one track.

    bench/judge_largest.py [--program PATH] [--times N]

The track has 513 cells of 500 m, a border at each of its 512 cuts, 32 trains of 64 cells that advance up
to 20 cells a step, and 400 steps. Trains enter as soon as they fit behind the one before, close up to it
at full speed, wait, and at last leave at the far end one every fifth step, the last at the last step. So
the track is nearly always full: the plan touches 187,552 of the 513 * 400 cells that any plan can.

The same call on the same report without its last line, `end`, is timed beside it, in turns: that report is
read and refused. So is a call on one track of 1,000 cells with an empty report, which only reads the documents
and cuts them into cells. Printed are medians, of the ratio too. The goals are that judging takes at most twice
as long as reading, and the last call at most 20 ms.
"""

import argparse
import json
import os
import statistics
import subprocess
import sys
import tempfile
import time

CELLS = 513
MOST_CELLS = 1000
STEPS = 400
TRAINS = 32
LENGTH = 64
ADVANCE = 20
LEAVE_EVERY = 5
SPACE_STEP_M = 500
TIME_STEP_S = 120
SPEED_KMH = 300  # 20 cells of 500 m in 120 s

TOP = os.path.dirname(os.path.dirname(os.path.abspath(__file__)))


def make_runs():
    """A run is the step of its first sweep and its sweeps; a sweep is its first cell and the cell behind
    its last one."""
    runs = []
    for train in range(TRAINS):
        leaves = STEPS - 1 - (TRAINS - 1 - train) * LEAVE_EVERY
        runs.append(follow(runs[-1] if runs else None, leaves))
    return runs


def free_before(ahead, step):
    """How many cells at the entry end the run ahead leaves free at the step."""
    if ahead is None:
        return CELLS
    start, sweeps = ahead
    if step < start:
        return 0
    return sweeps[step - start][0] if step - start < len(sweeps) else CELLS


def follow(ahead, leaves):
    start = 0 if ahead is None else ahead[0] + 1
    while free_before(ahead, start) < LENGTH:
        start += 1
    sweeps = []
    tail = 0
    for step in range(start, leaves + 1):
        advance = min(ADVANCE, free_before(ahead, step) - tail - LENGTH)
        sweeps.append((tail, tail + LENGTH + advance))
        tail += advance
    return start, sweeps


def check(runs):
    """Whether the runs are a lawful plan, by the rules alone: with a border at every cut, two cells are
    linked only where they are the same."""
    taken = {}
    for train, (start, sweeps) in enumerate(runs):
        assert sweeps and 0 <= start, train
        assert sweeps[0][0] == 0, (train, "doesn't begin with the entry cell")
        assert sweeps[-1][1] == CELLS, (train, "doesn't end with the goal cell")
        assert start + len(sweeps) <= STEPS, (train, "is late")
        for place, (first, behind) in enumerate(sweeps):
            assert 0 <= first and behind <= CELLS, (train, place, "is outside the track")
            assert LENGTH <= behind - first <= LENGTH + ADVANCE, (train, place, "is too short or too fast")
            if place > 0:
                assert sweeps[place - 1][1] - LENGTH == first, (train, place, "doesn't go on")
            for cell in range(first, behind):
                other = taken.setdefault((start + place, cell), train)
                assert other == train, (train, other, start + place, cell, "are not apart")
    return len(taken)


def network(cells):
    return {
        "nodes": [{"name": "A", "kind": "end"}, {"name": "B", "kind": "end"}],
        "tracks": [{"name": "t1", "from": "A", "to": "B", "length_m": cells * SPACE_STEP_M, "virtual": cells == CELLS}],
        "sections": [{"name": "s1", "tracks": ["t1"]}],
    }


def timetable(runs):
    trains = [
        {
            "name": "T%d" % train,
            "length_m": LENGTH * SPACE_STEP_M,
            "speed_kmh": SPEED_KMH,
            "from": "A",
            "to": "B",
            "entry_s": start * TIME_STEP_S,
        }
        for train, (start, _) in enumerate(runs)
    ]
    return {
        "space_step_m": SPACE_STEP_M,
        "time_step_s": TIME_STEP_S,
        "horizon_s": STEPS * TIME_STEP_S,
        "trains": trains,
    }


def report(runs):
    lines = ["vssplan report 1", "verdict done", "design %d" % (CELLS - 1)]
    lines += ["border cut t1 %d" % (cut * SPACE_STEP_M) for cut in range(1, CELLS)]
    for train, (start, sweeps) in enumerate(runs):
        lines.append("run T%d %d" % (train, start))
        for first, behind in sweeps:
            lines.append("sweep " + " ".join("t1:%d+" % cell for cell in range(first, behind)))
    lines.append("end")
    return "".join(line + "\n" for line in lines)


def seconds_of(program, folder, network, name, wanted):
    """How long the program takes to judge the report; it has to answer as wanted."""
    begin = time.perf_counter()
    call = subprocess.run(
        [program, "judge", network, "timetable.json", name], cwd=folder, stdout=subprocess.PIPE
    )
    took = time.perf_counter() - begin
    said = (call.stdout.decode("latin-1"), call.returncode)
    if said != wanted:
        sys.exit("%s: the program said %r, not %r" % (name, said, wanted))
    return took


def main():
    options = argparse.ArgumentParser()
    options.add_argument("--program", default=os.path.join(TOP, "crates/vssplan/out/vssplan"))
    options.add_argument("--times", type=int, default=20)
    options = options.parse_args()
    program = os.path.abspath(options.program)
    if not os.path.isfile(program):
        sys.exit("%s isn't built yet: a call of ./vssplan builds it" % program)

    runs = make_runs()
    touched = check(runs)
    text = report(runs)
    sweeps = sum(len(sweeps) for _, sweeps in runs)
    print("plan: %d trains, %d sweeps, %d cells of at most %d; report: %d bytes"
          % (len(runs), sweeps, touched, CELLS * STEPS, len(text)))

    with tempfile.TemporaryDirectory() as folder:
        files = {
            "network.json": json.dumps(network(CELLS)),
            "most_cells.json": json.dumps(network(MOST_CELLS)),
            "timetable.json": json.dumps(timetable(runs)),
            "report.txt": text,
            "without_end.txt": text[: -len("end\n")],
            "empty.txt": "",
        }
        for name, content in files.items():
            with open(os.path.join(folder, name), "w", newline="") as file:
                file.write(content)
        calls = [
            ("network.json", "report.txt", ("lawful %d\n" % (CELLS - 1), 0)),
            ("network.json", "without_end.txt", ("refused report BadLine lines %d\n" % text.count("\n"), 3)),
            ("most_cells.json", "empty.txt", ("refused report BadLine lines 1\n", 3)),
        ]
        # The calls take turns, so that a slow moment of the machine meets all alike.
        rounds = [[seconds_of(program, folder, *call) for call in calls] for _ in range(options.times)]
    judged, read, cut = (statistics.median(column) for column in zip(*rounds))
    ratio = statistics.median(judged / read for judged, read, _ in rounds)
    print("judged: %.1f ms; read and refused: %.1f ms; ratio %.2f (goal: at most 2)"
          % (judged * 1000, read * 1000, ratio))
    print("%d cells and an empty report: %.1f ms (goal: at most 20)" % (MOST_CELLS, cut * 1000))


if __name__ == "__main__":
    main()
