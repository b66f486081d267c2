#!/usr/bin/env python3
"""Times the search beside minisat, on lines, rings and passing stations that this script makes.

    bench/search.py [--program PATH] [--rounds N] [--budget N] [--small]

For each case the least count of borders is found with minisat, on a formula that `formula.py` writes from docs/CLAUSES.md.
Then two things are timed, in turns with minisat, and medians of the rounds are compared:

- one border less than the least: `generate --borders K`, which refutes that one formula and prints its log, beside minisat
  on the same formula. The printed log is replayed over the script's own list of clauses. The goal is a ratio below 1.0;
- the whole search: `optimise`, beside minisat bound by bound, each bound one below the count that minisat found before, with
  the formulas written beforehand. The goal is a ratio below 0.5.

Conflicts are the log's lines that add a clause, and what minisat counts. Without minisat the script says so and ends.
"""

import argparse
import json
import math
import os
import re
import shutil
import statistics
import subprocess
import sys
import tempfile
import time

from formula import Scene, free_clauses

TOP = os.path.dirname(os.path.dirname(os.path.abspath(__file__)))


def line(cells, trains, gap):
    """Trains that follow each other on one track."""
    network = {"nodes": [{"name": "A", "kind": "end"}, {"name": "B", "kind": "end"}],
               "tracks": [{"name": "t1", "from": "A", "to": "B", "length_m": 500 * cells}],
               "sections": [{"name": "s1", "tracks": ["t1"]}]}
    return network, timetable([("A", "B", 60 * gap * i) for i in range(trains)], cells + gap * trains + 1)


def ring(arc, trains, gap):
    """Two points with two tracks between them, in one section with what leads there."""
    network = {"nodes": [{"name": "A", "kind": "end"}, {"name": "B", "kind": "end"},
                         {"name": "P", "kind": "point", "tip": "a"}, {"name": "Q", "kind": "point", "tip": "b"}],
               "tracks": [{"name": "a", "from": "A", "to": "P", "length_m": 1000},
                          {"name": "n", "from": "P", "to": "Q", "length_m": 500 * arc},
                          {"name": "s", "from": "P", "to": "Q", "length_m": 500 * arc},
                          {"name": "b", "from": "Q", "to": "B", "length_m": 1000}],
               "sections": [{"name": "s1", "tracks": ["a", "n", "s", "b"]}]}
    return network, timetable([("A", "B", 60 * gap * i) for i in range(trains)], arc + 4 + gap * trains + 1)


def passing(approach, trains, gap):
    """A single line with a station of two tracks in the middle; trains come from both sides."""
    network = {"nodes": [{"name": "A", "kind": "end"}, {"name": "B", "kind": "end"},
                         {"name": "P", "kind": "point", "tip": "w"}, {"name": "Q", "kind": "point", "tip": "e"},
                         {"name": "J", "kind": "joint"}, {"name": "K", "kind": "joint"}],
               "tracks": [{"name": "l", "from": "A", "to": "J", "length_m": 500 * approach},
                          {"name": "w", "from": "J", "to": "P", "length_m": 500},
                          {"name": "n", "from": "P", "to": "Q", "length_m": 1500},
                          {"name": "s", "from": "P", "to": "Q", "length_m": 1500},
                          {"name": "e", "from": "Q", "to": "K", "length_m": 500},
                          {"name": "r", "from": "K", "to": "B", "length_m": 500 * approach}],
               "sections": [{"name": "s1", "tracks": ["l"]}, {"name": "s2", "tracks": ["w", "n", "s", "e"]},
                            {"name": "s3", "tracks": ["r"]}]}
    calls = [(("A", "B") if i % 2 == 0 else ("B", "A")) + (60 * gap * (i // 2),) for i in range(trains)]
    return network, timetable(calls, 2 * approach + 7 + gap * trains + 2)


def timetable(calls, steps):
    trains = [{"name": f"T{i}", "length_m": 400, "speed_kmh": 30, "from": a, "to": b, "entry_s": entry}
              for i, (a, b, entry) in enumerate(calls)]
    return {"space_step_m": 500, "time_step_s": 60, "horizon_s": 60 * steps, "trains": trains}


CASES = [
    ("line of 6 cells, 3 trains", line(6, 3, 2)),
    ("line of 10 cells, 4 trains", line(10, 4, 2)),
    ("line of 14 cells, 5 trains", line(14, 5, 2)),
    ("line of 16 cells, 6 trains", line(16, 6, 3)),
    ("ring of 2 * 4 cells, 3 trains", ring(4, 3, 3)),
    ("ring of 2 * 5 cells, 3 trains", ring(5, 3, 2)),
    ("station with 3 cells before it, 2 trains", passing(3, 2, 3)),
    ("station with 3 cells before it, 3 trains", passing(3, 3, 4)),
]


def write_dimacs(path, scene, most):
    variables, clauses = free_clauses(scene, most)
    with open(path, "w") as out:
        out.write(f"p cnf {variables} {len(clauses)}\n")
        out.writelines(" ".join(map(str, clause)) + " 0\n" for clause in clauses)
    return clauses


def minisat(cnf, model):
    """Whether there is a valuation, its true variables, the conflicts, and the seconds."""
    begin = time.perf_counter()
    run = subprocess.run(["minisat", "-verb=1", cnf, model], capture_output=True, text=True)
    seconds = time.perf_counter() - begin
    if run.returncode not in (10, 20):
        sys.exit(f"minisat ended with {run.returncode}")
    conflicts = re.search(r"conflicts\s*:\s*(\d+)", run.stdout)
    true = set()
    if run.returncode == 10:
        with open(model) as text:
            true = {int(word) for word in text.read().split()[1:] if int(word) > 0}
    return run.returncode == 10, true, int(conflicts.group(1)) if conflicts else 0, seconds


def call(program, words):
    begin = time.perf_counter()
    run = subprocess.run([program, *words], capture_output=True, text=True)
    return run.returncode, run.stdout, time.perf_counter() - begin


def refutes(log, clauses):
    """Whether the log refutes the clauses: each added clause follows by its hints, and the last one is empty."""
    live = {number: clause for number, clause in enumerate(clauses, 1)}
    added = None
    for text in log:
        words = [int(word) for word in text.split()[1:-1]]
        if text[0] == "d":
            for number in words:
                del live[number]
            continue
        end = words.index(0, 1)
        added, hints = words[1:end], words[end + 1:]
        false = {-literal for literal in added}
        for place, hint in enumerate(hints):
            open_literals = [literal for literal in live[hint] if -literal not in false]
            if not open_literals:
                if place + 1 != len(hints):
                    return False
                break
            if len(open_literals) > 1 or open_literals[0] in false:
                return False
            false.add(open_literals[0])
        else:
            return False
        live[words[0]] = added
    return added == []


def log_of(report):
    return [text for text in report.splitlines() if text.startswith(("a ", "d "))]


def bounds(scene, folder):
    """The bounds that minisat tries, each below what it found before, as files; the last one has no layout."""
    files, most = [], len(scene.candidates)
    while True:
        files.append(os.path.join(folder, f"most{most}.cnf"))
        clauses = write_dimacs(files[-1], scene, most)
        found, true, _, _ = minisat(files[-1], os.path.join(folder, "model"))
        if not found:
            return files, most, clauses
        most = sum(1 for v in true if v <= len(scene.candidates)) - 1
        if most < len(scene.kept):
            return files, None, None


def measure(program, rounds, budget, name, documents, folder):
    network, times = documents
    paths = [os.path.join(folder, "network.json"), os.path.join(folder, "timetable.json")]
    for path, document in zip(paths, documents):
        with open(path, "w") as out:
            json.dump(document, out)
    scene = Scene(network, times)
    files, most, clauses = bounds(scene, folder)
    if most is None:
        print(f"{name}: no border is needed, so nothing is refuted")
        return None
    ours, theirs, whole, loop = [], [], [], []
    for _ in range(rounds):
        status, report, seconds = call(program, ["generate", *paths, "--borders", str(most), "--budget", str(budget)])
        if status != 1:
            print(f"{name}: generate --borders {most} ended with status {status}")
            return None
        ours.append(seconds)
        _, _, conflicts, seconds = minisat(files[-1], os.path.join(folder, "model"))
        theirs.append(seconds)
        status, best, seconds = call(program, ["optimise", *paths, "--budget", str(budget)])
        if status not in (0, 1):
            print(f"{name}: optimise ended with status {status}")
            return None
        whole.append(seconds)
        loop.append(sum(minisat(file, os.path.join(folder, "model"))[3] for file in files))
    log = log_of(report)
    if not refutes(log, clauses):
        sys.exit(f"{name}: the printed log doesn't refute the clauses of docs/CLAUSES.md")
    if status == 0 and f"design {most + 1}\n" not in best:
        sys.exit(f"{name}: optimise prints another count than {most + 1}")
    mine = sum(1 for text in log if text[0] == "a")
    one = statistics.median(ours) / statistics.median(theirs)
    all_bounds = statistics.median(whole) / statistics.median(loop)
    each = (statistics.median(ours) / max(mine, 1)) / (statistics.median(theirs) / max(conflicts, 1))
    print(f"{name}: {most} borders refuted in {1000 * statistics.median(ours):.1f} ms, {mine} conflicts; minisat "
          f"{1000 * statistics.median(theirs):.1f} ms, {conflicts} conflicts; times {one:.2f}, conflicts "
          f"{mine / max(conflicts, 1):.2f}, time a conflict {each:.2f}; optimise {1000 * statistics.median(whole):.1f} ms, "
          f"minisat bound by bound {1000 * statistics.median(loop):.1f} ms, times {all_bounds:.2f}", flush=True)
    return one, mine / max(conflicts, 1), each, all_bounds


def mean(values):
    return math.exp(sum(math.log(max(value, 1e-9)) for value in values) / len(values))


def main():
    parser = argparse.ArgumentParser(description="Times the search beside minisat.")
    parser.add_argument("--program", default=os.path.join(TOP, "crates/vssplan/out/vssplan"))
    parser.add_argument("--rounds", type=int, default=5)
    parser.add_argument("--budget", type=int, default=1000000)
    parser.add_argument("--small", action="store_true", help="the smaller half of the cases")
    options = parser.parse_args()
    if shutil.which("minisat") is None:
        print("skipped: minisat isn't there")
        return
    cases = CASES[::2] if options.small else CASES
    ratios = []
    with tempfile.TemporaryDirectory() as folder:
        for name, documents in cases:
            found = measure(options.program, options.rounds, options.budget, name, documents, folder)
            if found:
                ratios.append(found)
    if ratios:
        times, conflicts, each, whole = (mean(column) for column in zip(*ratios))
        print(f"geometric means over {len(ratios)} cases: times {times:.2f} (goal 1.0), conflicts {conflicts:.2f}, "
              f"time a conflict {each:.2f}; whole search {whole:.2f} (goal 0.5)")


if __name__ == "__main__":
    main()
