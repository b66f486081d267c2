#!/usr/bin/env python3
"""Times the reading of a large report beside `grep -c ''` on the same file.

    bench/read_report.py [--program PATH] [--times N] [--megabytes N] [--task judge|check]

The report says of an impossible question that a bound is refuted, with a log of about so many megabytes. `judge` reads and
tests all of it and answers that it states no design (`NoPart`). `check`, once the program has it, reads all of it too and
stops at the first step, which claims the empty clause without a hint. Both documents of the call are those of one track and
one train. The two commands take turns. Printed are medians, of the ratio too. The goal is that reading takes no more than
four times as long as `grep`.
"""

import argparse
import json
import os
import statistics
import subprocess
import sys
import tempfile
import time

TOP = os.path.dirname(os.path.dirname(os.path.abspath(__file__)))

NETWORK = {
    "nodes": [{"name": "A", "kind": "end"}, {"name": "B", "kind": "end"}],
    "tracks": [{"name": "t1", "from": "A", "to": "B", "length_m": 2000}],
    "sections": [{"name": "s1", "tracks": ["t1"]}],
}
TIMETABLE = {
    "space_step_m": 500,
    "time_step_s": 60,
    "horizon_s": 600,
    "trains": [
        {"name": "X", "length_m": 400, "speed_kmh": 30, "from": "A", "to": "B", "entry_s": 0, "arrive_s": 180}
    ],
}


def log_lines(megabytes):
    """Steps of ten literals and ten hints, up to so many megabytes."""
    size = 0
    number = 100000
    while size < megabytes * 1000000:
        literals = " ".join(str((number + place) % 900000 + 1) for place in range(10))
        hints = " ".join(str(number - place - 1) for place in range(10))
        line = "a %d %s 0 %s 0\n" % (number, literals, hints)
        size += len(line)
        number += 1
        yield line


def seconds_of(command, folder, wanted):
    """How long the command takes; it has to print and answer as wanted, where that is told."""
    begin = time.perf_counter()
    call = subprocess.run(command, cwd=folder, stdout=subprocess.PIPE)
    took = time.perf_counter() - begin
    said = (call.stdout.decode("latin-1"), call.returncode)
    if wanted is not None and said != wanted:
        sys.exit("%s said %r, not %r" % (command, said, wanted))
    return took


def main():
    options = argparse.ArgumentParser()
    options.add_argument("--program", default=os.path.join(TOP, "crates/vssplan/out/vssplan"))
    options.add_argument("--times", type=int, default=5)
    options.add_argument("--megabytes", type=int, default=100)
    options.add_argument("--task", choices=["judge", "check"], default="judge")
    options = options.parse_args()
    program = os.path.abspath(options.program)
    if not os.path.isfile(program):
        sys.exit("%s isn't built yet: a call of ./vssplan builds it" % program)

    first = ["a 1 0 0\n"] if options.task == "check" else []
    wanted = ("refused report NoPart document 0\n", 3) if options.task == "judge" else None
    with tempfile.TemporaryDirectory() as folder:
        for name, content in (("network.json", NETWORK), ("timetable.json", TIMETABLE)):
            with open(os.path.join(folder, name), "w") as file:
                json.dump(content, file)
        path = os.path.join(folder, "report.txt")
        with open(path, "w", newline="") as file:
            file.write("vssplan report 1\nverdict impossible\nrefutes 3\n")
            file.writelines(first)
            file.writelines(log_lines(options.megabytes))
            file.write("end\n")
        print("report: %d bytes" % os.path.getsize(path))
        read = [program, options.task, "network.json", "timetable.json", "report.txt"]
        count = ["grep", "-c", "", "report.txt"]
        rounds = [
            (seconds_of(read, folder, wanted), seconds_of(count, folder, None)) for _ in range(options.times)
        ]
    reading, counting = (statistics.median(column) for column in zip(*rounds))
    ratio = statistics.median(one / other for one, other in rounds)
    print("%s: %.0f ms; grep -c '': %.0f ms; ratio %.2f (goal: at most 4)"
          % (options.task, reading * 1000, counting * 1000, ratio))


if __name__ == "__main__":
    main()
