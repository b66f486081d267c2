#!/usr/bin/env python3
"""Times the reading of networks at the limit of a document's size, and measures its memory.

    bench/read_network.py [--program PATH] [--times N]

Two networks of 16 MiB: one of many small tracks, and one with a huge member that is ignored. Each is read in two forms. In
the one the very last rule of networks fails at the last track, so that everything is tested; in the other the first member
already has a wrong type, so that nothing is done but reading the JSON. The two calls take turns. Printed are medians, of the
ratios too. The goals are that the whole answer takes at most three times as long as the reading alone, and at most 1.3 times
its memory.
"""

import argparse
import json
import os
import statistics
import sys
import tempfile
import time

TOP = os.path.dirname(os.path.dirname(os.path.abspath(__file__)))
LIMIT = 16 * 1024 * 1024
GREATEST_KMH = 500


def network(count):
    """A line of so many tracks of 10 m in one section; the last one has a limit that is too high."""
    nodes = [{"name": "n%d" % n, "kind": "joint" if 0 < n < count else "end"} for n in range(count + 1)]
    tracks = [{"name": "t%d" % n, "from": "n%d" % n, "to": "n%d" % (n + 1), "length_m": 10} for n in range(count)]
    tracks[-1]["limit_kmh"] = GREATEST_KMH + 1
    return {"nodes": nodes, "tracks": tracks, "sections": [{"name": "s", "tracks": [t["name"] for t in tracks]}]}


def text(document):
    return json.dumps(document, separators=(",", ":"))


def largest():
    """How many tracks a network of the limit's size has, in thousands."""
    count = LIMIT // 100000 * 1000
    while len(text(network(count))) > LIMIT - 4096:
        count -= 1000
    return count


def documents():
    """Pairs of forms: the name, the text whose last rule fails with its answer, the text that is read alone with its."""
    count = largest()
    many = network(count)
    huge = network(1)
    filler = "x" * (LIMIT - 4096)
    for name, document, last, more in (
        ("many small tracks", many, count - 1, {}),
        ("one huge ignored member", huge, 0, {"ignored": filler}),
    ):
        whole = text({**document, **more})
        first = text({**document, **more, "nodes": {"list": document["nodes"]}})
        assert len(whole) <= LIMIT and len(first) <= LIMIT, (name, len(whole), len(first))
        yield name, [
            (whole, "refused network LimitRange tracks %d\n" % last),
            (first, "refused network Shape nodes 0\n"),
        ]


def call(program, folder, name, wanted):
    """Seconds and kilobytes of one call; it has to answer as wanted."""
    said, say = os.pipe()
    begin = time.perf_counter()
    child = os.fork()
    if child == 0:
        os.chdir(folder)
        os.dup2(say, 1)
        os.execv(program, [program, "judge", name, "timetable.json", "report.txt"])
    os.close(say)
    with os.fdopen(said) as pipe:
        printed = pipe.read()
    _, status, usage = os.wait4(child, 0)
    took = time.perf_counter() - begin
    if printed != wanted or os.waitstatus_to_exitcode(status) != 3:
        sys.exit("%s: the program said %r, not %r" % (name, printed, wanted))
    return took, usage.ru_maxrss


def main():
    options = argparse.ArgumentParser()
    options.add_argument("--program", default=os.path.join(TOP, "crates/vssplan/out/vssplan"))
    options.add_argument("--times", type=int, default=10)
    options = options.parse_args()
    program = os.path.abspath(options.program)
    if not os.path.isfile(program):
        sys.exit("%s isn't built yet: a call of ./vssplan builds it" % program)

    with tempfile.TemporaryDirectory() as folder:
        for name in ("timetable.json", "report.txt"):
            with open(os.path.join(folder, name), "w") as file:
                file.write("{}")
        for name, forms in documents():
            for place, (content, _) in enumerate(forms):
                with open(os.path.join(folder, "network%d.json" % place), "w") as file:
                    file.write(content)
            rounds = [
                [call(program, folder, "network%d.json" % place, wanted) for place, (_, wanted) in enumerate(forms)]
                for _ in range(options.times)
            ]
            seconds = statistics.median(whole[0] / read[0] for whole, read in rounds)
            memory = statistics.median(whole[1] / read[1] for whole, read in rounds)
            print("%s: %.0f ms and %.0f MB; ratio of time %.2f (goal: at most 3), of memory %.2f (goal: at most 1.3)"
                  % (name, statistics.median(w[0] for w, _ in rounds) * 1000,
                     statistics.median(w[1] for w, _ in rounds) / 1024, seconds, memory))


if __name__ == "__main__":
    main()
