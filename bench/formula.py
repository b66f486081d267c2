"""The clause list of a free task, written from docs/RULES.md and docs/CLAUSES.md alone.

An encoder of its own beside the program's: `bench/search.py` replays the program's logs over its list, which they refute
only if both lists are alike, and hands the list to another solver.
"""


def ceil_div(a, b):
    return -(-a // b)


class Scene:
    """Network and timetable on the grid. Directed cells are numbered 2 * cell, and one more towards the high end."""

    def __init__(self, network, timetable):
        self.space = timetable["space_step_m"]
        self.time = timetable["time_step_s"]
        self.horizon = timetable["horizon_s"] // self.time
        self.node_number = {node["name"]: n for n, node in enumerate(network["nodes"])}
        self.track_number = {track["name"]: n for n, track in enumerate(network["tracks"])}
        self.read_tracks(network)
        self.read_candidates(network)
        self.read_joins(network)
        self.stations = {s["name"]: {c for t in s["tracks"] for c in self.cells_on[self.track_number[t]]}
                         for s in network.get("stations", [])}
        self.trains = [self.train(t) for t in timetable["trains"]]

    def advance(self, speed_kmh):
        return speed_kmh * self.time * 5 // (18 * self.space)

    def read_tracks(self, network):
        section_of = {t: n for n, s in enumerate(network["sections"]) for t in s["tracks"]}
        self.low, self.high, self.section, self.limit, self.cells_on, self.cuts_on = [], [], [], [], [], []
        cut = len(network["nodes"])
        for track in network["tracks"]:
            count = ceil_div(track["length_m"], self.space)
            limit = min(self.advance(track["limit_kmh"]), 20) if track.get("limit_kmh") else 20
            nodes = [self.node_number[track["from"]], *range(cut, cut + count - 1), self.node_number[track["to"]]]
            self.cells_on.append(range(len(self.low), len(self.low) + count))
            self.cuts_on.append(range(cut, cut + count - 1))
            self.low += nodes[:-1]
            self.high += nodes[1:]
            self.section += [section_of[track["name"]]] * count
            self.limit += [limit] * count
            cut += count - 1

    def ends_at(self, network, node):
        """The ends of tracks at a node: track and directed cell that heads out of the track there."""
        ends = []
        for number, track in enumerate(network["tracks"]):
            cells = self.cells_on[number]
            if self.node_number[track["from"]] == node:
                ends.append((number, 2 * cells[0]))
            if self.node_number[track["to"]] == node:
                ends.append((number, 2 * cells[-1] + 1))
        return ends

    def read_candidates(self, network):
        free = [track.get("virtual", True) for track in network["tracks"]]
        joints = []
        for node in network["nodes"]:
            ends = self.ends_at(network, self.node_number[node["name"]])
            if node["kind"] == "joint" and all(free[t] for t, _ in ends) and len({self.section[d // 2] for _, d in ends}) == 1:
                joints.append(self.node_number[node["name"]])
        cuts = [cut for number, cuts in enumerate(self.cuts_on) if free[number] for cut in cuts]
        self.candidates = joints + cuts
        kept = set()
        for border in network.get("borders", []):
            if "joint" in border:
                kept.add(self.node_number[border["joint"]])
            else:
                kept.add(self.cuts_on[self.track_number[border["track"]]][border["at_m"] // self.space - 1])
        self.kept = [c for c, node in enumerate(self.candidates) if node in kept]

    def read_joins(self, network):
        """For each directed cell those that follow it."""
        self.after = [[] for _ in range(2 * len(self.low))]
        for cells in self.cells_on:
            for a, b in zip(cells, cells[1:]):
                self.join(2 * a + 1, 2 * b)
        for node in network["nodes"]:
            ends = self.ends_at(network, self.node_number[node["name"]])
            for i, (track, one) in enumerate(ends):
                for other_track, other in ends[i + 1:]:
                    if self.passes(node, network["tracks"][track]["name"], network["tracks"][other_track]["name"]):
                        self.join(one, other)
        for follows in self.after:
            follows.sort()

    @staticmethod
    def passes(node, one, other):
        if node["kind"] == "point":
            return node["tip"] in (one, other)
        if node["kind"] == "crossing":
            return any({one, other} == set(pair) for pair in node["pairs"])
        return node["kind"] == "joint"

    def join(self, one, other):
        """Each is a directed cell that heads to the place where the two meet."""
        self.after[one].append(other ^ 1)
        self.after[other].append(one ^ 1)

    def train(self, document):
        name_ends = {}
        for member in ("from", "to"):
            node = self.node_number[document[member]]
            low = [c for c, n in enumerate(self.low) if n == node]
            name_ends[member] = 2 * low[0] if low else 2 * self.high.index(node) + 1
        start = ceil_div(document["entry_s"], self.time)
        by = self.horizon - 1
        if document.get("arrive_s") is not None:
            by = min(by, document["arrive_s"] // self.time - 1)
        latest = start
        if document.get("entry_until_s") is not None:
            latest = min(document["entry_until_s"] // self.time, by)
        stops = [(self.stations[s["station"]], ceil_div(s.get("from_s", 0), self.time),
                  s.get("until_s", self.horizon * self.time) // self.time, max(1, ceil_div(s["dwell_s"], self.time)))
                 for s in document.get("stops", [])]
        train = {"length": ceil_div(document["length_m"], self.space), "advance": self.advance(document["speed_kmh"]),
                 "entry": name_ends["from"] ^ 1, "goal": name_ends["to"], "start": start, "latest": latest, "by": by,
                 "stops": stops}
        train["sweeps"] = self.sweeps(train)
        self.link(train)
        return train

    def sweeps(self, train):
        """All sweeps of the train, by length and then by their directed cells."""
        found = []
        for advance in range(train["advance"] + 1):
            count = train["length"] + advance
            allowed = [limit >= advance for limit in self.limit]
            paths = [(d,) for d in range(2 * len(self.low)) if allowed[d // 2]]
            for _ in range(count - 1):
                paths = [path + (d,) for path in paths for d in self.after[path[-1]]
                         if allowed[d // 2] and all(c // 2 != d // 2 for c in path)]
            found += paths
        return found

    @staticmethod
    def link(train):
        """Which sweeps go on from each, entries, goals, and the cones of all steps."""
        sweeps, length = train["sweeps"], train["length"]
        heads = {}
        for number, cells in enumerate(sweeps):
            heads.setdefault(cells[:length], []).append(number)
        train["next"] = [heads.get(cells[len(cells) - length:], []) for cells in sweeps]
        prev = [[] for _ in sweeps]
        for number, following in enumerate(train["next"]):
            for other in following:
                prev[other].append(number)
        entries = {n for n, cells in enumerate(sweeps) if cells[0] == train["entry"]}
        goals = {n for n, cells in enumerate(sweeps) if cells[-1] == train["goal"]}
        last, window = train["by"] - train["start"], train["latest"] - train["start"]
        ahead, home = [entries], [goals]
        for k in range(1, last + 1):
            ahead.append({w for v in ahead[-1] for w in train["next"][v]} | (entries if k <= window else set()))
            home.append({v for w in home[-1] for v in prev[w]} | goals)
        train["entries"], train["goals"] = entries, goals
        train["cones"] = [sorted(ahead[k] & home[last - k]) for k in range(last + 1)]

    def walks_from(self, cell):
        """All walks from a cell within its section: the nodes that it goes over, the cells behind each, where it ends."""
        at = {}
        for other in range(len(self.low)):
            if self.section[other] == self.section[cell]:
                at.setdefault(self.low[other], []).append(other)
                at.setdefault(self.high[other], []).append(other)
        walks, open_walks = [], [((), (cell,))]
        while open_walks:
            nodes, cells = open_walks.pop()
            for node in {self.low[cells[-1]], self.high[cells[-1]]} - set(nodes):
                for other in at[node]:
                    if other not in cells:
                        walk = (nodes + (node,), cells + (other,))
                        walks.append(walk)
                        open_walks.append(walk)
        return sorted(walks, key=lambda walk: (walk[0], walk[1][1:]))


class Numbers:
    """The numbers of the variables."""

    def __init__(self, scene):
        self.scene = scene
        cells = len(scene.low)
        self.number = {}
        self.behind = len(scene.candidates) + 1
        for e in range(cells):
            for f in range(e + 1, cells):
                if scene.section[e] == scene.section[f]:
                    self.take(("gap", e, f))
        for a, train in enumerate(scene.trains):
            steps = range(train["start"], train["by"] + 1)
            for t in steps:
                for w in train["cones"][t - train["start"]]:
                    self.take(("sweep", a, t, w))
            for t in steps:
                for e in range(cells):
                    self.take(("touch", a, t, e))
            for t in steps[1:]:
                self.take(("ended", a, t))
            for i in range(len(train["stops"])):
                for s in self.beginnings(train, i):
                    self.take(("met", a, i, s))
            for t in range(train["start"], train["latest"]):
                self.take(("waits", a, t))
        self.first_of_count = self.behind

    def take(self, key):
        self.number[key] = self.behind
        self.behind += 1

    @staticmethod
    def beginnings(train, i):
        _, first, until, dwell = train["stops"][i]
        return range(max(first, train["start"]), min(until, train["by"] + 1) + 1 - dwell)

    def at_least(self, i, j):
        return self.first_of_count + (i - 1) * i // 2 + (j - 1)

    def variables(self):
        n = len(self.scene.candidates)
        return self.first_of_count - 1 + n * (n + 1) // 2


def free_clauses(scene, most):
    """The number of variables and the clauses of the task of at most so many borders."""
    numbers = Numbers(scene)
    of = numbers.number
    clauses = [[c + 1] for c in scene.kept]
    add_gaps(scene, of, clauses)
    add_runs(scene, of, clauses)
    add_apart(scene, of, clauses)
    add_stops(scene, numbers, clauses)
    add_counter(numbers, len(scene.candidates), clauses)
    if most < len(scene.candidates):
        clauses.append([-numbers.at_least(len(scene.candidates), most + 1)])
    return numbers.variables(), clauses


def add_gaps(scene, of, clauses):
    candidate = {node: c + 1 for c, node in enumerate(scene.candidates)}
    for e in range(len(scene.low)):
        to = {}
        for nodes, cells in scene.walks_from(e):
            if e < cells[-1]:
                to.setdefault(cells[-1], []).append(nodes)
        for f in sorted(to):
            for nodes in to[f]:
                clauses.append([-of["gap", e, f]] + sorted(candidate[n] for n in nodes if n in candidate))


def add_runs(scene, of, clauses):
    trains = list(enumerate(scene.trains))
    for a, train in trains:
        for t in range(train["start"], train["latest"] + 1):
            clause = [-of["waits", a, t - 1]] if t > train["start"] else []
            clause += [of["sweep", a, t, w] for w in train["cones"][t - train["start"]] if w in train["entries"]]
            clauses.append(clause + ([of["waits", a, t]] if t < train["latest"] else []))
    for a, train in trains:
        for t in range(train["start"], train["by"]):
            cone = set(train["cones"][t + 1 - train["start"]])
            for w in train["cones"][t - train["start"]]:
                clause = [-of["sweep", a, t, w]] + [of["sweep", a, t + 1, v] for v in train["next"][w] if v in cone]
                clauses.append(clause + ([of["ended", a, t + 1]] if w in train["goals"] else []))
    for a, train in trains:
        for t in range(train["start"] + 1, train["by"]):
            clauses.append([-of["ended", a, t], of["ended", a, t + 1]])
    for a, train in trains:
        for t in range(train["start"] + 1, train["by"] + 1):
            clauses.extend([-of["ended", a, t], -of["sweep", a, t, w]] for w in train["cones"][t - train["start"]])
    for a, train in trains:
        for t in range(train["start"], train["by"] + 1):
            for w in train["cones"][t - train["start"]]:
                clauses.extend([-of["sweep", a, t, w], of["touch", a, t, d // 2]] for d in train["sweeps"][w])


def add_apart(scene, of, clauses):
    in_section = {}
    for e, section in enumerate(scene.section):
        in_section.setdefault(section, []).append(e)
    for a, one in enumerate(scene.trains):
        for b in range(a + 1, len(scene.trains)):
            other = scene.trains[b]
            for t in range(max(one["start"], other["start"]), min(one["by"], other["by"]) + 1):
                for e in range(len(scene.low)):
                    for f in in_section[scene.section[e]]:
                        gap = [of["gap", min(e, f), max(e, f)]] if e != f else []
                        clauses.append([-of["touch", a, t, e], -of["touch", b, t, f]] + gap)


def add_stops(scene, numbers, clauses):
    of = numbers.number
    places = [(a, train, i) for a, train in enumerate(scene.trains) for i in range(len(train["stops"]))]
    for a, train, i in places:
        clauses.append([of["met", a, i, s] for s in numbers.beginnings(train, i)])
    for a, train, i in places:
        for s in numbers.beginnings(train, i):
            last = s + train["stops"][i][3] - 1
            if train["start"] < last:
                clauses.append([-of["met", a, i, s], -of["ended", a, last]])
    for a, train, i in places:
        station, _, _, dwell = train["stops"][i]
        stands = [len(cells) == train["length"] and all(d // 2 in station for d in cells) for cells in train["sweeps"]]
        for s in numbers.beginnings(train, i):
            for t in range(s, s + dwell):
                clauses.extend([-of["met", a, i, s], -of["sweep", a, t, w]]
                               for w in train["cones"][t - train["start"]] if not stands[w])
    for a, train, i in places:
        for s in numbers.beginnings(train, i):
            if s < train["latest"]:
                clauses.append([-of["met", a, i, s], -of["waits", a, s]])


def add_counter(numbers, n, clauses):
    for i in range(1, n + 1):
        for j in range(1, i + 1):
            s, x = numbers.at_least(i, j), i
            p = numbers.at_least(i - 1, j) if j < i else None
            q = numbers.at_least(i - 1, j - 1) if j > 1 else None
            if p is None and q is None:
                clauses += [[-x, s], [-s, x]]
            elif q is None:
                clauses += [[-p, s], [-x, s], [-s, p, x]]
            elif p is None:
                clauses += [[-x, -q, s], [-s, x], [-s, q]]
            else:
                clauses += [[-p, s], [-x, -q, s], [-s, p, x], [-s, p, q]]
    for j in range(1, n):
        clauses.append([-numbers.at_least(n, j + 1), numbers.at_least(n, j)])
