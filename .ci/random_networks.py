"""Random small documents, and what the rules say of them: a plain reading of docs/RULES.md, apart from the program.

A case has a network and a timetable, the cells and candidates that they are cut into, the runs of each train, and the
first clash of a plan under a layout. All of it is by search, for a few cells and steps.
"""

SPACE_STEP, TIME_STEP = 500, 60
MOST_RUNS = 1000


def line(draw):
    """Tracks one behind the other, whose joints part sections or don't; nodes, tracks, sections, and ways for trains."""
    count = draw.randint(1, 3)
    names = ["A"] + ["J%d" % place for place in range(1, count)] + ["B"]
    nodes = [{"name": name, "kind": "joint" if name[0] == "J" else "end"} for name in names]
    tracks = [track(draw, "t%d" % place, names[place], names[place + 1], 6 // count) for place in range(count)]
    groups = [[tracks[0]["name"]]]
    for item in tracks[1:]:
        if draw.random() < 0.6:
            groups[-1].append(item["name"])
        else:
            groups.append([item["name"]])
    return nodes, tracks, groups, [("A", "B"), ("A", "B"), ("B", "A")]


def ring(draw):
    """Two tracks side by side between two points."""
    nodes = [{"name": "A", "kind": "end"}, {"name": "P", "kind": "point", "tip": "a"},
             {"name": "Q", "kind": "point", "tip": "b"}, {"name": "B", "kind": "end"}]
    tracks = [track(draw, "a", "A", "P", 1), track(draw, "n", "P", "Q", 2), track(draw, "s", "Q", "P", 3),
              track(draw, "b", "Q", "B", 1)]
    return nodes, tracks, [["a", "n", "s", "b"]], [("A", "B"), ("A", "B"), ("B", "A")]


def junction(draw):
    """A line that forks at a point."""
    nodes = [{"name": "A", "kind": "end"}, {"name": "P", "kind": "point", "tip": "a"},
             {"name": "B", "kind": "end"}, {"name": "C", "kind": "end"}]
    tracks = [track(draw, "a", "A", "P", 3), track(draw, "b", "B", "P", 2), track(draw, "c", "P", "C", 2)]
    return nodes, tracks, [["a", "b", "c"]], [("A", "B"), ("A", "C"), ("C", "A"), ("B", "C")]


def crossing(draw):
    """Two lines that cross."""
    nodes = [{"name": name, "kind": "end"} for name in "ABCD"]
    nodes.append({"name": "X", "kind": "crossing", "pairs": [["a", "b"], ["c", "d"]]})
    tracks = [track(draw, "a", "A", "X", 2), track(draw, "b", "X", "B", 2), track(draw, "c", "C", "X", 2),
              track(draw, "d", "D", "X", 2)]
    return nodes, tracks, [["a", "b", "c", "d"]], [("A", "B"), ("B", "A"), ("C", "D"), ("D", "C"), ("A", "B"), ("C", "D"), ("A", "C")]


def track(draw, name, begin, end, cells):
    made = {"name": name, "from": begin, "to": end, "length_m": draw.randint((cells - 1) * SPACE_STEP, cells * SPACE_STEP) or 1}
    if draw.random() < 0.15:
        made["virtual"] = False
    if draw.random() < 0.2:
        made["limit_kmh"] = draw.randint(30, 90)
    return made


class Case:
    """A network, a timetable, and all that the rules make of them."""

    def __init__(self, draw):
        nodes, tracks, groups, routes = draw.choice([line, line, ring, junction, crossing])(draw)
        self.network = {"nodes": nodes, "tracks": tracks,
                        "sections": [{"name": "s%d" % place, "tracks": group} for place, group in enumerate(groups)],
                        "stations": [{"name": "S", "tracks": [draw.choice(tracks)["name"]]}]}
        self.cut(nodes, tracks, groups)
        self.join(nodes, tracks)
        self.find_candidates(nodes, tracks)
        self.kept = sorted(place for place in range(len(self.candidates)) if draw.random() < 0.15)
        self.network["borders"] = [self.place(place) for place in self.kept]
        self.make_timetable(draw, routes)
        self.found_runs = {}

    def cut(self, nodes, tracks, groups):
        """The cells, each with its low and high node, its section, its track and its place on it."""
        section = {name: place for place, group in enumerate(groups) for name in group}
        self.number = {node["name"]: place for place, node in enumerate(nodes)}
        self.cells, self.cuts, self.cells_of = [], {}, {}
        fresh = len(nodes)
        for item in tracks:
            count = -(-item["length_m"] // SPACE_STEP)
            ends = [self.number[item["from"]]] + list(range(fresh, fresh + count - 1)) + [self.number[item["to"]]]
            fresh += count - 1
            for place in range(1, count):
                self.cuts[ends[place]] = (item["name"], place * SPACE_STEP)
            self.cells_of[item["name"]] = list(range(len(self.cells), len(self.cells) + count))
            for place in range(count):
                self.cells.append((ends[place], ends[place + 1], section[item["name"]], item["name"], place))
        self.limit = [advance(item.get("limit_kmh"), 20) for item in tracks for _ in self.cells_of[item["name"]]]

    def ends_at(self, node):
        return [(cell, end) for cell, parts in enumerate(self.cells) for end in (0, 1) if parts[end] == node]

    def join(self, nodes, tracks):
        """For each cell end, the cell ends that a passage leads to."""
        self.passages = {(cell, end): [] for cell in range(len(self.cells)) for end in (0, 1)}
        kinds = {self.number[node["name"]]: node for node in nodes}
        for node in range(len(nodes) + len(self.cuts)):
            there = self.ends_at(node)
            kind = kinds.get(node, {"kind": "joint"})
            for one in there:
                for other in there:
                    names = {self.cells[one[0]][3], self.cells[other[0]][3]}
                    if one != other and leads(kind, names):
                        self.passages[one].append(other)

    def find_candidates(self, nodes, tracks):
        """The nodes where a virtual border may stand: joints within a section, then cuts."""
        is_virtual = {item["name"]: item.get("virtual", True) for item in tracks}
        self.candidates = []
        for node in range(len(nodes) + len(self.cuts)):
            there = [self.cells[cell] for cell, _ in self.ends_at(node)]
            joins = node >= len(nodes) or nodes[node]["kind"] == "joint"
            if joins and len({parts[2] for parts in there}) == 1 and all(is_virtual[parts[3]] for parts in there):
                self.candidates.append(node)
        self.names = [node["name"] for node in nodes]

    def place(self, candidate):
        """The candidate as the network's list of borders has it."""
        node = self.candidates[candidate]
        if node in self.cuts:
            name, at_m = self.cuts[node]
            return {"track": name, "at_m": at_m}
        return {"joint": self.names[node]}

    def make_timetable(self, draw, routes):
        steps = draw.randint(7, 10)
        entries = [self.train(draw, name, routes, steps) for name in "XYZ"[:draw.choice([1, 2, 2, 2, 3])]]
        self.timetable = {"space_step_m": SPACE_STEP, "time_step_s": TIME_STEP, "horizon_s": steps * TIME_STEP + draw.randint(0, 59),
                          "trains": entries}
        self.trains = [self.read_train(entry, steps) for entry in entries]

    def train(self, draw, name, routes, steps):
        begin, end = draw.choice(routes)
        entry = {"name": name, "length_m": draw.choice([300, 400, 500, 700]), "speed_kmh": draw.randint(40, 95),
                 "from": begin, "to": end, "entry_s": draw.randint(0, 4 * TIME_STEP)}
        if draw.random() < 0.35:
            entry["arrive_s"] = draw.randint(6, steps) * TIME_STEP + draw.randint(0, 59)
        if draw.random() < 0.3:
            entry["entry_until_s"] = entry["entry_s"] + draw.randint(60, 180)
        if draw.random() < 0.2:
            entry["stops"] = [{"station": "S", "dwell_s": draw.randint(1, 90)}]
        return entry

    def read_train(self, entry, steps):
        """The train in cells and steps."""
        start = -(-entry["entry_s"] // TIME_STEP)
        by = min(entry.get("arrive_s", steps * TIME_STEP) // TIME_STEP - 1, steps - 1)
        latest = min(entry["entry_until_s"] // TIME_STEP, by) if "entry_until_s" in entry else start
        (first, end), = self.ends_at(self.number[entry["from"]])
        goal, = self.ends_at(self.number[entry["to"]])
        dwell = max(1, -(-entry["stops"][0]["dwell_s"] // TIME_STEP)) if "stops" in entry else 0
        station = {cell for name in self.network["stations"][0]["tracks"] for cell in self.cells_of[name]}
        return {"name": entry["name"], "length": -(-entry["length_m"] // SPACE_STEP), "most": advance(entry["speed_kmh"], None),
                "start": start, "latest": latest, "by": by, "entry": (first, 1 - end), "goal": goal, "dwell": dwell,
                "station": station, "until": steps}

    def runs(self, number):
        """The runs of the train: the first step, and the sweeps."""
        train = self.trains[number]
        for start in range(train["start"], train["latest"] + 1):
            for first in self.paths([train["entry"]], train):
                yield from self.runs_from(train, start, [first])

    def runs_from(self, train, start, sweeps):
        last = start + len(sweeps) - 1
        if sweeps[-1][-1] == train["goal"] and is_stopped(train, start, sweeps):
            yield start, list(sweeps)
        if last < train["by"]:
            for sweep in self.paths(list(sweeps[-1][-train["length"]:]), train):
                yield from self.runs_from(train, start, sweeps + [sweep])

    def paths(self, path, train):
        """The sweeps that begin with the path, longer and longer."""
        ahead = len(path) - train["length"]
        if ahead > train["most"] or (ahead > 0 and any(self.limit[cell] < ahead for cell, _ in path)):
            return
        if ahead >= 0:
            yield tuple(path)
        cell, end = path[-1]
        for behind, entered in self.passages[cell, end]:
            if all(behind != other for other, _ in path):
                yield from self.paths(path + [(behind, 1 - entered)], train)

    def classes(self, borders):
        """The class of linked cells of each cell."""
        stand = {self.candidates[place] for place in borders}
        of = list(range(len(self.cells)))
        for node in range(len(self.names) + len(self.cuts)):
            there = [cell for cell, _ in self.ends_at(node)]
            for one in there:
                for other in there:
                    if node not in stand and self.cells[one][2] == self.cells[other][2]:
                        old, new = of[other], of[one]
                        of = [new if kind == old else kind for kind in of]
        return of

    def clash(self, borders, plan):
        """The first two trains that aren't apart, with the step and the cells; none where the plan is lawful."""
        of = self.classes(borders)
        for step in range(max(start + len(sweeps) for start, sweeps in plan)):
            here = [(number, sweeps[step - start]) for number, (start, sweeps) in enumerate(plan)
                    if start <= step < start + len(sweeps)]
            for place, (one, sweep) in enumerate(here):
                for other, later in here[place + 1:]:
                    for e, _ in sweep:
                        for f, _ in later:
                            if of[e] == of[f]:
                                return (self.trains[one]["name"], self.trains[other]["name"], step,
                                        self.cell_name(e), self.cell_name(f))
        return None

    def is_feasible(self, borders):
        """Whether some plan is lawful under the layout; none where a train has too many runs to try all."""
        of = self.classes(borders)
        touched = []
        for number in range(len(self.trains)):
            runs = self.all_runs(number)
            if runs is None:
                return None
            touched.append({sum_of(of, start, sweeps) for start, sweeps in runs})
        return has_disjoint(touched, 0)

    def all_runs(self, number):
        """All runs of the train; none where there are too many."""
        if number not in self.found_runs:
            found = []
            for run in self.runs(number):
                found.append(run)
                if len(found) > MOST_RUNS:
                    found = None
                    break
            self.found_runs[number] = found
        return self.found_runs[number]

    def layout(self, draw):
        return [place for place in range(len(self.candidates)) if place in self.kept or draw.random() < 0.5]

    def network_with(self, borders):
        return dict(self.network, borders=[self.place(place) for place in borders])

    def cell_name(self, cell):
        return "%s:%d" % self.cells[cell][3:]

    def report(self, borders, plan):
        lines = ["vssplan report 1", "verdict done", "design %d" % len(borders)]
        for place in map(self.place, borders):
            lines.append("border joint %(joint)s" % place if "joint" in place else "border cut %(track)s %(at_m)d" % place)
        for train, (start, sweeps) in zip(self.trains, plan):
            lines.append("run %s %d" % (train["name"], start))
            lines += ["sweep " + " ".join(self.cell_name(cell) + "-+"[end] for cell, end in sweep) for sweep in sweeps]
        return "\n".join(lines + ["end", ""])


def advance(speed_kmh, most):
    """A speed in cells a step."""
    cells = most if speed_kmh is None else speed_kmh * TIME_STEP * 5 // (18 * SPACE_STEP)
    return cells if most is None else min(cells, most)


def leads(kind, names):
    """Whether a passage leads between the ends of these tracks at a node of the kind."""
    if kind["kind"] == "point":
        return kind["tip"] in names and len(names) == 2
    if kind["kind"] == "crossing":
        return any(set(pair) == names for pair in kind["pairs"])
    return True


def is_stopped(train, start, sweeps):
    """Whether the train stands in its station as long as it has to."""
    standing = 0
    for step, sweep in enumerate(sweeps, start):
        stands = len(sweep) == train["length"] and all(cell in train["station"] for cell, _ in sweep)
        standing = standing + 1 if stands and step < train["until"] else 0
        if standing >= train["dwell"]:
            return True
    return train["dwell"] == 0


def sum_of(of, start, sweeps):
    """A number with a digit for each class of cells that is touched at a step."""
    bits = 0
    for step, sweep in enumerate(sweeps, start):
        for cell, _ in sweep:
            bits |= 1 << (step * len(of) + of[cell])
    return bits


def has_disjoint(choices, taken):
    """Whether one number of each list can be chosen so that no two share a digit with one another or with `taken`."""
    if not choices:
        return True
    return any(has_disjoint(choices[1:], taken | bits) for bits in choices[0] if not bits & taken)
