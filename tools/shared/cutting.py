"""A network and a timetable cut into cells and steps, as docs/RULES.md says."""

from documents import Fault

MOST = {"cells": 1000, "candidates": 512, "trains": 32, "steps": 400, "cells long": 64, "cells a step": 20}


def ceil_div(a, b):
    return -(-a // b)


class Cell:
    """A cell: its track and place on it, its section, its limit, its two nodes, and its two ends in metres of the track."""

    def __init__(self, track, place, section, limit, nodes, metres):
        self.track, self.place, self.section, self.limit, self.nodes, self.metres = track, place, section, limit, nodes, metres


class Stop:
    """A stop: its station, the station's cells, the first step and the step behind the last one, the dwell, in steps."""

    def __init__(self, scene, entry):
        self.entry, self.station = entry, entry["station"]
        self.cells = scene.stations[self.station]
        self.first = ceil_div(entry.get("from_s", 0), scene.time)
        self.until = entry.get("until_s", scene.horizon_s) // scene.time
        self.dwell = max(1, ceil_div(entry["dwell_s"], scene.time))


class Train:
    """A train in cells and steps: where it enters and leaves as directed cells, its first and last step of entry, its last step."""

    def __init__(self, scene, entry):
        self.entry, self.name = entry, entry["name"]
        self.length = ceil_div(entry["length_m"], scene.space)
        self.advance = scene.advance_of(entry["speed_kmh"])
        self.start = ceil_div(entry["entry_s"], scene.time)
        self.by = min(scene.steps, entry.get("arrive_s", scene.horizon_s) // scene.time) - 1
        self.latest = min(self.by, entry["entry_until_s"] // scene.time) if "entry_until_s" in entry else self.start
        (cell, end), = scene.ends[entry["from"]]
        self.first = (cell, 1 - end)
        self.goal, = scene.ends[entry["to"]]
        self.stops = [Stop(scene, stop) for stop in entry.get("stops", [])]


class Scene:
    """Cells, what follows what, candidates, stations and trains. A directed cell is a cell and the end that it heads to: 0 low, 1 high."""

    def __init__(self, network, timetable):
        self.network = network
        self.space, self.time, self.horizon_s = timetable["space_step_m"], timetable["time_step_s"], timetable["horizon_s"]
        self.steps = self.horizon_s // self.time
        self.tracks = {track["name"]: track for track in network["tracks"]}
        self.node = {node["name"]: node for node in network["nodes"]}
        self.cut_tracks()
        self.join_cells()
        self.find_candidates()
        self.stations = {station["name"]: {cell for name in station["tracks"] for cell in self.cells_of[name]}
                         for station in network.get("stations", [])}
        self.trains = [Train(self, entry) for entry in timetable["trains"]]

    def advance_of(self, speed_kmh):
        return speed_kmh * self.time * 5 // (18 * self.space)

    def cut_tracks(self):
        section = {name: item["name"] for item in self.network["sections"] for name in item["tracks"]}
        self.cells, self.cells_of, self.ends = [], {}, {name: [] for name in self.node}
        for name, track in self.tracks.items():
            count = ceil_div(track["length_m"], self.space)
            limit = min(20, self.advance_of(track["limit_kmh"])) if "limit_kmh" in track else 20
            nodes = [track["from"], *((name, place) for place in range(1, count)), track["to"]]
            self.cells_of[name] = list(range(len(self.cells), len(self.cells) + count))
            for place in range(count):
                for end in (0, 1):
                    self.ends.setdefault(nodes[place + end], []).append((len(self.cells), end))
                metres = (place * self.space, min((place + 1) * self.space, track["length_m"]))
                self.cells.append(Cell(name, place, section[name], limit, nodes[place:place + 2], metres))

    def leads(self, node, one, other):
        """Whether a passage leads between two cells at a node."""
        if isinstance(node, tuple):
            return True
        kind, names = self.node[node]["kind"], {self.cells[one].track, self.cells[other].track}
        if kind == "point":
            return self.node[node]["tip"] in names and len(names) == 2
        return kind == "joint" or any(names == set(pair) for pair in self.node[node].get("pairs", []))

    def join_cells(self):
        self.after = {}
        for cell, it in enumerate(self.cells):
            for end in (0, 1):
                self.after[cell, end] = [(other, 1 - there) for other, there in self.ends[it.nodes[end]]
                                         if other != cell and self.leads(it.nodes[end], cell, other)]

    def find_candidates(self):
        """Where a virtual border may stand, as a report names it, in its order; and which of these the network keeps."""
        self.candidates = {}
        for name, node in self.node.items():
            here = [self.cells[cell] for cell, _ in self.ends[name]]
            if node["kind"] == "joint" and len({it.section for it in here}) == 1 and \
                    all(self.tracks[it.track].get("virtual", True) for it in here):
                self.candidates["joint", name] = name
        for name, track in self.tracks.items():
            if track.get("virtual", True):
                for place in range(1, len(self.cells_of[name])):
                    self.candidates["cut", name, place * self.space] = (name, place)
        self.kept = {("joint", border["joint"]) if "joint" in border else ("cut", border["track"], border["at_m"])
                     for border in self.network.get("borders", [])}

    def classes(self, borders):
        """The virtual sub-section of each cell under the borders: the lowest cell that it is linked with."""
        stand = {self.candidates[place] for place in borders if place in self.candidates}
        of = list(range(len(self.cells)))

        def lowest(cell):
            while of[cell] != cell:
                of[cell] = of[of[cell]]
                cell = of[cell]
            return cell

        for node, here in self.ends.items():
            for (one, _), (other, _) in zip(here, here[1:]):
                if node not in stand and self.cells[one].section == self.cells[other].section:
                    one, other = sorted((lowest(one), lowest(other)))
                    of[other] = one
        return [lowest(cell) for cell in range(len(self.cells))]

    def faults(self):
        """Why the program refuses the grid, in plain words: all that is wrong."""
        sizes = {"cells": len(self.cells), "candidates": len(self.candidates), "trains": len(self.trains), "steps": self.steps}
        remedies = {"cells": "take a longer space_step_m", "trains": "ask about fewer trains at once",
                    "candidates": "take a longer space_step_m, or mark tracks \"virtual\": false",
                    "steps": "take a longer time_step_s, or an earlier horizon_s"}
        for what, size in sizes.items():
            if size > MOST[what]:
                yield f"there are {size} {what}, more than {MOST[what]}: {remedies[what]}"
        for name, track in self.tracks.items():
            if "limit_kmh" in track and self.advance_of(track["limit_kmh"]) == 0:
                yield f"track {name}: at {track['limit_kmh']} km/h no train advances a cell in a step: shorter cells or longer steps"
        for place in sorted(self.kept - set(self.candidates)):
            yield f"the kept border {place_text(place)} is at no cut between cells: move it, or take a space_step_m that divides it"
        for train in self.trains:
            for line in self.train_faults(train):
                yield f"train {train.name}: {line}"

    def train_faults(self, train):
        entry = train.entry
        if train.advance == 0:
            yield f"at {entry['speed_kmh']} km/h it doesn't advance a cell in a step: take shorter cells or longer steps"
        if train.advance > MOST["cells a step"]:
            yield f"it advances {train.advance} cells in a step, more than 20: take longer cells or shorter steps"
        if train.length > MOST["cells long"]:
            yield f"it is {train.length} cells long, more than 64: take longer cells"
        if train.start >= self.steps:
            yield f"no step is left at its entry: entry_s {entry['entry_s']}, and {self.steps} steps of {self.time} s"
        elif train.by < train.start:
            yield f"no step is left from its entry, step {train.start}, to its arrival by {entry.get('arrive_s', self.horizon_s)} s"
        elif train.latest < train.start:
            yield f"no step begins from entry_s {entry['entry_s']} to entry_until_s {entry['entry_until_s']}: let the window end later"
        for stop in train.stops:
            if stop.first + stop.dwell > stop.until:
                yield f"its stop at {stop.station} takes {stop.dwell} steps, and only {max(0, stop.until - stop.first)} lie in its times"

    def need_good(self):
        faults = list(self.faults())
        if faults:
            raise Fault(faults)


def place_text(place):
    """A place of a border in plain words."""
    return f"at joint {place[1]}" if place[0] == "joint" else f"at {place[2]:,} m of {place[1]}"


def clock(seconds, begin=0):
    """A time in the timetable as hours, minutes and seconds, from its start or, with `begin`, of the day."""
    hours, rest = divmod(int(seconds) + begin, 3600)
    return f"{hours}:{rest // 60:02}:{rest % 60:02}"
