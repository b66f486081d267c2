"""How large a question is: sweeps, and the variables, clauses and literals of its formula, by the list of docs/CLAUSES.md.

Counted for a free layout, with the unit of its bound, as `generate` and `optimise` ask. In a section that closes a ring two cells have more than
one walk between them; one is counted, so that clauses and literals are too few there.
"""

from alone import Moves

MOST = {"sweeps": 50_000, "variables": 2_000_000, "clauses": 8_000_000, "literals": 32_000_000}


class Counted:
    """Variables, clauses and literals, added up."""

    def __init__(self):
        self.variables = self.clauses = self.literals = 0

    def add(self, clauses, literals_each):
        self.clauses += clauses
        self.literals += clauses * literals_each


class Cone:
    """The sweeps of a train, and for each how many steps behind the first entry it can come and before the last step it has to."""

    def __init__(self, train, sweeps):
        self.train, self.sweeps, self.last = train, sweeps, train.by - train.start
        begins = {}
        for number, sweep in enumerate(sweeps):
            begins.setdefault(sweep[:train.length], []).append(number)
        self.next = [begins.get(sweep[len(sweep) - train.length:], []) for sweep in sweeps]
        before = [[] for _ in sweeps]
        for number, following in enumerate(self.next):
            for other in following:
                before[other].append(number)
        self.entries = [number for number, sweep in enumerate(sweeps) if sweep[0] == train.first]
        self.goals = {number for number, sweep in enumerate(sweeps) if sweep[-1] == train.goal}
        self.ahead, self.home = distances(self.entries, self.next), distances(self.goals, before)
        self.used = [number for number in range(len(sweeps)) if self.ahead.get(number, self.last + 1) + self.home.get(number, 0) <= self.last
                     and number in self.home]

    def steps_of(self, number):
        """At how many steps the train can have the sweep."""
        return self.last - self.home[number] - self.ahead[number] + 1

    def has(self, number, step):
        """Whether the sweep is in the cone of the step, counted from the train's first."""
        return self.ahead.get(number, self.last + 1) <= step <= self.last - self.home.get(number, self.last + 1)


def distances(begin, following):
    """How many steps each sweep is behind these, where it can be reached from them."""
    found, layer = {number: 0 for number in begin}, list(begin)
    while layer:
        fresh = []
        for number in layer:
            for other in following[number]:
                if other not in found:
                    found[other] = found[number] + 1
                    fresh.append(other)
        layer = fresh
    return found


def sizes_of(scene):
    """The sizes of the formula; None where a train has too many sweeps, and the name of that train."""
    tables = {}
    for train in scene.trains:
        kind = train.length, train.advance
        if kind not in tables:
            moves = Moves(scene, *kind)
            if moves.count(MOST["sweeps"]) > MOST["sweeps"]:
                return None, train.name
            tables[kind] = [sweep for cell in range(len(scene.cells)) for end in (0, 1) for sweep in moves.longer(((cell, end),))]
    counted = Counted()
    counted.variables = len(scene.candidates)
    counted.add(len(scene.kept & set(scene.candidates)), 1)
    add_sections(scene, counted)
    for train in scene.trains:
        add_train(scene, counted, train, Cone(train, tables[train.length, train.advance]))
    add_pairs(scene, counted)
    add_counter(counted, len(scene.candidates))
    counted.add(1, 1)
    return counted, max((len(table) for table in tables.values()), default=0)


def section_sizes(scene):
    sizes = {}
    for cell in scene.cells:
        sizes[cell.section] = sizes.get(cell.section, 0) + 1
    return sizes


def closes_ring(scene):
    """Whether some section does: it has at least as many cells as nodes."""
    nodes = {}
    for cell in scene.cells:
        nodes.setdefault(cell.section, set()).update(cell.nodes)
    return any(size >= len(nodes[section]) for section, size in section_sizes(scene).items())


def add_sections(scene, counted):
    """A gap for each two cells of a section, and the clause of its walk: the gap, and each candidate on the walk."""
    pairs = sum(size * (size - 1) // 2 for size in section_sizes(scene).values())
    counted.variables += pairs
    counted.add(pairs, 1)
    for node in scene.candidates.values():
        (low, _), (high, _) = scene.ends[node]
        size = part_beyond(scene, low, node)
        whole = sum(cell.section == scene.cells[low].section for cell in scene.cells)
        counted.literals += size * (whole - size) if high is not None else 0


def part_beyond(scene, cell, without):
    """How many cells of the section are linked with the cell where nothing parts them but this node."""
    seen, queue = {cell}, [cell]
    for one in queue:
        for node in scene.cells[one].nodes:
            for other, _ in scene.ends[node] if node != without else []:
                if other not in seen and scene.cells[other].section == scene.cells[cell].section:
                    seen.add(other)
                    queue.append(other)
    return len(seen)


def add_train(scene, counted, train, cone):
    steps, waits = cone.last + 1, train.latest - train.start
    in_cone = sum(cone.steps_of(number) for number in cone.used)
    counted.variables += in_cone + steps * len(scene.cells) + steps - 1 + waits
    entries = sum(max(0, min(waits, cone.last - cone.home[number]) + 1) for number in cone.entries if number in cone.home)
    counted.add(waits + 1, 0)
    counted.literals += entries + 2 * waits
    first = sum(cone.ahead[number] == 0 for number in cone.used)
    for number in cone.used:
        going_on = min(cone.last - cone.home[number], cone.last - 1) - cone.ahead[number] + 1
        counted.add(going_on, 1 + (number in cone.goals))
        counted.literals += sum(follows_at(cone, number, other) for other in cone.next[number] if other in cone.home)
        counted.add(cone.steps_of(number) * len(cone.sweeps[number]), 2)
    counted.add(max(0, steps - 2), 2)
    counted.add(in_cone - first, 2)
    for stop in train.stops:
        add_stop(counted, train, cone, stop)


def follows_at(cone, number, other):
    """At how many steps the train can have the sweep, and at the next one the other."""
    begin = max(cone.ahead[number], cone.ahead[other] - 1)
    return max(0, min(cone.last - cone.home[number], cone.last - cone.home[other] - 1) - begin + 1)


def add_stop(counted, train, cone, stop):
    begins = range(max(stop.first, train.start), min(stop.until, train.by + 1) + 1 - stop.dwell)
    counted.variables += len(begins)
    counted.add(1, len(begins))
    counted.add(sum(begin + stop.dwell - 1 > train.start for begin in begins), 2)
    others = [number for number in cone.used
              if len(cone.sweeps[number]) > train.length or any(cell not in stop.cells for cell, _ in cone.sweeps[number])]
    at = [sum(cone.has(number, step) for number in others) for step in range(cone.last + 1)]
    counted.add(sum(at[step - train.start] for begin in begins for step in range(begin, begin + stop.dwell)), 2)
    counted.add(sum(begin < train.latest for begin in begins), 2)


def add_pairs(scene, counted):
    """Any two trains, at each step of both, are apart."""
    cells, pairs = len(scene.cells), sum(size * size for size in section_sizes(scene).values())
    for place, one in enumerate(scene.trains):
        for other in scene.trains[place + 1:]:
            steps = max(0, min(one.by, other.by) - max(one.start, other.start) + 1)
            counted.add(steps * cells, 2)
            counted.add(steps * (pairs - cells), 3)


def add_counter(counted, n):
    counted.variables += n * (n + 1) // 2
    if n:
        counted.add(2, 2)
        counted.add(2 * (n - 1), 2)
        counted.add(n - 1, 3)
        counted.add(n - 1, 3)
        counted.add(2 * (n - 1), 2)
        inner = (n - 1) * (n - 2) // 2
        counted.add(inner, 2)
        counted.add(3 * inner, 3)
        counted.add(n - 1, 2)
