"""What a train can do alone: its sweeps, and how soon it can be at its goal where no other train is in its way."""


class Moves:
    """The sweeps of trains of one length and advance, found as they are asked for."""

    def __init__(self, scene, length, advance):
        self.scene, self.length, self.advance, self.known = scene, length, advance, {}

    def from_cells(self, begin):
        """All sweeps that begin with these directed cells."""
        if begin not in self.known:
            self.known[begin] = list(self.longer(begin))
        return self.known[begin]

    def longer(self, begin):
        cells, paths = self.scene.cells, [begin]
        while paths:
            path = paths.pop()
            ahead = len(path) - self.length
            if ahead > self.advance or ahead > 0 and any(cells[cell].limit < ahead for cell, _ in path):
                continue
            if ahead >= 0:
                yield path
            paths += [path + (step,) for step in self.scene.after[path[-1]] if all(step[0] != cell for cell, _ in path)]

    def standing(self, sweep):
        """What the train stands on behind a sweep."""
        return sweep[len(sweep) - self.length:]

    def count(self, most):
        """How many sweeps there are in the network, or any number above `most` where there are more."""
        found = 0
        for cell in range(len(self.scene.cells)):
            for end in (0, 1):
                for _ in self.longer(((cell, end),)):
                    found += 1
                    if found > most:
                        return found
        return found


def soonest(scene, train, last=None):
    """The step at which the train enters and the one at whose end it is at its goal, as soon as it can; None where it can't by the
    step `last`, its own last step where none is given. Breadth first over steps, stops and their windows with it."""
    last = train.by if last is None else last
    moves, full = Moves(scene, train.length, train.advance), (1 << len(train.stops)) - 1
    layer = {}
    for step in range(train.start, last + 1):
        fresh = {}
        if step <= train.latest:
            layer.setdefault((None, 0, (0,) * len(train.stops)), step)
        for (body, met, stood), entered in layer.items():
            for sweep in moves.from_cells((train.first,) if body is None else body):
                now_met, now_stood = after_stops(train, moves, sweep, step, met, stood)
                if now_met == full and sweep[-1] == train.goal:
                    return (step if body is None else entered), step
                fresh.setdefault((moves.standing(sweep), now_met, now_stood), step if body is None else entered)
        if step >= max([train.latest] + [stop.until for stop in train.stops]) and fresh.keys() == layer.keys():
            return None
        layer = fresh
    return None


def after_stops(train, moves, sweep, step, met, stood):
    """Which stops are met behind the sweep, and for how many steps in a row the train has stood for each."""
    now = [0] * len(train.stops)
    if len(sweep) == moves.length:
        for place, stop in enumerate(train.stops):
            if not met >> place & 1 and stop.first <= step < stop.until and all(cell in stop.cells for cell, _ in sweep):
                now[place] = stood[place] + 1
                if now[place] >= stop.dwell:
                    met, now[place] = met | 1 << place, 0
    return met, tuple(now)
