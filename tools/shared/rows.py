"""A run step by step, in metres and seconds."""

from cutting import clock


class Row:
    """A step of a run: what the train touches in metres of each track, how far its head is on its way, its advance, its stations."""

    def __init__(self, scene, train, step, sweep, way_m):
        advance = len(sweep) - train.length
        self.step, self.touches, self.way_m = step, ", ".join(stretches(scene, sweep)), way_m
        self.advance_m = advance * scene.space
        self.speed_kmh = self.advance_m * 3.6 / scene.time
        self.stands_in = sorted(name for name, cells in scene.stations.items()
                                if advance == 0 and all(cell in cells for cell, _ in sweep))


def stretches(scene, sweep):
    """The stretch of each track that a sweep touches, from tail to head."""
    parts = []
    for cell, end in sweep:
        it = scene.cells[cell]
        begin, behind = it.metres if end else it.metres[::-1]
        if parts and parts[-1][0] == it.track and parts[-1][2] == begin:
            parts[-1][2] = behind
        else:
            parts.append([it.track, begin, behind])
    return [f"{track} {begin}-{behind}" for track, begin, behind in parts]


def rows_of(scene, train, start, sweeps):
    """The rows of a run. Its way begins at the node where it enters; a head's place on it is the end of its foremost cell."""
    rows, way = [], 0
    for place, sweep in enumerate(sweeps):
        for cell, _ in sweep if place == 0 else sweep[train.length:]:
            low, high = scene.cells[cell].metres
            way += high - low
        rows.append(Row(scene, train, start + place, sweep, way))
    return rows


def stands(train, stop, run):
    """The steps of each stand of the run in the stop's station: the first one and the one behind the last."""
    start, sweeps = run
    found = []
    for step, sweep in enumerate(sweeps, start):
        if len(sweep) == train.length and all(cell in stop.cells for cell, _ in sweep):
            if found and found[-1][1] == step:
                found[-1][1] = step + 1
            else:
                found.append([step, step + 1])
    return found


def is_met(train, stop, run):
    return any(min(behind, stop.until) - max(first, stop.first) >= stop.dwell for first, behind in stands(train, stop, run))


def stand_text(scene, train, stop, run, begin):
    times = [f"{clock(first * scene.time, begin)} to {clock(behind * scene.time, begin)}" for first, behind in stands(train, stop, run)]
    return f"stands {' and '.join(times)}" if times else "never stands there"
