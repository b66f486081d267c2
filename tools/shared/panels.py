"""The routes along which a train graph is drawn, and where each cell lies on one."""

from places import nodes_of, way_of


class Panel:
    """A route and the tracks beside it, from left to right: the stretch of each cell, and its share of a step's height."""

    def __init__(self, scene, places, way):
        self.scene, self.places, nodes = scene, places, nodes_of(scene, way)
        lie = [places.x[node] for node in nodes]
        if lie[0] > lie[-1]:
            lie, nodes, way = lie[::-1], nodes[::-1], [(name, 1 - end) for name, end in reversed(way)]
        self.nodes, self.way = nodes, way
        self.is_shared = all(one < other for one, other in zip(lie, lie[1:]))
        self.stretch, self.share = {}, {}
        if self.is_shared:
            self.low, self.high = lie[0], lie[-1]
            self.put_tracks({name for name, _ in way}, places)
            self.put_beside(places)
        else:
            self.put_alone()
        self.names = {scene.cells[cell].track for cell in self.stretch}

    def put_tracks(self, names, places):
        for name in names:
            for cell in self.scene.cells_of[name]:
                self.stretch[cell] = tuple(sorted(places.of_cell(cell)))
                self.share[cell] = (0, 1)

    def put_alone(self):
        """The route alone, by its own cells: where the places of the layout fold it."""
        cells = self.route_cells()
        self.low, self.high = 0, len(cells)
        for place, cell in enumerate(cells):
            self.stretch[cell], self.share[cell] = (place, place + 1), (0, 1)

    def route_cells(self):
        return [cell for name, end in self.way for cell in self.scene.cells_of[name][::1 if end else -1]]

    def distances(self):
        """How far the begin and the end of each cell of the route are from its left end, in real metres, and where they lie."""
        done = 0
        for cell in self.route_cells():
            low, high = self.scene.cells[cell].metres
            yield done, done + high - low, self.stretch[cell]
            done += high - low

    def put_beside(self, places):
        """The tracks that leave the route and come back to it, in lanes of their own."""
        groups = []
        for names, nodes in self.parts_beside():
            held = [places.x[node] for node in nodes if node in self.nodes]
            inner = [places.x[node] for node in nodes]
            if len(held) > 1 and min(held) < max(held) and min(held) <= min(inner) and max(inner) <= max(held):
                self.put_tracks(names, places)
                groups.append((min(held), max(held)))
        for low, high in merged(groups):
            here = [cell for cell, (begin, behind) in self.stretch.items() if low <= begin and behind <= high]
            lanes = sorted({places.lane[self.scene.cells[cell].track] for cell in here})
            for cell in here:
                self.share[cell] = (lanes.index(places.lane[self.scene.cells[cell].track]), len(lanes))

    def parts_beside(self):
        """The parts into which the network falls where the route is taken out: the tracks of each, and the nodes at their ends."""
        left = {name: track for name, track in self.scene.tracks.items() if name not in {name for name, _ in self.way}}
        while left:
            name, track = left.popitem()
            names, nodes = {name}, {track["from"], track["to"]}
            while True:
                more = [name for name, track in left.items() if {track["from"], track["to"]} & (nodes - set(self.nodes))]
                if not more:
                    break
                for name in more:
                    track = left.pop(name)
                    names.add(name)
                    nodes |= {track["from"], track["to"]}
            yield names, nodes

    def is_turned(self, cell):
        """Whether the end of the cell towards the node that its track runs from lies at the right."""
        toward = dict(self.way).get(self.scene.cells[cell].track)
        low, high = self.places.of_cell(cell)
        return low > high if toward is None else toward == 0

    def end_of(self, cell, end):
        """Where the low (0) or high (1) end of the cell lies."""
        return self.stretch[cell][1 - end if self.is_turned(cell) else end]

    def covers(self, sweeps):
        return all(cell in self.stretch for sweep in sweeps for cell, _ in sweep)


def merged(stretches):
    found = []
    for low, high in sorted(stretches):
        if found and low < found[-1][1]:
            found[-1] = (found[-1][0], max(high, found[-1][1]))
        else:
            found.append((low, high))
    return found


def panels_of(scene, places, runs):
    """The main route, and one more for each train that leaves those before it."""
    found = []
    ways = [way_of(scene, sweeps) for _, sweeps in runs.values()]
    ways.sort(key=lambda way: not way or way[0][0] not in places.chains[0].tracks or way[-1][0] not in places.chains[0].tracks)
    order = sorted(runs.values(), key=lambda run: ways.index(way_of(scene, run[1])))
    for _, sweeps in order:
        way = way_of(scene, sweeps)
        if way and not any(panel.covers(sweeps) for panel in found):
            found.append(Panel(scene, places, way))
    return found
