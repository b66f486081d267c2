"""Where the tracks of a network lie on a page: how far along, in cells, and in which lane, above or below the main route.

The longest way of a train is the main route, straight in lane 0. All else is hung on it: a chain of tracks between two places that lie
already is drawn out between them, a chain to a dead end goes on in the direction in which trains pass.
"""


class Chain:
    """Tracks one behind the other, with the nodes between them, in one lane."""

    def __init__(self, tracks, nodes):
        self.tracks, self.nodes, self.lane = tracks, nodes, 0


def way_of(scene, sweeps):
    """The tracks of a run, each with the end that it heads to, without turns that come back; none where it isn't one way."""
    way = []
    for sweep in sweeps:
        for cell, end in sweep:
            step = scene.cells[cell].track, end
            way = way[:way.index(step) + 1] if step in way else way + [step]
    nodes = nodes_of(scene, way)
    return way if nodes is not None and len(set(nodes)) == len(nodes) else []


def nodes_of(scene, way):
    """The nodes along a way; none where its tracks don't hang together."""
    nodes = []
    for name, end in way:
        begin, behind = (scene.tracks[name]["from"], scene.tracks[name]["to"])[::1 if end else -1]
        if nodes and nodes[-1] != begin:
            return None
        nodes = nodes or [begin]
        nodes.append(behind)
    return nodes


def length_of(scene, way):
    return sum(len(scene.cells_of[name]) for name, _ in way)


class Places:
    """The place of each node, in cells along the page, and the lane of each track."""

    def __init__(self, scene, ways):
        self.scene, self.x, self.lane, self.chains = scene, {}, {}, []
        self.at = {name: [] for name in scene.node}
        for name, track in scene.tracks.items():
            for end, other in (("from", "to"), ("to", "from")):
                self.at[track[end]].append((name, track[other]))
        main = max(ways, key=lambda way: length_of(scene, way), default=[])
        if sum(end for _, end in main) * 2 < len(main):
            main = [(name, 1 - end) for name, end in reversed(main)]
        if main:
            self.put([name for name, _ in main], nodes_of(scene, main), 0, 1)
        while len(self.lane) < len(scene.tracks):
            self.put_next()

    def open_tracks(self, node):
        return [(name, other) for name, other in self.at[node] if name not in self.lane]

    def put_next(self):
        """Places one more chain."""
        lie = sorted((node for node in self.x if self.open_tracks(node)), key=lambda node: (self.x[node], node))
        for is_ear in (True, False):
            for node in lie:
                chain = self.chain_from(node, is_ear)
                if chain:
                    self.put(*chain, self.x[node], None if is_ear else self.heading(node, chain[0][0]))
                    return
        name, track = next((name, track) for name, track in self.scene.tracks.items() if name not in self.lane)
        self.put([name], [track["from"], track["to"]], 0, 1)

    def chain_from(self, begin, is_ear):
        """Over open tracks the shortest chain to another node that lies, or the one to the node that is farthest off."""
        back, queue, far = {begin: None}, [begin], {begin: 0}
        for node in queue:
            for name, other in self.open_tracks(node):
                if other in back or other in self.x and not is_ear:
                    continue
                back[other] = (node, name)
                if other in self.x:
                    return self.chain_back(back, other)
                queue.append(other)
                far[other] = far[node] + len(self.scene.cells_of[name])
        last = max(queue, key=far.get)
        return self.chain_back(back, last) if last != begin and not is_ear else None

    @staticmethod
    def chain_back(back, node):
        tracks, nodes = [], [node]
        while back[node]:
            node, name = back[node]
            tracks.insert(0, name)
            nodes.insert(0, node)
        return tracks, nodes

    def heading(self, node, name):
        """Whether a track that hangs on a node goes on to the right (1) or to the left (-1)."""
        kind = self.scene.node[node]
        lying = [(track, other) for track, other in self.at[node] if track in self.lane]
        if kind["kind"] == "point" and name != kind["tip"]:
            lying = [it for it in lying if it[0] == kind["tip"]] or lying
        if kind["kind"] == "crossing":
            pair = next(pair for pair in kind["pairs"] if name in pair)
            lying = [it for it in lying if it[0] in pair]
            if not lying:
                return -1
        return 1 if not lying or self.x[lying[0][1]] < self.x[node] else -1

    def put(self, tracks, nodes, begin, heading):
        """Places a chain from its first node on: between the places of both its ends, or in a direction."""
        lengths = [len(self.scene.cells_of[name]) for name in tracks]
        far = self.x.get(nodes[-1])
        scale = heading if heading else (far - begin) / sum(lengths) or 1e-6
        done = 0
        for node, length in zip(nodes, [0] + lengths):
            done += length
            self.x.setdefault(node, begin + scale * done)
        chain = Chain(tracks, nodes)
        chain.lane = self.free_lane(chain)
        self.chains.append(chain)
        for name in tracks:
            self.lane[name] = chain.lane

    def stretch(self, chain):
        places = [self.x[node] for node in chain.nodes]
        return min(places), max(places)

    def free_lane(self, chain):
        """The next lane that is free there: below the main route, or on the other side of a crossing."""
        low, high = self.stretch(chain)
        side = 1
        node = self.scene.node[chain.nodes[0]]
        if node["kind"] == "crossing" and self.chains:
            pair = next(pair for pair in node["pairs"] if chain.tracks[0] in pair)
            side = -1 if any(self.lane.get(name, 0) > 0 for name in pair) else 1
        for lane in [0] * (not self.chains) + [sign * size for size in range(1, len(self.scene.tracks) + 2) for sign in (side, -side)]:
            others = [self.stretch(other) for other in self.chains if other.lane == lane]
            if all(high <= other_low or low >= other_high for other_low, other_high in others):
                return lane
        return 0

    def of_cell(self, cell):
        """Where a cell lies, from its end towards `from` to the other one."""
        it = self.scene.cells[cell]
        return self.along(it.track, it.place), self.along(it.track, it.place + 1)

    def along(self, name, cells):
        """Where a place of a track lies, so many cells from its node `from`."""
        begin, behind = (self.x[self.scene.tracks[name][member]] for member in ("from", "to"))
        return begin + (behind - begin) * cells / len(self.scene.cells_of[name])
