"""The drawing of a network's tracks with its section ends, borders and stations."""

from cutting import place_text
from svg import text_width

LANE = 30
INK, GREY, FOUND, KEPT, STATION = "#222222", "#777777", "#c2185b", "#00695c", "#e8eef7"


class TrackLayout:
    """Draws the tracks below `top`; `to_x` turns cells along the page into places on it."""

    def __init__(self, page, scene, places, to_x, top):
        self.page, self.scene, self.places, self.to_x = page, scene, places, to_x
        lanes = [chain.lane for chain in places.chains]
        self.base = top + 34 - LANE * min(lanes, default=0)
        self.bottom = self.base + LANE * max(lanes, default=0) + 34
        self.ramps = {name: chain for chain in places.chains for name in chain.tracks}

    def lane_y(self, lane):
        return self.base + LANE * lane

    def node_y(self, node):
        """A node lies in the lane of the chain that was placed first of those that end or pass there."""
        return self.lane_y(next(chain.lane for chain in self.places.chains if node in chain.nodes))

    def point(self, name, cells):
        """Where a place of a track lies on the page, so many cells from its node `from`: on its lane, or on the ramp that leads to it."""
        chain = self.ramps[name]
        x, y = self.to_x(self.places.along(name, cells)), self.lane_y(chain.lane)
        begin, behind = (self.to_x(self.places.x[chain.nodes[place]]) for place in (0, -1))
        ramp = min(22, abs(behind - begin) * 0.3) or 1
        for node, at in ((chain.nodes[0], begin), (chain.nodes[-1], behind)):
            if abs(x - at) < ramp:
                y += (self.node_y(node) - y) * (1 - abs(x - at) / ramp)
        return x, y

    def points(self, name):
        """The line of a track, with the ends of ramps."""
        count = len(self.scene.cells_of[name])
        steps = max(2, int(abs(self.point(name, count)[0] - self.point(name, 0)[0]) / 4))
        return [self.point(name, count * step / steps) for step in range(steps + 1)]

    def draw(self, borders):
        self.draw_stations()
        for name, track in self.scene.tracks.items():
            line = self.points(name)
            self.page.path(straightened(line), INK if track.get("virtual", True) else GREY, 2.2)
            for (left, one), (right, other) in zip(line, line[1:]):
                self.page.keep_free(min(left, right), min(one, other) - 2, max(left, right), max(one, other) + 2)
        self.draw_nodes()
        for place in borders:
            self.draw_border(place)
        self.name_ends()
        self.name_borders(borders)
        self.name_tracks()
        self.name_nodes()

    def draw_stations(self):
        """A field behind a station's tracks, and its name above them."""
        for name, cells in self.scene.stations.items():
            spots = [self.point(self.scene.cells[cell].track, self.scene.cells[cell].place + end) for cell in cells for end in (0, 1)]
            left, right = min(x for x, _ in spots), max(x for x, _ in spots)
            top, bottom = min(y for _, y in spots) - 9, max(y for _, y in spots) + 9
            self.page.rect(left, top, right - left, bottom - top, STATION, title=f"station {name}", rx=3)
            middle = (left + right) / 2
            self.page.label(name, [(middle, top - 4, "middle"), (middle, top - 16, "middle"), (middle, bottom + 12, "middle")], 12,
                            font_weight="bold")

    def draw_nodes(self):
        """A bar across the track where two sections meet; a dot at points and crossings; a buffer at ends."""
        for node, ends in self.scene.ends.items():
            if isinstance(node, tuple):
                continue
            x, y = self.to_x(self.places.x[node]), self.node_y(node)
            kind = self.scene.node[node]["kind"]
            sections = {self.scene.cells[cell].section for cell, _ in ends}
            if kind == "end" or len(sections) > 1:
                self.page.line(x, y - 7, x, y + 7, INK, 3 if kind == "end" else 2)
            elif kind in ("point", "crossing"):
                self.page.add("circle", cx=x, cy=y, r=2.5, fill=INK)

    def border_point(self, place):
        if place[0] == "cut":
            return self.point(place[1], place[2] / self.scene.space)
        return self.to_x(self.places.x[place[1]]), self.node_y(place[1])

    def draw_border(self, place):
        """A rhombus on the track: filled where the border is kept."""
        x, y = self.border_point(place)
        color = KEPT if place in self.scene.kept else FOUND
        self.page.add("path", f"<title>border {place_text(place)}</title>", d=f"M {x:.1f} {y - 7:.1f} l 5 7 l -5 7 l -5 -7 z",
                      fill=color if place in self.scene.kept else "#ffffff", stroke=color, stroke_width=2)
        self.page.keep_free(x - 7, y - 9, x + 7, y + 9)

    def name_ends(self):
        for node, it in self.scene.node.items():
            x, y = self.to_x(self.places.x[node]), self.node_y(node)
            if it["kind"] == "end":
                (name, other), = self.places.at[node]
                is_left = self.places.x[node] < self.places.x[other]
                spots = [(x - 8, y + 4, "end"), (x, y - 10, "middle")] if is_left else [(x + 8, y + 4, "start"), (x, y - 10, "middle")]
                self.page.label(node, spots, 12, font_weight="bold")

    def name_borders(self, borders):
        for place in borders:
            x, y = self.border_point(place)
            text = f"{place[2]:,} m" if place[0] == "cut" else place[1]
            self.page.label(text, [(x, y + 18, "middle"), (x, y - 10, "middle"), (x, y + 29, "middle")], 9,
                            fill=KEPT if place in self.scene.kept else FOUND)

    def name_tracks(self):
        for name in self.scene.tracks:
            count = len(self.scene.cells_of[name])
            (left, _), (right, _) = sorted((self.point(name, 0), self.point(name, count)))
            size = next((size for size in (9, 8) if text_width(name, size) < right - left), None)
            spots = [self.point(name, count * part / 8) for part in (4, 3, 5, 2, 6)]
            if size:
                self.page.label(name, [(x, y + up, "middle") for up in (-5, 12) for x, y in spots], size, fill=GREY)

    def name_nodes(self):
        """Points, crossings and joints, where their names find room."""
        for node, it in self.scene.node.items():
            x, y = self.to_x(self.places.x[node]), self.node_y(node)
            if it["kind"] != "end":
                self.page.label(node, [(x, y + 17, "middle"), (x, y - 10, "middle")], 8, fill=GREY)


def straightened(points):
    """The line without the points that lie straight between their neighbours."""
    kept = points[:1]
    for one, here, other in zip(points, points[1:], points[2:]):
        if abs((here[0] - one[0]) * (other[1] - here[1]) - (here[1] - one[1]) * (other[0] - here[0])) > 0.01:
            kept.append(here)
    return kept + points[-1:]
