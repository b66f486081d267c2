"""The drawing of runs along one route: time downwards, distance to the right."""

from cutting import clock, place_text
from track_layout import FOUND, GREY, INK, KEPT, STATION

COLORS = ["#1f77b4", "#d9731a", "#2c8c3c", "#8e5bb5", "#b8860b", "#12a1a8", "#c2477f", "#7a5c46", "#5a6acf", "#6b8e23", "#b03a2e", "#3f6f7f"]
DARK = ["#0d3c5c", "#7a3d08", "#134a1d", "#4a2b63", "#5e4405", "#07585c", "#6b2044", "#402f23", "#2b3679", "#3a4d12", "#5f1d16", "#1f3a44"]


def ticks(metres):
    """Round distances up to that one, at most a dozen."""
    step = next(size * 10 ** power for power in range(1, 7) for size in (1, 2, 5) if metres / (size * 10 ** power) <= 12)
    return [step * place for place in range(metres // step + 1)]


class TrainGraph:
    """Draws one panel below `top`: rows of steps, `row` high."""

    def __init__(self, page, scene, panel, to_x, top, row, steps, begin):
        self.page, self.scene, self.panel, self.to_x, self.begin = page, scene, panel, to_x, begin
        self.left, self.right = to_x(panel.low), to_x(panel.high)
        self.top, self.row, self.steps = top + 62, row, steps
        self.bottom = self.top + row * steps
        self.margins = {}

    def y(self, step):
        return self.top + self.row * step

    def draw(self, borders, runs, label_room):
        self.draw_ground(label_room)
        of = self.scene.classes(borders)
        for place, train in enumerate(self.scene.trains):
            self.draw_run(train, runs[train.name], of, COLORS[place % len(COLORS)])
        self.draw_marks(borders)
        for place, train in enumerate(self.scene.trains):
            self.draw_front(train, runs[train.name], DARK[place % len(DARK)])
            self.note_margins(train, runs[train.name], DARK[place % len(DARK)])
        self.put_margins()

    def draw_ground(self, label_room):
        """The title, the ruler, the fields of stations and the lines of time."""
        page, panel, mark = self.page, self.panel, self.top - 6
        page.text(f"{panel.nodes[0]} to {panel.nodes[-1]}", self.left, self.top - 44, 13, font_weight="bold")
        for name, low, high in self.station_fields():
            page.rect(low, self.top, high - low, self.bottom - self.top, STATION)
            page.label(name, [((low + high) / 2, self.top - 26, "middle"), ((low + high) / 2, self.top - 38, "middle")], 11, font_weight="bold")
        spots = list(panel.distances())
        for tick in ticks(spots[-1][1]):
            begin, behind, (left, right) = next(spot for spot in spots if spot[0] <= tick <= spot[1])
            x = self.to_x(left + (right - left) * (tick - begin) / (behind - begin))
            page.line(x, self.top - 4, x, self.top, GREY)
            page.label(f"{tick / 1000:g}", [(x, mark - 1, "middle")], 9, fill=GREY)
        page.label("km", [(self.left - label_room - 8, mark - 1, "end")], 9, fill=GREY)
        every = next(size for size in (1, 2, 5, 10, 20, 50, 100) if size * self.row >= 22)
        for step in range(self.steps + 1):
            is_marked = step % every == 0
            page.line(self.left, self.y(step), self.right, self.y(step), "#c4c4c4" if is_marked else "#ececec", 1 if is_marked else 0.6)
            if is_marked:
                page.text(clock(step * self.scene.time, self.begin), self.left - label_room - 8, self.y(step) + 3, 9, "end", fill=GREY)
        page.line(self.left, self.top, self.left, self.bottom, GREY)
        page.line(self.right, self.top, self.right, self.bottom, GREY)

    def station_fields(self):
        for name, cells in self.scene.stations.items():
            here = [self.panel.stretch[cell] for cell in cells if cell in self.panel.stretch]
            if here:
                yield name, self.to_x(min(low for low, _ in here)), self.to_x(max(high for _, high in here))

    def fields(self, cells, step):
        """The fields of these cells in a step, those that lie side by side as one: left, top, width, height."""
        found = []
        for cell in sorted((cell for cell in cells if cell in self.panel.stretch), key=lambda cell: (self.panel.share[cell], self.panel.stretch[cell])):
            (low, high), (place, of) = self.panel.stretch[cell], self.panel.share[cell]
            low, high, y, height = self.to_x(low), self.to_x(high), self.y(step) + self.row * place / of, self.row / of
            if found and found[-1][1] == y and found[-1][3] == height and abs(found[-1][0] + found[-1][2] - low) < 0.01:
                found[-1][2] = high - found[-1][0]
            else:
                found.append([low, y, high - low, height])
        return found

    def draw_run(self, train, run, of, color):
        """What the train touches in each step, and paler all that is linked with it, which no other train may touch."""
        start, sweeps = run
        members = {}
        for cell, kind in enumerate(of):
            members.setdefault(kind, []).append(cell)
        for step, sweep in enumerate(sweeps, start):
            touched = {cell for cell, _ in sweep}
            held = {cell for kind in {of[cell] for cell in touched} for cell in members[kind]} - touched
            for x, y, width, height in self.fields(held, step):
                self.page.rect(x, y, width, height, color, fill_opacity=0.16, class_="held")
            times = f"{clock(step * self.scene.time, self.begin)} to {clock((step + 1) * self.scene.time, self.begin)}"
            for x, y, width, height in self.fields(touched, step):
                self.page.rect(x, y + 0.6, width, height - 1.2, color, title=f"{train.name}, {times}", fill_opacity=0.72, class_="touched")

    def draw_marks(self, borders):
        """Lines down the graph: full ones where sections end, broken ones where borders stand; beside a track only in its share."""
        for node, ends in self.scene.ends.items():
            here = [(cell, end) for cell, end in ends if cell in self.panel.stretch]
            if len(here) > 1 and len({self.scene.cells[cell].section for cell, _ in here}) > 1:
                self.draw_mark(here[0], INK, 0.8, {})
        for place in borders:
            here = [(cell, end) for cell, end in self.scene.ends[self.scene.candidates[place]] if cell in self.panel.stretch]
            if here:
                is_kept = place in self.scene.kept
                x = self.draw_mark(here[0], KEPT if is_kept else FOUND, 1.5, {"stroke_dasharray": "8 3" if is_kept else "4 3"})
                text = f"{place[2]:,} m" if place[0] == "cut" else place[1]
                self.page.label(text, [(x, self.top - 15, "middle")], 9, fill=KEPT if is_kept else FOUND)

    def draw_mark(self, cell_end, color, width, more):
        cell, end = cell_end
        place, of = self.panel.share[cell]
        x = self.to_x(self.panel.end_of(cell, end))
        if of == 1:
            self.page.line(x, self.top, x, self.bottom, color, width, **more)
        else:
            for step in range(self.steps):
                y = self.y(step) + self.row * place / of
                self.page.line(x, y, x, y + self.row / of, color, width)
        return x

    def draw_front(self, train, run, color):
        """The line of the train's front, from the end of one step to that of the next."""
        start, sweeps = run
        if not sweeps:
            return
        fronts = [(start, sweeps[0][min(train.length, len(sweeps[0])) - 1])]
        fronts += [(step, sweep[-1]) for step, sweep in enumerate(sweeps, start + 1)]
        points = []
        for step, (cell, end) in fronts + [(None, (None, None))]:
            if cell in self.panel.stretch:
                points.append((self.to_x(self.panel.end_of(cell, end)), self.y(step)))
            elif points:
                if len(points) > 1:
                    self.page.path(points, color, 1.4, stroke_linejoin="round", class_="front")
                points = []

    def note_margins(self, train, run, color):
        """The train's name beside its first and its last step, where these lie at an end of the route; else on it, where it has room."""
        start, sweeps = run
        is_outside = False
        for step, cell in ((start, sweeps[0][0][0]), (start + len(sweeps) - 1, sweeps[-1][-1][0])):
            low, high = self.panel.stretch.get(cell, (None, None))
            for side, is_there in (("left", low == self.panel.low), ("right", high == self.panel.high)):
                if is_there and set(self.scene.cells[cell].nodes) & {self.panel.nodes[0], self.panel.nodes[-1]}:
                    self.margins.setdefault((side, step), []).append((train.name, color))
                    is_outside = True
        if not is_outside:
            self.name_inside(train, run, color)

    def name_inside(self, train, run, color):
        start, sweeps = run
        for step, sweep in enumerate(sweeps, start):
            for x, y, width, height in self.fields({cell for cell, _ in sweep}, step):
                if height >= 11 and self.page.label(train.name, [(x + width / 2, y + height / 2 + 3.5, "middle")], 9, fill="#ffffff", font_weight="bold"):
                    return

    def put_margins(self):
        for (side, step), named in self.margins.items():
            text, color = ", ".join(dict.fromkeys(name for name, _ in named)), named[0][1]
            x, anchor = (self.left - 6, "end") if side == "left" else (self.right + 6, "start")
            self.page.text(text, x, self.y(step) + self.row / 2 + 3.5, 10, anchor, fill=color, font_weight="bold")
