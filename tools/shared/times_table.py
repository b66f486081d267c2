"""The table below a train graph: for each train its times at its ends and stations."""

from cutting import clock
from rows import stands
from svg import text_width
from track_layout import GREY
from train_graph import COLORS


def touch_steps(cells, run):
    """The first step at which a run touches one of the cells, and the one behind the last; none where it never does."""
    start, sweeps = run
    steps = [step for step, sweep in enumerate(sweeps, start) if any(cell in cells for cell, _ in sweep)]
    return (steps[0], steps[-1] + 1) if steps else None


class Place:
    """A station as something that a run can stand in."""

    def __init__(self, cells):
        self.cells = cells


def station_text(scene, train, run, cells, begin):
    """When the train stands in a station; in brackets when it touches one in which it never stands."""
    at = lambda step: clock(step * scene.time, begin)
    stood = stands(train, Place(cells), run)
    if stood:
        return ", ".join(f"{at(first)}–{at(behind)}" for first, behind in stood)
    touched = touch_steps(cells, run)
    return f"({at(touched[0])}–{at(touched[1])})" if touched else "–"


def table_of(scene, runs, begin, order):
    at = lambda step: clock(step * scene.time, begin)
    table = [["train", "from", "enters", "asked", *order, "to", "gone", "asked by", "length", "speed"]]
    for train in scene.trains:
        entry, (start, sweeps) = train.entry, runs[train.name]
        asked = clock(entry["arrive_s"], begin) if "arrive_s" in entry else "–"
        window = "–" + clock(entry["entry_until_s"], begin) if "entry_until_s" in entry else ""
        table.append([train.name, entry["from"], at(start), clock(entry["entry_s"], begin) + window] + [station_text(scene, train, runs[train.name], scene.stations[name], begin) for name in order]
                     + [entry["to"], at(start + len(sweeps)), asked, f"{entry['length_m']:,} m", f"{entry['speed_kmh']} km/h"])
    return table


def draw_table(page, scene, runs, begin, order, left, top):
    """Draws the table with its head at `top`; answers where it ends."""
    table, y = table_of(scene, runs, begin, order), top
    widths = [max(text_width(text, 10) for text in column) + 16 for column in zip(*table)]
    for number, line in enumerate(table):
        x = left + 16
        for text, width in zip(line, widths):
            page.text(text, x, y, 10, font_weight="bold" if number == 0 else "normal", fill=GREY if number == 0 else "#222222")
            x += width
        if number:
            page.rect(left, y - 9, 10, 10, COLORS[(number - 1) % len(COLORS)], fill_opacity=0.72)
        y += 16
    return y
