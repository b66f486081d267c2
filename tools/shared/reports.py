"""The design of a report: its borders and runs. Logs aren't read; the program judges and checks."""

import re

from cutting import place_text
from documents import Fault

NUMBER = "(0|[1-9][0-9]{0,8})"
NAME = "([A-Za-z0-9_-]{1,32})"
BORDER = re.compile(f"border (?:cut {NAME} {NUMBER}|joint {NAME})")
RUN = re.compile(f"run {NAME} {NUMBER}")
SWEEP = re.compile(f"{NAME}:{NUMBER}([-+])")


class Report:
    """What a report says: its verdict, the places of its borders, and of each train its first step and its sweeps as it writes them."""

    def __init__(self, path):
        self.path, self.verdict, self.count, self.borders, self.runs, self.line_of = path, None, None, [], {}, {}
        try:
            with open(path, encoding="utf-8", newline="\n") as file:
                self.read(file)
        except OSError as fault:
            raise Fault([f"{path} can't be read: {fault.strerror}"], 4) from None
        except UnicodeDecodeError:
            raise Fault([f"{path} is no report: it isn't UTF-8"]) from None
        if self.count is None:
            raise Fault([f"{path} has no plan: its verdict is {self.verdict}"])
        if self.count != len(self.borders):
            raise Fault([f"{path} says that its design has {self.count} borders, and lists {len(self.borders)}"])

    def read(self, file):
        for number, line in enumerate(file, 1):
            line = line.removesuffix("\n")
            word = line.split(" ")[0]
            if number == 1 and line != "vssplan report 1":
                raise Fault([f"{self.path} is no report: its first line isn't 'vssplan report 1', but {line[:40]!r}"])
            if word == "verdict":
                self.verdict = line[len("verdict "):]
            elif word == "design" and re.fullmatch(f"design {NUMBER}", line):
                self.count = int(line.split(" ")[1])
            elif word in ("border", "run", "sweep"):
                self.take(word, line, number)
            elif word == "end" or self.count is not None and word in ("smaller", "refutes"):
                return
            elif number > 1 and word not in ("conflicts", "best", "refutes", "a", "d"):
                raise self.bad(number, line)
        raise Fault([f"{self.path} ends too early: its last line isn't 'end'"])

    def bad(self, number, line):
        return Fault([f"{self.path}, line {number} is no line of a report there: {line[:60]!r}"])

    def take(self, word, line, number):
        border, run = BORDER.fullmatch(line), RUN.fullmatch(line)
        if word == "border" and border:
            place = ("joint", border[3]) if border[3] else ("cut", border[1], int(border[2]))
            self.borders.append(place)
            self.line_of[place] = number
        elif word == "run" and run and run[1] not in self.runs:
            self.runs[run[1]] = (int(run[2]), [])
            self.line_of[run[1]] = number
        elif word == "sweep" and self.runs:
            cells = [SWEEP.fullmatch(it) for it in line.split(" ")[1:]]
            if not cells or None in cells:
                raise self.bad(number, line)
            list(self.runs.values())[-1][1].append([(it[1], int(it[2]), "-+".index(it[3])) for it in cells])
        else:
            raise self.bad(number, line)

    def design(self, scene):
        """The places of the borders, and for each train its first step and its sweeps of directed cells of the scene."""
        faults = [f"line {self.line_of[place]}: no border can stand {place_text(place)} on this grid"
                  for place in self.borders if place not in scene.candidates]
        names = [train.name for train in scene.trains]
        faults += [f"line {self.line_of[name]}: the timetable has no train {name}" for name in self.runs if name not in names]
        faults += [f"train {name} has no run in it" for name in names if name not in self.runs or not self.runs[name][1]]
        faults += [f"train {name} touches {track}:{place}, and there is no such cell" for name, (_, sweeps) in self.runs.items()
                   for sweep in sweeps for track, place, _ in sweep if place >= len(scene.cells_of.get(track, []))]
        if faults:
            raise Fault([f"{self.path} doesn't fit these documents: {line}" for line in dict.fromkeys(faults)])
        runs = {name: (start, [[(scene.cells_of[track][place], end) for track, place, end in sweep] for sweep in sweeps])
                for name, (start, sweeps) in self.runs.items()}
        return self.borders, {name: runs[name] for name in names}


def read_design(path, scene):
    return Report(path).design(scene)
