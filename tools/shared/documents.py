"""Network and timetable documents: read, and what is wrong with them in plain words.

Only what the tools need is tested here. The program tests the rest, and decides.
"""

import difflib
import json
import re

MOST_NUMBER = 2 ** 64 - 1


class Fault(Exception):
    """What is wrong with a file, in plain words, one line each; the status that a tool ends with."""

    def __init__(self, lines, status=3):
        super().__init__("\n".join(lines))
        self.lines, self.status = lines, status


class Member:
    """What the member of an object has to be: its words and its test; of a list of objects also what their members are."""

    def __init__(self, words, test, needed=True, items=None):
        self.words, self.test, self.needed, self.items = words, test, needed, items

    def optional(self):
        return Member(self.words, self.test, False, self.items)


def is_name(value):
    return isinstance(value, str) and re.fullmatch(r"[A-Za-z0-9_-]{1,32}", value) is not None


def is_number(value):
    return isinstance(value, int) and not isinstance(value, bool) and 0 <= value <= MOST_NUMBER


def is_names(value):
    return isinstance(value, list) and value != [] and all(isinstance(item, str) for item in value)


def is_pairs(value):
    return isinstance(value, list) and len(value) == 2 and all(is_names(pair) and len(pair) == 2 for pair in value)


NEW_NAME = Member("1 to 32 of the letters A to Z and a to z, digits, _ and -", is_name)
NAME = Member("a name in quotes", lambda value: isinstance(value, str))
NAMES = Member("a list of one or more names", is_names)


def number(what):
    return Member(f"a whole number of {what}, without quotes, point or exponent", is_number)


def objects(members, needed=True):
    return Member("a list of objects", lambda value: isinstance(value, list), needed, members)


def node_members(node):
    members = {"name": NEW_NAME, "kind": Member("one of end, joint, point, crossing",
                                                lambda value: value in ("end", "joint", "point", "crossing"))}
    if node.get("kind") == "point":
        members["tip"] = NAME
    if node.get("kind") == "crossing":
        members["pairs"] = Member("two lists of two track names each", is_pairs)
    return members


def border_members(border):
    return {"joint": NAME} if "joint" in border else {"track": NAME, "at_m": number("metres")}


def fixed(**members):
    return lambda _: members


GROUP = fixed(name=NEW_NAME, tracks=NAMES)
NETWORK = {
    "nodes": objects(node_members),
    "tracks": objects(fixed(**{
        "name": NEW_NAME, "from": NAME, "to": NAME, "length_m": number("metres"), "limit_kmh": number("km/h").optional(),
        "virtual": Member("true or false", lambda value: isinstance(value, bool), False)})),
    "sections": objects(GROUP),
    "borders": objects(border_members, False),
    "stations": objects(GROUP, False),
}
SECONDS = number("seconds")
STOP = fixed(station=NAME, dwell_s=SECONDS, from_s=SECONDS.optional(), until_s=SECONDS.optional())
TIMETABLE = {
    "space_step_m": number("metres"), "time_step_s": SECONDS, "horizon_s": SECONDS,
    "trains": objects(fixed(**{
        "name": NEW_NAME, "length_m": number("metres"), "speed_kmh": number("km/h"), "entry_s": SECONDS, "from": NAME, "to": NAME,
        "arrive_s": SECONDS.optional(), "entry_until_s": SECONDS.optional(), "stops": objects(STOP, False),
        "legs": Member("left out", lambda value: True, False)})),
}


def read_bytes(path):
    try:
        with open(path, "rb") as file:
            return file.read()
    except OSError as fault:
        raise Fault([f"{path} can't be read: {fault.strerror}"], 4) from None


def read_json(path):
    """The value of a document, and a line for each member that stands twice in one object."""
    repeated = []

    def keep_last(pairs):
        names = [name for name, _ in pairs]
        repeated.extend(f"{path}: a member {name} stands more than once in one object: its last value counts"
                        for name in sorted(set(names)) if names.count(name) > 1)
        return dict(pairs)

    data = read_bytes(path)
    if data.startswith(b"\xef\xbb\xbf"):
        raise Fault([f"{path} begins with a byte order mark: save it as UTF-8 without one"])
    try:
        # A number with a sign is none of a document's numbers, also where it is -0.
        value = json.loads(data.decode("utf-8"), object_pairs_hook=keep_last,
                           parse_int=lambda text: float(text) if text[0] == "-" else int(text))
    except UnicodeDecodeError as fault:
        raise Fault([f"{path} is no JSON: byte {fault.start} isn't UTF-8"]) from None
    except (ValueError, RecursionError) as fault:
        raise Fault([f"{path} is no JSON: {fault}"]) from None
    return value, repeated


def shown(value):
    text = json.dumps(value)
    return text if len(text) <= 40 else text[:37] + "..."


def walk(value, members, where, faults, strange):
    """Adds what isn't of the shape to `faults`, and members without a meaning to `strange`."""
    if not isinstance(value, dict):
        faults.append(f"{where} is {shown(value)}: it has to be an object in braces")
        return
    for name, member in members.items():
        if name not in value:
            if member.needed:
                faults.append(f"{where}: {name} is missing: it has to be {member.words}")
        elif not member.test(value[name]):
            faults.append(f"{where}: {name} is {shown(value[name])}: it has to be {member.words}")
        elif member.items:
            for place, item in enumerate(value[name]):
                inner = member.items(item) if isinstance(item, dict) else {}
                called = f" ({item['name']})" if isinstance(item, dict) and is_name(item.get("name")) else ""
                walk(item, inner, f"{where}, {name} {place}{called}", faults, strange)
    for name in value:
        if name not in members:
            meant = difflib.get_close_matches(name, members, 1)
            hint = f"; is {meant[0]} meant?" if meant and meant[0] not in value else ""
            strange.append(f"{where}: {name} has no meaning there and is ignored{hint}")


def read_document(path, members, rules):
    """The document, and lines on what it says without a meaning."""
    value, strange = read_json(path)
    faults = []
    walk(value, members, path, faults, strange)
    if not faults:
        faults = [f"{path}, {line}" for line in rules(value)]
    if faults:
        raise Fault(faults)
    return value, strange


def read_network(path):
    return read_document(path, NETWORK, network_rules)


def read_timetable(path, network):
    return read_document(path, TIMETABLE, lambda timetable: timetable_rules(timetable, network))


def repeats(listed, names):
    seen = set()
    for place, name in enumerate(names):
        if name in seen:
            yield f"{listed} {place}: the name {name} stood before"
        seen.add(name)


def outside(where, item, ranges):
    for name, (least, most) in ranges.items():
        if name in item and not least <= item[name] <= most:
            yield f"{where}: {name} is {item[name]}: it has to be {least} to {most}"


def network_rules(network):
    """What is wrong with a network of the right shape; what lies behind a wrong name isn't looked at."""
    faults = list(name_rules(network))
    return faults or [*node_rules(network), *section_rules(network), *border_rules(network)]


def name_rules(network):
    nodes = {node["name"] for node in network["nodes"]}
    tracks = {track["name"] for track in network["tracks"]}
    for listed in ("nodes", "tracks", "sections", "stations"):
        yield from repeats(listed, [item["name"] for item in network.get(listed, [])])
    for node in network["nodes"]:
        for name in [node["tip"]] if node["kind"] == "point" else sum(node["pairs"], []) if node["kind"] == "crossing" else []:
            if name not in tracks:
                yield f"node {node['name']}: there is no track {name}"
    for track in network["tracks"]:
        for member in ("from", "to"):
            if track[member] not in nodes:
                yield f"track {track['name']}: there is no node {track[member]}"
        yield from outside(f"track {track['name']}", track, {"length_m": (1, 1_000_000), "limit_kmh": (1, 500)})
    for listed in ("sections", "stations"):
        for group in network.get(listed, []):
            for name in group["tracks"]:
                if name not in tracks:
                    yield f"{listed[:-1]} {group['name']}: there is no track {name}"
    for place, border in enumerate(network.get("borders", [])):
        kind, known = ("joint", nodes) if "joint" in border else ("track", tracks)
        if border[kind] not in known:
            yield f"borders {place}: there is no {'node' if kind == 'joint' else 'track'} {border[kind]}"


def track_ends(network):
    """The tracks that end at each node, one that begins and ends there twice."""
    ends = {node["name"]: [] for node in network["nodes"]}
    for track in network["tracks"]:
        ends[track["from"]].append(track["name"])
        ends[track["to"]].append(track["name"])
    return ends


def node_rules(network):
    ends = track_ends(network)
    wanted = {"end": 1, "joint": 2, "point": 3, "crossing": 4}
    for track in network["tracks"]:
        if track["from"] == track["to"]:
            yield f"track {track['name']} ends where it begins: put a joint into it"
    for node in network["nodes"]:
        name, kind, here = node["name"], node["kind"], ends[node["name"]]
        if len(here) != wanted[kind]:
            yield f"node {name}: {len(here)} tracks end there, and at a node of kind {kind} it has to be {wanted[kind]}"
        elif kind == "point" and node["tip"] not in here:
            yield f"node {name}: its tip {node['tip']} doesn't end there, but {', '.join(here)}"
        elif kind == "crossing" and sorted(sum(node["pairs"], [])) != sorted(set(here)):
            yield f"node {name}: its pairs have to name each of {', '.join(here)} once"


def section_rules(network):
    of = {}
    for section in network["sections"]:
        for name in section["tracks"]:
            if name in of:
                yield f"track {name} stands twice in the lists of sections"
            of[name] = section["name"]
    for track in network["tracks"]:
        if track["name"] not in of:
            yield f"track {track['name']} is in no section"
    ends = track_ends(network)
    for node in network["nodes"]:
        if node["kind"] in ("point", "crossing") and len({of.get(name) for name in ends[node["name"]]}) > 1:
            yield f"node {node['name']}: the tracks at a {node['kind']} have to be of one section; put a joint between"


def border_rules(network):
    tracks = {track["name"]: track for track in network["tracks"]}
    section = {name: item["name"] for item in network["sections"] for name in item["tracks"]}
    kind, ends = {node["name"]: node["kind"] for node in network["nodes"]}, track_ends(network)
    for border in network.get("borders", []):
        if "joint" in border:
            here = ends[border["joint"]]
            if kind[border["joint"]] != "joint" or len({section.get(name) for name in here}) > 1 or \
                    not all(tracks[name].get("virtual", True) for name in here):
                yield f"the border at joint {border['joint']} isn't between two virtual tracks of one section"
        else:
            track = tracks[border["track"]]
            if not 0 < border["at_m"] < track["length_m"] or not track.get("virtual", True):
                yield f"the border at {border['at_m']} m of {track['name']} isn't inside a virtual track ({track['length_m']} m long)"


def timetable_rules(timetable, network):
    """What is wrong with a timetable of the right shape, for its network."""
    kinds = {node["name"]: node["kind"] for node in network["nodes"]}
    stations = {station["name"] for station in network.get("stations", [])}
    yield from repeats("trains", [train["name"] for train in timetable["trains"]])
    yield from outside("the timetable", timetable, {"space_step_m": (1, 100_000), "time_step_s": (1, 86_400), "horizon_s": (1, 10_000_000)})
    if 0 < timetable["horizon_s"] < timetable["time_step_s"]:
        yield f"the timetable: horizon_s is {timetable['horizon_s']}, less than a step of {timetable['time_step_s']} s"
    times = {name: (0, 10_000_000) for name in ("entry_s", "arrive_s", "entry_until_s", "dwell_s", "from_s", "until_s")}
    for train in timetable["trains"]:
        where = f"train {train['name']}"
        if "legs" in train:
            yield f"{where}: it has legs, and these tools know no trains that turn"
        for member in ("from", "to"):
            if train[member] not in kinds:
                yield f"{where}: there is no node {train[member]}, as {member} says"
            elif kinds[train[member]] != "end":
                yield f"{where}: {train[member]} is no end of the network; trains enter and leave at ends alone"
        for stop in train.get("stops", []):
            if stop["station"] not in stations:
                yield f"{where}: there is no station {stop['station']}"
            yield from outside(f"{where}, its stop at {stop['station']}", stop, times)
        yield from outside(where, train, {"length_m": (1, 1_000_000), "speed_kmh": (1, 500), **times})
