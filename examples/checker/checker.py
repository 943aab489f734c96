#!/usr/bin/env python3
"""Checks the proof of a day without any code of Peigurn, as docs/checker.md has it.

checker.py TASK PROOF, in the folder of the day. It says what `peigurn check TASK PROOF` says of the
claims and of the proof's text. The task and the airspace file are taken as correct.
"""
import datetime
import os
import re
import sys
import tomllib
from functools import lru_cache
from itertools import combinations, pairwise
from math import isqrt

# Measures: angles in 1/100,000 minute, lengths in centimetres.

R, S, PI, QUARTER = 637_100_000, 10**16, 31_415_926_535_897_932, 540_000_000


def sine(angle):
    if angle < 0:
        return -sine(-angle)
    angle = min(angle, 2 * QUARTER - angle)
    x = angle * PI // 1_080_000_000
    term, total = x, x
    for k in range(10):
        term = (term * (x * x // S) // S) // ((2 * k + 2) * (2 * k + 3))
        total += term if k % 2 else -term
    return min(S, total)


def cosine(angle):
    return sine(QUARTER - abs(angle))


def quotient(a, b):
    """a / b rounded towards zero, for b > 0"""
    return a // b if a >= 0 else -(-a // b)


def length(part):
    """a part of 1 as a length, to the nearest centimetre, halves away from zero"""
    size = (2 * abs(part) * R + S) // (2 * S)
    return size if part >= 0 else -size


def product(a, b):
    return quotient(a * b, S)


def point(place):
    lat, lon = place
    cos_lat = cosine(lat)
    return tuple(map(length, (product(cos_lat, cosine(lon)), product(cos_lat, sine(lon)), sine(lat))))


def dot(a, b):
    return a[0] * b[0] + a[1] * b[1] + a[2] * b[2]


def arc(squared_chord):
    c = isqrt(squared_chord)
    a3 = c**3 // (24 * R * R)
    a5 = 9 * a3 * c * c // (80 * R * R)
    a7 = 25 * a5 * c * c // (168 * R * R)
    return c + a3 + a5 + a7


def distance(a, b):
    return arc((a[0] - b[0]) ** 2 + (a[1] - b[1]) ** 2 + (a[2] - b[2]) ** 2)


# Frames: the least and greatest of the three coordinates and of the altitude.


def joined(one, other):
    return tuple((min(a[0], b[0]), max(a[1], b[1])) for a, b in zip(one, other))


def frame_of(spot):
    return tuple((x, x) for x in spot)


def greatest(one, other):
    return arc(sum(max(a[1] - b[0], b[1] - a[0]) ** 2 for a, b in zip(one[:3], other[:3])))


def least(one, other):
    return arc(sum(max(a[0] - b[1], b[0] - a[1], 0) ** 2 for a, b in zip(one[:3], other[:3])))


class Frames:
    """the frames of the spans of a list of spots"""

    def __init__(self, spots):
        self.spots = spots
        self.span = lru_cache(None)(self.find)

    def find(self, lo, hi):
        if lo == hi:
            return frame_of(self.spots[lo])
        middle = (lo + hi) // 2
        return joined(self.span(lo, middle), self.span(middle + 1, hi))

    def last_near(self, spot, limit, lo, hi):
        """the last place of a span within the limit of a spot, or -1"""
        if lo > hi or least(frame_of(spot), self.span(lo, hi)) > limit:
            return -1
        if lo == hi:
            return lo
        middle = (lo + hi) // 2
        found = self.last_near(spot, limit, middle + 1, hi)
        return found if found >= 0 else self.last_near(spot, limit, lo, middle)


# Recordings: fixes are (second, latitude, longitude, altitude).


class Refused(Exception):
    pass


def time_of_day(text):
    hour, minute, second = int(text[:2]), int(text[2:4]), int(text[4:6])
    return hour * 3600 + minute * 60 + second if hour < 24 and minute < 60 and second < 60 else None


def calendar(text):
    try:
        return datetime.date(2000 + int(text[4:6]), int(text[2:4]), int(text[:2])).toordinal()
    except ValueError:
        return None


def columns_of(line):
    """the first and last column of LAD and LOD, of an undamaged I line"""
    count = int(line[1:3]) if re.match(rb"I\d\d", line) else -1
    groups = [line[3 + 7 * k : 10 + 7 * k] for k in range(count)]
    if count < 0 or not all(re.fullmatch(rb"\d{4}...", group, re.S) for group in groups):
        return None
    columns = {}
    for group in groups:
        first, last = int(group[:2]), int(group[2:4])
        if first < 36 or last < first:
            return None
        columns.setdefault(group[4:], (first, last))
    return columns


def decimals(line, columns, code):
    first, last = columns.get(code, (0, 0))
    field = line[first - 1 : last] if 0 < last <= len(line) else b""
    if not re.fullmatch(rb"\d+", field):
        return 0
    return int(field[:2]) if len(field) > 1 else int(field) * 10


FIX = re.compile(rb"B(\d{6})(\d\d)(\d{5})([NS])(\d{3})(\d{5})([EW])([AV])(?:\d{5}|-\d{4})(\d{5}|-\d{4})")


def fix_of(line, columns):
    """time of day, latitude, longitude and altitude of a B line that counts"""
    match = FIX.match(line)
    if not match or match[8] == b"V" or time_of_day(match[1]) is None:
        return None
    lat_minute, lon_minute, alt = int(match[3]), int(match[6]), int(match[9])
    lat = int(match[2]) * 6_000_000 + lat_minute * 100 + decimals(line, columns, b"LAD")
    lon = int(match[5]) * 6_000_000 + lon_minute * 100 + decimals(line, columns, b"LOD")
    if max(lat_minute, lon_minute) >= 60_000 or lat > QUARTER or lon > 2 * QUARTER or alt > 32_767:
        return None
    return time_of_day(match[1]), -lat if match[4] == b"S" else lat, -lon if match[7] == b"W" else lon, alt


def recording(data, task_day):
    """the fixes and the events, with seconds from midnight of the task's day"""
    lines = [line[:-1] if line.endswith(b"\r") else line for line in data.split(b"\n")]
    if not next((line for line in lines if line), b"").startswith(b"A"):
        raise Refused
    dates = (re.match(rb"HFDTE(?:DATE)?:? *(\d{6})", line) for line in lines)
    day = next((calendar(date[1]) for date in dates if date and calendar(date[1])), None)
    if day is None or day < calendar(b"010100") or abs(day - task_day) > 1:
        raise Refused
    fixes, events, columns, last = [], [], None, None

    def second(time):
        if last is None:
            return time
        return last - last % 86_400 + time + (86_400 if time < last % 86_400 - 43_200 else 0)

    for line in lines:
        if line[:1] == b"I" and columns is None:
            columns = columns_of(line)
        elif re.match(rb"E\d{6}PEV", line) and time_of_day(line[1:7]) is not None:
            events.append(second(time_of_day(line[1:7])))
        elif line[:1] == b"B" and (fix := fix_of(line, columns or {})):
            at = second(fix[0])
            if at < 300_000 and (last is None or at > last):
                fixes.append((at, *fix[1:]))
                last = at
    if not 1 <= len(fixes) <= 90_000:
        raise Refused
    shift = (day - task_day) * 86_400
    return [(fix[0] + shift, *fix[1:]) for fix in fixes], [event + shift for event in events]


# Airspace: volumes are (floor, ceiling, what tells whether a fix is in the shape).


def height(text):
    text = re.sub(r" A?MSL$", "", text)
    if text in ("SFC", "GND"):
        return -32_768
    if text in ("UNL", "UNLIM"):
        return 32_767
    number = int(re.search(r"\d+", text)[0]) * (100 if text.startswith("FL") else 1)
    return number if text.endswith("M") else number * 3_048 // 10_000


def thousandths(text):
    whole, _, part = text.partition(".")
    return int(whole) * 1_000 + int((part + "000")[:3])


def corner(text):
    def angle(numbers, letter):
        parts = numbers.split(":")
        units = int(parts[0]) * 6_000_000
        if len(parts) == 3:
            units += int(parts[1]) * 100_000 + thousandths(parts[2]) * 5 // 3
        else:
            units += thousandths(parts[1]) * 100
        return -units if letter in "SW" else units

    match = re.fullmatch(r"([\d:.]+) ?([NS]) ?([\d:.]+) ?([EW])", text)
    return angle(match[1], match[2]), angle(match[3], match[4])


def in_polygon(corners, lat, lon):
    inside = False
    for (y, x), (y2, x2) in zip(corners, corners[1:] + corners[:1]):
        if y > y2:
            y, x, y2, x2 = y2, x2, y, x
        if y <= lat < y2 and (lon - x) * (y2 - y) < (lat - y) * (x2 - x):
            inside = not inside
    return inside


def volumes(text):
    found = []
    for line in text.upper().splitlines():
        line = re.sub(r"[ \t]+", " ", line).rstrip(" ")
        word, _, rest = line.partition(" ")
        if word == "AC":
            found.append({"corners": []})
        elif word in ("AL", "AH"):
            found[-1][word] = height(rest)
        elif word == "DP":
            found[-1]["corners"].append(corner(rest))
        elif line.startswith("V X="):
            found[-1]["centre"] = corner(line[4:])
        elif word == "DC":
            found[-1]["circle"] = point(found[-1]["centre"]), thousandths(rest) * 1_852 // 10
    return found


def is_inside(volume, fix, spot):
    if not volume["AL"] <= fix[3] <= volume["AH"]:
        return False
    if "circle" in volume:
        return distance(volume["circle"][0], spot) <= volume["circle"][1]
    return in_polygon(volume["corners"], fix[1], fix[2])


# The task: lines and zones.


def place(text):
    lat = int(text[:2]) * 6_000_000 + int(text[2:7]) * 100
    lon = int(text[8:11]) * 6_000_000 + int(text[11:16]) * 100
    return -lat if text[7] == "S" else lat, -lon if text[16] == "W" else lon


class Line:
    def __init__(self, keys):
        self.centre, towards = point(place(keys["at"])), point(place(keys["towards"]))
        pp, pq = dot(self.centre, self.centre), dot(self.centre, towards)
        self.normal = tuple(q * pp - p * pq for p, q in zip(self.centre, towards))
        self.half = keys["half"] * 100

    def crossing(self, x, y, second_x, second_y):
        """the second at which the line is crossed forwards from x to y, or None"""
        side_x, side_y = dot(self.normal, x), dot(self.normal, y)
        if side_x >= 0 or side_y < 0:
            return None
        a, b = -side_x // 2**30, side_y // 2**30
        if a + b == 0:
            return second_y if distance(y, self.centre) <= self.half else None
        met = tuple(p + quotient((q - p) * a, a + b) for p, q in zip(x, y))
        if distance(met, self.centre) > self.half:
            return None
        return second_x + quotient((second_y - second_x) * a, a + b)


class Zone:
    def __init__(self, keys):
        lat, lon = place(keys["at"])
        self.centre, self.parts = point((lat, lon)), keys["part"]
        self.north = tuple(
            map(length, (-product(sine(lat), cosine(lon)), -product(sine(lat), sine(lon)), cosine(lat)))
        )
        self.east = tuple(map(length, (-sine(lon), cosine(lon), 0)))

    def has(self, spot):
        return any(self.part_has(part, spot) for part in self.parts)

    def part_has(self, part, spot):
        away = distance(spot, self.centre)
        if "radius" in part:
            return away <= part["radius"] * 100
        if not part.get("inner", 0) * 100 <= away <= part["outer"] * 100:
            return False
        if part["from"] == part["to"]:
            return True
        here = dot(self.north, spot), dot(self.east, spot)
        first = is_clockwise(here, radial(part["from"]))
        second = is_clockwise(radial(part["to"]), here)
        narrow = (part["to"] - part["from"]) % 360_000 <= 180_000
        return first and second if narrow else first or second


def radial(thousandths_of_a_degree):
    angle = 6_000 * thousandths_of_a_degree
    angle -= 2_160_000_000 if angle > 1_080_000_000 else 0
    return cosine(angle), sine(angle)


def is_clockwise(one, other):
    return other[0] * one[1] - other[1] * one[0] >= 0


# Goals: the lists of fixes to choose from, and what a choice and a box are worth.


class Goal:
    def __init__(self, flight, lists):
        self.flight, self.lists = flight, lists
        frames = {id(axis): Frames([flight.spots[fix] for fix in axis]) for axis in lists}
        self.frames = [frames[id(axis)] for axis in lists]

    def boxed(self, box):
        return [frames.span(*span) for frames, span in zip(self.frames, box)]

    def is_disordered(self, box):
        ends = [(axis[lo], axis[hi]) for axis, (lo, hi) in zip(self.lists, box)]
        return any(first[0] > second[1] for first, second in combinations(ends, 2))

    def is_legal(self, fixes):
        return True

    def is_shut(self, box):
        return False


class Free(Goal):
    def __init__(self, flight, judged, loss):
        super().__init__(flight, [judged] * 5)
        self.loss = loss

    def is_legal(self, fixes):
        return self.flight.spots[fixes[0]][3] - self.flight.spots[fixes[4]][3] <= self.loss

    def is_shut(self, box):
        frames = self.boxed(box)
        return frames[0][3][0] - frames[4][3][1] > self.loss

    def value(self, fixes):
        return sum(distance(a, b) for a, b in pairwise(self.flight.spots[fix] for fix in fixes))

    def bound(self, box):
        return sum(greatest(a, b) for a, b in pairwise(self.boxed(box)))


class Triangle(Goal):
    def __init__(self, flight, judged, closing):
        super().__init__(flight, [judged] * 3)
        frames, self.first, self.reach = self.frames[0], judged[0], []
        for fix in judged:
            far = self.reach[-1] if self.reach else -1
            near = frames.last_near(flight.spots[fix], closing, far + 1, len(judged) - 1)
            self.reach.append(max(far, near))

    def closes(self, before, after):
        return self.reach[before - self.first] >= after - self.first

    def legs(self, fixes):
        spots = [self.flight.spots[fix] for fix in fixes]
        return [distance(a, b) for a, b in zip(spots, spots[1:] + spots[:1])]

    def value(self, fixes):
        return sum(self.legs(fixes))

    def is_legal(self, fixes):
        legs, total = self.legs(fixes), self.value(fixes)
        small = all(100 * leg >= 28 * total for leg in legs)
        large = total >= 75_000_000 and all(25 * total <= 100 * leg <= 45 * total for leg in legs)
        return total > 0 and self.closes(fixes[0], fixes[2]) and (small or large)

    def boxed_legs(self, box):
        a, b, c = self.boxed(box)
        return [[measure(*pair) for pair in ((a, b), (b, c), (c, a))] for measure in (greatest, least)]

    def is_shut(self, box):
        most, fewest = self.boxed_legs(box)
        upper, lower = sum(most), sum(fewest)
        if upper == 0 or not self.closes(self.lists[0][box[0][1]], self.lists[2][box[2][0]]):
            return True
        no_small = any(100 * leg < 28 * lower for leg in most)
        no_large = upper < 75_000_000 or any(100 * leg < 25 * lower for leg in most)
        return no_small and (no_large or any(100 * leg > 45 * upper for leg in fewest))

    def bound(self, box):
        most, _ = self.boxed_legs(box)
        b28, b25 = (min([sum(most)] + [100 * leg // part for leg in most]) for part in (28, 25))
        return b28 if b25 < 75_000_000 else b25


class Area(Goal):
    """the way of a finisher from the start through the zones to the finish, less the ring"""

    def __init__(self, flight, lists, start, finish, ring):
        super().__init__(flight, lists)
        self.start, self.finish, self.ring = start, finish, ring

    def way(self, frames, measure):
        stations = [frame_of(self.start), *frames, frame_of(self.finish)]
        return max(0, sum(measure(a, b) for a, b in pairwise(stations)) - self.ring)

    def value(self, fixes):
        return self.way([frame_of(self.flight.spots[fix]) for fix in fixes], greatest)

    def bound(self, box):
        return self.way(self.boxed(box), greatest)


class Out(Goal):
    """a fixed way, the way from a point through all lists but the last, and how much nearer the last
    fix is to the next point"""

    def __init__(self, flight, lists, fixed, before, ahead):
        super().__init__(flight, lists)
        self.fixed, self.before, self.ahead = fixed, frame_of(before), frame_of(ahead)

    def way(self, frames):
        stations = [self.before, *frames[:-1]]
        gain = greatest(stations[-1], self.ahead) - least(frames[-1], self.ahead)
        return self.fixed + sum(greatest(a, b) for a, b in pairwise(stations)) + max(0, gain)

    def value(self, fixes):
        return self.way([frame_of(self.flight.spots[fix]) for fix in fixes])

    def bound(self, box):
        return self.way(self.boxed(box))


# Judging: which claims the proof of a flight has to have.


class Flight:
    def __init__(self, data, task, task_day, forbidden):
        self.fixes, self.events = recording(data, task_day)
        self.spots = [(*point(fix[1:3]), fix[3]) for fix in self.fixes]
        self.task, self.zones = task, [Zone(zone) for zone in task["zone"]]
        begin = next((i for i, fix in enumerate(self.fixes) if fix[0] >= 0), len(self.fixes))
        end = begin
        while end < len(self.fixes) and self.fixes[end][0] <= task["closes"]:
            if any(is_inside(volume, self.fixes[end], self.spots[end]) for volume in forbidden):
                break
            end += 1
        self.judged = list(range(begin, end))

    def crossings(self, line):
        """fix and second of each forward crossing"""
        for i, j in pairwise(self.judged):
            at = line.crossing(self.spots[i], self.spots[j], self.fixes[i][0], self.fixes[j][0])
            if at is not None:
                yield j, at

    def is_announced(self, second):
        wait, width = self.task["start"].get("wait"), self.task["start"].get("width")
        return wait is None or any(e + wait <= second <= e + wait + width for e in self.events[:3])

    def starts(self):
        keys = self.task["start"]
        for fix, second in self.crossings(Line(keys)):
            if keys["open"] <= second <= keys["close"] and self.is_announced(second):
                yield fix

    def visits(self, fix):
        """the fixes of the first visits from a start on, as many zones as can be visited"""
        found = []
        for inside in self.inside:
            fix = next((i for i in inside if i >= fix), None)
            if fix is None:
                break
            found.append(fix)
        return found

    def finishes(self):
        keys = self.task["finish"]
        if "ring" not in keys:
            return [fix for fix, _ in self.crossings(Line(keys))]
        centre = point(place(keys["at"]))
        return [i for i in self.judged if distance(self.spots[i], centre) <= keys["ring"] * 100]

    def scored(self):
        """the kind and the goal of the claim by which the flight is scored, or None"""
        self.inside = [[i for i in self.judged if zone.has(self.spots[i])] for zone in self.zones]
        keys, starts, finishes = self.task["finish"], list(self.starts()), self.finishes()
        start_point = point(place(self.task["start"]["at"]))
        stations = [start_point, *(zone.centre for zone in self.zones), point(place(keys["at"]))]
        by_line = 0 if "ring" in keys else 1
        for start in reversed(starts):
            visits = self.visits(start)
            end = next((i for i in finishes if len(visits) == len(self.zones) and i >= visits[-1] + by_line), None)
            if end is not None:
                if self.task["kind"] == "racing":
                    return None
                lists = [[i for i in inside if start <= i <= end - by_line] for inside in self.inside]
                return "AREA", Area(self, lists, start_point, stations[-1], keys.get("ring", 0) * 100)
        if not starts:
            return None
        visits = self.visits(starts[0])
        count, rest = len(visits), [i for i in self.judged if i >= starts[0]]
        if self.task["kind"] == "racing":
            fixed = sum(distance(a, b) for a, b in pairwise(stations[: count + 1]))
            rest = [i for i in rest if not visits or i >= visits[-1]]
            return "OUT", Out(self, [rest], fixed, stations[count], stations[count + 1])
        lists = [[i for i in inside if i >= starts[0]] for inside in self.inside[:count]]
        return "OUT", Out(self, [*lists, rest], 0, start_point, stations[count + 1])

    def claims(self):
        scored, rules, lists = self.scored(), self.task.get("rules", {}), self.task.get("lists", [])
        if scored:
            yield scored
        if "free" in lists and self.judged:
            yield "FREE", Free(self, self.judged, rules.get("loss", 1_000))
        if "triangle" in lists and self.judged:
            yield "TRIANGLE", Triangle(self, self.judged, rules.get("closing", 1_000) * 100)


# The proof: its text, and what is wrong with a claim.

NUMBER = rb"(?:0|[1-9][0-9]*)"
GRAMMAR = {
    "CLAIM": re.compile(rb"CLAIM ([A-Za-z0-9]{1,8}) (AREA|OUT|FREE|TRIANGLE) (NONE|%b)" % NUMBER),
    "FIX": re.compile(rb"FIX((?: %b){1,10})" % NUMBER),
    "BOX": re.compile(rb"BOX ([DSB])((?: %b-%b){1,10})" % (NUMBER, NUMBER)),
}


def proof(text):
    """the claims of a proof: number, kind, total, fixes and boxes"""
    *lines, rest = text.split(b"\n")
    if not lines or lines[0] not in (b"GLIDEPROOF 1", b"GLIDEPROOF 2"):
        raise Refused("PROOF 1 -")
    claims, wanted = [], ("CLAIM", "END")
    for number, line in enumerate(lines[1:], 2):
        word = line.split(b" ")[0].decode("latin-1")
        match = GRAMMAR[word].fullmatch(line) if word in GRAMMAR else None
        wrong = Refused(f"PROOF 2 {number}")
        if word not in wanted or not (match or line == b"END"):
            raise wrong
        if word == "END":
            if lines[number:] or rest:
                raise Refused(f"PROOF 2 {number + 1}")
            return claims
        if word == "CLAIM":
            total = None if match[3] == b"NONE" else int(match[3])
            claims.append((match[1].decode(), match[2].decode(), total, [], []))
            wanted = ("BOX", "CLAIM", "END") if total is None else ("FIX",)
            if total is not None and total >= 2**64:
                raise wrong
            continue
        wanted = ("BOX", "CLAIM", "END")
        numbers = [int(n) for n in re.findall(rb"\d+", match[0])]
        if max(numbers) >= 2**32:
            raise wrong
        if word == "FIX":
            claims[-1][3].extend(numbers)
            continue
        box = list(zip(numbers[::2], numbers[1::2]))
        if any(lo > hi for lo, hi in box):
            raise wrong
        claims[-1][4].append((match[1].decode(), box))
    raise Refused("PROOF 3 -")


def halves(box):
    axis = max(range(len(box)), key=lambda k: (box[k][1] - box[k][0], -k))
    lo, hi = box[axis]
    return [[*box[:axis], span, *box[axis + 1 :]] for span in ((lo, (lo + hi) // 2), ((lo + hi) // 2 + 1, hi))]


def is_closed(goal, total, letter, box):
    if letter == "D":
        return goal.is_disordered(box)
    if letter == "S":
        return goal.is_shut(box)
    return total is not None and goal.bound(box) <= total


def fault(goal, total, fixes, boxes):
    """the word and the box for what is wrong with a claim, or None"""
    if total is not None:
        there = len(fixes) == len(goal.lists) and all(fix in axis for fix, axis in zip(fixes, goal.lists))
        if not there or fixes != sorted(fixes) or not goal.is_legal(fixes):
            return "FIXES 0"
        if goal.value(fixes) != total:
            return "TOTAL 0"
    stack = [[(0, len(axis) - 1) for axis in goal.lists]]
    for number, (letter, box) in enumerate(boxes, 1):
        if not stack:
            return f"EXTRA {number}"
        cell = stack.pop()
        while cell != box:
            if all(lo == hi for lo, hi in cell):
                return f"PLACE {number}"
            cell, upper = halves(cell)
            stack.append(upper)
        if not is_closed(goal, total, letter, box):
            return f"CELL {number}"
    return "OPEN 0" if stack else None


def expected(task, task_day, forbidden):
    for entrant in task["entrant"]:
        if os.path.isfile(entrant["file"]):
            try:
                flight = Flight(open(entrant["file"], "rb").read(), task, task_day, forbidden)
            except Refused:
                continue
            for kind, goal in flight.claims():
                yield entrant["number"], kind, goal


def main(task_file, proof_file):
    task = tomllib.loads(open(task_file, "rb").read().decode("utf-8-sig"))
    task_day = datetime.date.fromisoformat(task["date"]).toordinal()
    forbidden = volumes(open(task["airspace"], encoding="latin-1").read()) if "airspace" in task else []
    try:
        claims = proof(open(proof_file, "rb").read())
    except Refused as refused:
        return f"REFUSED {refused} {proof_file}"
    count = 0
    for count, (number, kind, goal) in enumerate(expected(task, task_day, forbidden), 1):
        if count > len(claims):
            return f"NOT PROVED {count} MISSING 0"
        if claims[count - 1][:2] != (number, kind):
            return f"NOT PROVED {count} NAME 0"
        wrong = fault(goal, *claims[count - 1][2:])
        if wrong:
            return f"NOT PROVED {count} {wrong}"
    return f"ACCEPTED {count}" if count == len(claims) else f"NOT PROVED {count + 1} SURPLUS 0"


if __name__ == "__main__":
    print(main(*sys.argv[1:3]))
