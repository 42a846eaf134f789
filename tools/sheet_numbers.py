#!/usr/bin/env python3
"""Compares the pages of integrations/sheet with what they were made from, computed here by itself.

  sheet_numbers.py page PAGE PROGRAM REPORT PITCH PART   a page of a compiled part, with the pitch in millimetres
  sheet_numbers.py alone PAGE STEP                       a page on which a step was clicked; 0 where all are shown
  sheet_numbers.py refusal PAGE MESSAGE ACTION MARKED    a page of a refused part
  sheet_numbers.py cell PAGE X Y Z FEATURE               the pictures of an unreached cell
  sheet_numbers.py messages USE                          the messages of the sheet with those of docs/USE.md

Each difference is a line on standard output. The status is 1 where there is one.
"""
import hashlib
import math
import os
import re
import sys
from fractions import Fraction
from html.parser import HTMLParser

VOID = ("meta", "link", "br", "img", "input", "hr")


class Element:
    """An element of a page with what is in it."""

    def __init__(self, name, attributes, outer):
        self.name, self.attributes, self.outer, self.inner = name, attributes, outer, []

    def classes(self):
        """Its classes."""
        return (self.attributes.get("class") or "").split()

    def text(self):
        """The text in it."""
        return "".join(part if isinstance(part, str) else part.text() for part in self.inner)

    def all(self, name=None, of_class=None, **attributes):
        """The elements in it, at any depth, with these properties."""
        found = []
        for part in self.inner:
            if isinstance(part, str):
                continue
            wanted = all(part.attributes.get(key.replace("_", "-")) == value for key, value in attributes.items())
            if wanted and name in (None, part.name) and (of_class is None or of_class in part.classes()):
                found.append(part)
            found += part.all(name, of_class, **attributes)
        return found

    def one(self, *wanted, **attributes):
        """The one element in it with these properties."""
        found = self.all(*wanted, **attributes)
        if len(found) != 1:
            raise SystemExit(f"{len(found)} elements with {wanted} {attributes}")
        return found[0]


class Tree(HTMLParser):
    """Reads a page into elements."""

    def __init__(self, text):
        super().__init__()
        self.top = self.current = Element("", {}, None)
        self.feed(text)

    def handle_starttag(self, tag, attributes):
        element = Element(tag, dict(attributes), self.current)
        self.current.inner.append(element)
        if tag not in VOID:
            self.current = element

    def handle_startendtag(self, tag, attributes):
        self.current.inner.append(Element(tag, dict(attributes), self.current))

    def handle_endtag(self, tag):
        place = self.current
        while place.outer and place.name != tag:
            place = place.outer
        if place.outer:
            self.current = place.outer

    def handle_data(self, data):
        self.current.inner.append(data)


faults = []


def same(what, found, wanted):
    """Notes a difference."""
    if found != wanted:
        faults.append(f"{what}: the page has {found!r}, wanted is {wanted!r}")


def near(what, found, wanted, most):
    """Notes a difference of more than this."""
    if abs(found - wanted) > most:
        faults.append(f"{what}: the page has {found}, wanted is {wanted}")


def number(text):
    """A number whose digits are grouped by narrow blanks."""
    return float(text.replace("\u202f", ""))


def plain(value):
    """A length without needless zeros."""
    text = f"{value:.4f}".rstrip("0").rstrip(".")
    return "0" if text == "-0" else text


def seconds(text):
    """A time as minutes and seconds, or with hours."""
    total = 0
    for part in text.split(":"):
        total = 60 * total + int(part)
    return total


def read(name):
    """The elements of a page."""
    with open(name, encoding="utf-8") as file:
        return Tree(file.read()).top


def run_program(text):
    """The steps of a program: what each of them moves, in ten-thousandths of a millimetre."""
    steps, tools, place, feed, speed, tool, changes, lines = [], {}, [None] * 3, 0, 0, 0, 0, text.splitlines()
    for at, line in enumerate(lines, 1):
        comment = re.fullmatch(r"\((T|WS )(\d+)?(?: ?#(\d+))\)", line)
        if comment and comment[1] == "T":
            tools[int(comment[2])] = int(comment[3])
        elif comment:
            steps.append({"number": int(comment[3]), "first": at, "feeds": [], "rapids": [], "tool": None})
        elif line.startswith("T"):
            tool, place, changes = int(line[1:].split()[0]), [None] * 3, changes + 1
        elif line.startswith("S"):
            speed = int(line[1:].split()[0])
        elif line.startswith("F"):
            feed = int(line[1:])
        elif line.startswith(("G0 ", "G1 ")):
            goal = list(place)
            for word in line.split()[1:]:
                goal["XYZ".index(word[0])] = round(Fraction(word[1:]) * 10_000)
            kind = "feeds" if line[1] == "1" else "rapids"
            steps[-1][kind].append((tuple(place), tuple(goal), feed))
            steps[-1] |= {"tool": tool, "speed": speed, "feed": feed}
            place = goal
        if steps and line != "%":
            steps[-1]["last"] = at
    return steps, tools, changes, len(lines)


def length(moves):
    """The way of moves whose ends are known, in millimetres."""
    return sum(math.dist(a, b) for a, b, _ in moves if None not in a) / 10_000


def compare_page(page_name, program_name, report_name, pitch, part_name):
    """A page of a compiled part."""
    page = read(page_name)
    with open(program_name, "rb") as file:
        content = file.read()
    with open(report_name, encoding="ascii") as file:
        counts = [list(map(int, re.findall(r"\d+", line))) for line in file if line.startswith("ws ")]
    with open(part_name, encoding="latin-1") as file:
        part = file.read()
    steps, tools, changes, count = run_program(content.decode("ascii"))
    same("digest", page.one(id="digest").text(), hashlib.sha256(content).hexdigest())
    same("bytes", number(page.one(id="bytes").text()), len(content))
    same("lines", number(page.one(id="lines").text()), count)
    same("verdict", page.one(id="verdict").inner[0], "verify: yes")
    same("steps of report", [row[0] for row in counts], [step["number"] for step in steps])
    security = next((b[2] for step in steps for _, b, _ in step["rapids"]), None)
    if security is not None:
        same("security height", page.one(id="security").one("b").text(), "Z" + plain(security / 10_000))
    raw_top = re.search(r"Z(\S+) to (\S+)", page.one(id="raw").text())[2]

    above = page.one("svg", "above")
    for index, step in enumerate(steps, 1):
        drawn = above.all(of_class="step", data_step=str(index))
        same(f"groups of step {index}", len(drawn), 1)
        ways = [way.attributes["d"] for shown in drawn for feed in shown.all(of_class="feed") for way in feed.all("path")]
        upright = sum(len(shown.all("g", kind)) for shown in drawn for kind in ("plunge", "rise"))
        same(f"drawn feeds of step {index}", sum(way.count("L") for way in ways) + upright, len(step["feeds"]))
    same("drawn steps", len(above.all(of_class="step")), len(steps))
    g1 = sum(line.startswith(b"G1 ") for line in content.splitlines())
    same("feeds of the program", sum(len(step["feeds"]) for step in steps), g1)

    rows = page.one("table", id="tools").one("tbody").all("tr")
    same("tools", len(rows), max(len(tools), 1))
    for row, (place, instance) in zip(rows, tools.items()):
        cells = [cell.text().strip() for cell in row.all("td")]
        own = [(index, step) for index, step in enumerate(steps, 1) if step["tool"] == place]
        lowest = min(z for _, step in own for a, b, _ in step["feeds"] for z in (a[2], b[2])) / 10_000
        same(f"tool {place}", cells[1], f"T{place}")
        same(f"instance of tool {place}", cells[2].split()[-1], f"#{instance}")
        body = re.search(rf"#{instance}\s*=\s*\w+\('[^']*',\s*#(\d+)", part)
        sizes = body and re.search(rf"#{body[1]}\s*=\s*(\w+)\((?:[^;#]*)#(\d+)", part)
        diameter = sizes and re.search(rf"#{sizes[2]}\s*=\s*MILLING_TOOL_DIMENSION\(([^,]*)", part)
        if not diameter:
            faults.append(f"tool {place}: no diameter is found in the part")
        else:
            same(f"diameter of tool {place}", float(cells[4]), float(diameter[1]))
            same(f"type of tool {place}", cells[3], {"ENDMILL": "end mill", "TWIST_DRILL": "twist drill"}.get(sizes[1]))
        same(f"lowest tip of tool {place}", cells[8], plain(lowest))
        same(f"length needed of tool {place}", cells[7], plain(float(raw_top) - lowest))
        same(f"length entry of tool {place}", cells[9], f"H{place}")
        same(f"speeds of tool {place}", cells[10], ", ".join(map(str, sorted({step["speed"] for _, step in own}))))
        same(f"feeds of tool {place}", cells[11], ", ".join(map(str, sorted({step["feed"] for _, step in own}))))
        used = [n for piece in re.findall(r"(\d+)(?:\u2013(\d+))?", cells[12]) for n in range(int(piece[0]), int(piece[1] or piece[0]) + 1)]
        same(f"steps of tool {place}", used, [index for index, _ in own])

    rows = page.one("table", id="steps").one("tbody").all("tr")
    same("rows of steps", len(rows), max(len(steps), 1))
    sums = {"volume": 0, "feed-length": 0, "feed-time": 0, "rapid-length": 0, "lifts": 0}
    for index, (row, step, (ws, tool, strokes, layers, lifts, cut)) in enumerate(zip(rows, steps, counts), 1):
        cells = [cell.text().strip() for cell in row.all("td")]
        same(f"number of step {index}", cells[0], str(index))
        same(f"workingstep of step {index}", cells[1].split()[-1], f"#{ws}")
        same(f"tool of step {index}", cells[3], f"T{tool}")
        same(f"lines of step {index}", cells[-1], f"{step['first']}\u2013{step['last']}")
        if not step["feeds"]:
            same(f"counts of step {index}", (strokes, layers, lifts, cut), (0, 0, 0, 0))
            same(f"words of step {index}", cells[4], "nothing is left to cut")
            continue
        same(f"tool of the moves of step {index}", step["tool"], tool)
        heights = {b[2] for a, b, _ in step["feeds"] if b[2] <= a[2]}
        same(f"lowest tip of step {index}", cells[5], plain(min(heights) / 10_000))
        same(f"layers and strokes of step {index}", cells[6], f"{layers}\u00d7{strokes}")
        if step["feeds"][0][1][2] == step["feeds"][-1][1][2] and layers == 1:
            same(f"heights of step {index}", len(heights), layers)
        same(f"retracts of step {index}", int(cells[7]), lifts)
        ups = sum(b[2] == security and a[2] is not None and a[2] < security for a, b, _ in step["rapids"])
        same(f"retracts of the moves of step {index}", ups, lifts)
        volume = float(cut * Fraction(pitch) ** 2 / 10_000_000)
        time = sum(math.dist(a, b) / 10_000 / feed * 60 for a, b, feed in step["feeds"])
        near(f"volume of step {index}", float(cells[8]), volume, 0.00051)
        near(f"feed length of step {index}", number(cells[9]), length(step["feeds"]), 0.051)
        near(f"feed time of step {index}", seconds(cells[10]), time, 0.51)
        near(f"rapid length of step {index}", number(cells[11]), length(step["rapids"]), 0.051)
        for name, value in zip(sums, (volume, length(step["feeds"]), time, length(step["rapids"]), lifts)):
            sums[name] += value
    foot = [cell.text() for cell in page.one("table", id="steps").one("tfoot").all("td")]
    same("sum of retracts", int(foot[2]), sums["lifts"])
    near("sum of volumes", float(foot[3]), sums["volume"], 0.00051)
    near("sum of feed lengths", number(foot[4]), sums["feed-length"], 0.051)
    near("sum of feed times", seconds(foot[5]), sums["feed-time"], 0.51)
    near("sum of rapid lengths", number(foot[6]), sums["rapid-length"], 0.051)
    near("estimated time", seconds(page.one(id="time").text()), sums["feed-time"] + sums["rapid-length"] / 5000 * 60, 0.51)
    if f"{changes} tool change" not in page.text():
        faults.append(f"tool changes: the page has no {changes}")


def compare_alone(page_name, step):
    """A page on which a step was clicked."""
    page = read(page_name)
    drawn = [group for group in page.all(of_class="step") if group.name == "g"]
    shown = {group.attributes["data-step"] for group in drawn if "away" not in group.classes()}
    every = {group.attributes["data-step"] for group in drawn}
    same("steps that are shown", shown, every if step == "0" else {step})
    same("pictures with the step", sum(group.attributes["data-step"] in shown for group in drawn), 3 * len(shown))
    rows = [row.attributes["data-step"] for row in page.one("table", id="steps").all("tr", "alone")]
    same("marked rows", rows, [] if step == "0" else [step])
    pressed = [button.attributes["data-step"] for button in page.all("button", aria_pressed="true")]
    same("pressed buttons", pressed, [step])


def compare_refusal(page_name, message, action, marked):
    """A page of a refused part."""
    page = read(page_name)
    same("message", page.one(id="message").text(), message)
    same("action", page.one(id="action").text(), action)
    same("marked text", [mark.text() for mark in page.all("mark")], [marked])


def compare_cell(page_name, *wanted):
    """The pictures of an unreached cell: the cross stands in the marked feature where the rulers say."""
    page = read(page_name)
    x, y, z, feature = wanted
    same("cell", page.one(id="cell").one("strong").text(), f"X{x} Y{y} Z{z}")
    same("pictures with the cell", [svg.attributes["class"] for svg in page.all("svg") if svg.all("g", "cell")], ["view above", "view near"])
    same("marked features", [group.attributes["data-feature"] for group in page.all("g", "feature") if group.all(of_class="chosen")], [feature])
    for svg in page.all("svg"):
        cross = svg.one("g", "cell").attributes["transform"]
        pixels = [float(n) for n in re.findall(r"[-0-9.]+", cross)]
        shape = svg.one(of_class="chosen").attributes
        if "r" in shape and math.dist(pixels, (float(shape["cx"]), float(shape["cy"]))) > float(shape["r"]):
            faults.append(f"the cell in {svg.attributes['class']} is outside of its feature")
        for axis, place, value in ((0, "middle", x), (1, "end", y)):
            marks = []
            for text in svg.one("g", "ruler").all("text", text_anchor=place):
                marks.append((float(text.text()), float(text.attributes["xy"[axis]]) - 4 * axis))
            (a, at_a), (b, at_b) = marks[0], marks[-1]
            near(f"{'XY'[axis]} of the cell in {svg.attributes['class']}", pixels[axis], at_a + (float(value) - a) * (at_b - at_a) / (b - a), 0.05)


def compare_messages(use_name):
    """The messages of the sheet and those of docs/USE.md with a page, in both directions and in order."""
    sys.dont_write_bytecode = True
    sys.path.insert(0, os.path.join(os.path.dirname(os.path.realpath(__file__)), "..", "integrations", "sheet"))
    from sheet.refusal import MESSAGES

    with open(use_name, encoding="utf-8") as file:
        told = re.findall(r"^\| `stepmill: ([^`]*)` \| [178] \|", file.read(), re.MULTILINE)
    found = []
    for message in told:
        line = re.sub(r"\b[A-Z]\b", "7", message)
        hits = [place for place, (pattern, _, _) in enumerate(MESSAGES) if re.fullmatch(pattern, line)]
        same(f"patterns of '{message}'", len(hits), 1)
        found += hits
    same("messages", found, list(range(len(MESSAGES))))
    for pattern, cause, action in MESSAGES:
        if not cause or not action:
            faults.append(f"'{pattern}' has no cause or nothing to do")


KINDS = {"page": compare_page, "alone": compare_alone, "refusal": compare_refusal, "cell": compare_cell, "messages": compare_messages}
KINDS[sys.argv[1]](*sys.argv[2:])
print("\n".join(faults[:20]), end="\n" if faults else "")
sys.exit(bool(faults))
