"""Post-processor for FreeCAD's Path workbench: programs that `stepmill verify` judges.

An operation's label says its workingstep: it begins with the number (`13 rough pocket`) or has it as `#13`. Options:

    --chord D        the greatest distance of a chord from its arc in mm (0.005)
    --no-show-editor accepted, changes nothing: no editor is shown

What cannot be written is refused with the operation's label: `Refused` is raised, and no file is written.
"""

import argparse
import builtins
import math
import re
import shlex

TOOLTIP = "Programs that stepmill verify judges: drilling cycles and arcs written out, marks from the labels"

parser = argparse.ArgumentParser(prog="stepmill", add_help=False)
parser.add_argument("--chord", type=float, default=0.005, help="greatest distance of a chord from its arc in mm")
parser.add_argument("--no-show-editor", action="store_true", help="changes nothing: no editor is shown")
TOOLTIP_ARGS = parser.format_help()

# What FreeCAD asks of a post-processor: the units of its programs.
UNITS = "G21"

# Lengths are counted in tenths of a micrometre.
PER_MM = 10000
# Rounding moves a point by less than this many millimetres.
ROUNDING = 0.0001
# How far a drill stays above the depth it has reached, in mm, when it comes back in rapid: that of LinuxCNC.
PECK_CLEARANCE = 0.254
# Start and end of an arc lie on its circle within this many millimetres.
RADII = 0.005

NOTHING = {"G21", "G90", "G17", "G94", "G40", "G61", "G54", "G80", "G91.1"}
AS_THEY_ARE = {"M0", "M1", "M5", "M7", "M8", "M9"}
CYCLES = {"G73", "G81", "G82", "G83"}
CAUSES = {
    "G18": "another plane", "G19": "another plane", "G20": "inches", "G41": "cutter compensation",
    "G42": "cutter compensation", "G90.1": "absolute centres of arcs", "G91": "incremental distances",
    "G93": "inverse time", "G95": "feed per revolution", "M4": "spindle counter-clockwise", "G4": "a dwell",
    "G74": "tapping", "G84": "tapping",
}


class Refused(Exception):
    """A command that cannot be written; the text names the operation, the command and the cause."""


def workingstep(label):
    """The number of the workingstep that a label names, or None."""
    found = re.match(r"([1-9][0-9]*)(?![0-9.])", label) or re.search(r"#([1-9][0-9]*)(?![0-9.])", label)
    return int(found.group(1)) if found and int(found.group(1)) < 2**32 else None


def whole(value):
    """Rounded down to a whole number; what is short of one by an error of floating point counts as the number."""
    return math.floor(value + 1e-6)


class Program:
    """The lines of a program, from commands of FreeCAD: a name, and words in mm and mm/s."""

    def __init__(self, chord):
        if not chord > 2 * ROUNDING:
            raise Refused("the distance of chords has to be more than %g mm" % (2 * ROUNDING))
        self.chord = chord
        self.lines = ["%", "G21 G90 G17 G94 G40 G61"]
        self.label = ""
        self.mark = self.tool = self.speed = self.feed = self.written_feed = None
        # The tip in tenths of a micrometre, as the program has it, and in mm before rounding; None where it is not known.
        self.tip = dict.fromkeys("XYZ")
        self.exact = dict.fromkeys("XYZ")
        self.motion = None
        self.cycle_words = {}
        self.returns_to_start = True

    def refuse(self, name, cause):
        raise Refused("operation '%s': %s: %s" % (self.label, name, cause))

    def begin(self, label):
        """Begins an operation with the mark of its workingstep; one that goes on with the last one has no mark."""
        self.label = label
        step = workingstep(label)
        if step is None:
            self.refuse("label", "it names no workingstep, as '13 rough pocket' or '#13' does")
        if step != self.mark:
            self.lines.append("(WS #%d)" % step)
            self.mark = step

    def end(self):
        return "\n".join(self.lines + ["M2", "%", ""])

    def set_speed(self, speed):
        speed = whole(speed)
        if speed < 1:
            self.refuse("S", "the speed is below 1 rev/min")
        if speed != self.speed:
            self.lines.append("S%d M3" % speed)
            self.speed = speed

    def change(self, tool):
        self.lines += ["T%d M6" % tool, "G43 H%d" % tool]
        self.tool = tool
        self.speed = self.written_feed = None
        self.tip = dict.fromkeys("XYZ")
        self.exact = dict.fromkeys("XYZ")

    def move(self, word, exact):
        """A rapid (`G0`) or a feed (`G1`) along a straight line to a point, given in mm by the axes that may change."""
        to = {axis: round(value * PER_MM) for axis, value in exact.items()}
        to = {axis: value for axis, value in to.items() if value != self.tip[axis]}
        if not to:
            self.exact.update(exact)
            return
        if self.tool is None:
            if word == "G0" and list(to) == ["Z"]:
                return
            self.refuse(word, "a motion before the first tool")
        if word == "G1":
            if self.feed is None:
                self.refuse(word, "no feed")
            if self.feed != self.written_feed:
                self.lines.append("F%d" % self.feed)
                self.written_feed = self.feed
        if word == "G0" and self.tip["Z"] is None and len(to) == 3:
            self.move("G0", {"Z": exact["Z"]})
            del to["Z"]
        axes = ["%s%.4f" % (axis, to[axis] / PER_MM) for axis in "XYZ" if axis in to]
        self.lines.append(" ".join([word] + axes))
        self.tip.update(to)
        self.exact.update(exact)

    def write(self, name, words):
        """Writes one command."""
        if name.startswith("("):
            return
        kind = re.sub(r"^([GM])0+(?=[0-9])", r"\1", name.upper())
        for axis in "ABCUVW":
            if axis in words:
                self.refuse(kind, "a fourth axis (%s)" % axis)
        if kind in ("G98", "G99"):
            self.returns_to_start = kind == "G98"
        elif kind in NOTHING:
            pass
        elif kind in ("G0", "G1"):
            self.set_feed(kind, words)
            self.move(kind, {axis: words[axis] for axis in "XYZ" if axis in words})
        elif kind in ("G2", "G3"):
            self.set_feed(kind, words)
            self.arc(kind, words)
        elif kind in CYCLES:
            self.set_feed(kind, words)
            self.cycle(kind, words)
        elif kind == "M6":
            if "T" not in words:
                self.refuse(kind, "no number of a tool")
            self.change(int(words["T"]))
        elif kind == "M3":
            if "S" in words:
                self.set_speed(words["S"])
        elif kind == "G43" and words.get("H") == self.tool:
            pass
        elif kind in AS_THEY_ARE:
            self.lines.append(kind)
            if kind == "M5":
                self.speed = None
        elif kind.startswith("G38"):
            self.refuse(kind, "probing")
        elif re.match(r"G5[5-9]", kind):
            self.refuse(kind, "a work offset other than G54")
        else:
            self.refuse(kind, CAUSES.get(kind, "it has no form in this profile"))
        if kind in CYCLES or kind in ("G0", "G1", "G2", "G3", "G80"):
            self.motion = kind

    def set_feed(self, kind, words):
        # FreeCAD gives rapids feeds of their own, which no program has.
        if kind == "G0" or "F" not in words:
            return
        self.feed = whole(words["F"] * 60)
        if self.feed < 1:
            self.refuse(kind, "the feed is below 1 mm/min")

    def arc(self, kind, words):
        """An arc or a helix about Z as chords."""
        if "R" in words:
            self.refuse(kind, "an arc by its radius")
        if words.get("K", 0) != 0:
            self.refuse(kind, "another plane")
        if None in self.tip.values():
            self.refuse(kind, "the start of the arc is not known")
        start = [self.exact[axis] for axis in "XYZ"]
        end = [words.get(axis, place) for axis, place in zip("XYZ", start)]
        centre = [start[0] + words.get("I", 0), start[1] + words.get("J", 0)]
        radius = math.hypot(start[0] - centre[0], start[1] - centre[1])
        last_radius = math.hypot(end[0] - centre[0], end[1] - centre[1])
        if radius == 0 or abs(radius - last_radius) > RADII:
            self.refuse(kind, "start and end do not lie on one circle")
        first = math.atan2(start[1] - centre[1], start[0] - centre[0])
        turn = math.atan2(end[1] - centre[1], end[0] - centre[0]) - first
        # Ends that are the same but for rounding make a full turn.
        closed = math.hypot(end[0] - start[0], end[1] - start[1]) < ROUNDING
        if kind == "G2":
            turn = -2 * math.pi if closed else turn - 2 * math.pi * math.ceil(turn / (2 * math.pi))
        else:
            turn = 2 * math.pi if closed else turn - 2 * math.pi * math.floor(turn / (2 * math.pi))
        allowed = self.chord - ROUNDING
        greatest = max(radius, last_radius)
        step = min(math.pi / 2, 2 * math.acos(max(0.0, 1 - allowed / greatest)))
        count = max(1, math.ceil(abs(turn) / step))
        for place in range(1, count):
            part = place / count
            here = radius + (last_radius - radius) * part
            self.move("G1", {
                "X": centre[0] + here * math.cos(first + turn * part),
                "Y": centre[1] + here * math.sin(first + turn * part),
                "Z": start[2] + (end[2] - start[2]) * part,
            })
        self.move("G1", dict(zip("XYZ", end)))

    def cycle(self, kind, words):
        """A drilling cycle as its rapids and feeds, those of LinuxCNC. The dwell of G82 is left out."""
        if self.motion != kind:
            self.cycle_words = {}
        self.cycle_words.update({word: words[word] for word in "ZRQ" if word in words})
        if words.get("L", 1) != 1:
            self.refuse(kind, "repeats")
        if self.tip["Z"] is None:
            self.refuse(kind, "the height of the start is not known")
        for word in "ZRQ" if kind in ("G73", "G83") else "ZR":
            if word not in self.cycle_words:
                self.refuse(kind, "no word %s" % word)
        retract = round(self.cycle_words["R"] * PER_MM)
        bottom = round(self.cycle_words["Z"] * PER_MM)
        if retract < bottom:
            self.refuse(kind, "R lies below Z")
        clear = max(self.tip["Z"], retract) if self.returns_to_start else retract
        if self.tip["Z"] < retract:
            self.move("G0", {"Z": retract / PER_MM})
        self.move("G0", {axis: words[axis] for axis in "XY" if axis in words})
        self.move("G0", {"Z": retract / PER_MM})
        if kind in ("G73", "G83"):
            peck = round(self.cycle_words["Q"] * PER_MM)
            if peck <= 0:
                self.refuse(kind, "Q is not above 0")
            depth = retract - peck
            while depth > bottom:
                self.move("G1", {"Z": depth / PER_MM})
                if kind == "G83":
                    self.move("G0", {"Z": retract / PER_MM})
                self.move("G0", {"Z": depth / PER_MM + PECK_CLEARANCE})
                depth -= peck
        self.move("G1", {"Z": bottom / PER_MM})
        self.move("G0", {"Z": clear / PER_MM})


def controller(operation):
    """The tool controller of an operation or of what it dresses up, or None."""
    while operation is not None:
        found = getattr(operation, "ToolController", None)
        if found is not None:
            return found
        operation = getattr(operation, "Base", None)
        if isinstance(operation, (list, tuple)):
            operation = operation[0] if operation else None
    return None


def post(objects, chord):
    """The program of a list of fixtures, tool controllers and operations, as FreeCAD's export hands them."""
    program = Program(chord)
    for item in objects:
        if not hasattr(item, "Path") or not getattr(item, "Active", True):
            continue
        used = controller(item)
        if used is None or hasattr(item, "ToolNumber"):
            program.label = item.Label
        else:
            program.begin(item.Label)
            if program.tool == used.ToolNumber:
                program.set_speed(used.SpindleSpeed)
        for command in item.Path.Commands:
            program.write(command.Name, command.Parameters)
    return program.end()


def export(objectslist, filename, argstring):
    """Writes the program to a file, `-` for none, and returns it: what FreeCAD calls."""
    text = post(objectslist, parser.parse_args(shlex.split(argstring)).chord)
    if filename != "-":
        with builtins.open(filename, "w", encoding="ascii", newline="\n") as file:
            file.write(text)
    return text
