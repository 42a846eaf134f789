"""The motions of a program, with the step and the tool of each."""
import math
import re
from dataclasses import dataclass, field

MARK = re.compile(r"\(WS #([0-9]+)\)")
TOOL = re.compile(r"\(T([0-9]+) #([0-9]+)\)")
COMMENT = re.compile(r"\([^)]*\)")
WORD = re.compile(r"([A-Z])([+-]?(?:[0-9]+\.?[0-9]*|\.[0-9]+))")


@dataclass
class Motion:
    """One motion. A coordinate that is not known before it is None: the place after a tool change is not told."""

    is_feed: bool
    start: tuple
    end: tuple
    line: int
    tool: int
    feed: float

    def is_known(self):
        """Whether both ends are."""
        return None not in self.start and None not in self.end

    def is_plunge(self):
        """Whether it is a feed straight down."""
        return self.is_feed and self.start[:2] == self.end[:2] and self.end[2] < self.start[2]

    def is_upright(self):
        """Whether X and Y stay."""
        return self.start[:2] == self.end[:2]

    def length(self):
        """In millimetres; 0 where it is not known."""
        return math.dist(self.start, self.end) if self.is_known() else 0.0


@dataclass
class Run:
    """What a program does after one mark."""

    number: int
    first_line: int
    last_line: int = 0
    tool: int = 0
    feed: float = 0.0
    speed: float = 0.0
    motions: list = field(default_factory=list)

    def feeds(self):
        """The motions at feed."""
        return [m for m in self.motions if m.is_feed]

    def rapids(self):
        """The motions in rapid."""
        return [m for m in self.motions if not m.is_feed]

    def feed_length(self):
        """In millimetres."""
        return sum(m.length() for m in self.feeds())

    def feed_seconds(self):
        """At the programmed feeds, without any time for speeding up and slowing down."""
        return sum(m.length() / m.feed for m in self.feeds() if m.feed) * 60

    def rapid_length(self):
        """In millimetres, without ways from the place of a tool change."""
        return sum(m.length() for m in self.rapids())

    def lowest(self):
        """The lowest tip at feed, or None."""
        return min((z for m in self.feeds() for z in (m.start[2], m.end[2]) if z is not None), default=None)


class Program:
    """A program that the verifier says yes to, or that `compile` wrote."""

    def __init__(self, content):
        self.content = content
        self.tools = {}
        self.runs = []
        self.changes = 0
        self._read(content.decode("latin-1").split("\n"))

    def _read(self, lines):
        self.line_count = len(lines) - (lines[-1] == "")
        place, tool, feed, speed, rapid = (None, None, None), 0, 0.0, 0.0, True
        for number, line in enumerate(lines, 1):
            for match in TOOL.finditer(line):
                self.tools[int(match[1])] = int(match[2])
            mark = MARK.search(line)
            if mark:
                self.runs.append(Run(int(mark[1]), number))
            words = {}
            moves = False
            for letter, value in WORD.findall(COMMENT.sub("", line).upper().replace(" ", "").replace("\t", "")):
                value = float(value)
                if letter == "G" and value in (0, 1):
                    rapid = value == 0
                elif letter == "M" and value == 6:
                    place = (None, None, None)
                    self.changes += 1
                elif letter == "T":
                    tool = int(value)
                elif letter == "F":
                    feed = value
                elif letter == "S":
                    speed = value
                elif letter in "XYZ":
                    words[letter] = value
                    moves = True
            if not self.runs:
                continue
            run = self.runs[-1]
            if line.strip() not in ("", "%"):
                run.last_line = number
            if moves:
                end = tuple(words.get(axis, old) for axis, old in zip("XYZ", place))
                run.motions.append(Motion(not rapid, place, end, number, tool, feed))
                run.tool, run.feed, run.speed = tool, feed, speed
                place = end

    def motions(self):
        """All motions in order."""
        return [motion for run in self.runs for motion in run.motions]
