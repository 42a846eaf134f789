"""Runs the program on a part and writes the page."""
import hashlib
import os
import re
import shlex
import subprocess
import sys
import tempfile
from dataclasses import dataclass

import jinja2

from . import drawing
from .heights import Stock
from .part import Part, Unknown
from .program import Program
from .refusal import explain

HERE = os.path.dirname(os.path.realpath(__file__))
RAPID_RATE = 5000
MOST_BYTES = 67_108_865
WITH_PAGE = (1, 7, 8)
COUNTS = re.compile(r"ws (\d+) tool (\d+) strokes (\d+) layers (\d+) lifts (\d+) cells (\d+)")


@dataclass
class Answer:
    """What a call of the program gave."""

    status: int
    output: bytes
    message: str


class Stopped(Exception):
    """There is no page; the message is told with the status."""

    def __init__(self, status, message):
        super().__init__(message)
        self.status = status


class Words:
    """The words of the command line: the part's name, the rapid rate, and what the program is given."""

    def __init__(self, words):
        if not words or not words[0] or words[0].startswith("-"):
            raise Stopped(2, "stepmill: word 2")
        self.part = words[0]
        self.rapid_rate = RAPID_RATE
        self.is_rapid_given = False
        self.options = []
        self.places = [1, 2]
        place = 3
        rest = iter(words[1:])
        for word in rest:
            if word != "--rapid":
                self.options.append(word)
                self.places.append(place)
                place += 1
                continue
            value = next(rest, "")
            if self.is_rapid_given:
                raise Stopped(2, f"stepmill: word {place}")
            if not re.fullmatch("[0-9]{1,6}", value) or int(value) == 0:
                raise Stopped(2, f"stepmill: word {place + 1}")
            self.rapid_rate, self.is_rapid_given = int(value), True
            place += 2
        self.places.append(place)

    def in_own_places(self, message):
        """The message of a wrong word, with its place among the words of the sheet."""
        match = re.fullmatch(r"stepmill: word (\d+)", message)
        if not match:
            return message
        return f"stepmill: word {self.places[min(int(match[1]), len(self.places)) - 1]}"

    def value_of(self, option):
        """The word behind an option, or None."""
        for name, value in zip(self.options, self.options[1:]):
            if name == option:
                return value
        return None

    def pitch(self):
        """The pitch of the grid in millimetres."""
        return int(self.value_of("--cell") or 250) / 1000

    def raw_box(self):
        """The two corners that --raw gives, or None."""
        given = self.value_of("--raw")
        if given is None:
            return None
        numbers = [float(number) for number in given.split(",")]
        return tuple(numbers[:3]), tuple(numbers[3:])


def program_name():
    """The program that is run."""
    return os.environ.get("STEPMILL") or os.path.join(HERE, "..", "..", "..", "bin", "stepmill")


def begin(*words):
    """Starts a call of the program."""
    try:
        return subprocess.Popen([program_name(), *words], stdin=subprocess.DEVNULL, stdout=subprocess.PIPE, stderr=subprocess.PIPE)
    except OSError:
        raise Stopped(127, f"stepmill-sheet: there is no program {program_name()}") from None


def end(call):
    """Waits for a call."""
    output, errors = call.communicate()
    lines = errors.decode("utf-8", "replace").strip().split("\n")
    return Answer(call.returncode, output, lines[-1])


def read_part(name):
    """The bytes of a part's file, as far as the program looks at them."""
    try:
        with open(name, "rb") as file:
            return file.read(MOST_BYTES)
    except OSError:
        raise Stopped(3, "stepmill: read fault") from None


def clock(seconds):
    """A time in hours, minutes and seconds."""
    seconds = round(seconds)
    hours, rest = divmod(seconds, 3600)
    return f"{hours}:{rest // 60:02}:{rest % 60:02}" if hours else f"{rest // 60}:{rest % 60:02}"


def grouped(value, digits=0):
    """A number with blanks between its groups of three digits, which a line does not break at."""
    return f"{value:,.{digits}f}".replace(",", "\u202f")


def ranges(numbers):
    """Rising numbers, with those in a row as one range."""
    found = []
    for number in numbers:
        if found and found[-1][1] == number - 1:
            found[-1][1] = number
        else:
            found.append([number, number])
    return ", ".join(str(a) if a == b else f"{a}\u2013{b}" for a, b in found)


def where_zero_is(low, high):
    """Where zero is with respect to the raw box, in words, one for each axis."""
    words = []
    for axis, (below, above) in enumerate((("left", "right"), ("front", "back"), ("underside", "top"))):
        length, middle = high[axis] - low[axis], (low[axis] + high[axis]) / 2
        if axis == 2:
            sides = {"low": f"Z0 is the {below} of the raw box", "high": f"Z0 is the {above} of the raw box"}
        else:
            sides = {"low": f"{'XY'[axis]}0 is its {below} side", "high": f"{'XY'[axis]}0 is its {above} side"}
        if abs(low[axis]) < 0.00005:
            words.append(sides["low"])
        elif abs(high[axis]) < 0.00005:
            words.append(sides["high"])
        elif abs(middle) < 0.00005 * max(1, length) and axis != 2:
            words.append(f"{'XY'[axis]}0 is its middle between {below} and {above}")
        else:
            ways = ("left of", "right of", "in front of", "behind", "below", "above")
            way = ways[2 * axis + (low[axis] < 0)]
            base = below if axis == 2 else below + " side"
            words.append(f"{'XYZ'[axis]}0 is {drawing.millimetres(abs(low[axis]))} mm {way} its {base}")
    return [words[2], words[0], words[1]]


def tool_rows(part, program, high):
    """What the table of tools shows, in the order of use."""
    rows = []
    for number, instance in program.tools.items():
        tool = part.tool(instance)
        runs = [(index, run) for index, run in enumerate(program.runs, 1) if run.tool == number]
        lowest = min((run.lowest() for _, run in runs if run.lowest() is not None), default=None)
        rows.append(
            {
                "number": number,
                "tool": tool,
                "kind": {"ENDMILL": "end mill", "TWIST_DRILL": "twist drill"}.get(tool.kind, tool.kind.lower()),
                "picture": drawing.tool_picture(tool, number),
                "colour": drawing.tool_colour(number),
                "lowest": lowest,
                "needed": None if lowest is None else high[2] - lowest,
                "speeds": sorted({run.speed for _, run in runs}),
                "feeds": sorted({run.feed for _, run in runs}),
                "steps": [index for index, _ in runs],
            }
        )
    return rows


def step_rows(part, program, counts, pitch, rate):
    """What the table of steps shows, and its sums."""
    rows = []
    for index, (run, row) in enumerate(zip(program.runs, counts), 1):
        step = part.step(run.number)
        feature = part.feature(step.feature)
        _, tool, strokes, layers, lifts, cells = row
        rows.append(
            {
                "index": index,
                "run": run,
                "step": step,
                "feature": feature,
                "feature_name": drawing.feature_label(feature),
                "tool": tool,
                "colour": drawing.tool_colour(tool),
                "strokes": strokes,
                "layers": layers,
                "lifts": lifts,
                "volume": cells * pitch**2 * 1e-7,
                "feed_length": run.feed_length(),
                "feed_seconds": run.feed_seconds(),
                "rapid_length": run.rapid_length(),
                "rapid_seconds": run.rapid_length() / rate * 60,
                "lowest": run.lowest(),
                "feeds": len(run.feeds()),
            }
        )
    names = ("volume", "feed_length", "feed_seconds", "rapid_length", "rapid_seconds", "lifts", "feeds")
    return rows, {name: sum(row[name] for row in rows) for name in names}


def read_counts(text):
    """The rows of `report`: workingstep, tool, strokes, layers, lifts, cells."""
    return [tuple(map(int, match.groups())) for match in map(COUNTS.match, text.split("\n")) if match]


def stock_after(low, high, program, tools):
    """The stock after all feeds of the program."""
    stock = Stock(low, high)
    for motion in program.motions():
        if motion.is_feed and motion.is_known() and motion.tool in tools:
            stock.cut(motion.start, motion.end, tools[motion.tool])
    stock.finish()
    return stock


def accepted(words, part, compiled, counts, verdict):
    """What the page of a compiled part shows."""
    program = Program(compiled.output)
    low, high = words.raw_box() or part.raw_box()
    entries = [m.end[2] for m in program.motions() if not m.is_feed]
    security = entries[0] if entries else part.security_height()
    tools = {number: part.tool(instance) for number, instance in program.tools.items()}
    rows, sums = step_rows(part, program, read_counts(counts.output.decode()), words.pitch(), words.rapid_rate)
    shown = {row["feature"].number: row["feature"] for row in rows}
    above, front, side = drawing.views(low, high, list(shown.values()), program.runs, tools, security)
    stock = stock_after(low, high, program, tools)
    name = os.path.splitext(os.path.basename(words.part))[0] + ".ngc"
    return {
        "verdict": verdict.output.decode("utf-8", "replace").strip() or verdict.message,
        "is_good": verdict.status == 0,
        "program_name": name,
        "digest": hashlib.sha256(compiled.output).hexdigest(),
        "bytes": len(compiled.output),
        "lines": program.line_count,
        "command": shlex.join(["stepmill", "compile", words.part, *words.options]) + " > " + shlex.quote(name),
        "low": low,
        "high": high,
        "size": [h - l for l, h in zip(low, high)],
        "is_raw_given": words.raw_box() is not None,
        "zero": where_zero_is(low, high),
        "zero_picture": drawing.zero_picture(low, high, security),
        "security": security,
        "tools": tool_rows(part, program, high),
        "steps": rows,
        "sums": sums,
        "changes": program.changes,
        "above": above,
        "front": front,
        "side": side,
        "stock_picture": stock.picture(),
        "stock_size": drawing.short(min(380, 230 * (high[0] - low[0]) / (high[1] - low[1]))),
        "stock_removed": stock.removed() / 1000,
        "levels": [(height, share, stock.colour(height)) for height, share in stock.levels()],
    }


def refused(words, part, answer):
    """What the page of a refused part shows."""
    refusal = explain(answer.message, part, words.pitch())
    shown = {"refusal": refusal, "pictures": [], "status": answer.status}
    if refusal.cell is None:
        return shown
    try:
        low, high = words.raw_box() or part.raw_box()
        feature = part.feature(refusal.number)
        shown["pictures"] = drawing.cell_pictures(low, high, part.features(), feature, refusal.cell)
        shown["wall"] = feature.outline.wall_distance(*refusal.cell[:2])
        shown["feature"] = feature
        shown["steps"] = [(step, part.tool(step.tool)) for step in part.steps_of(refusal.number)]
    except (Unknown, ValueError, ZeroDivisionError):
        pass
    return shown


def page(words):
    """The page and its status."""
    content = read_part(words.part)
    with tempfile.TemporaryDirectory() as folder:
        copy = os.path.join(folder, "part")
        with open(copy, "wb") as file:
            file.write(content)
        compiling = begin("compile", copy, *words.options)
        counting = begin("report", copy, *words.options)
        part = Part(content)
        compiled, counts = end(compiling), end(counting)
        if compiled.status == 0 and counts.status != 0:
            raise Stopped(counts.status, counts.message)
        if compiled.status not in (0, *WITH_PAGE):
            raise Stopped(compiled.status, words.in_own_places(compiled.message))
        shown = {"part_file": os.path.basename(words.part), "part_name": part.name() or os.path.basename(words.part), "written": part.written()}
        shown |= {"options": " ".join(words.options), "pitch": words.pitch(), "rapid_rate": words.rapid_rate, "is_rapid_given": words.is_rapid_given}
        status = compiled.status
        if status == 0:
            written = os.path.join(folder, "program")
            with open(written, "wb") as file:
                file.write(compiled.output)
            verdict = end(begin("verify", copy, written, *words.options))
            status = verdict.status
            shown |= accepted(words, part, compiled, counts, verdict)
        else:
            shown |= refused(words, part, compiled)
            print(compiled.message, file=sys.stderr)
    room = jinja2.Environment(loader=jinja2.FileSystemLoader(HERE), autoescape=True, trim_blocks=True, lstrip_blocks=True, undefined=jinja2.ChainableUndefined)
    room.filters |= {"mm": drawing.millimetres, "clock": clock, "grouped": grouped, "ranges": ranges}
    return room.get_template("page.html").render(shown), status


def main(words):
    """Writes the page to standard output and gives the status."""
    try:
        text, status = page(Words(words))
    except Stopped as stop:
        if str(stop):
            print(stop, file=sys.stderr)
        return stop.status
    try:
        sys.stdout.buffer.write(text.encode("utf-8"))
        sys.stdout.buffer.flush()
    except OSError:
        os.dup2(os.open(os.devnull, os.O_WRONLY), 1)
        return 4
    return status
