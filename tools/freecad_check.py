#!/usr/bin/env python3
"""Checks the post-processor for FreeCAD by itself, without FreeCAD: chords of arcs, refusals, and drilling cycles.

    freecad_check.py [INTERPRETER]

INTERPRETER is LinuxCNC's `rs274`; without it the cycles are left out, and said to be. The last line is 'N passed, M failed'.
"""
import importlib.util
import math
import os
import random
import re
import subprocess
import sys
import tempfile

HERE = os.path.dirname(os.path.abspath(__file__))
spec = importlib.util.spec_from_file_location("post", os.path.join(HERE, "../integrations/freecad/stepmill_post.py"))
post = importlib.util.module_from_spec(spec)
sys.dont_write_bytecode = True
spec.loader.exec_module(post)

HEAD = "%\nG21 G90 G17 G94 G40 G61\nT1 M6\nG43 H1\nS1000 M3\nF300\n"
counts = [0, 0]


def check(is_good, what):
    counts[not is_good] += 1
    if not is_good:
        print("FAILED:", what)


class Command:
    def __init__(self, name, **words):
        self.Name, self.Parameters = name, words


class Item:
    """An operation or a tool controller, as far as the post-processor looks at one."""

    def __init__(self, label, commands, **others):
        self.Label = label
        self.Path = type("Path", (), {"Commands": commands})()
        self.__dict__.update(others)


def posted(commands, arguments="", label="1 test"):
    tool = Item("tool", [Command("M6", T=1), Command("M3", S=1000.0)], ToolNumber=1, SpindleSpeed=1000.0)
    return post.export([tool, Item(label, commands, ToolController=tool)], "-", arguments)


# ---- arcs

def points_of(program):
    """The tips after each motion of a program."""
    tip, found = [None, None, None], []
    for line in program.splitlines():
        if re.match(r"G[01] ", line):
            for axis, value in re.findall(r"([XYZ])(-?[0-9.]+)", line):
                tip["XYZ".index(axis)] = float(value)
            found.append(tuple(tip))
    return found


def distance(point, start, end):
    """The distance of a point from the straight line between two points."""
    along = [b - a for a, b in zip(start, end)]
    length = sum(x * x for x in along)
    part = 0 if length == 0 else max(0, min(1, sum((p - a) * x for p, a, x in zip(point, start, along)) / length))
    return math.dist(point, [a + part * x for a, x in zip(start, along)])


def check_arc(centre, radius, first, turn, start_z, end_z, chord):
    """An arc given by its angles; a point that goes along it stays near the chords, and passes them in their order."""
    def at(part):
        angle = first + turn * part
        z = start_z + (end_z - start_z) * part
        return (centre[0] + radius * math.cos(angle), centre[1] + radius * math.sin(angle), z)

    start, end = at(0), at(1)
    words = {"X": end[0], "Y": end[1], "I": centre[0] - start[0], "J": centre[1] - start[1], "F": 5.0}
    if start_z != end_z:
        words["Z"] = end_z
    program = posted([
        Command("G0", Z=50.0), Command("G0", X=start[0], Y=start[1]), Command("G1", Z=start_z, F=5.0),
        Command("G3" if turn > 0 else "G2", **words),
    ], "--chord %g" % chord)
    points = points_of(program)[2:]
    what = "arc about %s of %g from %g by %g, Z %g to %g, chord %g" % (centre, radius, first, turn, start_z, end_z, chord)
    check(math.dist(points[0], start) < 1e-4 and math.dist(points[-1], end) < 1e-4, what + ": its ends")
    count = len(points) - 1
    samples = 40
    worst = 0.0
    for place in range(count):
        for sample in range(samples + 1):
            part = (place + sample / samples) / count
            worst = max(worst, distance(at(part), points[place], points[place + 1]))
    check(worst <= chord, what + ": %g off" % worst)
    # No more chords than twice those that the distance asks for.
    needed = abs(turn) / (2 * math.acos(max(-1, 1 - chord / radius)))
    check(count <= 2 * needed + 5, what + ": %d chords" % count)


def check_arcs():
    source = random.Random(1)
    for _ in range(200):
        radius = 10 ** source.uniform(-1, 2.7)
        turn = source.choice((-1, 1)) * source.choice((2 * math.pi, math.pi, math.pi / 2, source.uniform(0.05, 6.2)))
        start_z = source.choice((0.0, source.uniform(-20, 20)))
        end_z = source.choice((start_z, source.uniform(-20, 20)))
        centre = (source.uniform(-300, 300), source.uniform(-300, 300))
        check_arc(centre, radius, source.uniform(-3.1, 3.1), turn, start_z, end_z, source.choice((0.005, 0.002, 0.05)))


# ---- refusals

def check_refusals():
    start = [Command("G0", Z=30.0), Command("G0", X=0.0, Y=0.0)]
    for command, cause in (
        (Command("G38.2", Z=0.0), "probing"),
        (Command("G41", D=1), "cutter compensation"),
        (Command("G42", D=1), "cutter compensation"),
        (Command("G18"), "another plane"),
        (Command("G19"), "another plane"),
        (Command("G1", X=1.0, A=5.0, F=5.0), "a fourth axis (A)"),
        (Command("G20"), "inches"),
        (Command("G91"), "incremental distances"),
        (Command("G55"), "a work offset other than G54"),
        (Command("G84", X=0.0, Y=0.0, Z=0.0, R=5.0), "tapping"),
        (Command("G4", P=1.0), "a dwell"),
        (Command("M4", S=100.0), "spindle counter-clockwise"),
        (Command("G2", X=1.0, Y=1.0, R=5.0, F=5.0), "an arc by its radius"),
        (Command("G2", X=9.0, Y=1.0, I=1.0, J=0.0, F=5.0), "start and end do not lie on one circle"),
        (Command("G83", X=1.0, Y=1.0, Z=0.0, R=5.0, Q=0.0, F=5.0), "Q is not above 0"),
        (Command("G81", X=1.0, Y=1.0, Z=5.0, R=0.0, F=5.0), "R lies below Z"),
        (Command("G5", X=1.0), "it has no form in this profile"),
    ):
        wanted = "operation '7 odd': %s: %s" % (command.Name, cause)
        try:
            posted(start + [command], label="7 odd")
            came = "no refusal"
        except post.Refused as refusal:
            came = str(refusal)
        check(came == wanted, "wanted %r, came %r" % (wanted, came))
    with tempfile.TemporaryDirectory() as folder:
        path = os.path.join(folder, "none.ngc")
        try:
            post.export([Item("7 odd", [Command("G20")])], path, "")
        except post.Refused:
            pass
        check(not os.path.exists(path), "a refused program is written")
    for label, step in (
        ("13 rough pocket", 13), ("#13", 13), ("rough #13 pocket", 13), ("WS #10", 10), ("13", 13), ("Pocket", None),
        ("0 face", None), ("013 face", None), ("4294967296 face", None), ("4294967295 face", 4294967295), ("1.5 mm slot", None),
    ):
        check(post.workingstep(label) == step, "the label %r names %s" % (label, post.workingstep(label)))


def check_numbers():
    lines = posted([Command("G0", Z=30.0), Command("G0", X=1.00004, Y=-0.00004), Command("G1", Z=2.5, F=1234.7 / 60)])
    wanted = HEAD.replace("F300\n", "(WS #1)\n") + "G0 Z30.0000\nG0 X1.0000 Y0.0000\nF1234\nG1 Z2.5000\nM2\n%\n"
    check(lines == wanted, "wanted %r, came %r" % (wanted, lines))
    lines = posted([Command("G00", X=1.0, Y=2.0, Z=30.0), Command("G00", X=3.0, Y=2.0, Z=20.0)])
    wanted = HEAD.replace("F300\n", "(WS #1)\n") + "G0 Z30.0000\nG0 X1.0000 Y2.0000\nG0 X3.0000 Z20.0000\nM2\n%\n"
    check(lines == wanted, "wanted %r, came %r" % (wanted, lines))


def check_marks():
    """Operations of one workingstep have one mark; another speed of the same tool is set; low rapids are kept."""
    def tool(speed):
        return Item("tool", [Command("M6", T=1), Command("M3", S=speed)], ToolNumber=1, SpindleSpeed=speed)

    def cut(label, used, depth):
        moves = [Command("G0", Z=30.0), Command("G0", X=0.0, Y=0.0), Command("G1", Z=depth, F=5.0), Command("G0", Z=20.0)]
        return Item(label, moves, ToolController=used)

    slow, fast = tool(1000.9), tool(2000.0)
    off = cut("5 off", slow, 1.0)
    off.Active = False
    lines = post.export([
        Item("G54", [Command("G54"), Command("G0", Z=25.0)]), slow, cut("1 a", slow, 5.0), off, cut("1 b", slow, 4.0),
        cut("2 c", fast, 3.0),
    ], "-", "")
    one = "G0 Z30.0000\n%sG1 Z%.4f\nG0 Z20.0000\n"
    wanted = (
        HEAD.replace("F300\n", "(WS #1)\n") + one % ("G0 X0.0000 Y0.0000\nF300\n", 5) + one % ("", 4)
        + "(WS #2)\nS2000 M3\n" + one % ("", 3) + "M2\n%\n"
    )
    check(lines == wanted, "wanted %s, came %s" % (wanted, lines))


# ---- cycles

def canonical(interpreter, program):
    """The moves that LinuxCNC's interpreter makes of a program, without those that do not move."""
    with tempfile.TemporaryDirectory() as folder:
        table, path = os.path.join(folder, "tools.tbl"), os.path.join(folder, "program.ngc")
        with open(table, "w") as file:
            file.write("".join("T%d P%d Z0 D10\n" % (tool, tool) for tool in range(1, 10)))
        with open(path, "w") as file:
            file.write(program)
        done = subprocess.run([interpreter, "-t", table, "-g", path], cwd=folder, capture_output=True, text=True)
    moves = []
    for kind, values in re.findall(r"STRAIGHT_(TRAVERSE|FEED)\(([^)]*)\)", done.stdout):
        move = (kind, *[float(value) for value in values.split(",")[:3]])
        if not moves or move[1:] != moves[-1][1:]:
            moves.append(move)
    return moves, "PROGRAM_END()" in done.stdout and done.returncode == 0


def check_cycles(interpreter):
    source = random.Random(2)
    for _ in range(60):
        cycle = source.choice(("G73", "G81", "G82", "G83"))
        mode = source.choice(("G98", "G99"))
        retract = source.choice((2.0, 3.5, 22.0))
        start = source.choice((30.0, 10.0, retract))
        peck = source.choice((0.1, 1.0, 2.5, 7.0, 40.0))
        depth = source.choice((-7.0, -8.123, 0.5))
        holes = [(float(source.randrange(50)), float(source.randrange(50))) for _ in range(3)]
        words = {"Z": depth, "R": retract}
        if cycle in ("G73", "G83"):
            words["Q"] = peck
        if cycle == "G82":
            words["P"] = 0.5
        raw = HEAD + "(WS #1)\nG0 Z30.0\nG0 X1.0 Y2.0\nG0 Z%.4f\n%s\n" % (start, mode)
        commands = [Command("G0", Z=30.0), Command("G0", X=1.0, Y=2.0), Command("G0", Z=start), Command(mode)]
        for x, y in holes:
            raw += "%s X%.4f Y%.4f %s\n" % (cycle, x, y, " ".join("%s%.4f" % word for word in words.items()))
            commands.append(Command(cycle, X=x, Y=y, F=5.0, **words))
        raw += "G80\nG0 Z30.0\nM2\n%\n"
        commands += [Command("G80"), Command("G0", Z=30.0)]
        wanted, ran = canonical(interpreter, raw)
        came, came_ran = canonical(interpreter, posted(commands))
        what = "%s %s from Z%g with %s" % (mode, cycle, start, words)
        check(ran and came_ran and len(wanted) > 5, what + ": the interpreter stops")
        check(wanted == came, what + ":\n wanted %s\n came   %s" % (wanted, came))


def main():
    check_arcs()
    check_refusals()
    check_numbers()
    check_marks()
    if len(sys.argv) > 1:
        check_cycles(sys.argv[1])
    else:
        print("left out, since rs274 is missing: cycles")
    print("%d passed, %d failed" % tuple(counts))
    return counts[1] > 0 or counts[0] == 0


sys.exit(main())
