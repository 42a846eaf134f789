#!/usr/bin/env python3
"""Tells how far the edge of a tool goes past the walls of a rectangular pocket, and how far it stays short of them.

    wall_distance.py WORKINGSTEP DIAMETER X0 Y0 X1 Y1 < PROGRAM

Lengths are millimetres. It looks at the motions behind the mark of the workingstep, at feed and sideways, of a program
that stepmill wrote. The figures of docs/JOBS.md come from it.
"""
import re
import sys
from fractions import Fraction


def main():
    step = sys.argv[1]
    diameter, x0, y0, x1, y1 = map(Fraction, sys.argv[2:])
    half = diameter / 2
    place = {}
    current = None
    centres = []
    for line in sys.stdin:
        mark = re.match(r"\(WS #(\d+)\)", line)
        if mark:
            current = mark[1]
        axes = {axis: Fraction(value) for axis, value in re.findall(r"([XYZ])(-?[0-9.]+)", line)}
        place.update(axes)
        if line.startswith("G1") and current == step and ("X" in axes or "Y" in axes):
            centres.append((place["X"], place["Y"]))
    if not centres:
        sys.exit("no such motions")
    edges = [
        x0 - (min(x for x, _ in centres) - half),
        y0 - (min(y for _, y in centres) - half),
        max(x for x, _ in centres) + half - x1,
        max(y for _, y in centres) + half - y1,
    ]
    past = max(max(edges), 0)
    short = max(max(-edge for edge in edges), 0)
    print("past %.4f short %.4f" % (past, short))


main()
