#!/usr/bin/env python3
"""Compares the moves of executed steps, read off the programs that `compile` writes, with cases.

    moves_check.py PROGRAM FILE

FILE has a case a line, as JSON: a part, the place of an executed step from 0, options, and the moves that are wanted. Parts
with bosses are left out, and so are cases whose part is not compiled, since then no program shows the moves. The last line is
'N passed, M failed'.
"""
import json
import os
import re
import subprocess
import sys
import tempfile
from decimal import Decimal

UNITS = {"X": 0, "Y": 1, "Z": 2}


def moves_of(program, place):
    """The moves behind the mark of the step at this place. The first rapid in Z behind a tool change is none."""
    tip = [None, None, None]
    found = []
    step = -1
    rises = False
    for line in program.splitlines():
        if re.match(r"\(WS #\d+\)", line):
            step += 1
        elif " M6" in line:
            rises = True
            tip = [None, None, None]
        elif re.match(r"G[01] ", line):
            for axis, value in re.findall(r"([XYZ])(-?[0-9.]+)", line):
                tip[UNITS[axis]] = int(Decimal(value) * 10000)
            if rises:
                rises = False
            elif step == place:
                found.append("%s %d,%d,%d" % (("rapid", "feed")[line[1] == "1"], *tip))
    return "".join(move + "\n" for move in found)


def main():
    program, path = os.path.abspath(sys.argv[1]), sys.argv[2]
    passed = failed = left = 0
    for line in open(path):
        case = json.loads(line)
        part = case["files"]["part"]
        if "BOSS" in part:
            left += 1
            continue
        with tempfile.TemporaryDirectory() as folder:
            with open(os.path.join(folder, "part"), "wb") as file:
                file.write(part.encode("latin-1"))
            words = [program, "compile", "part", *case["args"][2:]]
            done = subprocess.run(words, cwd=folder, capture_output=True, text=True)
        if done.returncode != 0:
            left += 1
        elif moves_of(done.stdout, int(case["args"][1])) == case["answer"]:
            passed += 1
        else:
            failed += 1
            print("differs:", case["args"], file=sys.stderr)
    print("%d left out" % left)
    print("%d passed, %d failed" % (passed, failed))
    sys.exit(failed > 0 or passed == 0)


main()
