#!/usr/bin/env bash
# Prints the table of docs/GATE.md: what each crate has, counted from the files of the tree, and, where the log of a run is given,
# what proving it took.
# Usage: tools/gate_table.sh [LOG]
#        tools/gate_table.sh --run LOG [WORD..]   runs `rt ci` with these words, and writes the log of this run. Only a run from
#                                                 nothing (with the word --anew, say) tells what everything takes.
# A log has a line for each crate and each kind of work: `seconds`, the kind (`proof`, `tests`, `start` for the check that edits
# begin with, or `edits`), the crate, and the processor seconds, which are looked up in /proc a few times a second, of the
# processes that the run started alone; and one line `wall` with the seconds from the start to the end.
cd "$(dirname "$0")/.." || exit 1
if ! command -v python3 > /dev/null; then
  echo "skipped: no python3" >&2
  exit 0
fi
exec python3 - "$@" << 'PYTHON'
import collections
import glob
import os
import re
import subprocess
import sys
import threading
import time

PAUSE = 0.2


def started_by(root):
    """The processes that one process started, and those that these started."""
    parents = {}
    for name in os.listdir("/proc"):
        if name.isdigit():
            try:
                with open(f"/proc/{name}/stat") as stat:
                    parents[int(name)] = int(stat.read().rsplit(")", 1)[1].split()[1])
            except OSError:
                pass
    children = collections.defaultdict(list)
    for child, parent in parents.items():
        children[parent].append(child)
    found, left = [], [root]
    while left:
        left += children[left.pop()]
        found += left[-1:]
    return found


def kind_of(words, folder, top):
    """What a process of the prover works for: a crate and a kind of work."""
    if b"--crate-name" not in words or not words[0].endswith(b"/rattle"):
        return None
    crate = words[words.index(b"--crate-name") + 1].decode()
    if b"--test" in words:
        return "tests", crate
    if os.path.realpath(folder).startswith(os.path.join(top, "crates") + os.sep):
        return "proof", crate
    begun = words[words.index(b"--incremental") + 1] if b"--incremental" in words else b""
    return "start" if begun.endswith(b"/seed") else "edits", crate


def look(root, top, kinds, seconds):
    ticks = os.sysconf("SC_CLK_TCK")
    for process in started_by(root):
        try:
            if process not in kinds:
                with open(f"/proc/{process}/cmdline", "rb") as file:
                    words = file.read().split(b"\0")
                kinds[process] = kind_of(words, os.readlink(f"/proc/{process}/cwd"), top)
                if kinds[process] is None:
                    del kinds[process]
                    continue
            with open(f"/proc/{process}/stat") as stat:
                fields = stat.read().rsplit(")", 1)[1].split()
            seconds[process] = (int(fields[11]) + int(fields[12])) / ticks
        except OSError:
            pass


def run(log, words):
    """Runs the gate, and writes what it took."""
    kinds, seconds, begun = {}, {}, time.time()
    gate = subprocess.Popen(["rt", "ci", *words])
    ended = threading.Event()

    def watch():
        while not ended.wait(PAUSE):
            look(gate.pid, os.getcwd(), kinds, seconds)

    watching = threading.Thread(target=watch)
    watching.start()
    status = gate.wait()
    ended.set()
    watching.join()
    sums = collections.Counter()
    for process, took in seconds.items():
        sums[kinds[process]] += took
    with open(log, "w") as file:
        for (kind, crate), took in sorted(sums.items()):
            file.write(f"seconds {kind} {crate} {took:.0f}\n")
        file.write(f"wall {time.time() - begun:.0f}\n")
    return status


def text_of(path):
    with open(path, encoding="utf-8") as file:
        return file.read()


def lines_of(paths):
    return sum(text_of(path).count("\n") for path in paths)


def files(crate, folder, ending):
    return sorted(glob.glob(f"crates/{crate}/{folder}/**/*.{ending}", recursive=True))


def row_of(crate):
    sources = files(crate, "src", "rt")
    # a module that the root names under cfg(test) is one of tests
    roots = [path for path in sources if os.path.basename(path) in ("lib.rt", "main.rt")]
    names = {name for path in roots for name in re.findall(r"#\[cfg\(test\)\]\s+mod (\w+);", text_of(path))}
    tests = [path for path in sources if os.path.relpath(path, f"crates/{crate}/src").split(os.sep)[0].split(".")[0] in names]
    code = [path for path in sources if path not in tests]
    functions = sum(len(re.findall(r"^\s*(?:pub(?:\(\w+\))? )?(?:const )?fn \w", text_of(path), re.M)) for path in code)
    tried = sum(len(re.findall(r"^\s*#\[test\]", text_of(path), re.M)) for path in sources)
    return [
        functions,
        tried,
        lines_of(code),
        lines_of(tests),
        lines_of(files(crate, "specs", "antt")),
        lines_of(files(crate, "proofs", "antt")),
        len(files(crate, "must-fail", "edit")),
    ]


def seconds_of(log):
    found = {}
    for line in text_of(log).splitlines():
        words = line.split()
        if words[:1] == ["seconds"]:
            found[words[1], words[2]] = int(words[3])
    return found


def shown(cells):
    return "| " + " | ".join(f"{cell:,}" if isinstance(cell, int) else cell for cell in cells) + " |"


def table(log):
    titles = ["Crate", "Functions", "Tests", "Lines of code", "Of tests", "Of definitions", "Of proofs", "Edits"]
    kinds = ["proof", "tests", "start", "edits"] if log else []
    took = seconds_of(log) if log else {}
    titles += [f"Seconds of {kind}" for kind in kinds]
    print(shown(titles))
    print("|" + "---|" * len(titles))
    crates = [line.split(":")[0].split()[0] for line in text_of("crates.txt").splitlines() if line.split("#")[0].strip()]
    rows = [row_of(crate) + [took.get((kind, crate), 0) for kind in kinds] for crate in crates]
    for crate, row in zip(crates, rows):
        print(shown([crate, *row]))
    print(shown(["all", *(sum(column) for column in zip(*rows))]))


words = sys.argv[1:]
if words[:1] == ["--run"] and len(words) > 1:
    sys.exit(run(words[1], words[2:]))
table(words[0] if words else None)
PYTHON
