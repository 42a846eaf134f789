#!/usr/bin/env bash
# Asks the crate sn_outline which points are in an outline, and compares with cases: tools/inside_check.sh FILE, where FILE has a
# case a line, as JSON: a point and a shape. Cases with islands are left out. No program calls `inside`, so a small one is
# made in a scratch repository beside a copy of the crates. It is not part of the gate.
cases=$(readlink -f "${1:-/dev/null}")
cd "$(dirname "$0")/.." || exit 1
if ! command -v rt > /dev/null || ! command -v python3 > /dev/null || [ ! -s "$cases" ]; then
  echo "skipped: no rt, no python3 or no cases" >&2
  exit 0
fi
folder=$(mktemp -d) || exit 1
trap 'rm -rf "$folder"' EXIT
cp HANDLES "$folder/"
mkdir -p "$folder/crates/inside_check/src"
for crate in sn_geom sn_outline; do
  cp -r "crates/$crate" "$folder/crates/"
  grep "^$crate:" crates.txt >> "$folder/crates.txt"
done
echo "inside_check: sn_outline sn_geom" >> "$folder/crates.txt"
cat > "$folder/crates/inside_check/src/main.rt" << 'RATTLE'
//! Tells of a point and a shape whether the point is in it.
#![tactic(auto)]
ghost use Rattle.std.specs.Prelude.{IsTrue};
ghost use Rattle.sn_outline.specs.Outline.{HasNearWidth};

use sn_geom::{Pt, REACH, Um};
use sn_outline::{Outline, Points, Shape, Shapes, inside};
use std::alloc::Global;
use std::{env, io};

/// The numbers of a text: points, each of two, behind a width where it has one.
#[derive(Drop)]
struct Parsed {
    width: u32,
    points: Points,
}

fn point(x: i32, y: i32) -> Option<Pt> {
    Some(Pt {
        x: Um::new(x)?,
        y: Um::new(y)?,
    })
}

fn number(word: &str) -> Option<i32> {
    match word.parse::<i32>() {
        Ok(value) => Some(value),
        Err(_) => None,
    }
}

fn read_numbers(alloc: Global, text: &str, has_width: bool) -> Option<Parsed> {
    let mut width = 0;
    let mut points = Points::new(alloc);
    let mut before = None;
    let mut is_first = has_width;
    for word in text.split(',') {
        let value = number(word)?;
        if is_first {
            width = value.unsigned_abs();
            is_first = false;
        } else {
            match before {
                None => before = Some(value),
                Some(x) => {
                    let corner = point(x, value)?;
                    if points.push(corner).is_err() {
                        return None;
                    }
                    before = None;
                }
            }
        }
    }
    Some(Parsed { width, points })
}

fn corners(points: &Points) -> Option<(Pt, Pt)> {
    let low = points.as_slice().first()?;
    let high = points.as_slice().get(1)?;
    Some((*low, *high))
}

fn shape(alloc: Global, kind: &str, text: &str) -> Option<Shape> {
    match kind {
        "rect" => {
            let read = read_numbers(alloc, text, false)?;
            let (low, high) = corners(&read.points)?;
            Some(Shape::Rect(low, high))
        }
        "polygon" => Some(Shape::Polygon(read_numbers(alloc, text, false)?.points)),
        "trail" => {
            let read = read_numbers(alloc, text, true)?;
            Some(Shape::Trail(read.points, read.width))
        }
        _ => None,
    }
}

fn circle(x: i32, y: i32, d: i32) -> Option<Shape> {
    Some(Shape::Circle(point(x, y)?, d.unsigned_abs()))
}

fn is_near_enough(shape: &Shape) -> bool
    ensures { IsTrue result → HasNearWidth shape.now }
{
    match shape {
        Shape::Trail(_, width) => *width <= REACH,
        Shape::Rect(_, _) => true,
        Shape::Circle(_, _) => true,
        Shape::Polygon(_) => true,
    }
}

fn tell(rt: &HostRuntime, shape: Option<Shape>, p: &Option<Pt>) -> io::Result<()> {
    let Some(shape) = shape else {
        return println!(rt; "no shape");
    };
    let Some(p) = p else {
        return println!(rt; "no point");
    };
    if !is_near_enough(&shape) {
        return println!(rt; "too wide");
    }
    let outline = Outline {
        shape,
        islands: Shapes::new(rt.alloc()),
    };
    let is_in = inside(&outline, p);
    println!(rt; "{is_in}")
}

fn main(rt: HostRuntime) -> io::Result<()> {
    let Ok(args) = env::args(&rt) else {
        return Ok(());
    };
    let mut at = None;
    for arg in args.skip(1) {
        at = after(&rt, at, arg.as_str())?;
    }
    Ok(())
}

/// The point that is asked of, after a word: a point, or a shape that is asked of it.
fn after(rt: &HostRuntime, at: Option<Pt>, word: &str) -> io::Result<Option<Pt>> {
    let mut parts = word.split(':');
    let kind = match parts.next() {
        Some(kind) => kind,
        None => "",
    };
    match parts.next() {
        None => Ok(point_of(rt.alloc(), kind)),
        Some(text) => {
            tell(rt, any_shape(rt.alloc(), kind, text), &at)?;
            Ok(at)
        }
    }
}

fn point_of(alloc: Global, text: &str) -> Option<Pt> {
    let read = read_numbers(alloc, text, false)?;
    let p = read.points.as_slice().first()?;
    Some(*p)
}

fn any_shape(alloc: Global, kind: &str, text: &str) -> Option<Shape> {
    if kind == "circle" {
        let mut words = text.split(',');
        let x = number(words.next()?)?;
        let y = number(words.next()?)?;
        let d = number(words.next()?)?;
        return circle(x, y, d);
    }
    shape(alloc, kind, text)
}
RATTLE
(cd "$folder/crates/inside_check" && rt run -- none) > "$folder/log" 2>&1
program=$folder/crates/inside_check/out/inside_check
if [ ! -x "$program" ]; then
  tail -n 40 "$folder/log" >&2
  echo "not built" >&2
  exit 1
fi
python3 - "$program" "$cases" << 'PYTHON'
import json
import subprocess
import sys

program, path = sys.argv[1:]
cases = [json.loads(line) for line in open(path)]
plain = [case for case in cases if len(case["args"]) == 2]
passed = 0
for first in range(0, len(plain), 50):
    some = plain[first : first + 50]
    words = [word for case in some for word in case["args"]]
    told = subprocess.run([program, *words], capture_output=True, text=True).stdout.splitlines(True)
    passed += sum(answer == case["answer"] for answer, case in zip(told, some))
print(f"{len(cases) - len(plain)} with islands left out; {passed} passed, {len(plain) - passed} failed")
sys.exit(passed != len(plain) or not plain)
PYTHON
