#!/usr/bin/env bash
# Cuts and fills with the crate sn_raster: compares heights after paths with the cases of a file, where one is given, and
# tells how fast rows are filled and passes are cut, and what planes and heights take. No program shows what this crate gives, so
# a small one is made in a scratch repository beside a copy of the crates. It is not part of the gate.
# Usage: tools/raster_check.sh [CASES]
cases=${1:+$(realpath "$1")}
cd "$(dirname "$0")/.." || exit 1
if ! command -v rt > /dev/null || ! command -v python3 > /dev/null || [ ! -x /usr/bin/time ]; then
  echo "skipped: no rt, no python3 or no /usr/bin/time" >&2
  exit 0
fi
folder=$(mktemp -d) || exit 1
trap 'rm -rf "$folder"' EXIT
cp HANDLES "$folder/"
mkdir -p "$folder/crates/raster_check/src"
for crate in sn_geom sn_outline sn_raster; do
  cp -r "crates/$crate" "$folder/crates/"
  grep "^$crate:" crates.txt >> "$folder/crates.txt"
done
echo "raster_check: sn_raster sn_outline sn_geom" >> "$folder/crates.txt"
# whether a node is in the window is shown as in the tests of the crate, which stand in sn_geometry_tests
proofs=$folder/crates/raster_check/proofs
for function in is_node has; do
  mkdir -p "$proofs/$function"
  sed "s/sn_geometry_tests\.proofs\.raster\.$function\./raster_check.proofs.$function./" \
    "crates/sn_geometry_tests/proofs/raster/$function/Answers.antt" > "$proofs/$function/Answers.antt"
done
mkdir -p "$proofs/height"
sed 's/get-requires/at-requires/g; s/proofs\.has\./proofs.height./' "$proofs/has/Answers.antt" > "$proofs/height/Answers.antt"
cat > "$folder/crates/raster_check/src/main.rt" << 'RATTLE'
//! Cuts heights along paths, fills planes with polygons, and tells how long it takes.
#![tactic(auto)]
ghost use Rattle.std.specs.Prelude.{◌≡◌, ◌↔◌, ◌≤ℤ◌, IfSome, IsTrue};
ghost use Rattle.sn_geom.specs.Sweep.{IsHorizontalOrVertical};
ghost use Rattle.sn_outline.specs.Outline.{HasNearWidth};
ghost use Rattle.sn_raster.specs.Grid.{IsInWindow};

use sn_geom::{Body, Pt, Pt3, REACH, Um};
use sn_outline::{Job, Numbers, Outline, Points, Shape, Shapes, Steps};
use sn_raster::{Bits, Grid, Heights, fill_row};
use std::alloc::Global;
use std::time::Instant;
use std::{env, io};

type Place = (i32, i32, i32);

fn place(p: Place) -> Option<Pt3> {
    Some(Pt3 {
        x: Um::new(p.0)?,
        y: Um::new(p.1)?,
        z: Um::new(p.2)?,
    })
}

fn job(alloc: Global, pitch: u32, low: Place, high: Place) -> Option<Job> {
    Job::new(
        pitch,
        place(low)?,
        place(high)?,
        REACH as i32,
        Steps::new(alloc),
        Numbers::new(alloc),
    )
}

fn is_node(g: &Grid, i: i32, j: i32) -> bool
    ensures { IsTrue result → IsInWindow g.now (record { i = i; j = j }) }
{
    is_from_to(g.i0, g.i1, i) && is_from_to(g.j0, g.j1, j)
}

fn is_from_to(first: i32, last: i32, k: i32) -> bool
    ensures { IsTrue result ↔ ((first ≤ℤ k) × (k ≤ℤ last)) }
{
    first <= k && k <= last
}

fn heights(alloc: Global, j: &Job) -> Option<Heights> {
    match Grid::new(j) {
        Ok(g) => match Heights::raw(alloc, &g, j) {
            Ok(map) => Some(map),
            Err(_) => None,
        },
        Err(_) => None,
    }
}

/// A level move where the heights are one, and an upright one at the first place where they are not.
fn ends(a: Place, b: Place) -> Option<(Pt3, Pt3)>
    ensures { IfSome result (λ move. IsHorizontalOrVertical move.0 move.1) }
{
    let from = place(a)?;
    let to = place(b)?;
    if a.2 == b.2 {
        return Some((from, Pt3 { z: from.z, ..to }));
    }
    Some((from, Pt3 { z: to.z, ..from }))
}

fn numbers(text: &str) -> (i32, i32, i32, i32, i32, i32) {
    let mut read = (0, 0, 0, 0, 0, 0);
    for word in text.split(',') {
        let value = match word.parse::<i32>() {
            Ok(value) => value,
            Err(_) => 0,
        };
        read = (read.1, read.2, read.3, read.4, read.5, value);
    }
    read
}

fn pass(rt: &HostRuntime, map: &mut Heights, body: Body, a: Place, b: Place) -> io::Result<()> {
    if REACH < body.d || REACH < body.e {
        return Ok(());
    }
    let Some((from, to)) = ends(a, b) else {
        return Ok(());
    };
    match map.first_touched(body.d, &from, &to, -(REACH as i32)) {
        Some(c) => println!(rt; "touched i {} j {} z {}", c.i, c.j, c.z)?,
        None => println!(rt; "touched none")?,
    }
    map.cut(&body, &from, &to);
    Ok(())
}

fn height(map: &Heights, i: i32, j: i32) -> i32 {
    let g = map.grid();
    if is_node(&g, i, j) {
        return map.at(i, j);
    }
    0
}

fn show(rt: &HostRuntime, map: &Heights) -> io::Result<()> {
    let g = map.grid();
    for j in g.rj0..g.rj1.saturating_add(1) {
        print!(rt; "j {j}:")?;
        for i in g.ri0..g.ri1.saturating_add(1) {
            print!(rt; " {}", height(map, i, j))?;
        }
        println!(rt; "")?;
    }
    Ok(())
}

fn cut_case(rt: &HostRuntime) -> io::Result<()> {
    let Ok(args) = env::args(rt) else {
        return Ok(());
    };
    let mut place = 0u32;
    let mut pitch = 0u32;
    let mut body = Body { d: 0, e: 0 };
    let mut map: Option<Heights> = None;
    let mut at: Option<Place> = None;
    for arg in args.skip(2) {
        let n = numbers(arg.as_str());
        match place {
            0 => pitch = n.5.unsigned_abs(),
            1 => {
                if let Some(j) = job(rt.alloc(), pitch, (n.0, n.1, n.2), (n.3, n.4, n.5)) {
                    map = heights(rt.alloc(), &j);
                }
            }
            2 => body.d = n.5.unsigned_abs(),
            3 => body.e = n.5.unsigned_abs(),
            _ => {
                let to = (n.3, n.4, n.5);
                if let (Some(map), Some(from)) = (&mut map, at) {
                    pass(rt, map, body, from, to)?;
                }
                at = Some(to);
            }
        }
        place = place.wrapping_add(1);
    }
    if let Some(map) = &map {
        show(rt, map)?;
    }
    Ok(())
}

fn timed_pass(rt: &HostRuntime, map: &mut Heights, what: &str, a: Place, b: Place) -> io::Result<()> {
    let body = Body { d: 80_000, e: 0 };
    let Some((from, to)) = ends(a, b) else {
        return Ok(());
    };
    let start = Instant::now(rt)?;
    let found = map.first_touched(body.d, &from, &to, 10_000_000).is_some();
    let searched = start.elapsed(rt)?;
    let start = Instant::now(rt)?;
    map.cut(&body, &from, &to);
    let cut = start.elapsed(rt)?;
    let start = Instant::now(rt)?;
    let left = map.left();
    let counted = start.elapsed(rt)?;
    println!(rt;
        "{what}: searched in {} ms ({found}), cut in {} ms, {left} cells counted in {} ms",
        searched.as_millis(), cut.as_millis(), counted.as_millis()
    )
}

/// Passes by an 8 mm tool over 5,400 by 740 nodes at 20 µm.
fn cut_speed(rt: &HostRuntime) -> io::Result<()> {
    let Some(j) = job(rt.alloc(), 200, (0, 0, 0), (1_079_800, 147_800, 50_000)) else {
        return Ok(());
    };
    let Some(mut map) = heights(rt.alloc(), &j) else {
        return Ok(());
    };
    timed_pass(rt, &mut map, "100 mm along X", (40_000, 70_000, 40_000), (1_040_000, 70_000, 40_000))?;
    timed_pass(rt, &mut map, "100 mm aslant", (40_000, 5_000, 30_000), (1_034_000, 114_000, 30_000))?;
    timed_pass(rt, &mut map, "a plunge", (500_000, 70_000, 20_000), (500_000, 70_000, 10_000))
}

fn fill(o: &Outline, j: i32, plane: &mut Bits)
    requires { HasNearWidth o.now.shape }
{
    let g = plane.grid();
    if g.j0 <= j && j <= g.j1 {
        fill_row(o, &g, j, plane);
    }
}

fn has(plane: &Bits, i: i32, j: i32) -> bool {
    let g = plane.grid();
    if is_node(&g, i, j) {
        return plane.get(i, j);
    }
    false
}

fn polygon(points: Points, alloc: Global) -> Outline
    ensures { HasNearWidth result.shape }
{
    Outline {
        shape: Shape::Polygon(points),
        islands: Shapes::new(alloc),
    }
}

fn points(rt: &HostRuntime) -> Option<Points> {
    let mut points = Points::new(rt.alloc());
    let Ok(args) = env::args(rt) else {
        return None;
    };
    for arg in args.skip(2) {
        let n = numbers(arg.as_str());
        let corner = Pt {
            x: Um::new(n.4)?,
            y: Um::new(n.5)?,
        };
        if points.push(corner).is_err() {
            return None;
        }
    }
    Some(points)
}

fn plane(alloc: Global) -> Option<Bits> {
    let j = job(alloc, 1_000, (0, 0, 0), (1_999_000, 1_999_000, 1))?;
    match Grid::new(&j) {
        Ok(g) => Bits::new(alloc, &g).ok(),
        Err(_) => None,
    }
}

/// Fills 4,000,000 nodes by the polygon with these corners.
fn fill_speed(rt: &HostRuntime) -> io::Result<()> {
    let (Some(points), Some(mut plane)) = (points(rt), plane(rt.alloc())) else {
        return Ok(());
    };
    let outline = polygon(points, rt.alloc());
    let start = Instant::now(rt)?;
    for j in 0..2_000 {
        fill(&outline, j, &mut plane);
    }
    let took = start.elapsed(rt)?;
    let mut count = 0u32;
    for j in 0..2_000 {
        for i in 0..2_000 {
            if has(&plane, i, j) {
                count = count.wrapping_add(1);
            }
        }
    }
    println!(rt; "{count} nodes in {} ms", took.as_millis())
}

fn main(rt: HostRuntime) -> io::Result<()> {
    let Ok(args) = env::args(&rt) else {
        return Ok(());
    };
    for arg in args.skip(1).take(1) {
        match arg.as_str() {
            "case" => cut_case(&rt)?,
            "cut" => cut_speed(&rt)?,
            "plane" => match plane(rt.alloc()) {
                Some(plane) => println!(rt; "{}", plane.grid().pitch)?,
                None => println!(rt; "no plane")?,
            },
            "fill" => fill_speed(&rt)?,
            _ => println!(rt; "nothing")?,
        }
    }
    Ok(())
}
RATTLE
(cd "$folder/crates/raster_check" && rt run -- none) > "$folder/log" 2>&1
program=$folder/crates/raster_check/out/raster_check
if [ ! -x "$program" ]; then
  tail -n 40 "$folder/log" >&2
  echo "not built" >&2
  exit 1
fi
python3 - "$program" "${cases:-}" << 'PYTHON'
import json, subprocess, sys

program, cases = sys.argv[1:]


def told(*words):
    return subprocess.run([program, *words], capture_output=True, text=True).stdout


if cases:
    passed = failed = left = 0
    for row in open(cases):
        case = json.loads(row)
        # no job has so fine a pitch
        if int(case["args"][0]) < 200:
            left += 1
            continue
        if told("case", *case["args"]) == case["answer"]:
            passed += 1
        else:
            failed += 1
            if failed < 4:
                print("differs:", case["args"], file=sys.stderr)
    print(f"{cases.rsplit('/', 1)[-1]}: {left} with a pitch below 20 µm left out; {passed} passed, {failed} failed")
else:
    print("no file of cases is given: skipped")


def star(n):
    """n corners about the middle, by turns far out and near."""
    corners = []
    side = n // 4
    for k in range(n):
        part, along = divmod(k, side)
        t = 1999000 * along // side
        x, y = [(t, 0), (1999000, t), (1999000 - t, 1999000), (0, 1999000 - t)][part % 4]
        if k % 2:
            x, y = (x + 3 * 999500) // 4, (y + 3 * 999500) // 4
        corners.append(f"{x},{y}")
    return corners


def comb(n):
    """n corners of teeth from bottom to top."""
    return [f"{1999000 * k // n},{1999000 if k % 4 in (1, 2) else 1000}" for k in range(n)]


print("a star of 1,000 corners:", told("fill", *star(1000)).strip())
print("a comb of 1,000 corners:", told("fill", *comb(1000)).strip())
print(told("cut").strip())


def size(mode):
    told = subprocess.run(["/usr/bin/time", "-f", "%M", program, mode], capture_output=True, text=True)
    return int(told.stderr.split()[-1]) * 1024


nothing = size("none")
print(f"a plane of 4,000,000 nodes: {(size('plane') - nothing) / 4e6:.2f} bytes a node")
print(f"heights of 3,996,000 nodes: {(size('cut') - nothing) / 3996000:.2f} bytes a node")
PYTHON
