#!/usr/bin/env bash
# Compares the planes and the strokes of executed steps, as the crates sn_open and sn_clear compute them, with cases:
# tools/region_check.sh PLANES STROKES, where each file has a case a line, as JSON. tools/region_check.sh --speed tells instead
# how long they take over a window of 4,000,000 nodes. No program writes planes or strokes, so a small one is made in a
# scratch repository beside a copy of the crates. It is not part of the gate.
if [ "${1:-}" = --speed ]; then
  given=(--speed)
elif [ -s "${1:-}" ] && [ -s "${2:-}" ]; then
  given=("$(readlink -f "$1")" "$(readlink -f "$2")")
else
  given=()
fi
cd "$(dirname "$0")/.." || exit 1
if ! command -v rt > /dev/null || ! command -v python3 > /dev/null || [ ${#given[@]} = 0 ]; then
  echo "skipped: no rt, no python3 or no cases" >&2
  exit 0
fi
folder=$(mktemp -d) || exit 1
trap 'rm -rf "$folder"' EXIT
cp HANDLES "$folder/"
mkdir -p "$folder/crates/region_check/src"
for crate in sn_geom sn_outline sn_raster sn_open sn_clear sn_lex sn_p21 sn_frame sn_entity sn_model sn_words sn_refs sn_walk sn_feature sn_flow; do
  cp -r "crates/$crate" "$folder/crates/"
  grep "^$crate:" crates.txt >> "$folder/crates.txt"
done
echo "region_check: sn_clear sn_open sn_raster sn_flow sn_words sn_refs sn_model sn_p21 sn_outline sn_geom" >> "$folder/crates.txt"
cat > "$folder/crates/region_check/src/main.rt" << 'RATTLE'
//! Writes the planes and the strokes of an executed step of a part, and how long they take.
#![tactic(auto)]

ghost use Rattle.std.specs.Prelude.{◌≡◌, ◌<◌, IfOk};
ghost use Rattle.sn_raster.specs.Grid.{IsGridOf};
ghost use Rattle.sn_open.specs.Planes.{IsGridWith};
ghost use Rattle.sn_open.specs.Reach.{IsExecuted};
ghost use Rattle.sn_open.specs.Window.{rows};

use sn_clear::strokes;
use sn_flow::job;
use sn_geom::Memory;
use sn_model::build;
use sn_open::{Allowed, Centres, Opening, Required, columns_of, has_at, rows_of};
use sn_outline::{Job, StepJob, Way, is_proper};
use sn_p21::read_file;
use sn_raster::{Bits, Grid};
use sn_refs::check;
use sn_words::{Opts, Words, values};
use std::alloc::Global;
use std::time::Instant;
use std::{env, fs, io};

fn count_in(plane: &Bits, g: &Grid, row: u32) -> u32
    requires grid { plane.now.grid ≡ g.now }
    requires row { row < rows g.now }
{
    let mut count = 0u32;
    for column in 0..columns_of(g) {
        if has_at(plane, g, column, row) {
            count = count.wrapping_add(1);
        }
    }
    count
}

/// The place that comes `k` after the first.
fn after(first: i32, k: u32) -> i64 {
    i64::from(first).wrapping_add(i64::from(k))
}

/// Writes the runs of columns of a row that has nodes.
fn show_row(rt: &HostRuntime, plane: &Bits, g: &Grid, row: u32) -> io::Result<()>
    requires grid { plane.now.grid ≡ g.now }
    requires row { row < rows g.now }
{
    print!(rt; "j {}:", after(g.j0, row))?;
    let mut inside = false;
    for column in 0..columns_of(g) {
        let on = has_at(plane, g, column, row);
        if on && !inside {
            print!(rt; " {}..", after(g.i0, column))?;
        }
        if inside && !on {
            print!(rt; "{}", after(g.i0, column).wrapping_sub(1))?;
        }
        inside = on;
    }
    if inside {
        print!(rt; "{}", g.i1)?;
    }
    println!(rt; "")
}

/// Writes the time since the start, how many nodes the plane has, and its rows.
fn show(rt: &HostRuntime, name: &str, start: &Instant, plane: &Bits) -> io::Result<()> {
    let took = start.elapsed(rt)?;
    println!(rt; "time {name} {}", took.as_millis())?;
    let g = plane.grid();
    let mut count = 0u32;
    for row in 0..rows_of(&g) {
        count = count.wrapping_add(count_in(plane, &g, row));
    }
    println!(rt; "{name} {count}")?;
    for row in 0..rows_of(&g) {
        if count_in(plane, &g, row) > 0 {
            show_row(rt, plane, &g, row)?;
        }
    }
    Ok(())
}

fn show_allowed(rt: &HostRuntime, g: &Grid, s: &StepJob) -> io::Result<()>
    requires { IsGridWith g.now s.now }
{
    let start = Instant::now(rt)?;
    match Allowed::of(rt.alloc(), s, g) {
        Ok(allowed) => show(rt, "allowed", &start, allowed.nodes()),
        Err(Memory) => println!(rt; "no memory"),
    }
}

fn show_centres(rt: &HostRuntime, g: &Grid, s: &StepJob) -> io::Result<()>
    requires { IsGridWith g.now s.now }
{
    let start = Instant::now(rt)?;
    match Centres::of(rt.alloc(), s, g) {
        Ok(centres) => show(rt, "centres", &start, centres.nodes()),
        Err(Memory) => println!(rt; "no memory"),
    }
}

fn show_opening(rt: &HostRuntime, g: &Grid, s: &StepJob) -> io::Result<()>
    requires { IsGridWith g.now s.now }
{
    let start = Instant::now(rt)?;
    match Opening::of(rt.alloc(), s, g) {
        Ok(opening) => show(rt, "opening", &start, opening.nodes()),
        Err(Memory) => println!(rt; "no memory"),
    }
}

fn show_required(rt: &HostRuntime, j: &Job, g: &Grid, feature: u32) -> io::Result<()>
    requires grid { IsGridOf g.now j.now }
    requires feature { IsExecuted j.now feature }
{
    let start = Instant::now(rt)?;
    match Required::of(rt.alloc(), j, feature, g) {
        Ok(required) => show(rt, "required", &start, required.nodes()),
        Err(Memory) => println!(rt; "no memory"),
    }
}

/// The nodes that a step opens and that have to be cut.
fn targets_of(alloc: Global, j: &Job, g: &Grid, s: &StepJob) -> Result<Bits, Memory>
    requires grid { IsGridOf g.now j.now }
    requires step { IsGridWith g.now s.now }
    requires feature { IsExecuted j.now s.now.feature }
    ensures { IfOk result (λ targets. targets.grid ≡ g.now) }
{
    let opening = Opening::of(alloc, s, g)?;
    let required = Required::of(alloc, j, s.feature, g)?;
    let mut targets = Bits::new(alloc, g)?;
    targets.both(opening.nodes(), required.nodes());
    Ok(targets)
}

/// Writes the nodes that a step opens and that have to be cut, and its strokes.
fn show_targets(rt: &HostRuntime, j: &Job, g: &Grid, s: &StepJob) -> io::Result<()>
    requires grid { IsGridOf g.now j.now }
    requires step { IsGridWith g.now s.now }
    requires feature { IsExecuted j.now s.now.feature }
{
    let start = Instant::now(rt)?;
    let Ok(targets) = targets_of(rt.alloc(), j, g, s) else {
        return println!(rt; "no memory");
    };
    show(rt, "targets", &start, &targets)?;
    show_strokes(rt, g, s, &targets)
}

/// Writes the strokes of a step that clears its feature, and only the way of another.
fn show_strokes(rt: &HostRuntime, g: &Grid, s: &StepJob, targets: &Bits) -> io::Result<()>
    requires step { IsGridWith g.now s.now }
    requires targets { targets.now.grid ≡ g.now }
{
    match s.way {
        Way::Clear => {}
        Way::Trail => return println!(rt; "way trail"),
        Way::Drill => return println!(rt; "way drill"),
    }
    println!(rt; "way clear")?;
    match Centres::of(rt.alloc(), s, g) {
        Ok(centres) => show_clearing(rt, g, s, &centres, targets),
        Err(Memory) => println!(rt; "no memory"),
    }
}

fn show_clearing(
    rt: &HostRuntime,
    g: &Grid,
    s: &StepJob,
    centres: &Centres,
    targets: &Bits,
) -> io::Result<()>
    requires centres { centres.now.grid ≡ g.now }
    requires targets { targets.now.grid ≡ g.now }
{
    if !is_proper(s) {
        return println!(rt; "not proper");
    }
    let start = Instant::now(rt)?;
    let Ok(made) = strokes(rt.alloc(), g, s, centres, targets) else {
        return println!(rt; "no memory");
    };
    let took = start.elapsed(rt)?;
    println!(rt; "time strokes {}", took.as_millis())?;
    for stroke in made.as_slice() {
        print!(rt; "stroke {},{}", stroke.from.x.get(), stroke.from.y.get())?;
        println!(rt; " {},{}", stroke.to.x.get(), stroke.to.y.get())?;
    }
    Ok(())
}

/// Writes the planes and the strokes of a step.
fn show_step(rt: &HostRuntime, j: &Job, g: &Grid, s: &StepJob) -> io::Result<()>
    requires grid { IsGridOf g.now j.now }
    requires step { IsGridWith g.now s.now }
    requires feature { IsExecuted j.now s.now.feature }
{
    show_allowed(rt, g, s)?;
    show_centres(rt, g, s)?;
    show_opening(rt, g, s)?;
    show_required(rt, j, g, s.feature)?;
    show_targets(rt, j, g, s)
}

/// Writes what the step in a place, counted from 0, has.
fn show_place(rt: &HostRuntime, j: &Job, k: usize) -> io::Result<()> {
    j.rule();
    let Ok(g) = Grid::new(j) else {
        return println!(rt; "grid too big");
    };
    let steps = j.steps();
    if k < steps.len() {
        return show_step(rt, j, &g, &steps[k]);
    }
    println!(rt; "no such step")
}

fn judge(rt: &HostRuntime, bytes: &[u8], options: &Opts, k: usize) -> io::Result<()> {
    let alloc = rt.alloc();
    let Ok(file) = read_file(alloc, bytes) else {
        return println!(rt; "no text");
    };
    let Ok(model) = build(alloc, &file) else {
        return println!(rt; "no model");
    };
    let Ok(checked) = check(alloc, model) else {
        return println!(rt; "not checked");
    };
    match job(alloc, &checked, options) {
        Ok(job) => show_place(rt, &job, k),
        Err(_) => println!(rt; "no job"),
    }
}

fn main(rt: HostRuntime) -> io::Result<()> {
    let Ok(args) = env::args(&rt) else {
        return Ok(());
    };
    let mut words = Words::new(rt.alloc());
    let mut name = None;
    let mut place = None;
    for arg in args.skip(1) {
        if name.is_none() {
            name = Some(arg);
        } else if place.is_none() {
            place = arg.as_str().parse::<usize>().ok();
        } else if words.push(arg.as_bytes()).is_err() {
            return Ok(());
        }
    }
    let (Some(name), Some(place)) = (name, place) else {
        return Ok(());
    };
    let bytes = fs::read(&rt, name.as_str())?;
    match values(rt.alloc(), &words) {
        Ok(options) => judge(&rt, bytes.as_slice(), &options, place),
        Err(fault) => println!(&rt; "{fault}"),
    }
}
RATTLE
(cd "$folder/crates/region_check" && rt run -- /dev/null 0) > "$folder/log" 2>&1
program=$folder/crates/region_check/out/region_check
if [ ! -x "$program" ]; then
  tail -n 40 "$folder/log" >&2
  echo "not built" >&2
  exit 1
fi
python3 - "$program" "$folder" "${given[@]}" << 'PYTHON'
import collections, json, os, subprocess, sys

program, folder, *given = sys.argv[1:]
part = os.path.join(folder, "part")


def told(text, place, words):
    """What the program writes of a step of a part."""
    with open(part, "wb") as file:
        file.write(text.encode("latin-1"))
    run = subprocess.run([program, part, place, "report", *words], capture_output=True)
    return run.stdout.decode("latin-1").splitlines()


def planes_of(lines):
    return [line for line in lines if not line.startswith(("time ", "way ", "stroke "))]


def strokes_of(lines):
    return [line.removeprefix("stroke ") for line in lines if line.startswith("stroke ")]


def way_of(lines):
    return next((line for line in lines if line.startswith("way ")), "no way")


def is_same(case, lines, kind):
    wanted = case["answer"].splitlines()
    if kind == "strokes":
        return strokes_of(lines) == wanted
    # (a range of heights belongs to no plane)
    return planes_of(lines) == [line for line in wanted if not line.startswith("required heights")]


def first_other(one, two):
    """The first lines that differ, and their place."""
    for place in range(max(len(one), len(two))):
        pair = [lines[place] if place < len(lines) else "nothing" for lines in (one, two)]
        if pair[0] != pair[1]:
            return f"line {place + 1}: wanted '{pair[0]}', told '{pair[1]}'"
    return "no line"


def compare(kind, file):
    """Tells how many cases of a file agree, and where the others do not."""
    passed = failed = others = left = 0
    for number, row in enumerate(open(file), 1):
        case = json.loads(row)
        # islands, and what later options say, are not built yet
        if "BOSS" in case["files"]["part"] or {"--contour", "--ramp", "--clear"} & set(case["args"]):
            left += 1
            continue
        first, place, *words = case["args"]
        lines = told(case["files"]["part"], place, [first, *words])
        if kind == "strokes" and way_of(lines) in ("way trail", "way drill"):
            others += 1
        elif is_same(case, lines, kind):
            passed += 1
        else:
            failed += 1
            wanted = [line for line in case["answer"].splitlines() if not line.startswith("required heights")]
            mine = strokes_of(lines) if kind == "strokes" else planes_of(lines)
            print(f"{kind} case {number} {case['args']}: {first_other(wanted, mine)}; {way_of(lines)}", file=sys.stderr)
    text = f"{kind}: {left} with islands or later options left out; {passed} passed, {failed} failed"
    print(text + (f", {others} of steps that clear nothing" if kind == "strokes" else ""))
    return failed


def pocket(profile, size=391.8):
    """A part of so many millimetres each way, with a pocket of this boundary about its middle, and a tool of 8 mm."""
    lines = """#1=CARTESIAN_POINT('',(0.,0.,20.));
#2=AXIS2_PLACEMENT_3D('',#1,$,$);
#3=PLANE('',#2);
#4=PROJECT('p',#5,(#6),$);
#5=WORKPLAN('',(#7),$,#8);
#6=WORKPIECE('',$,$,$,$,#9,());
#7=MACHINING_WORKINGSTEP('',#3,#10,#11,$);
#8=SETUP('',$,#3,(#12));
#9=BLOCK('',#13,391.8,391.8,10.);
#10=CLOSED_POCKET('',$,(),#14,#15,(),0,#16,$,#17,#18);
#11=BOTTOM_AND_SIDE_FINISH_MILLING($,$,'',$,$,#19,#20,$,$,$,$,$,5.,4.,0.,$);
#12=WORKPIECE_SETUP(#6,#13,$,$,());
#13=AXIS2_PLACEMENT_3D('',#21,$,$);
#14=AXIS2_PLACEMENT_3D('',#22,$,$);
#15=PLANE('',#23);
#16=PLANAR_POCKET_BOTTOM_CONDITION();
#17=TOLERANCED_LENGTH_MEASURE(4.,$);
#19=CUTTING_TOOL('T',#24,(),60.,$);
#20=MILLING_TECHNOLOGY(0.01,.TCP.,$,20.,$);
#21=CARTESIAN_POINT('',(0.,0.,0.));
#22=CARTESIAN_POINT('',(195.9,195.9,10.));
#23=AXIS2_PLACEMENT_3D('',#25,$,$);
#24=ENDMILL(#26,4,.RIGHT.);
#25=CARTESIAN_POINT('',(0.,0.,-5.));
#26=MILLING_TOOL_DIMENSION(8.,$,$,20.,$,$,$);
"""
    lines = lines.replace("391.8,391.8", f"{size:.2f},{size:.2f}").replace("195.9,195.9", f"{size / 2:.3f},{size / 2:.3f}")
    head = "ISO-10303-21;\nHEADER;\nFILE_DESCRIPTION((''),'1');\nFILE_NAME('','',(''),(''),'','','');\nFILE_SCHEMA(('MACHINING_SCHEMA'));\nENDSEC;\nDATA;\n"
    return head + lines + profile + "ENDSEC;\nEND-ISO-10303-21;\n"


def rectangle(size=391.8):
    """A rectangle 1 mm within the part."""
    return f"""#18=RECTANGULAR_CLOSED_PROFILE(#13,#27,#28);
#27=TOLERANCED_LENGTH_MEASURE({size - 2:.2f},$);
#28=TOLERANCED_LENGTH_MEASURE({size - 2:.2f},$);
"""


def across(pitch):
    """The size of a part whose window is 2,000 nodes across at a pitch in micrometres, with a tool of 8 mm."""
    return 1999 * pitch / 1000 - 8


def polygon(corners):
    names = ",".join(f"#{30 + k}" for k in range(len(corners)))
    points = "".join(f"#{30 + k}=CARTESIAN_POINT('',({x:.3f},{y:.3f},0.));\n" for k, (x, y) in enumerate(corners))
    return f"#18=GENERAL_CLOSED_PROFILE($,#29);\n#29=POLYLINE('',({names}));\n{points}"


def comb():
    """A long back with 30 teeth, each as wide as the gaps beside it."""
    corners = [(-190.0, -190.0), (190.0, -190.0)]
    for k in range(30):
        right = 190.0 - 12.6 * k
        corners += [(right, 190.0), (right - 8.6, 190.0), (right - 8.6, -170.0), (right - 12.6, -170.0)]
    return polygon(corners[:-2] + [(-190.0, 190.0)])


def speed():
    squares = [(f"a rectangle at {pitch} um", pocket(rectangle(across(pitch)), across(pitch)), pitch) for pitch in (20, 200, 1000)]
    for name, text, pitch in [*squares, ("a comb of 30 teeth at 200 um", pocket(comb()), 200)]:
        lines = told(text, "0", ["part", "--cell", str(pitch)])
        times = [line.removeprefix("time ").split() for line in lines if line.startswith("time ") and "targets" not in line]
        counts = [line for line in lines if line.split()[0] in ("allowed", "centres", "opening", "required", "targets")]
        if not times:
            print(name, "told", lines[:3])
            continue
        print(f"{name}: {', '.join(counts)}; {len(strokes_of(lines))} strokes")
        print(", ".join(f"{what} {took} ms" for what, took in times))


if given == ["--speed"]:
    speed()
else:
    sys.exit(sum(compare(*pair) for pair in zip(("planes", "strokes"), given)) != 0)
PYTHON
