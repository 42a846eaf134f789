#!/usr/bin/env bash
# Builds jobs with the crate sn_flow and compares them, or the text of the refusal, with cases: tools/job_check.sh FILE, where
# FILE has a case a line, as JSON. A small program that calls it is made in a scratch repository beside a copy
# of the crates. It is not part of the gate. Grids, and what only a grid refuses, are not compared.
cases=$(readlink -f "${1:-/dev/null}")
cd "$(dirname "$0")/.." || exit 1
if ! command -v rt > /dev/null || ! command -v python3 > /dev/null || [ ! -s "$cases" ]; then
  echo "skipped: no rt, no python3 or no cases" >&2
  exit 0
fi
folder=$(mktemp -d) || exit 1
trap 'rm -rf "$folder"' EXIT
cp HANDLES "$folder/"
mkdir -p "$folder/crates/job_check/src"
for crate in sn_geom sn_outline sn_lex sn_p21 sn_frame sn_entity sn_model sn_words sn_refs sn_walk sn_feature sn_flow; do
  cp -r "crates/$crate" "$folder/crates/"
  grep "^$crate:" crates.txt >> "$folder/crates.txt"
done
echo "job_check: sn_flow sn_words sn_refs sn_model sn_entity sn_frame sn_outline sn_geom sn_p21 sn_lex" >> "$folder/crates.txt"
cat > "$folder/crates/job_check/src/main.rt" << 'RATTLE'
//! Writes the job of a part, or why it has none.
#![tactic(auto)]

use sn_entity::EntFault;
use sn_flow::{JobFault, job};
use sn_frame::FrameFault;
use sn_geom::{Pt, Pt3};
use sn_lex::LexFault;
use sn_model::{ModelFault, build};
use sn_outline::{Bottom, Job, Shape, StepJob, Way};
use sn_p21::{P21Fault, read_file};
use sn_refs::{RefFault, check};
use sn_words::{Opts, Words, values};
use std::{env, fs, io};

fn lex_fault(rt: &HostRuntime, fault: LexFault) -> io::Result<()> {
    match fault {
        LexFault::BadByte(at) => println!(rt; "bad byte at {at}"),
        LexFault::OpenString(at) => println!(rt; "open string at {at}"),
        LexFault::OpenComment(at) => println!(rt; "open comment at {at}"),
        LexFault::BadNumber(at) => println!(rt; "bad number at {at}"),
        LexFault::BadEnum(at) => println!(rt; "bad enumeration at {at}"),
    }
}

fn text_fault(rt: &HostRuntime, fault: P21Fault) -> io::Result<()> {
    match fault {
        P21Fault::Lex(why) => lex_fault(rt, why),
        P21Fault::Unexpected(at) => println!(rt; "unexpected at {at}"),
        P21Fault::Twice(n, at) => println!(rt; "#{n} twice at {at}"),
        P21Fault::TooDeep(at) => println!(rt; "too deep at {at}"),
        P21Fault::Memory => println!(rt; "memory"),
    }
}

fn model_fault(rt: &HostRuntime, fault: ModelFault) -> io::Result<()> {
    match fault {
        ModelFault::NoProject => println!(rt; "no project"),
        ModelFault::TwoProjects(n) => println!(rt; "#{n} is a second project"),
        ModelFault::Memory => println!(rt; "memory"),
    }
}

fn entity_fault(rt: &HostRuntime, fault: EntFault) -> io::Result<()> {
    match fault {
        EntFault::Count(n, want, got) => println!(rt; "#{n} has {got} parameters and wants {want}"),
        EntFault::KindAt(n, k) => println!(rt; "#{n} parameter {k} has a wrong kind"),
        EntFault::Range(n, k) => println!(rt; "#{n} parameter {k} is out of range"),
        EntFault::Memory => println!(rt; "memory"),
    }
}

fn reference_fault(rt: &HostRuntime, fault: RefFault) -> io::Result<()> {
    match fault {
        RefFault::Entity(why) => entity_fault(rt, why),
        RefFault::Dangling(n, k) => println!(rt; "#{n} parameter {k} names nothing"),
        RefFault::WrongKind(n, k, m) => println!(rt; "#{n} parameter {k} names #{m} of a wrong kind"),
        RefFault::Cycle(n) => println!(rt; "#{n} on a cycle"),
        RefFault::Memory => println!(rt; "memory"),
    }
}

fn frame_fault(rt: &HostRuntime, fault: FrameFault) -> io::Result<()> {
    match fault {
        FrameFault::Skew(n) => println!(rt; "#{n} is skew"),
        FrameFault::OutOfRange(n) => println!(rt; "#{n} leaves the range"),
    }
}

fn job_fault(rt: &HostRuntime, fault: JobFault) -> io::Result<()> {
    match fault {
        JobFault::Frame(why) => frame_fault(rt, why),
        JobFault::Unset(n) => println!(rt; "#{n} has no value"),
        JobFault::TooManySteps => println!(rt; "too many steps"),
        JobFault::SecondSetup(n) => println!(rt; "#{n} names a second setup"),
        JobFault::RawUnknown => println!(rt; "raw box unknown"),
        JobFault::SecLow => println!(rt; "security plane below the raw top"),
        JobFault::WrongTool(n) => println!(rt; "#{n} has a wrong tool"),
        JobFault::ShortTool(n) => println!(rt; "#{n} has a short tool"),
        JobFault::Depth(n) => println!(rt; "#{n} has its floor above its top"),
        JobFault::BadOutline(n) => println!(rt; "#{n} has a bad outline"),
        JobFault::GridTooBig => println!(rt; "grid too big"),
        JobFault::TooSmall(n) => println!(rt; "#{n} too small for the grid"),
        JobFault::Memory => println!(rt; "memory"),
    }
}

fn corner(rt: &HostRuntime, name: &str, p: &Pt3) -> io::Result<()> {
    println!(rt; "{name} [{}, {}, {}]", p.x.get(), p.y.get(), p.z.get())
}

fn points(rt: &HostRuntime, points: &[Pt]) -> io::Result<()> {
    let mut first = true;
    for p in points {
        if !first {
            print!(rt; ",")?;
        }
        first = false;
        print!(rt; "{},{}", p.x.get(), p.y.get())?;
    }
    println!(rt; "")
}

fn shape(rt: &HostRuntime, shape: &Shape) -> io::Result<()> {
    match shape {
        Shape::Rect(low, high) => println!(rt; "shape rect:{},{},{},{}", low.x.get(), low.y.get(), high.x.get(), high.y.get()),
        Shape::Circle(centre, d) => println!(rt; "shape circle:{},{},{d}", centre.x.get(), centre.y.get()),
        Shape::Polygon(corners) => {
            print!(rt; "shape polygon:")?;
            points(rt, corners.as_slice())
        }
        Shape::Trail(trail, width) => {
            print!(rt; "shape trail:{width},")?;
            points(rt, trail.as_slice())
        }
    }
}

fn bottom_name(bottom: Bottom) -> &'static str {
    match bottom {
        Bottom::Flat => "Flat",
        Bottom::Conical => "Conical",
        Bottom::Through => "Through",
    }
}

fn way_name(way: Way) -> &'static str {
    match way {
        Way::Clear => "Clear",
        Way::Trail => "Trail",
        Way::Drill => "Drill",
    }
}

fn step(rt: &HostRuntime, s: &StepJob) -> io::Result<()> {
    print!(rt; "step ws {} feature {} top {} floor {}", s.ws, s.feature, s.top, s.floor)?;
    print!(rt; " bottom {} corner {} side {} under {}", bottom_name(s.bottom), s.corner, s.side, s.under)?;
    print!(rt; " axial {} radial {} tool {} d {} e {}", s.axial, s.radial, s.tool, s.body.d, s.body.e)?;
    println!(rt; " feed {} speed {} way {}", s.feed, s.speed, way_name(s.way))?;
    shape(rt, &s.outline.shape)
}

fn show(rt: &HostRuntime, job: &Job) -> io::Result<()> {
    println!(rt; "pitch {}", job.pitch())?;
    corner(rt, "low", &job.low())?;
    corner(rt, "high", &job.high())?;
    println!(rt; "sec {}", job.sec())?;
    print!(rt; "tools [")?;
    let mut first = true;
    for tool in job.tools() {
        if !first {
            print!(rt; ", ")?;
        }
        first = false;
        print!(rt; "{tool}")?;
    }
    println!(rt; "]")?;
    for s in job.steps() {
        step(rt, s)?;
    }
    Ok(())
}

fn judge(rt: &HostRuntime, bytes: &[u8], options: &Opts) -> io::Result<()> {
    let alloc = rt.alloc();
    let file = match read_file(alloc, bytes) {
        Ok(file) => file,
        Err(fault) => return text_fault(rt, fault),
    };
    let model = match build(alloc, &file) {
        Ok(model) => model,
        Err(fault) => return model_fault(rt, fault),
    };
    let checked = match check(alloc, model) {
        Ok(checked) => checked,
        Err(fault) => return reference_fault(rt, fault),
    };
    match job(alloc, &checked, options) {
        Ok(job) => show(rt, &job),
        Err(fault) => job_fault(rt, fault),
    }
}

fn main(rt: HostRuntime) -> io::Result<()> {
    let Ok(args) = env::args(&rt) else {
        return Ok(());
    };
    let mut words = Words::new(rt.alloc());
    let mut name = None;
    for arg in args.skip(1) {
        if name.is_none() {
            name = Some(arg);
        } else if words.push(arg.as_bytes()).is_err() {
            return Ok(());
        }
    }
    let Some(name) = name else {
        return Ok(());
    };
    let bytes = fs::read(&rt, name.as_str())?;
    match values(rt.alloc(), &words) {
        Ok(options) => judge(&rt, bytes.as_slice(), &options),
        Err(fault) => println!(&rt; "{fault}"),
    }
}
RATTLE
(cd "$folder/crates/job_check" && rt run -- /dev/null) > "$folder/log" 2>&1
program=$folder/crates/job_check/out/job_check
if [ ! -x "$program" ]; then
  tail -n 40 "$folder/log" >&2
  echo "not built" >&2
  exit 1
fi
python3 - "$program" "$folder" "$cases" << 'PYTHON'
import json, os, re, subprocess, sys

program, folder, cases = sys.argv[1:]


def wanted_lines(answer):
    """The lines of the job or the refusal, without what belongs to later forms of the program and to the grid."""
    lines = []
    for line in answer.splitlines():
        if line.startswith("Grid ") or line.startswith("ramp "):
            continue
        lines.append(re.sub(r" contour false$", "", line).removeprefix("refused: part: "))
    return lines


passed = failed = grids = left = 0
for row in open(cases):
    case = json.loads(row)
    # islands, and what later options say, are not built yet
    if "BOSS" in case["files"]["part"] or {"--contour", "--ramp", "--clear"} & set(case["args"]):
        left += 1
        continue
    part = os.path.join(folder, "part")
    with open(part, "wb") as text:
        text.write(case["files"]["part"].encode("latin-1"))
    words = [program, part, "report"] + case["args"]
    told = subprocess.run(words, capture_output=True).stdout.decode("latin-1").splitlines()
    wanted = wanted_lines(case["answer"])
    if len(wanted) == 1 and (wanted[0].endswith("too small for the grid") or wanted[0] == "grid too big"):
        grids += 1
        good = told[:1] != [] and told[0].startswith("pitch ")
    else:
        good = told == wanted
    if good:
        passed += 1
    else:
        failed += 1
        if failed < 6:
            print(case["args"], "wanted", wanted, "told", told)
print(f"{left} with islands or later options left out")
print(f"{passed} passed, {failed} failed; {grids} of them refused by their grids alone")
sys.exit(failed != 0)
PYTHON
