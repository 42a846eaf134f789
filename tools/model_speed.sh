#!/usr/bin/env bash
# Tells the times of reading a part text, of building its model and of checking its references, for a text of 1,200,000
# instances (about 66 MB) and half of it, for a chain, a fan and a ring of 1,000,000 references. No program calls these yet,
# so a small one is made in a scratch repository beside a copy of the crates. It is not part of the gate.
cd "$(dirname "$0")/.." || exit 1
if ! command -v rt > /dev/null || [ ! -x /usr/bin/time ]; then
  echo "skipped: no rt or no /usr/bin/time" >&2
  exit 0
fi
folder=$(mktemp -d) || exit 1
trap 'rm -rf "$folder"' EXIT
cp HANDLES "$folder/"
mkdir -p "$folder/crates/speed/src"
for crate in sn_geom sn_lex sn_p21 sn_entity sn_model sn_refs; do
  cp -r "crates/$crate" "$folder/crates/"
  grep "^$crate:" crates.txt >> "$folder/crates.txt"
done
echo "speed: sn_refs sn_model sn_p21" >> "$folder/crates.txt"
cat > "$folder/crates/speed/src/main.rt" << 'RATTLE'
//! Times of reading, of models and of checks.
#![tactic(auto)]

use sn_model::build;
use sn_p21::read_file;
use sn_refs::check;
use std::alloc::{AllocError, Global};
use std::env;
use std::io;
use std::time::Instant;

const HEAD: &str = "ISO-10303-21;HEADER;FILE_DESCRIPTION((''),'1');FILE_NAME();FILE_SCHEMA(());ENDSEC;DATA;\n#1=PROJECT('',#2,());\n";
const FOOT: &str = "ENDSEC;END-ISO-10303-21;\n";

fn mixed(alloc: Global, n: u32) -> Result<String, AllocError> {
    let mut text = String::new(alloc);
    text.push_str(HEAD)?;
    text.push_str("#2=WORKPLAN('',(),$,$);\n")?;
    for i in 3..n {
        let place = i / 3;
        let line = match i % 6 {
            4 => format!(in alloc; "#{i}=DIRECTION('axis',(0.,-0.70710678,0.70710678));\n")?,
            5 => format!(in alloc; "#{i}=AXIS2_PLACEMENT_3D('placement',#{place},#{place},$);\n")?,
            _ => format!(in alloc; "#{i}=CARTESIAN_POINT('',(123.456,-78.901,{}.5));\n", i % 1000)?,
        };
        text.push_str(line.as_str())?;
    }
    text.push_str(FOOT)?;
    Ok(text)
}

fn chain(alloc: Global, n: u32) -> Result<String, AllocError> {
    let mut text = String::new(alloc);
    text.push_str(HEAD)?;
    for i in 2..n {
        let line = format!(in alloc; "#{i}=WORKPLAN('',(#{}),$,$);\n", i + 1)?;
        text.push_str(line.as_str())?;
    }
    let line = format!(in alloc; "#{n}=WORKPLAN('',(),$,$);\n")?;
    text.push_str(line.as_str())?;
    text.push_str(FOOT)?;
    Ok(text)
}

fn fan(alloc: Global, n: u32) -> Result<String, AllocError> {
    let mut text = String::new(alloc);
    text.push_str(HEAD)?;
    text.push_str("#2=WORKPLAN('',(#3")?;
    for i in 4..n {
        let line = format!(in alloc; ",#{i}")?;
        text.push_str(line.as_str())?;
    }
    text.push_str("),$,$);\n")?;
    for i in 3..n {
        let line = format!(in alloc; "#{i}=WORKPLAN('',(),$,$);\n")?;
        text.push_str(line.as_str())?;
    }
    text.push_str(FOOT)?;
    Ok(text)
}

fn ring(alloc: Global, n: u32) -> Result<String, AllocError> {
    let mut text = String::new(alloc);
    text.push_str(HEAD)?;
    for i in 2..n {
        let back = i / 2 + 1;
        let line = format!(in alloc; "#{i}=WORKPLAN('',(#{},#{back}),$,$);\n", i + 1)?;
        text.push_str(line.as_str())?;
    }
    let line = format!(in alloc; "#{n}=WORKPLAN('',(#2),$,$);\n")?;
    text.push_str(line.as_str())?;
    text.push_str(FOOT)?;
    Ok(text)
}

fn time(rt: &HostRuntime, name: &str, text: &String) -> io::Result<()> {
    let alloc = rt.alloc();
    let start = Instant::now(rt)?;
    let Ok(file) = read_file(alloc, text.as_bytes()) else {
        println!(rt; "{name}: not read")?;
        return Ok(());
    };
    let read = start.elapsed(rt)?;
    let start = Instant::now(rt)?;
    let Ok(model) = build(alloc, &file) else {
        println!(rt; "{name}: no model")?;
        return Ok(());
    };
    let built = start.elapsed(rt)?;
    let start = Instant::now(rt)?;
    let answer = check(alloc, model);
    let checked = start.elapsed(rt)?;
    println!(rt; "{name}: {} bytes, read {} ms, model {} ms, check {} ms", text.len(), read.as_millis(), built.as_millis(), checked.as_millis())?;
    match answer {
        Ok(_) => println!(rt; "{name}: sound")?,
        Err(fault) => println!(rt; "{name}: {fault}")?,
    }
    Ok(())
}

fn main(rt: HostRuntime) -> io::Result<()> {
    let alloc = rt.alloc();
    let Ok(args) = env::args(&rt) else {
        return Ok(());
    };
    for arg in args.skip(1) {
        match arg.as_str() {
            "half" => time(&rt, "half", &mixed(alloc, 600_000)?)?,
            "whole" => time(&rt, "whole", &mixed(alloc, 1_200_000)?)?,
            "chain" => time(&rt, "chain", &chain(alloc, 1_000_000)?)?,
            "fan" => time(&rt, "fan", &fan(alloc, 1_000_000)?)?,
            "ring" => time(&rt, "ring", &ring(alloc, 1_000_000)?)?,
            _ => {}
        }
    }
    Ok(())
}
RATTLE
(cd "$folder/crates/speed" && rt run) > "$folder/log" 2>&1
program=$folder/crates/speed/out/speed
if [ ! -x "$program" ]; then
  tail -n 20 "$folder/log" >&2
  echo "not built" >&2
  exit 1
fi
for form in half whole chain fan ring; do
  /usr/bin/time -f "$form: %e s with the making of its text, %M KB" "$program" "$form"
done
