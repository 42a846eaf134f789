#!/usr/bin/env bash
# Tells the time and the memory of compiling the sample part on a grid of a million nodes.
cd "$(dirname "$0")/.." || exit 1
program=crates/stepmill/out/stepmill
if [ ! -x "$program" ] || [ ! -x /usr/bin/time ]; then
  echo "skipped: no built program or no /usr/bin/time" >&2
  exit 0
fi
/usr/bin/time -f 'compile --cell 20: %e s, %M KB' "$program" compile crates/stepmill/data/one.stp --cell 20 > /dev/null
