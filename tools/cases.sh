#!/usr/bin/env bash
# Runs cases that lie beside the repository against the built program: tools/cases.sh RUNNER CASES, where RUNNER runs a file of
# cases on a program. A case is a whole run of `compile`, `verify` or `report`, with its files and what it has to end with. It is
# skipped where one of them is missing.
program=$(dirname "$0")/../crates/stepmill/out/stepmill
if [ ! -x "${1:-}" ] || [ ! -f "${2:-}" ] || [ ! -x "$program" ]; then
  echo "skipped: no runner, no cases or no built program" >&2
  exit 0
fi
"$1" "$2" "$program"
