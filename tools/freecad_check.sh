#!/usr/bin/env bash
# Checks integrations/freecad: chords of arcs, refusals, drilling cycles against LinuxCNC's interpreter, and programs that
# FreeCAD makes for the plate against the verdicts of `stepmill verify`.
#
#   [STEPMILL=PROGRAM] tools/freecad_check.sh
#
# Installs nothing. What is missing of `rs274` (LinuxCNC) and `freecadcmd` (FreeCAD) is named, and its checks are left out.
# The last line is 'N passed, M failed'. The status is 1 where a check failed.
set -u
cd "$(dirname "$0")/.." || exit 1
stepmill=${STEPMILL:-$PWD/bin/stepmill}
room=$(mktemp -d) || exit 1
trap 'rm -rf "$room"' EXIT
raw=(--raw 0,0,0,100,60,22)
part=crates/stepmill/data/plate.stp
export HOME=$room PYTHONDONTWRITEBYTECODE=1

interpreter=$(command -v rs274)
PYTHONDONTWRITEBYTECODE=1 python3 tools/freecad_check.py ${interpreter:+"$interpreter"} > "$room/alone"
sed '$d' "$room/alone"
numbers=$(tail -n 1 "$room/alone" | sed -n 's/^\([0-9]*\) passed, \([0-9]*\) failed$/\1 \2/p')
read -r passed failed <<< "${numbers:-0 1}"

# Compares what came with what is wanted.
check() {
  if [ "$2" == "$3" ]; then
    passed=$((passed + 1))
  else
    failed=$((failed + 1))
    printf 'FAILED: %s\n-- wanted: %s\n-- came: %s\n' "$1" "$2" "$3"
  fi
}

# The plate's program of FreeCAD, made with the given variables, as NAME.
make() {
  local name=$1
  shift
  env "$@" FREECAD_OUT="$room/$name.ngc" "$freecad" integrations/freecad/plate.py > "$room/$name.log" 2>&1 < /dev/null
  [ -s "$room/$name.ngc" ] || grep -a Exception "$room/$name.log"
}

verdict() {
  "$stepmill" verify "$part" "$room/$1.ngc" "${raw[@]}" "${@:2}"
}

# The verdict of a program is this cause, at a line that is this motion and stands in the pocket's steps.
told() {
  local answer line
  answer=$(verdict "$2")
  line=$(sed -n 's/^no: line \([0-9]*\): .*/\1/p' <<< "$answer")
  check "$1" "no: $3 at i j z" "$(sed -E 's/ line [0-9]+:// ; s/([ijz]) [0-9]+/\1/g' <<< "$answer")"
  check "$1: the motion" "$4" "$(sed -n "${line:-0}p" "$room/$2.ngc" 2> "$room/none" | cut -c 1-2)"
  check "$1: the step" yes "$(sed "1,${line:-1}!d" "$room/$2.ngc" | grep WS | tail -n 1 | grep -q '#1[34])' && echo yes)"
}

freecad=$(command -v freecadcmd || command -v FreeCADCmd)
if [ -z "$freecad" ]; then
  echo "left out, since freecadcmd is missing: the plate"
else
  # FreeCAD's order of the lines of a pattern differs from run to run, and with it the lines and points that are told.
  for name in plate again once_more; do
    make "$name"
    check 'the plate' yes "$(verdict "$name")"
    check 'the plate, a finer grid' yes "$(verdict "$name" --cell 100)"
  done
  make wide FREECAD_MILL=9
  told 'a mill 1 mm wider than that of the paths' wide gouge G1
  make narrow FREECAD_MILL=11
  check 'a mill 1 mm narrower than that of the paths' 'no: #18 uncovered' "$(verdict narrow --cell 100 | sed 's/ at i .*//')"
  make low FREECAD_CLEARANCE=15
  told 'a clearance height too low' low 'rapid in material' G0
  if [ -n "$interpreter" ]; then
    printf 'T1 P1 Z0 D10\nT2 P2 Z0 D10\n' > "$room/tools.tbl"
    for name in plate wide low; do
      (cd "$room" && "$interpreter" -t tools.tbl -g "$name.ngc") > "$room/$name.canonical" 2>&1
      check "the interpreter runs $name to its end" '0 1' "$? $(grep -c 'PROGRAM_END()' "$room/$name.canonical")"
    done
  fi
fi
echo "$passed passed, $failed failed"
[ "$failed" -eq 0 ] && [ "$passed" -gt 0 ]
