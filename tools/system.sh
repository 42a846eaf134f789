#!/usr/bin/env bash
# Runs the built program as a shell does, on real files, pipes and devices, and compares the exit status and both streams
# of each run with what is wanted. No contract says what these hold.
#
#   tools/system.sh [PROGRAM..]      without words: crates/stepmill/out/stepmill
#
# The variable CHECKS of the environment names the groups of checks that are run, as in CHECKS='verdicts names'; without it
# all are. The last line is 'N passed, M failed'. The status is 1 where a check failed or a program is not there.
set -u
unset CDPATH
cd "$(dirname "$0")/.." || exit 1
sample=$PWD/crates/stepmill/data/one.stp
sample_text=$PWD/crates/stepmill/stdout
plate=$PWD/crates/stepmill/data/plate.stp
plate_box=0,0,0,100,60,22
longest=67108864
folder=$(mktemp -d) || exit 1
trap 'rm -rf "$folder"' EXIT
passed=0
failed=0

fail() {
  failed=$((failed + 1))
  echo "FAILED: $*"
}

# run WORD..: the program on these words. Its status, output and errors are kept for `wants`.
run() {
  timeout 120 "$program" "$@" < /dev/null > "$folder/out" 2> "$folder/err"
  status=$?
}

# run_within KILOBYTES WORD..: the same, with so much address space.
run_within() {
  timeout 120 prlimit --as=$(($1 * 1024)) "$program" "${@:2}" < /dev/null > "$folder/out" 2> "$folder/err"
  status=$?
}

has_output() {
  case $1 in
    program) cmp -s "$sample_text" "$folder/out" ;;
    nothing) [ ! -s "$folder/out" ] ;;
    @*) cmp -s "${1#@}" "$folder/out" ;;
    's/'* | '/'* | [0-9]*'s/'*) sed "$1" "$sample_text" | cmp -s - "$folder/out" ;;
    *) printf '%s\n' "$1" | cmp -s - "$folder/out" ;;
  esac
}

# The errors are one line, or nothing where the line is empty.
has_errors() {
  if [ -n "$1" ]; then
    printf '%s\n' "$1" | cmp -s - "$folder/err"
  else
    [ ! -s "$folder/err" ]
  fi
}

# wants NAME STATUS OUTPUT ERRORS: compares what the last run did, each stream as a whole. OUTPUT is `program`, the text of the
# sample part's program, or `nothing`, or @FILE, the text of a file, or an edit of sed, the sample's text with it, or one line.
wants() {
  if [ "$status" -eq "$2" ] && has_output "$3" && has_errors "$4"; then
    passed=$((passed + 1))
  else
    fail "$1: wanted status $2, output: $3, errors: '$4'; came status $status, output of $(wc -c < "$folder/out") bytes," \
      "errors: '$(head -c 200 "$folder/err")'"
  fi
}

# has_ends NAME STATUS FIRST LAST COUNT LINE..: the output begins and ends with these lines and has COUNT of them, each of
# those behind once; the errors are empty.
has_ends() {
  local line wrong=
  [ "$status" -eq "$2" ] && has_errors '' && [ "$(head -n 1 "$folder/out")" == "$3" ] \
    && [ "$(tail -n 1 "$folder/out")" == "$4" ] && [ "$(wc -l < "$folder/out")" -eq "$5" ] || wrong=1
  for line in "${@:6}"; do
    [ "$(grep -cxF -- "$line" "$folder/out")" -eq 1 ] || wrong=1
  done
  if [ -z "$wrong" ]; then
    passed=$((passed + 1))
  else
    fail "$1: status $status, $(wc -l < "$folder/out") lines from '$(head -n 1 "$folder/out")' to '$(tail -n 1 "$folder/out")'"
  fi
}

# empty_streams: before a run whose streams are not those that `run` makes.
empty_streams() {
  : > "$folder/out"
  : > "$folder/err"
}

# The end of a program: the lines behind the last motion of the sample part's program.
program_end() {
  tail -n +14 "$sample_text"
}

# padded BYTES: the sample part behind a comment, in so many bytes.
padded() {
  printf '/*'
  head -c $(($1 - $(wc -c < "$sample") - 4)) /dev/zero | tr '\0' x
  printf '*/'
  cat "$sample"
}

check_statuses() {
  run compile "$sample" --cell 1000
  wants 'the sample part' 0 program ''
  run compile /dev/null --cell 1000
  wants 'a part of no bytes' 1 nothing 'stepmill: part: unexpected at 0'
  tr 7 8 < "$sample" > "$folder/twice.stp"
  run compile "$folder/twice.stp" --cell 1000
  wants 'a number given twice' 1 nothing 'stepmill: part: #8 twice at 417'
  sed 's/FLAT_HOLE_BOTTOM/THROUGH_BOTTOM_CONDITION/' "$sample" > "$folder/through.stp"
  run compile "$folder/through.stp" --cell 1000
  wants 'a through hole by a tool without a point' 0 program ''
  sed 's/DIMENSION(8\./DIMENSION(1./' "$sample" > "$folder/thin.stp"
  run compile "$folder/thin.stp" --cell 1000
  wants 'a tool that does not reach all' 7 nothing 'stepmill: uncovered #8 i 10 j 9 z 40000'
  run compile "$sample" --cell 2000
  wants 'a coarse grid' 1 nothing 'stepmill: part: #8 too small for the grid'
  run
  wants 'no words' 2 nothing 'stepmill: word 1'
  run compile
  wants 'no part' 2 nothing 'stepmill: word 2'
  run compile "$folder/missing.stp" --cell 1000
  wants 'a missing part' 3 nothing 'stepmill: read fault'
}

# compile_changed PITCH EDIT..: the sample part, changed by edits of sed.
compile_changed() {
  local edit edits=()
  for edit in "${@:2}"; do edits+=(-e "$edit"); done
  sed "${edits[@]}" "$sample" > "$folder/changed.stp"
  run compile "$folder/changed.stp" --cell "$1"
}

# The limits of numbers and of the grid: the last value that is accepted, and the next one.
check_limits() {
  local part='stepmill: part:' range='is out of range' small='stepmill: part: #8 too small for the grid'
  local hole='s/MEASURE(8\./MEASURE(' tool='s/DIMENSION(8\./DIMENSION(' security='s/(0\.,0\.,20\.)/(0.,0.,'
  local raw='s/20\.,20\.,10\./' top='s/(10\.,10\.,10\.)/(' depth='s/-6\./'
  run compile "$sample" --cell 20
  wants 'the least pitch' 0 program ''
  compile_changed 2000 "${hole}16./" "${tool}16./"
  wants 'the greatest pitch' 0 program ''
  compile_changed 1000 's/0\.005/1.666666667/'
  wants 'the greatest feed' 0 's/^F300/F100000/' ''
  compile_changed 1000 's/0\.005/1.66668/'
  wants 'a greater feed' 1 nothing "$part #18 parameter 1 $range"
  compile_changed 1000 's/0\.005/0.00001/'
  wants 'the least feed' 0 's/^F300/F1/' ''
  compile_changed 1000 's/0\.005/0.000008/'
  wants 'no feed' 1 nothing "$part #18 parameter 1 $range"
  compile_changed 1000 's/-12\./-1666.66667/'
  wants 'the greatest speed' 0 's/^S720/S100000/' ''
  compile_changed 1000 's/-12\./1666.68/'
  wants 'a greater speed' 1 nothing "$part #18 parameter 4 $range"
  compile_changed 1000 "${hole}200./" "${tool}200./"
  wants 'the greatest tool' 0 program ''
  compile_changed 1000 "${hole}200.0001/" "${tool}200.0001/"
  wants 'a greater tool' 1 nothing "$part #25 parameter 1 $range"
  compile_changed 20 "${hole}0.01/" "${tool}0.01/"
  wants 'the least tool' 1 nothing "$small"
  compile_changed 20 "${hole}0.0099/" "${tool}0.0099/"
  wants 'a lesser tool' 1 nothing "$part #25 parameter 1 $range"
  compile_changed 1000 "${security}2000.)/"
  wants 'the greatest height' 0 's/Z20\.0/Z2000.0/' ''
  compile_changed 1000 "${security}2000.0001)/"
  wants 'a greater height' 1 nothing "$part #20 parameter 2 $range"
  compile_changed 1000 "${top}-2000.,10.,10.)/"
  wants 'the least coordinate' 1 nothing "$small"
  compile_changed 1000 "${top}-2000.0001,10.,10.)/"
  wants 'a lesser coordinate' 1 nothing "$part #21 parameter 2 $range"
  compile_changed 1000 "${raw}20.,20.,2000./" "${security}2000.)/" "${top}10.,10.,2000.)/" "${depth}-80./"
  wants 'the deepest hole' 0 '/^G0 Z11/d;s/Z20\.0/Z2000.0/;s/Z4\.0/Z1920.0/' ''
  compile_changed 1000 "${raw}20.,20.,2000./" "${security}2000.)/" "${top}10.,10.,2000.)/" "${depth}-80.0001/"
  wants 'a deeper hole' 1 nothing "$part #4 has a short tool"
  compile_changed 2000 "${hole}16./" "${tool}16./" "${raw}1993.9999,20.,10./"
  wants 'a grid up to the greatest coordinate' 0 program ''
  compile_changed 2000 "${hole}16./" "${tool}16./" "${raw}1994.,20.,10./"
  wants 'a grid beyond it' 1 nothing "$part grid too big"
  compile_changed 1000 "${raw}1991.,1991.,10./"
  wants 'the biggest grid' 0 program ''
  compile_changed 1000 "${raw}1992.,1991.,10./"
  wants 'a bigger grid' 1 nothing "$part grid too big"
  compile_changed 1000 "${security}11.0001)/"
  wants 'a rapid down' 0 's/Z20\.0000/Z11.0001/' ''
}

# compile_text TEXT: a part of this text.
compile_text() {
  printf '%s' "$1" > "$folder/text.stp"
  run compile "$folder/text.stp" --cell 1000
}

# Parts of other texts: their layout, their first fault, what their instances lack.
check_parts() {
  local front='ISO-10303-21;HEADER;FILE_DESCRIPTION();FILE_NAME();FILE_SCHEMA();ENDSEC;DATA;' back='ENDSEC;END-ISO-10303-21;'
  local deep
  compile_changed 1000 's/#1=PROJECT(.one.,/#01 = PROJECT ( '"'one'"' , \/* the project *\/ /' \
    's/#6=BLOCK(.raw.,#11,20\.,20\.,10\.)/#6=(BLOCK('"'raw'"',#11,20,+20.0,10.E0))/' 's/(8\.,\$);/(8,$);/'
  wants 'another layout' 0 program ''
  compile_changed 1000 's/(#4)/()/'
  { head -n 2 "$sample_text" && program_end; } > "$folder/empty.ngc"
  wants 'no steps' 0 "@$folder/empty.ngc" ''
  compile_changed 1000 's/(#4)/(#4,#4)/'
  sed '13a (WS #4)' "$sample_text" > "$folder/again.ngc"
  wants 'a step twice: nothing is left for the second time' 0 "@$folder/again.ngc" ''
  compile_text "${front}${back}"
  wants 'no project' 1 nothing 'stepmill: part: no project'
  compile_text "${front}#1=A();#01=B();"
  wants 'a number twice' 1 nothing 'stepmill: part: #1 twice at 84'
  deep=$(head -c 65 /dev/zero | tr '\0' '(')
  compile_text "${front}#1=A$deep"
  wants 'a list too deep' 1 nothing 'stepmill: part: too deep at 145'
  compile_text "ISO-10303-21;HEADER;FILE_DESCRIPTION(('a"
  wants 'an open string' 1 nothing 'stepmill: part: open string at 38'
  compile_changed 1000 's/^#25=/#26=/'
  wants 'a dangling reference' 1 nothing 'stepmill: part: #23 parameter 1 names nothing'
  compile_changed 1000 's/#7=PLANE(.security.,#12)/#7=PLANE('"'security'"',#19)/'
  wants 'a reference of a wrong kind' 1 nothing 'stepmill: part: #7 parameter 2 names #19 of a wrong kind'
  compile_changed 1000 's/#16=FLAT_HOLE_BOTTOM()/#16=CARTESIAN_POINT('"''"',(0.,0.))/'
  wants 'a parameter of a wrong kind' 1 nothing 'stepmill: part: #8 parameter 8 names #16 of a wrong kind'
  compile_changed 1000 's/-6\./6./'
  wants 'a floor above its top' 1 nothing 'stepmill: part: #8 has its floor above its top'
}

# A pocket of 30 by 20 mm at (20, 15), 5 mm deep, cleared by a tool of 7 mm in one layer: of the rows of free centres from Y8
# to Y22 each third one and the last, to and fro from X8 to X32.
check_pocket() {
  local y
  compile_changed 1000 's/^#8=.*/#8=CLOSED_POCKET('"''"',#3,(#9),#13,#14,(),$,#16,$,$,#15);/' \
    's/^#9=.*/#9=BOTTOM_AND_SIDE_ROUGH_MILLING($,$,'"''"',$,$,#17,#18,$,$,$,$,$,$,$,$,$);/' \
    's/^#15=.*/#15=RECTANGULAR_CLOSED_PROFILE($,#26,#27);#26=TOLERANCED_LENGTH_MEASURE(30.,$);#27=TOLERANCED_LENGTH_MEASURE(20.,$);/' \
    's/FLAT_HOLE/PLANAR_POCKET/;s/BOTTOM();/BOTTOM_CONDITION();/' 's/20\.,20\.,10\./40.,30.,10./' 's/(10\.,10\.,10\.)/(20.,15.,10.)/' \
    's/-6\./-5./' 's/DIMENSION(8\./DIMENSION(7./'
  {
    head -n 9 "$sample_text"
    printf 'G0 X8.0000 Y8.0000\nG0 Z11.0000\nG1 Z5.0000\n'
    for y in 8:32 11:8 14:32 17:8 20:32 22:8; do
      [ "$y" = 8:32 ] || printf 'G1 X%d.0000 Y%d.0000\n' $((40 - ${y#*:})) "${y%:*}"
      printf 'G1 X%d.0000 Y%d.0000\n' "${y#*:}" "${y%:*}"
    done
    printf 'G0 Z20.0000\n'
    program_end
  } > "$folder/pocket.ngc"
  wants 'a pocket' 0 "@$folder/pocket.ngc" ''
}

# A slot of 10 mm along three points, 4 mm deep, followed by a tool of its width in two layers.
slot_edits=(
  's/^#8=.*/#8=SLOT('"''"',#3,(#9),#13,#14,#26,#27,(#28));/'
  's/^#9=.*/#9=BOTTOM_AND_SIDE_ROUGH_MILLING($,$,'"''"',$,$,#17,#18,$,$,$,$,$,2.,$,$,$);/'
  's/^#16=.*/#26=GENERAL_PATH($,#29);#27=SQUARE_U_PROFILE($,#15,$,$,$,$);#28=RADIUSED_SLOT_END_TYPE();#29=POLYLINE('"''"',(#30,#31,#32));/'
  's/^#21=.*/#21=CARTESIAN_POINT('"''"',(0.,0.,12.));#30=CARTESIAN_POINT('"''"',(15.,15.));#31=CARTESIAN_POINT('"''"',(40.,15.));#32=CARTESIAN_POINT('"''"',(55.,35.));/'
  's/20\.,20\.,10\./70.,50.,12./' 's/MEASURE(8\./MEASURE(10./' 's/DIMENSION(8\./DIMENSION(10./' 's/-6\./-4./'
)

check_slot() {
  compile_changed 250 "${slot_edits[@]}"
  {
    head -n 8 "$sample_text"
    printf 'G0 Z20.0000\nG0 X15.0000 Y15.0000\nG0 Z13.0000\nG1 Z10.0000\nG1 X40.0000 Y15.0000\nG1 X55.0000 Y35.0000\nG0 Z20.0000\n'
    printf 'G0 X15.0000 Y15.0000\nG0 Z11.0000\nG1 Z8.0000\nG1 X40.0000 Y15.0000\nG1 X55.0000 Y35.0000\nG0 Z20.0000\n'
    program_end
  } > "$folder/slot.ngc"
  wants 'a slot' 0 "@$folder/slot.ngc" ''
  cp "$folder/changed.stp" "$folder/slot.stp"
  run verify "$folder/slot.stp" "$folder/slot.ngc"
  wants 'the program of the slot' 0 'yes' ''
  sed '12s/.*/G1 Z9.0000/' "$folder/slot.ngc" > "$folder/changed.ngc"
  run verify "$folder/slot.stp" "$folder/changed.ngc"
  wants 'a plunge that is too deep for the feed behind it' 6 'no: line 13: too deep at i 61 j 40 z 110000' ''
}

# A drill with a point goes through its hole and comes out of its point at feed.
check_drill() {
  local drill=('s/ENDMILL/TWIST_DRILL/' 's/FLAT_HOLE_BOTTOM/THROUGH_BOTTOM_CONDITION/' 's/-6\./-10./')
  local thin=('s/MEASURE(8\./MEASURE(0.6/' 's/DIMENSION(8\./DIMENSION(0.6/')
  compile_changed 1000 "${drill[@]}"
  {
    head -n 11 "$sample_text"
    printf 'G1 Z-4.0000\nG1 Z0.0000\nG0 Z20.0000\n'
    program_end
  } > "$folder/drill.ngc"
  wants 'a drill with a point' 0 "@$folder/drill.ngc" ''
  run verify "$folder/changed.stp" "$folder/drill.ngc" --cell 1000
  wants 'its program' 0 'yes' ''
  compile_changed 1000 's/ENDMILL/TWIST_DRILL/'
  wants 'a flat bottom by a drill with a point' 7 nothing 'stepmill: uncovered #8 i 10 j 9 z 40000'
  compile_changed 250 "${drill[@]}" "${thin[@]}"
  wants 'a thin drill on a coarse grid' 1 nothing 'stepmill: part: #8 too small for the grid'
  compile_changed 50 "${drill[@]}" "${thin[@]}"
  {
    head -n 11 "$sample_text"
    printf 'G1 Z-0.3000\nG1 Z0.0000\nG0 Z20.0000\n'
    program_end
  } > "$folder/drill.ngc"
  wants 'a thin drill on a fine grid' 0 "@$folder/drill.ngc" ''
}

# A face, a hole, and a pocket that is roughed and finished.
check_plate() {
  run compile "$plate" --raw "$plate_box"
  cp "$folder/out" "$folder/plate.ngc"
  has_ends 'the plate' 0 '%' '%' 120 '(T1 #39)' '(T2 #44)' '(WS #10)' '(WS #11)' '(WS #13)' '(WS #14)' M2
  run verify "$plate" "$folder/plate.ngc" --raw "$plate_box"
  wants 'the program of the plate' 0 'yes' ''
  run verify "$plate" "$folder/plate.ngc" --raw 0,0,0,100,60,25
  wants 'its program for a higher box' 6 'no: line 12: rapid in material at i 0 j 0 z 230000' ''
  run compile "$plate"
  wants 'the plate without its box' 1 nothing 'stepmill: part: raw box unknown'
}

# The counts of a part are told where its program is written, and else it is refused as `compile` refuses it.
check_reports() {
  run report "$plate" --raw "$plate_box"
  {
    printf 'steps 4\ngrid 441 281\n'
    printf 'ws 10 tool 1 strokes 15 layers 1 lifts 1 cells 1932820000\n'
    printf 'ws 11 tool 2 strokes 1 layers 1 lifts 1 cells 251400000\n'
    printf 'ws 13 tool 1 strokes 8 layers 2 lifts 2 cells 1521375000\n'
    printf 'ws 14 tool 1 strokes 7 layers 1 lifts 1 cells 192625000\n'
  } > "$folder/plate.txt"
  wants 'the counts of the plate' 0 "@$folder/plate.txt" ''
  run report "$plate"
  wants 'the counts of the plate without its box' 1 nothing 'stepmill: part: raw box unknown'
  printf 'steps 1\ngrid 29 29\nws 4 tool 1 strokes 1 layers 1 lifts 1 cells 2940000\n' > "$folder/sample.txt"
  run report "$sample" --cell 1000
  wants 'the counts of the sample part' 0 "@$folder/sample.txt" ''
  timeout 120 "$program" report /dev/stdin --cell 1000 < "$sample" > "$folder/out" 2> "$folder/err"
  status=$?
  wants 'the counts of a part from standard input' 0 "@$folder/sample.txt" ''
  sed 's/(#4)/(#4,#4)/' "$sample" > "$folder/again.stp"
  run report "$folder/again.stp" --cell 1000
  { sed '1s/1/2/' "$folder/sample.txt" && echo 'ws 4 tool 1 strokes 0 layers 0 lifts 0 cells 0'; } > "$folder/again.txt"
  wants 'the counts of a step that finds nothing left' 0 "@$folder/again.txt" ''
  run report "$folder/thin.stp" --cell 1000
  wants 'the counts where a tool does not reach all' 7 nothing 'stepmill: uncovered #8 i 10 j 9 z 40000'
  run report "$sample" --cell 2000
  wants 'the counts on a coarse grid' 1 nothing 'stepmill: part: #8 too small for the grid'
  run report /dev/null --cell 1000
  wants 'the counts of a part of no bytes' 1 nothing 'stepmill: part: unexpected at 0'
  run report "$folder/missing.stp" --cell 1000
  wants 'the counts of a missing part' 3 nothing 'stepmill: read fault'
}

# The part that is generated from a number, and its counts: `trial` tells what `report` tells of the file of `make`.
check_generated() {
  local seed made=$folder/made.stp
  run make 0
  has_ends 'the part of 0' 0 'ISO-10303-21;' 'END-ISO-10303-21;' 216 "#105=CARTESIAN_POINT('',(0.,0.,-3.));" \
    '#108=TOLERANCED_LENGTH_MEASURE(8.,$);'
  cp "$folder/out" "$made"
  run make 0000
  wants 'a number with leading zeros' 0 "@$made" ''
  timeout 120 "$program" make 0 <&- 2> "$folder/err" | timeout 120 "$program" compile /dev/stdin > "$folder/out" 2>> "$folder/err"
  status=$?
  cp "$folder/out" "$folder/made.ngc"
  run verify "$made" "$folder/made.ngc"
  wants 'the program of the part of 0' 0 yes ''
  for seed in 0 1 4294967295; do
    run make "$seed"
    cp "$folder/out" "$made"
    has_ends "the part of $seed" 0 'ISO-10303-21;' 'END-ISO-10303-21;' "$(wc -l < "$made")"
    run report "$made"
    cp "$folder/out" "$folder/counts.txt"
    run trial "$seed"
    wants "the counts of the part of $seed" 0 "@$folder/counts.txt" ''
    has_ends "their steps" 0 "steps $(grep -c '=MACHINING_WORKINGSTEP(' "$made")" "$(tail -n 1 "$folder/counts.txt")" \
      $(($(grep -c '=MACHINING_WORKINGSTEP(' "$made") + 2)) 'grid 681 681'
  done
}

# verdict NAME STATUS LINE EDIT..: the sample part's program, changed by edits of sed, has this verdict.
verdict() {
  local edit edits=()
  for edit in "${@:4}"; do edits+=(-e "$edit"); done
  sed "${edits[@]}" "$sample_text" > "$folder/changed.ngc"
  run verify "$sample" "$folder/changed.ngc" --cell 1000
  wants "$1" "$2" "$3" ''
}

check_verdicts() {
  local bytes
  run verify "$sample" "$sample_text" --cell 1000
  wants 'the program of the sample' 0 'yes' ''
  verdict 'another layout' 0 'yes' 's/^G0 Z20/n10 g 0 z +2 0/' 's/F300/(feed) F0300.0/' 's/$/\r/'
  verdict 'a plunge in rapid' 6 'no: line 12: rapid in material at i 10 j 6 z 40000' '12s/G1/G0/'
  verdict 'no plunge' 6 'no: #8 uncovered at i 10 j 9 z 40000' '11,12d'
  verdict 'no end' 6 'no: no end' '/^M2$/d'
  verdict 'a lost axis' 6 'no: line 9: lost axis' '9s/Z20.0000/X10.0000/'
  verdict 'a deeper plunge' 6 'no: line 12: gouge at i 10 j 6 z 39999' '12s/Z4.0000/Z3.9999/'
  verdict 'no mark' 6 'no: line 11: feed before a mark' '4d'
  verdict 'another mark' 6 'no: line 4: wrong mark' '4s/4/5/'
  verdict 'a second mark' 6 'no: line 13: wrong mark' '12a (WS #4)'
  verdict 'no steps' 6 'no: #4 not executed' '4,13d'
  verdict 'another feed' 6 'no: line 12: other feed' 's/F300/F301/'
  verdict 'another speed' 6 'no: line 12: other speed' 's/S720/S721/'
  verdict 'another tool' 6 'no: line 11: other tool' 's/T1 M6/T2 M6/' 's/H1/H2/'
  verdict 'a low entry' 6 'no: line 9: low entry' '9s/20/19/'
  verdict 'an arc' 6 'no: line 10: unsupported at 1' '10s/G0/G2/'
  verdict 'a long line' 6 'no: line 3: long line' "3s/\$/$(printf '%*s' 250 '')/"
  run verify "$sample" /dev/null --cell 1000
  wants 'an empty program' 6 'no: no end' ''
  run verify "$sample" "$folder/missing.ngc" --cell 1000
  wants 'a missing program' 3 nothing 'stepmill: read fault'
  run verify "$folder/missing.stp" "$sample_text" --cell 1000
  wants 'a missing part' 3 nothing 'stepmill: read fault'
  run verify "$sample" "$folder" --cell 1000
  wants 'a folder for the program' 3 nothing 'stepmill: read fault'
  run verify "$sample" /proc/self/mem --cell 1000
  wants 'a program whose first read fails' 3 nothing 'stepmill: read fault'
  run verify /dev/null "$folder/missing.ngc" --cell 1000
  wants 'a refused part, and a missing program' 1 nothing 'stepmill: part: unexpected at 0'
  run verify /dev/null "$folder" --cell 1000
  wants 'a refused part, and a folder for the program' 1 nothing 'stepmill: part: unexpected at 0'
  run verify "$sample" --cell 1000
  wants 'one file' 2 nothing 'stepmill: word 3'
  timeout 120 "$program" verify /dev/stdin "$sample_text" --cell 1000 < "$sample" > "$folder/out" 2> "$folder/err"
  status=$?
  wants 'a part from standard input' 0 'yes' ''
  timeout 120 "$program" verify /dev/stdin /dev/stdin --cell 1000 < "$sample" > "$folder/out" 2> "$folder/err"
  status=$?
  wants 'a file for the part and for the program' 6 'no: line 1: bad number at 1' ''
  cat "$sample" "$sample_text" | timeout 120 "$program" verify /dev/stdin /dev/stdin --cell 1000 > "$folder/out" 2> "$folder/err"
  status=$?
  wants 'one pipe for both, with more behind the part' 1 nothing "stepmill: part: bad byte at $(wc -c < "$sample")"
  cat "$sample" | timeout 120 "$program" verify /dev/stdin /dev/stdin --cell 1000 > "$folder/out" 2> "$folder/err"
  status=$?
  wants 'one pipe for both, which ends behind the part' 6 'no: no end' ''
  for bytes in 1 7; do
    dd if="$sample_text" bs="$bytes" oflag=direct status=none \
      | timeout 120 "$program" verify "$sample" /dev/stdin --cell 1000 > "$folder/out" 2> "$folder/err"
    status=$?
    wants "a program in pieces of $bytes bytes" 0 'yes' ''
  done
  head -c -1 "$sample_text" > "$folder/changed.ngc"
  run verify "$sample" "$folder/changed.ngc" --cell 1000
  wants 'no line feed at the end' 0 'yes' ''
  yes "$(printf '%*s' 256 '')" | head -n 262145 \
    | timeout 120 prlimit --as=200000000 "$program" verify "$sample" /dev/stdin --cell 1000 > "$folder/out" 2> "$folder/err"
  status=$?
  wants '67 MB of blanks in constant memory' 6 'no: no end' ''
  lose_output verify "$sample" "$sample_text" --cell 1000
  lose_output verify "$sample" /dev/null --cell 1000
}

# Each front of the sample part has its first fault, as tools/prefix_faults.py computes it by a plain program.
check_fronts() {
  local length fault
  while read -r length fault; do
    head -c "$length" "$sample" > "$folder/front.stp"
    run compile "$folder/front.stp" --cell 1000
    wants "the first $length bytes" 1 nothing "stepmill: part: $fault"
  done <<< "$faults"
}

# Words are taken as they are given: none is trimmed.
check_words() {
  local word command
  for word in compile\  \ compile Compile ''; do
    run "$word" "$sample" --cell 1000
    wants "the word '$word' for the command" 2 nothing 'stepmill: word 1'
  done
  run compile '' --cell 1000
  wants 'a name of no bytes' 2 nothing 'stepmill: word 2'
  run compile -- --cell 1000
  wants 'a name that begins with a minus sign' 2 nothing 'stepmill: word 2'
  for word in --cell\  \ --cell --cell=1000 cell; do
    run compile "$sample" "$word" 1000
    wants "the word '$word' for --cell" 2 nothing 'stepmill: word 3'
  done
  for word in ' 1000' '1000 ' $'1000\n' +1000 1000.0 19 2001 4294968296 ''; do
    run compile "$sample" --cell "$word"
    wants "the pitch '$word'" 2 nothing 'stepmill: word 4'
  done
  run compile "$sample" --cell 1000 ''
  wants 'a word too many' 2 nothing 'stepmill: word 5'
  run report
  wants 'report without a part' 2 nothing 'stepmill: word 2'
  run report --cell 1000
  wants 'report with an option for its part' 2 nothing 'stepmill: word 2'
  run report "$sample" "$sample"
  wants 'report of two parts' 2 nothing 'stepmill: word 3'
  run report "$sample" --cell
  wants 'report with a pitch left out' 2 nothing 'stepmill: word 4'
  run report "$sample" --cell 1000 --cell 1000
  wants 'report with a pitch given twice' 2 nothing 'stepmill: word 5'
  run report "$sample" --raw 0,0,0,20,20,10 --raw 0,0,0,20,20,10
  wants 'report with a raw box given twice' 2 nothing 'stepmill: word 5'
  for command in make trial; do
    run "$command"
    wants "$command without a number" 2 nothing 'stepmill: word 2'
    for word in x '' -1 +1 ' 1' 1.0 4294967296 18446744073709551616 "$sample"; do
      run "$command" "$word"
      wants "$command with the number '$word'" 2 nothing 'stepmill: word 2'
    done
    for word in 1 A=1 --cell ''; do
      run "$command" 0 "$word" 1000
      wants "$command with the word '$word' behind its number" 2 nothing 'stepmill: word 3'
    done
  done
  run compile "$sample"
  wants 'no options' 0 program ''
  run compile "$sample" A=1 --raw 0,0,0,20,20,10 b_2=-0.5 --cell 1000
  wants 'options in another order' 0 program ''
  run compile "$sample" --raw -1,-1,-1,21,21,12.5
  wants 'a raw box that is given' 0 's/Z11\.0/Z13.5/' ''
  run compile "$sample" --raw 0,0,0,20,20,20.0001
  wants 'a raw box over the security plane' 1 nothing 'stepmill: part: security plane below the raw top'
  for word in '0,0,0,20,20' '0,0,0,20,0,10' ' 0,0,0,20,20,10' ''; do
    run compile "$sample" --raw "$word"
    wants "the raw box '$word'" 2 nothing 'stepmill: word 4'
  done
  for word in A=2 ' A=2' A= =2 --raw=1; do
    run compile "$sample" A=1 "$word"
    wants "the word '$word' behind A=1" 2 nothing 'stepmill: word 4'
  done
  run compile "$sample" --cell 01000
  wants 'a pitch with a leading zero' 0 program ''
  run compile $'\xff' --cell 1000
  wants 'a word that is no text' 2 nothing ''
}

check_names() {
  local name
  mkdir "$folder/names" "$folder/names/folder"
  cd "$folder/names" || exit 1
  for name in ' one.stp' 'one.stp ' $'one\n' 'a=b' '=' 'é.stp' './-one.stp' 'folder/../one'; do
    cp "$sample" "$name"
    run compile "$name" --cell 1000
    wants "the name '$name'" 0 program ''
  done
  for name in one.stp ' one.stp ' folder . missing/one.stp one/one.stp "$(head -c 5000 /dev/zero | tr '\0' n)"; do
    run compile "$name" --cell 1000
    wants "the name '${name:0:40}'" 3 nothing 'stepmill: read fault'
  done
  ln -s ' one.stp' link
  run compile link --cell 1000
  wants 'a link to the part' 0 program ''
  ln -s nowhere broken
  run compile broken --cell 1000
  wants 'a link that leads nowhere' 3 nothing 'stepmill: read fault'
  run compile /proc/self/mem --cell 1000
  wants 'a file whose first read fails' 3 nothing 'stepmill: read fault'
  cd - > /dev/null || exit 1
}

# A part is read in chunks of 16,384 bytes, and from a pipe in any pieces.
check_chunks() {
  local bytes
  for bytes in 16383 16384 16385 32769 131072 200000; do
    padded "$bytes" > "$folder/part.stp"
    run compile "$folder/part.stp" --cell 1000
    wants "a part of $bytes bytes" 0 program ''
    padded "$bytes" | timeout 120 "$program" compile /dev/stdin --cell 1000 > "$folder/out" 2> "$folder/err"
    status=$?
    wants "a part of $bytes bytes from a pipe" 0 program ''
  done
  { head -c 200000 "$folder/part.stp" && printf '@'; } > "$folder/late.stp"
  run compile "$folder/late.stp" --cell 1000
  wants 'a bad byte behind 200,000 others' 1 nothing 'stepmill: part: bad byte at 200000'
  timeout 120 "$program" compile /dev/stdin --cell 1000 < "$sample" > "$folder/out" 2> "$folder/err"
  status=$?
  wants 'standard input from a file' 0 program ''
  # (each write is a packet that one read takes)
  dd if="$sample" bs=1 oflag=direct status=none | timeout 120 "$program" compile /dev/stdin --cell 1000 > "$folder/out" 2> "$folder/err"
  status=$?
  wants 'a byte at a time' 0 program ''
  { head -c 500 "$sample" && sleep 0.3 && tail -c +501 "$sample"; } | timeout 120 "$program" compile /dev/stdin --cell 1000 > "$folder/out" 2> "$folder/err"
  status=$?
  wants 'a pipe that pauses' 0 program ''
  mkfifo "$folder/fifo"
  cat "$sample" > "$folder/fifo" &
  run compile "$folder/fifo" --cell 1000
  wait $!
  wants 'a named pipe' 0 program ''
  head -c 1000 "$sample" | timeout 120 "$program" compile /dev/stdin --cell 1000 > "$folder/out" 2> "$folder/err"
  status=$?
  wants 'a pipe that ends early' 1 nothing 'stepmill: part: unexpected at 1000'
}

# lose_output WORD..: the output of the program on these words is a full device, and then a closed one.
lose_output() {
  empty_streams
  timeout 120 "$program" "$@" > /dev/full 2> "$folder/err"
  status=$?
  wants "the output of $1 on a full device" 4 nothing ''
  empty_streams
  timeout 120 "$program" "$@" >&- 2> "$folder/err"
  status=$?
  wants "a closed output of $1" 4 nothing ''
}

# Of an output that cannot be written the status alone tells.
check_outputs() {
  lose_output compile "$sample" --cell 1000
  lose_output report "$sample" --cell 1000
  lose_output make 0
  empty_streams
  exec 9> >(true)
  wait $!
  timeout 120 "$program" compile "$sample" --cell 1000 >&9 2> "$folder/err"
  status=$?
  exec 9>&-
  wants 'a pipe closed early' 4 nothing ''
  timeout 120 "$program" > "$folder/out" 2> /dev/full
  status=$?
  : > "$folder/err"
  wants 'the errors on a full device' 4 nothing ''
  timeout 120 "$program" > "$folder/out" 2>&-
  status=$?
  wants 'closed errors' 4 nothing ''
  timeout 120 "$program" compile "$sample" --cell 1000 > "$folder/out" 2>&-
  status=$?
  wants 'closed errors with nothing to tell' 0 program ''
  timeout 120 "$program" compile "$sample" --cell 1000 > "$folder/out" 2> /dev/full
  status=$?
  wants 'errors on a full device with nothing to tell' 0 program ''
  empty_streams
  timeout 120 "$program" > /dev/full 2> "$folder/err"
  status=$?
  wants 'a refusal, the output on a full device' 2 nothing 'stepmill: word 1'
  timeout 120 "$program" >&- 2> "$folder/err"
  status=$?
  wants 'a refusal with a closed output' 2 nothing 'stepmill: word 1'
  timeout 120 "$program" compile "$sample" --cell 1000 <&- > "$folder/out" 2> "$folder/err"
  status=$?
  wants 'closed input' 0 program ''
  timeout 120 "$program" compile "$sample" --cell 1000 >> "$folder/out" 2> "$folder/err"
  status=$?
  cat "$sample_text" "$sample_text" | cmp -s - "$folder/out" && cp "$sample_text" "$folder/out"
  wants 'an output that is added to' 0 program ''
  check_size
  check_signals
  env -i "$program" compile "$sample" --cell 1000 < /dev/null > "$folder/out" 2> "$folder/err"
  status=$?
  wants 'no environment' 0 program ''
}

# A file that may not grow past 4,096 bytes: with the signal of that ignored the write fails, and else it ends the program.
check_size() {
  timeout 120 "$program" make 0 > "$folder/whole.stp"
  head -c 4096 "$folder/whole.stp" > "$folder/front.stp"
  empty_streams
  (trap '' XFSZ && ulimit -f 4 && exec timeout 120 "$program" make 0 > "$folder/out" 2> "$folder/err")
  status=$?
  wants 'a file that is full' 4 "@$folder/front.stp" ''
  empty_streams
  { (ulimit -f 4 && exec "$program" make 0 > "$folder/out" 2> "$folder/err"); } 2> /dev/null
  status=$?
  wants 'a file that is full, and its signal' 153 "@$folder/front.stp" ''
}

# hold: the program of a slot in 1,000 layers, written to a pipe that nothing reads, which it fills. Its process is kept in
# `work`, and the pipe is open as 8.
hold() {
  local wait asleep=0
  rm -f "$folder/held"
  mkfifo "$folder/held"
  exec 8<> "$folder/held"
  empty_streams
  timeout 120 "$program" compile "$folder/deep.stp" --cell 1000 > "$folder/whole.ngc" 2> "$folder/err"
  "$program" compile "$folder/deep.stp" --cell 1000 < /dev/null > "$folder/held" 2> "$folder/err" 8>&- &
  work=$!
  # (it sleeps where it waits for room in the pipe)
  for ((wait = 0; wait < 1200 && asleep < 3; wait++)); do
    sleep 0.1
    case $(cut -d' ' -f 3 "/proc/$work/stat") in
      S) asleep=$((asleep + 1)) ;;
      *) asleep=0 ;;
    esac
  done
}

# The program is ended, or stopped and let go on, while it writes.
check_signals() {
  local reader
  sed "${slot_edits[@]/#/-e}" "$sample" | sed 's/,2\.,\$,\$,\$);/,0.004,$,$,$);/' > "$folder/deep.stp"
  hold
  kill -TERM "$work"
  { wait "$work"; } 2> /dev/null
  status=$?
  exec 9< "$folder/held" 8>&-
  timeout 120 cat <&9 > "$folder/out"
  exec 9<&-
  head -c "$(wc -c < "$folder/out")" "$folder/whole.ngc" > "$folder/front.ngc"
  [ -s "$folder/out" ] || fail 'nothing is written before the end'
  wants 'an end while it writes' 143 "@$folder/front.ngc" ''
  hold
  kill -STOP "$work"
  sleep 0.2
  kill -CONT "$work"
  timeout 120 cat < "$folder/held" > "$folder/out" 8>&- &
  reader=$!
  exec 8>&-
  wait "$work"
  status=$?
  wait "$reader"
  wants 'a stop while it writes' 0 "@$folder/whole.ngc" ''
}

check_lengths() {
  padded "$longest" > "$folder/part.stp"
  run compile "$folder/part.stp" --cell 1000
  wants 'a part of the greatest length' 0 program ''
  padded $((longest + 1)) > "$folder/part.stp"
  run compile "$folder/part.stp" --cell 1000
  wants 'a part of a byte more' 8 nothing 'stepmill: too long'
  run report "$folder/part.stp" --cell 1000
  wants 'the counts of a part of a byte more' 8 nothing 'stepmill: too long'
  rm "$folder/part.stp"
  run compile /dev/zero --cell 1000
  wants 'a part without an end' 8 nothing 'stepmill: too long'
  head -c $((longest + 1)) /dev/zero | tr '\0' ' ' | timeout 120 "$program" compile /dev/stdin --cell 1000 > "$folder/out" 2> "$folder/err"
  status=$?
  wants 'too many bytes from a pipe' 8 nothing 'stepmill: too long'
}

# least_room: in steps of 20 kB, the least address space in which the program tells of a bad word.
least_room() {
  local least=0 most=1000
  while run_within "$most" && ! has_errors 'stepmill: word 1'; do
    least=$most
    most=$((2 * most))
    [ "$most" -lt 4000000 ] || break
  done
  while [ $((most - least)) -gt 20 ]; do
    run_within $(((least + most) / 2))
    if has_errors 'stepmill: word 1'; then most=$(((least + most) / 2)); else least=$(((least + most) / 2)); fi
  done
  echo "$most"
}

# The loader tells that it could not start the program.
is_not_begun() {
  has_output nothing && [ "$status" -eq 127 ]
}

is_memory() {
  [ "$status" -eq 5 ] && has_output nothing && has_errors "$1"
}

# told NAME WRONG WANTED: passes where no run was wrong and one at least ended as wanted.
told() {
  if [ "$2" -eq 0 ] && [ "$3" -gt 0 ]; then
    passed=$((passed + 1))
  else
    fail "$1: $2 runs ended otherwise than wanted, and $3 with status 5"
  fi
}

check_memory() {
  local room kilobytes words count wrong wanted long
  room=$(least_room)
  padded 3000000 > "$folder/part.stp"
  run_within $((room + 2000)) compile "$folder/part.stp" --cell 1000
  wants 'no memory for the part' 5 nothing 'stepmill: memory'
  wrong=0 wanted=0
  for ((kilobytes = room; kilobytes <= room + 10000; kilobytes += 250)); do
    run_within "$kilobytes" compile "$folder/part.stp" --cell 1000
    if is_memory 'stepmill: memory'; then
      wanted=$((wanted + 1))
    elif ! { [ "$status" -eq 0 ] && has_output program && has_errors ''; }; then
      wrong=$((wrong + 1))
    fi
  done
  told 'a part in little memory' "$wrong" "$wanted"
  long=$(head -c 120000 /dev/zero | tr '\0' n)
  wrong=0 wanted=0
  for ((kilobytes = room - 200; kilobytes <= room + 800; kilobytes += 20)); do
    run_within "$kilobytes" compile "$long" --cell 1000
    if is_memory ''; then
      wanted=$((wanted + 1))
    elif ! { is_not_begun || { [ "$status" -eq 3 ] && has_output nothing && has_errors 'stepmill: read fault'; }; }; then
      wrong=$((wrong + 1))
    fi
  done
  told 'a long word in little memory' "$wrong" "$wanted"
  wrong=0 wanted=0 words=()
  for ((count = 0; count < 280; count += 4)); do
    words+=("${long:0:500}" "${long:0:500}" "${long:0:500}" "${long:0:500}")
    run_within $((room + 120)) "${words[@]}"
    if is_memory ''; then
      wanted=$((wanted + 1))
    elif ! { is_not_begun || { [ "$status" -eq 2 ] && has_output nothing && has_errors 'stepmill: word 1'; }; }; then
      wrong=$((wrong + 1))
    fi
  done
  told 'many words in little memory' "$wrong" "$wanted"
  run compile "$plate" --raw "$plate_box"
  cp "$folder/out" "$folder/plate.ngc"
  wrong=0 wanted=0 count=0
  for kilobytes in $(seq "$room" 250 $((room + 6000))) $(seq 8000 2000 30000); do
    run_within "$kilobytes" compile "$plate" --raw "$plate_box"
    if is_memory 'stepmill: memory'; then
      wanted=$((wanted + 1))
    elif [ "$status" -eq 0 ] && has_output "@$folder/plate.ngc" && has_errors ''; then
      count=$((count + 1))
    elif ! is_not_begun; then
      wrong=$((wrong + 1))
    fi
  done
  told 'the plate in little memory' "$((wrong + (count == 0)))" "$wanted"
}

[ $# -gt 0 ] || set -- crates/stepmill/out/stepmill
faults=$(python3 tools/prefix_faults.py "$sample") || fail 'tools/prefix_faults.py'
for program in "$@"; do
  program=$(realpath "$program")
  if [ ! -f "$program" ] || [ ! -x "$program" ]; then
    fail "no program is built at $program"
    continue
  fi
  for group in ${CHECKS:-statuses limits parts pocket slot drill plate reports generated verdicts fronts words names chunks outputs lengths memory}; do
    "check_$group"
  done
  rm -rf "${folder:?}"/*
done
echo "$passed passed, $failed failed"
[ "$failed" -eq 0 ]
