#!/usr/bin/env bash
# Runs bin/stepmill and tools/release.sh in a small tree of their own, with a stand-in for rt, the kit and the program: which
# program runs, when it is built, and what is left after a failure, an end by a signal, or two calls at once.
#
#   tools/launcher_check.sh
#
# The last line is 'N passed, M failed'. The status is 1 where a check failed.
set -u
unset CDPATH
cd "$(dirname "$0")/.." || exit 1
top=$PWD
room=$(mktemp -d) || exit 1
trap 'rm -rf "$room"' EXIT
export stand_in=$room
tree="$room/a tree \\n"
kit=$room/kit
with_kit=$kit/bin:$PATH
# (the folders of the path that have no rt)
bare=
IFS=: read -r -a folders <<< "$PATH"
for folder in "${folders[@]}"; do
  [ -e "$folder/rt" ] || bare=$bare${bare:+:}$folder
done
passed=0
failed=0

ok() {
  passed=$((passed + 1))
}

fail() {
  failed=$((failed + 1))
  echo "FAILED: $*; status $status, output '$(head -c 300 "$room/out")', errors '$(tail -c 600 "$room/err")'"
}

# The stand-in for rt counts its builds, and in them runs the file `during`, waits where there is a file `slow`, and fails where
# there is one `broken`. What it builds prints the sample's program or the words that it is given.
make_kit() {
  mkdir -p "$kit/bin" "$kit/toolchain/bin"
  echo 'kit one' > "$kit/line"
  cat > "$kit/bin/rt" << 'RT'
#!/usr/bin/env bash
case $1 in
  version) cat "$stand_in/kit/line" ;;
  all)
    echo build >> "$stand_in/builds"
    echo $$ > "$stand_in/pid"
    echo '== sn_low'
    [ ! -f "$stand_in/during" ] || . "$stand_in/during"
    while [ -f "$stand_in/slow" ]; do sleep 0.1; done
    echo '== stepmill'
    ;;
  run)
    mkdir -p out
    printf '#!/bin/sh\ncase $1 in compile) cat %s/sample;; *) echo "ran $*";; esac\n' "$stand_in" > out/stepmill
    chmod 755 out/stepmill
    [ ! -f "$stand_in/broken" ]
    ;;
  ci) (cd crates/stepmill && "$0" all && "$0" run) ;;
esac
RT
  # (llvm-strip --strip-all --remove-section=.comment -o TO FROM)
  printf '#!/bin/sh\ncp "$5" "$4" 2> /dev/null || cp "$4" "$3"\n' > "$kit/toolchain/bin/clang"
  chmod 755 "$kit/bin/rt" "$kit/toolchain/bin/clang"
}

# A new tree of two crates and one for tests, without a release.
new_tree() {
  rm -rf "$tree" "$room"/{builds,during,slow,broken}
  : > "$room/builds"
  mkdir -p "$tree"/crates/{stepmill,sn_low,sn_tests}/{src,specs,proofs} "$tree/crates/stepmill/data" "$tree/tools"
  cp -r "$top/bin" "$top/VERSION" "$tree/"
  cp "$top/tools/sources.sh" "$top/tools/build.sh" "$top/tools/release.sh" "$tree/tools/"
  printf 'sn_low:\nstepmill: sn_low\nsn_tests: sn_low\n' > "$tree/crates.txt"
  for crate in stepmill sn_low sn_tests; do echo "$crate" > "$tree/crates/$crate/src/lib.rt"; done
  echo more > "$tree/crates/sn_low/src/more.rt"
  cp "$room/sample" "$tree/crates/stepmill/stdout"
}

# call WORD..: the launcher, with the stand-in for the kit on the path.
call() {
  PATH=$with_kit timeout 60 "$tree/bin/stepmill" "$@" > "$room/out" 2> "$room/err" < /dev/null
  status=$?
}

# call_bare WORD..: the launcher without a kit.
call_bare() {
  PATH=$bare timeout 60 "$tree/bin/stepmill" "$@" > "$room/out" 2> "$room/err" < /dev/null
  status=$?
}

builds() {
  wc -l < "$room/builds"
}

# wants NAME STATUS BUILDS [OUTPUT]: what the last call ended with, how often was built since the tree is new, and its output.
wants() {
  if [ "$status" -eq "$2" ] && [ "$(builds)" -eq "$3" ] && { [ $# -lt 4 ] || [ "$(cat "$room/out")" == "$4" ]; }; then
    ok
  else
    fail "$1: $(builds) builds"
  fi
}

# tells NAME TEXT: the errors of the last call have this text.
tells() {
  if grep -qF -- "$2" "$room/err"; then ok; else fail "$1"; fi
}

release() {
  (cd "$tree" && PATH=$with_kit timeout 60 tools/release.sh "$@") > "$room/out" 2> "$room/err" < /dev/null
  status=$?
}

check_build() {
  new_tree
  call report x
  wants 'the first call builds' 0 1 'ran report x'
  tells 'which crates are proved' 'proving sn_low; 2 of 2 crates left'
  call make 1
  wants 'the second one does not' 0 1 'ran make 1'
  echo two > "$tree/crates/sn_tests/src/lib.rt"
  call make 1
  wants 'a crate of tests is not of the program' 0 1
  touch -r "$tree/crates/sn_low/src/lib.rt" "$room/time"
  echo SN_LOW > "$tree/crates/sn_low/src/lib.rt"
  touch -r "$room/time" "$tree/crates/sn_low/src/lib.rt"
  call make 1
  wants 'a source with its old time and size' 0 2
  rm "$tree/crates/sn_low/src/more.rt"
  call make 1
  wants 'a source that is gone' 0 3
  echo 'pub mod More;' > "$tree/crates/sn_low/specs/Lib.antt"
  call make 1
  wants 'a new definition' 0 4
  echo 'kit two' > "$kit/line"
  touch "$kit/bin/rt"
  call make 1
  wants 'another kit' 0 5
  call_bare make 1
  wants 'no kit, and nothing to build' 0 5
  echo three > "$tree/crates/stepmill/src/lib.rt"
  call_bare make 1
  wants 'no kit, and something to build' 125 5 ''
  tells 'that the kit is missing' 'not on the path'
}

check_failures() {
  new_tree
  echo 'rm "$stand_in/during"; echo four > "$(dirname "$PWD")/sn_low/src/lib.rt"' > "$room/during"
  call make 1
  wants 'a source changed while it is built' 0 2
  new_tree
  touch "$room/broken"
  call make 1
  wants 'a sample that fails' 125 1 ''
  call make 1
  wants 'and fails again' 125 2 ''
  tells 'where the messages are' "$tree/out/build.log"
  rm "$room/broken"
  echo other > "$tree/crates/stepmill/stdout"
  call make 1
  wants 'another program of the sample' 125 3 ''
  new_tree
  : > "$tree/out"
  call make 1
  wants 'no folder for what is built' 125 0 ''
  tells 'that it cannot be written' "$tree/out cannot be written"
  new_tree
  mkdir "$room/few"
  for tool in bash cat dirname readlink cmp mkdir mv timeout; do ln -sf "$(type -P "$tool")" "$room/few/$tool"; done
  PATH=$room/few "$tree/bin/stepmill" make 1 > "$room/out" 2> "$room/err"
  status=$?
  wants 'find, sort and awk are missing' 125 0 ''
  new_tree
  (cd "$tree" && CDPATH=/tmp:/ PATH=$with_kit bin/stepmill make 1) > "$room/out" 2> "$room/err"
  status=$?
  wants 'a CDPATH' 0 1 'ran make 1'
  ln -sfn "$tree/bin/stepmill" "$room/link"
  PATH=$with_kit "$room/link" make 2 > "$room/out" 2> "$room/err"
  status=$?
  wants 'a link to the launcher' 0 1 'ran make 2'
  for program in "$tree"/out/built/*/stepmill; do printf '\177ELF garbage' > "$program"; done
  call make 1
  wants 'a program that is none' 125 1 ''
  for program in "$tree"/out/built/*/stepmill; do chmod 600 "$program"; done
  call make 1
  wants 'a program that may not be run' 125 1 ''
  PATH=$with_kit "$tree/bin/stepmill" --help > /dev/full 2> "$room/err"
  status=$?
  : > "$room/out"
  wants 'the help on a full device' 4 1
  call --help more
  wants 'a word behind --help' 2 1 ''
}

check_together() {
  local first second
  new_tree
  touch "$room/slow"
  PATH=$with_kit "$tree/bin/stepmill" make 1 > "$room/out.1" 2> "$room/err" &
  first=$!
  while [ "$(builds)" -eq 0 ]; do sleep 0.05; done
  PATH=$with_kit "$tree/bin/stepmill" make 2 > "$room/out" 2> "$room/err" &
  second=$!
  sleep 0.5
  rm "$room/slow"
  wait "$first" && wait "$second"
  status=$?
  wants 'two first calls' 0 1 'ran make 2'
  tells 'that it waits' 'another call is building'
}

# The launcher is ended by each signal while rt is at work: rt ends too, and the next call builds.
check_signals() {
  local signal work
  for signal in TERM HUP; do
    new_tree
    touch "$room/slow"
    PATH=$with_kit "$tree/bin/stepmill" make 1 > "$room/out" 2> "$room/err" &
    work=$!
    while [ "$(builds)" -eq 0 ] || [ ! -s "$room/pid" ]; do sleep 0.05; done
    kill -s "$signal" "$work"
    { wait "$work"; } 2> /dev/null
    status=$?
    wants "an end by $signal" $((128 + $(kill -l "$signal"))) 1 ''
    if kill -0 "$(cat "$room/pid")" 2> /dev/null; then fail "rt is left after $signal"; else ok; fi
    rm "$room/slow" "$room/pid"
    call make 1
    wants "a call after $signal" 0 2 'ran make 1'
  done
}

check_release() {
  local file
  new_tree
  release --compare
  wants 'nothing is built' 1 0
  release
  wants 'the gate is run first' 0 1
  release
  # (bin/test keeps that the gate passed; here nothing does)
  wants 'and again' 0 2
  release --compare
  wants 'what is shipped is what was built' 0 2 ''
  rm -rf "$tree/out"
  call_bare make 1
  wants 'the shipped program, at once' 0 2 'ran make 1'
  call_bare --version
  wants 'the version' 0 2
  if grep -qF "$(cat "$tree/release/SOURCES")" "$room/out" && grep -qF 'as it is shipped' "$room/out"; then ok; else fail 'the version'; fi
  call --build
  wants 'built here' 0 3
  if grep -q 'is the shipped program, byte for byte' "$room/out"; then ok; else fail 'that it is the same'; fi
  for file in stepmill SOURCES KIT; do
    cp "$tree/release/$file" "$room/kept"
    echo >> "$tree/release/$file"
    release --compare
    wants "a byte more in $file" 1 3
    tells 'what mends it' 'tools/release.sh'
    cp "$room/kept" "$tree/release/$file"
  done
  echo >> "$tree/release/stepmill"
  call --build
  wants 'another program of the same sources' 125 4
  echo five > "$tree/crates/sn_low/src/lib.rt"
  release --compare
  wants 'a source changed without its program' 1 4
  call --build
  wants 'built of other sources' 0 5
  if grep -q 'was built of other sources' "$room/out"; then ok; else fail 'that it is of others'; fi
  call_bare make 3
  wants 'what was built runs' 0 5 'ran make 3'
}

# What a call costs beside the program, in processor time.
check_cost() {
  local number used
  call_bare make 1
  TIMEFORMAT='%U %S'
  used=$({ time for ((number = 0; number < 50; number++)); do PATH=$bare "$tree/bin/stepmill" make 1 > /dev/null; done; } 2>&1)
  used=$(awk '{ printf "%d", ($1 + $2) * 1000 / 50 }' <<< "$used")
  if [ "$used" -le 20 ]; then ok; else fail "a call costs $used ms"; fi
}

printf '%%\nM2\n%%\n' > "$room/sample"
make_kit
check_build
check_failures
check_together
check_signals
check_release
check_cost
echo "$passed passed, $failed failed"
[ "$failed" -eq 0 ]
