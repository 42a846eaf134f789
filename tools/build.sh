# Proves and builds the program. bin/stepmill reads this file where it is asked to, or where no program is of the sources that
# stand there; `here`, `say`, `take_digest` and `find_program` are its own.
. "$here/tools/sources.sh"
crate=$here/crates/stepmill
log=$here/out/build.log

# How many crates are proved at once: one for each processor that has some 3 GB of memory.
jobs_at_once() {
  local processors room
  processors=$(nproc)
  room=$(awk '/^MemAvailable:/ { print int($2 / 3000000) }' /proc/meminfo)
  [ "${room:-0}" -lt "$processors" ] && processors=${room:-0}
  [ "$processors" -gt 0 ] || processors=1
  echo "$processors"
}

# Copies what rt says into the log, and tells of it which crates are being proved and how many are left: rt says '== NAME'
# where it is done with a crate, and works on the first ones that are left, as soon as those are done that they use.
tell_progress() {
  crates="$(crates)" jobs=$1 log=$log awk '
    function tell(i, j, k, count, names, waits, now, work) {
      for (i = 1; i <= last && work < jobs; i++) {
        if (order[i] in done) continue
        work++
        waits = 0
        count = split(uses[order[i]], names, " ")
        for (j = 1; j <= count; j++) if (names[j] in uses && !(names[j] in done)) waits = 1
        if (!waits) now = now (now == "" ? "" : ", ") order[i]
      }
      if (now != "") print "stepmill: proving " now "; " left " of " last " crates left" > "/dev/stderr"
    }
    BEGIN {
      jobs = ENVIRON["jobs"]
      to = ENVIRON["log"]
      count = split(ENVIRON["crates"], lines, "\n")
      for (i = 1; i <= count; i++) {
        at = index(lines[i], ":")
        order[++last] = substr(lines[i], 1, at - 1)
        uses[order[last]] = substr(lines[i], at + 1)
      }
      left = last
      tell()
    }
    { print >> to; fflush(to) }
    /^== / && ($2 in uses) && !($2 in done) { done[$2] = 1; left--; tell() }'
}

# Proves the crates and builds the program over them, into the folder that is given; what rt says is in the log.
prove_and_build() {
  local jobs
  jobs=$(jobs_at_once)
  say "proving and building the program, $jobs crates at a time where they do not wait for one another; this takes some minutes"
  cd "$crate" || return 1
  rt all check --jobs "$jobs" 2>&1 | tell_progress "$jobs"
  [ "${PIPESTATUS[0]}" -eq 0 ] || return 1
  say "building the program"
  rt run -- compile data/one.stp --cell 1000 >> "$log" 2>&1 || return 1
  if ! out/stepmill compile data/one.stp --cell 1000 2>> "$log" | cmp - stdout >> "$log" 2>&1; then
    say "the program that was built does not compile the sample part as it should"
    return 1
  fi
  kit_strip out/stepmill "$1/stepmill" 2>> "$log" && rt version > "$1/kit"
}

# Ends what is proving, and then this call, by the signal that it was ended by.
end_build() {
  local wait
  trap - "$1"
  kill -TERM -- "-$work" 2> /dev/null
  for ((wait = 0; wait < 100; wait++)); do
    kill -0 -- "-$work" 2> /dev/null || break
    sleep 0.1
  done
  kill -KILL -- "-$work" 2> /dev/null
  rm -rf "$new"
  kill -s "$1" $$
}

# Runs prove_and_build as a group of processes of its own, which ends with this call.
build_in_group() {
  local status
  set -m
  (prove_and_build "$1") < /dev/null &
  work=$!
  set +m
  for signal in HUP INT TERM; do
    trap "end_build $signal" "$signal"
  done
  { wait "$work"; } 2> /dev/null
  status=$?
  trap - HUP INT TERM
  return "$status"
}

# build [always]: makes a program of the sources that stand here, where there is none or always, and sets `program` to it. One
# call builds at a time, and others wait for it.
build() {
  local of lock
  if ! command -v rt > /dev/null; then
    say "rt, the command of the Rattle kit, is not on the path; without it the program cannot be built"
    return 1
  fi
  if ! { mkdir -p "$here/out/built" && : >> "$log" && : >> "$here/out/lock"; } 2> /dev/null; then
    say "not built: $here/out cannot be written"
    return 1
  fi
  exec {lock}>> "$here/out/lock"
  if ! flock -n "$lock"; then
    say "another call is building the program; this one waits for it"
    flock "$lock" || return 1
    [ $# -gt 0 ] || ! find_program || return 0
  fi
  take_digest || return 1
  new=$here/out/built/new
  while true; do
    of=$digest
    rm -rf "$new"
    mkdir "$new" && : > "$log" || return 1
    if ! build_in_group "$new"; then
      rm -rf "$new"
      say "not built; the messages of the build are in $log"
      return 1
    fi
    take_digest || return 1
    [ "$digest" != "$of" ] || break
    say "a source was changed meanwhile"
  done
  mv "$new" "$here/out/new" && rm -rf "$here/out/built" && mkdir "$here/out/built" && mv "$here/out/new" "$here/out/built/$digest" || return 1
  program=$here/out/built/$digest/stepmill
  exec {lock}>&-
}

# Says whether the program that was built is the shipped one, and fails where it should be and is not.
compare_with_shipped() {
  local of
  read -r of 2> /dev/null < "$here/release/SOURCES" || of=
  if cmp -s "$program" "$shipped"; then
    echo "$program is the shipped program, byte for byte"
  elif [ ! -f "$shipped" ]; then
    echo "$program is built; no program is shipped here"
  elif [ "$of" != "$digest" ]; then
    echo "$program is not the shipped program, which was built of other sources"
  else
    echo "$program is not the shipped program, though that was built of the same sources"
    return 1
  fi
}
