#!/usr/bin/env bash
# Tries the parts that are generated from the numbers 0 to 199 on a built program: `trial` ends with 0 and tells nothing on the
# errors, and `verify` says yes to the program that `compile` writes for the file of `make`. No clause says that such a part is
# compiled. As many numbers are tried at once as there are processors. It is skipped where the program is missing.
#
#   tools/seeds.sh [PROGRAM]      without a word: crates/stepmill/out/stepmill
#
# The last line is 'N passed, M failed'. The status is 1 where a number failed.
set -u
cd "$(dirname "$0")/.." || exit 1
program=$(realpath -- "${1:-crates/stepmill/out/stepmill}")
if [ ! -f "$program" ] || [ ! -x "$program" ]; then
  echo "skipped: no built program" >&2
  exit 0
fi
folder=$(mktemp -d) || exit 1
trap 'rm -rf "$folder"' EXIT

# is_done COMMAND WORD..: whether the program ends with 0 on these words and tells nothing on the errors. What it writes is in
# the file COMMAND of the room.
is_done() {
  timeout 600 "$program" "$@" < /dev/null > "$room/$1" 2> "$room/errors" && [ ! -s "$room/errors" ]
}

# try SEED: tells whether it passed, or at which command it failed.
try() {
  local room=$folder/$1 command=none
  mkdir "$room" \
    && command=trial && is_done trial "$1" \
    && command=make && is_done make "$1" \
    && command=compile && is_done compile "$room/make" \
    && command=verify && is_done verify "$room/make" "$room/compile" && [ "$(cat "$room/verify")" == yes ] \
    && command=
  if [ -z "$command" ]; then
    echo passed
  else
    echo "FAILED: $1: $command: $(head -c 200 "$room/errors")"
  fi
  rm -rf "$room"
}

export program folder
export -f is_done try
seq 0 199 | xargs -P "$(nproc)" -I SEED bash -c 'try SEED' > "$folder/results"
grep '^FAILED' "$folder/results"
passed=$(grep -c '^passed$' "$folder/results")
echo "$passed passed, $((200 - passed)) failed"
[ "$passed" -eq 200 ]
