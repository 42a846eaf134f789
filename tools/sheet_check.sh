#!/usr/bin/env bash
# Makes setup sheets by integrations/sheet and compares them with the program and the counts that they were made from; in
# headless Chromium it takes pictures of them, looks for errors and clicks on steps. What is missing is skipped by name.
#
#   tools/sheet_check.sh             the program is the one that STEPMILL names, or else bin/stepmill
#   tools/sheet_check.sh --picture   only makes docs/sheet.png
#
# The last line is 'N passed, M failed'. The status is 1 where a check failed or none passed.
set -u
cd "$(dirname "$0")/.." || exit 1
export STEPMILL=${STEPMILL:-$PWD/bin/stepmill}
sheet=integrations/sheet/stepmill-sheet
data=crates/stepmill/data
room=$(mktemp -d) || exit 1
trap 'rm -rf "$room"' EXIT
passed=0
failed=0

check() {
  local what=$1
  shift
  if "$@" > "$room/said" 2>&1; then
    passed=$((passed + 1))
  else
    failed=$((failed + 1))
    echo "FAILED: $what; $(head -c 1500 "$room/said")"
  fi
}

numbers() { python3 tools/sheet_numbers.py "$@"; }
browse() { timeout 60 chromium --headless --no-sandbox --disable-gpu --user-data-dir="$room/profile" --enable-logging=stderr --v=0 "$@"; }

if [ "${1-}" = --picture ]; then
  "$sheet" $data/plate.stp --raw 0,0,0,100,60,22 > "$room/plate.html" || exit 1
  browse --window-size=764,1600 --force-device-scale-factor=0.8 --hide-scrollbars --screenshot="$PWD/docs/sheet.png" "file://$room/plate.html" 2> /dev/null
  exit
fi

check "messages of docs/USE.md" numbers messages docs/USE.md
mkdir "$room/missing"
for library in jinja2 numpy; do
  echo 'raise ImportError("not here")' > "$room/missing/$library.py"
  PYTHONPATH=$room/missing "$sheet" $data/one.stp > "$room/out" 2> "$room/err"
  check "status without $library" [ $? = 1 ]
  check "no page without $library" [ ! -s "$room/out" ]
  check "one line without $library" [ "$(wc -l < "$room/err")" = 1 ]
  check "the name of $library" grep -q "the library $library is missing: apt install python3-jinja2 python3-numpy" "$room/err"
  rm "$room/missing/$library.py"
done

finish() {
  echo "$passed passed, $failed failed"
  [ "$failed" = 0 ] && [ "$passed" -gt 0 ]
  exit
}
/usr/bin/python3 -c 'import jinja2, numpy' 2> /dev/null || { echo "skipped: pages: python3-jinja2 or python3-numpy is missing"; finish; }
has_browser=
if command -v chromium > /dev/null; then has_browser=1; else echo "skipped: pictures and clicks: chromium is missing"; fi

# (a picture that is not empty and no error in the console; the log of a page with a fault shows that it would be seen)
shown() {
  [ -n "$has_browser" ] || return
  rm -f "$room/shot.png"
  browse --window-size=764,1600 --screenshot="$room/shot.png" "file://$1" > "$room/log" 2>&1
  check "picture of $1" [ "$(stat -c %s "$room/shot.png" 2> /dev/null || echo 0)" -gt 8000 ]
  check "errors of $1" bash -c "! grep ':CONSOLE' '$room/log'"
}
clicked() {
  [ -n "$has_browser" ] || return
  sed "s|</body>|<script>for (const step of '$2') document.querySelector('#steps tr[data-step=\"' + step + '\"]').click()</script></body>|" "$1" > "$room/click.html"
  browse --dump-dom "file://$room/click.html" > "$room/dom.html" 2> /dev/null
  check "click on $2 of $1" numbers alone "$room/dom.html" "$3"
}
if [ -n "$has_browser" ]; then
  echo '<script>nowhere()</script>' > "$room/fault.html"
  browse --screenshot="$room/shot.png" "file://$room/fault.html" > "$room/log" 2>&1
  check "a fault is seen" grep -q ':CONSOLE' "$room/log"
fi

# NAME PITCH PART [OPTION..]
accepted() {
  local name=$1 pitch=$2 part=$3 begin
  shift 2
  "$STEPMILL" compile "$@" > "$room/$name.ngc" && "$STEPMILL" report "$@" > "$room/$name.counts"
  check "program of $name" [ $? = 0 ]
  begin=$(date +%s%N)
  "$sheet" "$@" > "$room/$name.html" 2> "$room/err"
  check "status of $name" [ $? = 0 ]
  echo "$name: $((($(date +%s%N) - begin) / 1000000)) ms, $(stat -c %s "$room/$name.html") bytes"
  check "size of $name" [ "$(stat -c %s "$room/$name.html")" -lt 1000000 ]
  check "numbers of $name" numbers page "$room/$name.html" "$room/$name.ngc" "$room/$name.counts" "$pitch" "$part"
  shown "$room/$name.html"
}
accepted sample 1 $data/one.stp --cell 1000
sed 's/(#4),\$,#5/(),$,#5/' $data/one.stp > "$room/empty.stp"
accepted empty 1 "$room/empty.stp" --cell 1000
accepted plate 0.25 $data/plate.stp --raw 0,0,0,100,60,22
clicked "$room/plate.html" 2 2
clicked "$room/plate.html" 33 0
clicked "$room/plate.html" 14 4

# NAME STATUS PART [OPTION..]: a refusal, with the status and the message of the program
refused() {
  local name=$1 wanted=$2
  shift 2
  "$STEPMILL" compile "$@" > /dev/null 2> "$room/message"
  check "status of the program of $name" [ $? = "$wanted" ]
  "$sheet" "$@" > "$room/$name.html" 2> "$room/err"
  check "status of $name" [ $? = "$wanted" ]
  check "message of $name" cmp "$room/message" "$room/err"
}
sed 's/FLAT_HOLE/@FLAT_HOLE/' $data/one.stp > "$room/byte.stp"
refused byte 1 "$room/byte.stp" --cell 1000
check "page of a bad byte" numbers refusal "$room/byte.html" "$(cat "$room/message")" "Look at the place; export the part again." "@"
shown "$room/byte.html"
sed 's/20\.,20\.,10\./20.,.T.,10./' $data/one.stp > "$room/kind.stp"
refused kind 1 "$room/kind.stp" --cell 1000
check "page of a wrong kind" numbers refusal "$room/kind.html" "$(cat "$room/message")" "Look at the parameter." ".T."
shown "$room/kind.html"
sed 's/DIMENSION(8\./DIMENSION(1./' $data/one.stp > "$room/thin.stp"
refused thin 7 "$room/thin.stp" --cell 1000
check "page of an unreached cell" numbers cell "$room/thin.html" 10 9 4 8
shown "$room/thin.html"
refused missing 3 "$room/missing.stp"
check "no page of a missing file" [ ! -s "$room/missing.html" ]
refused words 2 $data/one.stp --cell 19
check "no page of wrong words" [ ! -s "$room/words.html" ]

"$sheet" $data/one.stp > /dev/full 2> "$room/err"
check "status of a full disk" [ $? = 4 ]
printf '#!/bin/sh\n[ "$1" != verify ] || { echo no; exit 6; }\nexec "%s" "$@"\n' "$STEPMILL" > "$room/judge"
chmod +x "$room/judge"
STEPMILL=$room/judge "$sheet" $data/one.stp > "$room/no.html"
check "status of a verdict no" [ $? = 6 ]
check "page of a verdict no" grep -q 'class="verdict no" id="verdict">verify: no<small>Do not run this program' "$room/no.html"

"$STEPMILL" make 0 > "$room/make.stp"
accepted make 0.25 "$room/make.stp"
clicked "$room/make.html" 5 5
finish
