#!/usr/bin/env bash
# Makes the package, unpacks it into a folder of its own, and runs the sample, the plate and a refusal from there; asks that the
# page has no fault, and tells what lintian says where it is installed.
# The last line is 'N passed, M failed'. The status is 1 where a check failed.
set -u
unset CDPATH
cd "$(dirname "$0")/.." || exit 1
top=$PWD
room=$(mktemp -d) || exit 1
trap 'rm -rf "$room"' EXIT
passed=0
failed=0

# check NAME COMMAND..: passes where the command ends with 0.
check() {
  if "${@:2}" > "$room/said" 2>&1; then
    passed=$((passed + 1))
  else
    failed=$((failed + 1))
    echo "FAILED: $1"
    head -n 20 "$room/said"
  fi
}

# ends STATUS WORD..: the packaged launcher ends so, without a kit on its path.
ends() {
  local status
  PATH=/usr/bin:/bin "$room/root/usr/bin/stepmill" "${@:2}" > "$room/out" 2> "$room/err" < /dev/null
  status=$?
  cat "$room/err"
  [ "$status" -eq "$1" ]
}

sample=$top/crates/stepmill/data/one.stp
check 'the package is made' tools/package.sh "$room"
package=$(echo "$room"/stepmill_*_amd64.deb)
check 'it is unpacked' dpkg-deb -x "$package" "$room/root"
check 'the sample' ends 0 compile "$sample" --cell 1000
check 'its text' cmp "$room/out" crates/stepmill/stdout
check 'the plate' ends 0 compile "$top/crates/stepmill/data/plate.stp" --raw 0,0,0,100,60,22
cp "$room/out" "$room/plate.ngc"
check 'the program of the plate' ends 0 verify "$top/crates/stepmill/data/plate.stp" "$room/plate.ngc" --raw 0,0,0,100,60,22
check 'a refusal' ends 1 compile /dev/null
check 'an explained refusal' ends 1 explain /dev/null
check 'what to do' grep -q 'what to do: ' "$room/err"
check 'the help' ends 0 --help
check 'the version' ends 0 --version
check 'its number' grep -qx "stepmill $(< VERSION)" "$room/out"
check 'no building part' ends 125 --build
check 'the same program' cmp release/stepmill "$room/root/usr/lib/stepmill/release/stepmill"
check 'the filter' test -x "$room/root/usr/bin/stepmill-filter" -o -L "$room/root/usr/bin/stepmill-filter"
check 'the lines for LinuxCNC' test -f "$room/root/usr/share/stepmill/integrations/linuxcnc/filter.ini"
if command -v mandoc > /dev/null; then check 'the page' mandoc -T lint -W warning man/stepmill.1; fi
if command -v lintian > /dev/null; then check 'lintian' lintian --allow-root --fail-on error "$package"; fi
echo "$passed passed, $failed failed"
[ "$failed" -eq 0 ]
