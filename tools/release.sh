#!/usr/bin/env bash
# Takes the program that the gate built into release/, with the digest of its sources and the line of the kit.
#
#   tools/release.sh              where no gate passed here on the sources as they stand, runs rt ci first
#   tools/release.sh --compare    changes nothing, and fails where release/ is not what that would make of what was built
set -eu -o pipefail
unset CDPATH
cd "$(dirname "$0")/.."
here=$PWD
. tools/sources.sh
built=crates/stepmill/out/stepmill
room=$(mktemp -d)
trap 'rm -rf "$room"' EXIT

digest=$(source_digest)
case "$*" in
  '')
    if [ ! -f "$built" ] || [ "$(cat out/gate 2> /dev/null)" != "$(gate_record "$digest")" ]; then
      rt ci
      [ "$digest" == "$(source_digest)" ]
    fi
    ;;
  --compare) ;;
  *)
    echo "tools/release.sh: no words, or --compare" >&2
    exit 2
    ;;
esac
kit_strip "$built" "$room/stepmill"
chmod 755 "$room/stepmill"
echo "$digest" > "$room/SOURCES"
rt version > "$room/KIT"
if [ "$*" == --compare ]; then
  for file in stepmill SOURCES KIT; do
    if ! cmp -s "$room/$file" "release/$file"; then
      echo "release/$file is not of the program that was built: tools/release.sh mends it" >&2
      exit 1
    fi
  done
  exit
fi
mkdir -p release
cp "$room/stepmill" "$room/SOURCES" "$room/KIT" release/
echo "release/stepmill: $(wc -c < release/stepmill) bytes, of $digest"
