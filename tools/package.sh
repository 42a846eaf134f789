#!/usr/bin/env bash
# Makes the Debian package from the shipped program alone: stepmill_VERSION_amd64.deb, in the folder that is given or here.
#
#   tools/package.sh [FOLDER]
set -eu -o pipefail
unset CDPATH
to=$(realpath "${1:-.}")
cd "$(dirname "$0")/.."
version=$(< VERSION)
room=$(mktemp -d)
trap 'rm -rf "$room"' EXIT
chmod 755 "$room"
umask 022
made=$room/stepmill
lib=$made/usr/lib/stepmill
share=$made/usr/share/stepmill
doc=$made/usr/share/doc/stepmill
if [ ! -x release/stepmill ]; then
  echo "tools/package.sh: there is no release/stepmill; tools/release.sh makes it" >&2
  exit 1
fi

mkdir -p "$made"/{DEBIAN,usr/bin} "$lib"/{bin,release} "$share" "$doc" "$made"/usr/share/{man/man1,bash-completion/completions}
cp bin/stepmill bin/stepmill-explain "$lib/bin/"
cp release/stepmill release/SOURCES release/KIT "$lib/release/"
cp VERSION "$lib/"
ln -s ../lib/stepmill/bin/stepmill "$made/usr/bin/stepmill"
cp -r integrations "$share/integrations"
cp -r docs "$share/docs"
cp README.md "$share/"
cp -r crates/stepmill/data "$share/data"
ln -s ../../share/stepmill/integrations "$lib/integrations"
ln -s ../../share/stepmill/docs "$lib/docs"
ln -s ../../stepmill/docs "$doc/docs"
ln -s ../share/stepmill/integrations/linuxcnc/stepmill-filter "$made/usr/bin/stepmill-filter"
find "$share" -name __pycache__ -prune -exec rm -r {} +
cp completion/stepmill "$made/usr/share/bash-completion/completions/"
gzip -9nc man/stepmill.1 > "$made/usr/share/man/man1/stepmill.1.gz"
echo '.so man1/stepmill.1' | gzip -9nc > "$made/usr/share/man/man1/stepmill-filter.1.gz"
cat > "$doc/copyright" << TEXT
Copyright: the maintainers of stepmill. The repository that this package is made of names no licence.
TEXT
printf 'stepmill (%s) stable; urgency=low\n\n  * The program as the gate built it.\n\n -- %s  %s\n' "$version" \
  "$(git log -1 --format='%an <%ae>')" "$(git log -1 --format=%aD)" | gzip -9nc > "$doc/changelog.gz"
cat > "$made/DEBIAN/control" << TEXT
Package: stepmill
Version: $version
Architecture: amd64
Maintainer: $(git log -1 --format='%an <%ae>')
Installed-Size: $(du -sk "$made/usr" | cut -f 1)
Depends: libc6 (>= 2.34), python3:any
Recommends: bash-completion, mawk | gawk
Suggests: python3-jinja2, python3-numpy
Section: science
Priority: optional
Description: compiler of STEP-NC parts into proved milling programs
 Compiles STEP-NC part programs (ISO 14649, in the text of ISO 10303-21) into
 three-axis milling programs for RS274/NGC, judges such programs by the part,
 and counts what a part takes. The program is proved to meet its contract.
TEXT
(cd "$made" && find usr -type f -print0 | LC_ALL=C sort -z | xargs -0 md5sum) > "$made/DEBIAN/md5sums"
SOURCE_DATE_EPOCH=$(git log -1 --format=%at) dpkg-deb --root-owner-group --build "$made" "$to/stepmill_${version}_amd64.deb"
