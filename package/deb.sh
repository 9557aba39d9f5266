#!/usr/bin/env bash
# Writes FOLDER/inrc2pb_VERSION_amd64.deb: the programs, their manual pages, completions, pages and example weeks, where
# Debian puts them. `make deb` builds first. The same commit, kit and result of the gate give the same bytes.
#
#   package/deb.sh FOLDER
#
# Needs bash, make, strip and dpkg-deb.
set -u
[ $# = 1 ] || { echo "usage: package/deb.sh FOLDER"; exit 2; }
mkdir -p "$1" && folder=$(realpath "$1") || exit 2
cd "$(dirname "$0")/.." || exit 2
. package/stage.sh

maintainer='inrc2pb maintainers <maintainers@inrc2pb.invalid>'
top=$stage/top
pages=$top/usr/share/doc/inrc2pb
mkdir "$top"
install_to "$top" /usr ZSH="$top/usr/share/zsh/vendor-completions"
strip --strip-all "$top"/usr/bin/inrc2pb{,-bound} || exit
gzip -n9 "$top"/usr/share/man/man1/*.1

cat > "$pages/copyright" << 'TEXT'
Format: https://www.debian.org/doc/packaging-manuals/copyright-format/1.0/
Upstream-Name: inrc2pb
Comment: The repository states no license. Ask its owner before you pass this package on.

Files: *
Copyright: 2026 the authors of inrc2pb
License: not-stated
 No license is stated.
TEXT
gzip -n9 > "$pages/changelog.gz" << TEXT
inrc2pb ($version) unstable; urgency=medium

  * The changes are in CHANGELOG.md.

 -- $maintainer  $(date -R -d "@$SOURCE_DATE_EPOCH")
TEXT

# The path of Debian's Python, and the version that the commands ask for.
sed -i '1s|^#!.*|#!/usr/bin/python3|' "$top"/usr/bin/inrc2pb-*

# In KiB, each file rounded up, and 1 for each folder: the same on every file system.
kib=$(find "$top/usr" \( -type f -printf '%s\n' \) -o -printf '1\n' | awk '{ n += int(($1 + 1023) / 1024) } END { print n }')

mkdir "$top/DEBIAN"
# Python leaves a compiled form of the library if a command runs as root.
cat > "$top/DEBIAN/prerm" << 'TEXT'
#!/bin/sh
set -e
find "${DPKG_ROOT:-}/usr/share/inrc2pb" -name __pycache__ -prune -exec rm -r {} +
TEXT
chmod 755 "$top/DEBIAN/prerm"
(cd "$top" && find usr -type f -print0 | sort -z | xargs -0 md5sum > DEBIAN/md5sums) || exit
cat > "$top/DEBIAN/control" << TEXT
Package: inrc2pb
Version: $version
Architecture: amd64
Maintainer: $maintainer
Installed-Size: $kib
Depends: libc6 (>= $libc), python3 (>= 3.11), python3-numpy
Recommends: clasp, coinor-cbc
Suggests: minisat+, sat4j
Section: math
Priority: optional
Description: nurse rostering as a pseudo-Boolean model
 Turns one week of the Second International Nurse Rostering Competition
 (INRC-II) into a pseudo-Boolean model (OPB) for a solver such as clasp, and
 the solver's answer into a roster with a report of its costs. Lower bounds
 prove how much a roster of a week or a period costs at least. Python programs
 plan a ward from a spreadsheet, and find and show rosters.
 .
 The encoding, the decoder, the bounds and every byte read and written, except
 messages, have proofs: /usr/share/doc/inrc2pb/PROVED says whether they passed.
 The programs need an x86-64-v2 processor (Intel since 2009, AMD since 2011).
TEXT
set_times "$top"
dpkg-deb --root-owner-group -Zxz --build "$top" "$folder/inrc2pb_${version}_amd64.deb" > /dev/null || exit
echo "$folder/inrc2pb_${version}_amd64.deb"
