#!/usr/bin/env bash
# Writes FOLDER/inrc2pb-VERSION-x86_64-linux.tar.gz: the programs, their manual pages, completions, pages and example weeks,
# with an installer. `make dist` builds first. The same commit, kit and result of the gate give the same bytes.
#
#   package/archive.sh FOLDER
#
# Needs bash, make, tar and gzip.
set -u
[ $# = 1 ] || { echo "usage: package/archive.sh FOLDER"; exit 2; }
mkdir -p "$1" && folder=$(realpath "$1") || exit 2
cd "$(dirname "$0")/.." || exit 2
. package/stage.sh

name=inrc2pb-$version-x86_64-linux
top=$stage/$name
mkdir "$top"
install_to "$top" ''
install -m 755 package/install.sh "$top/install.sh"
install -m 644 package/README.txt "$top/share/doc/inrc2pb/PROVED" "$top"
(cd "$top" && find . -type f -printf '%P\0' | sort -z | xargs -0 sha256sum) > "$stage/sums" || exit
install -m 644 "$stage/sums" "$top/SHA256SUMS"
set_times "$top"
tar -C "$stage" --sort=name --format=gnu --owner=0 --group=0 --numeric-owner -cf - "$name" | gzip -n9 > "$folder/$name.tar.gz" || exit
echo "$folder/$name.tar.gz"
