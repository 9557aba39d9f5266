#!/usr/bin/env bash
# Builds the archive and the Debian package twice, and compares the bytes. Unpacks the archive into an empty folder, installs
# it and removes it again, installs the package by `dpkg --root` and removes it, and runs README's first shell block with the
# installed files and nothing else from the clone. Checks the checksums, PROVED, and the package by lintian.
#
#   tests/pages/package.sh [llvm | rattle | PROGRAM]
#
# Nothing is proved. Without dpkg, strip or lintian the package is not tried; without clasp its stored answer is used. Needs
# bash, the usual tools of a shell, make and Python 3.11.
. "$(dirname "$0")/../kit/kit.sh"
needs_bound
. tests/kit/stand_ins.sh
stand_in_for_clasp

export PROGRAM=$program BOUND=$bound
version=$("$program" --version)
version=${version#inrc2pb }
archive=inrc2pb-$version-x86_64-linux
package=inrc2pb_${version}_amd64.deb

# built_twice WHAT SCRIPT FILE: the script writes the file, and the same bytes under other settings and on another file system.
built_twice() {
    local elsewhere=/dev/shm
    [ -w $elsewhere ] || elsewhere=$room
    begins_case "$1, built twice"
    "package/$2" "$room/first" > "$out" 2>&1 || complain "$2: $(tail -n 3 "$out")"
    grep -q '^proofs and tests: .' "$out" || complain "$2 does not print whether the gate passed"
    (umask 077 && TZ=Asia/Tokyo LANG=C.UTF-8 TMPDIR=$elsewhere "package/$2" "$room/second" > "$out" 2>&1) ||
        complain "$2: $(tail -n 3 "$out")"
    cmp -s "$room/first/$3" "$room/second/$3" || complain "$3 differs"
}

# first_block PAGE: its first shell block.
first_block() { awk '/^```sh$/ { inside = 1; next } /^```/ { if (inside) exit } inside' "$1"; }

# works FOLDER: README's first block runs with the files installed to this prefix, in a folder with only the example weeks.
works() {
    local pages=$1/share/doc/inrc2pb
    begins_case "README's first commands, as installed to ${1#"$room"/}"
    rm -rf "$room/elsewhere"
    mkdir "$room/elsewhere"
    first_block "$pages/README.md" > "$room/block"
    grep -q 'inrc2pb encode' "$room/block" || complain 'no such block'
    cp -r "$pages/examples" "$room/elsewhere"
    (cd "$room/elsewhere" && env -i HOME="$room/elsewhere" PATH="$1/bin:$room/bin:/usr/local/bin:/usr/bin:/bin:/usr/games" \
        timeout 1800 bash -eu "$room/block") > "$out" 2> "$err" || complain "it ends with $? (124 after half an hour): $(tail -n 3 "$err")"
    has_line 'penalty 320'
    [ -s "$room/elsewhere/roster.txt" ] || complain 'no roster.txt'
}

# states_proof FILE: it names the commit, the kit, the gate's result and the C library.
states_proof() {
    begins_case "${1#"$room"/}"
    for word in commit kit 'proofs and tests' libc; do
        grep -q "^$word: ." "$1" || complain "no line '$word'"
    done
    package/proved.sh | grep -qxF "$(head -n 1 "$1")" || complain 'another commit'
}

# says_of_gate WHAT COMMIT LINE KIT SUM WANTED: the line of PROVED for a gate that left this commit, last line, kit and checksum.
says_of_gate() {
    begins_case "PROVED after $1"
    printf '%s\n' "$2" "$3" "$4" "$5" > "$room/gate"
    GATE=$room/gate package/proved.sh | grep -qxF "proofs and tests: $6" || complain "not '$6'"
}

gates_are_told_apart() {
    local commit kit sum not='have not passed on this commit on the machine that built this'
    commit=$(package/proved.sh | sed -n 's/^commit: //p')
    kit=$(package/proved.sh | sed -n 's/^kit: //p')
    sum=$(cat "$PROGRAM" "$BOUND" | sha256sum)
    sum=${sum%% *}
    case $commit in
        unknown | *-dirty) says_of_gate 'a gate of other files' "$commit" '9 passed, 0 failed, 2 skipped' "$kit" "$sum" "$not" ;;
        *)
            says_of_gate 'a gate that passed' "$commit" '9 passed, 0 failed, 2 skipped' "$kit" "$sum" \
                'passed on this commit: 9 passed, 0 failed, 2 skipped'
            says_of_gate 'a gate of another program' "$commit" '9 passed, 0 failed, 2 skipped' "$kit" "0$sum" \
                'passed on this commit, but with another build of the programs'
            ;;
    esac
    says_of_gate 'a gate that failed' "$commit" '8 passed, 1 failed, 0 skipped' "$kit" "$sum" "$not"
    says_of_gate 'a gate of another commit' "0$commit" '9 passed, 0 failed, 2 skipped' "$kit" "$sum" "$not"
    says_of_gate 'a gate of another kit' "$commit" '9 passed, 0 failed, 2 skipped' "$kit, changed" "$sum" "$not"
}

# says_of_edits WHAT COMMIT LINE KIT WANTED: the line of PROVED for the edits that were tried one by one with this commit, last line and kit.
says_of_edits() {
    begins_case "PROVED after $1"
    printf '%s\n' "$2" "$3" "$4" > "$room/alone"
    EDITS=$room/alone package/proved.sh | grep -qxF "edits: $5" || complain "not '$5'"
}

edits_are_told_apart() {
    local commit kit not='have not been tried one by one on this commit on the machine that built this'
    commit=$(package/proved.sh | sed -n 's/^commit: //p')
    kit=$(package/proved.sh | sed -n 's/^kit: //p')
    case $commit in
        unknown | *-dirty) says_of_edits 'edits of other files' "$commit" '9 passed, 0 failed' "$kit" "$not" ;;
        *) says_of_edits 'edits of this commit' "$commit" '9 passed, 0 failed' "$kit" 'refused one by one on this commit: 9 passed, 0 failed' ;;
    esac
    says_of_edits 'an edit that is not refused' "$commit" '8 passed, 1 failed' "$kit" "$not"
    says_of_edits 'edits of another commit' "0$commit" '9 passed, 0 failed' "$kit" "$not"
}

# prices FOLDER: the searches installed to this prefix find the compiled library.
prices() {
    begins_case "the library of ${1#"$room"/}"
    python3 -B -c 'import sys; sys.path.insert(0, sys.argv[1])
from inrc2pb.rows import compiled
assert compiled.library' "$1/share/inrc2pb" > "$out" 2>&1 || complain "it is not loaded: $(tail -n 1 "$out")"
}

# Every command that is installed runs.
starts() {
    local command
    for command in "$1"/bin/*; do
        begins_case "${command#"$room"/} --help"
        (cd "$room" && "$command" --help > "$out" 2>&1) || complain "it ends with $?"
    done
}

# files_of FOLDER: its files, one a line.
files_of() { (cd "$1" && find . -type f | sort); }

# uninstalls SCRIPT: it removes exactly the files that were installed to $room/prefix, and leaves a file that was changed.
uninstalls() {
    local changed=share/doc/inrc2pb/examples/ward/week-0.txt
    begins_case 'install.sh --uninstall'
    mkdir -p "$room/prefix/share/fonts"
    touch "$room/prefix/bin/mine" "$room/prefix/share/doc/inrc2pb/examples/mine.txt"
    echo >> "$room/prefix/$changed"
    "$1" --uninstall "$room/prefix" > "$out" 2>&1 || complain "it ends with $?: $(tail -n 3 "$out")"
    diff <(files_of "$room/prefix") <(printf './%s\n' bin/mine share/doc/inrc2pb/examples/mine.txt "$changed") > "$room/diff" ||
        complain "$(head -n 5 "$room/diff")"
    has_line "Left, because it was changed or is of another version: $room/prefix/$changed"
    [ -d "$room/prefix/share/fonts" ] || complain 'a folder of others is gone'
    [ -z "$(find "$room"/prefix/{share,lib}/inrc2pb 2> /dev/null)" ] || complain 'a folder of the library is left'
    begins_case 'install.sh --uninstall, again'
    rm "$room/prefix/$changed"
    ! "$1" --uninstall "$room/prefix" > "$out" 2>&1 || complain 'it finds nothing, and succeeds'
    has_line "Removed 0 files from $room/prefix."
    begins_case 'install.sh in its own folder'
    ! (cd "$(dirname "$1")" && ./install.sh --uninstall .) > "$out" 2>&1 || complain 'it removes its own files'
    [ -x "$(dirname "$1")/bin/inrc2pb" ] || complain 'the program is gone'
    ! (cd "$(dirname "$1")" && ./install.sh PREFIX) > "$out" 2>&1 || complain 'it installs into its own folder'
    [ ! -e "$(dirname "$1")/PREFIX" ] || complain 'it leaves a folder in its own'
}

# by_dpkg WORD..: dpkg on an empty system in $room/root.
by_dpkg() {
    PATH=$PATH:/usr/sbin:/sbin dpkg --root="$room/root" --log=/dev/null --force-not-root --force-depends --force-script-chrootless "$@" \
        > "$out" 2>&1 || complain "dpkg $* ends with $?: $(tail -n 3 "$out")"
}

# installs_package FILE: dpkg installs it, it works, and dpkg removes it with what Python left.
installs_package() {
    local pages=$room/root/usr/share/doc/inrc2pb
    mkdir -p "$room/root/var/lib/dpkg/info" "$room/root/var/lib/dpkg/updates"
    : > "$room/root/var/lib/dpkg/status"
    begins_case 'dpkg --install'
    by_dpkg --install "$1"
    states_proof "$pages/PROVED"
    works "$room/root/usr"
    starts "$room/root/usr"
    prices "$room/root/usr"
    begins_case 'what the package needs'
    dpkg-deb --field "$1" Depends Recommends > "$out"
    has_line "Depends: libc6 (>= $(sed -n 's/^libc: \([0-9.]*\).*/\1/p' "$pages/PROVED")), python3 (>= 3.11), python3-numpy"
    has_line 'Recommends: clasp, coinor-cbc'
    begins_case 'dpkg --remove'
    mkdir -p "$room"/root/usr/share/inrc2pb/inrc2pb/{,week/}__pycache__
    touch "$room"/root/usr/share/inrc2pb/inrc2pb/{,week/}__pycache__/files.pyc
    by_dpkg --remove inrc2pb
    [ -z "$(find "$room/root" -path '*/usr/*' -type f)" ] || complain "left: $(find "$room/root" -path '*/usr/*' -type f | head -n 3)"
}

gates_are_told_apart
edits_are_told_apart
built_twice 'the archive' archive.sh "$archive.tar.gz"
begins_case 'the checksums'
mkdir "$room/unpacked"
tar -C "$room/unpacked" -xzf "$room/first/$archive.tar.gz" || complain 'it does not unpack'
(cd "$room/unpacked/$archive" && sha256sum --check --quiet SHA256SUMS > "$out" 2>&1) || complain "$(head -n 3 "$out")"
states_proof "$room/unpacked/$archive/PROVED"
begins_case 'install.sh'
"$room/unpacked/$archive/install.sh" "$room/prefix" > "$out" 2>&1 || complain "it ends with $?: $(tail -n 3 "$out")"
diff -r "$room/unpacked/$archive/bin" "$room/prefix/bin" > "$out" || complain "$(head -n 3 "$out")"
mv "$room/unpacked" "$room/packed"
works "$room/prefix"
starts "$room/prefix"
prices "$room/prefix"
uninstalls "$room/packed/$archive/install.sh"

if command -v dpkg-deb dpkg strip | wc -l | grep -qx 3; then
    built_twice 'the package' deb.sh "$package"
    installs_package "$room/first/$package"
    if has lintian; then
        begins_case 'lintian'
        lintian --fail-on error,warning "$room/first/$package" > "$out" 2>&1 || complain "$(grep '^[EW]:' "$out" | head -n 5)"
    fi
else
    skips 1 'needs dpkg, dpkg-deb and strip'
fi
finish
