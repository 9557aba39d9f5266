# shellcheck shell=bash
# The common part of archive and package. To be sourced at the top of the clone.
#
# PROGRAM and BOUND name other programs than inrc2pb and inrc2pb-bound of out.
umask 022
export LC_ALL=C TZ=UTC
. package/commit.sh

PROGRAM=$(realpath -m "${PROGRAM:-out/inrc2pb}")
BOUND=$(realpath -m "${BOUND:-out/inrc2pb-bound}")
export PROGRAM BOUND
programs=("$PROGRAM" "$BOUND")
for program in "${programs[@]}"; do
    [ -x "$program" ] || { echo "There is no $program yet: 'make' builds it."; exit 2; }
done

# The program has the version of crates/inrc2pb_frame/src/arguments.rt; CHANGELOG.md repeats it.
version=$("$PROGRAM" --version) && version=${version#inrc2pb } || exit 2

# The latest version of the C library whose symbols the programs use.
libc=$(grep -aoh 'GLIBC_[0-9][0-9.]*' "${programs[@]}" | sort -uV | tail -n 1)
libc=${libc#GLIBC_}

stage=$(mktemp -d) || exit 2
trap 'rm -rf "$stage"' EXIT

# install_to FOLDER PREFIX [VARIABLE=VALUE..]: the files of `make install` with the library, and PROVED with the pages. Prints whether the gate passed.
install_to() {
    make -s --no-print-directory out/inrc2pb-rows.so || exit
    make -s --no-print-directory install PROGRAM="$PROGRAM" BOUND="$BOUND" \
        DESTDIR="$1" PREFIX="$2" "${@:3}" || exit
    package/proved.sh > "$1$2/share/doc/inrc2pb/PROVED"
    printf 'libc: %s or later\n' "$libc" >> "$1$2/share/doc/inrc2pb/PROVED"
    grep -E '^(proofs and tests|edits):' "$1$2/share/doc/inrc2pb/PROVED" >&2
}

# set_times FOLDER: every file has the time of the commit.
set_times() { find "$1" -exec touch -hd "@$SOURCE_DATE_EPOCH" {} +; }
