#!/bin/sh
# Installs the programs, manual pages, completions, pages and example weeks of this folder, or removes them again.
#
#   ./install.sh PREFIX              for example "$HOME/.local", or /usr/local as root
#   ./install.sh --uninstall PREFIX  removes the files that it installed there; it leaves those that were changed since
set -u
umask 022
unset CDPATH

usage() {
    echo 'usage: ./install.sh [--uninstall] PREFIX'
    exit 2
}

action=install
if [ "${1:-}" = --uninstall ]; then
    action=uninstall
    shift
fi
[ $# = 1 ] || usage
case $1 in '' | -*) usage ;; esac
[ $action = uninstall ] || mkdir -p "$1" || exit 2
prefix=$(cd "$1" && pwd -P) || exit 2
cd "$(dirname "$0")" || exit 2
here=$(pwd -P)
sums=$here/SHA256SUMS
case $prefix/ in
    "$here"/*)
        rmdir "$prefix" 2> /dev/null
        echo "Choose a folder outside $here, for example \"\$HOME/.local\"."
        exit 2
        ;;
esac

install_files() {
    sha256sum --check --quiet SHA256SUMS || { echo 'Not installed: a file is not as it was packed.'; exit 1; }
    # A program or library that is running cannot be overwritten.
    for program in bin/* lib/inrc2pb/*; do
        rm -f "$prefix/$program" || exit
    done
    for folder in */; do
        cp -R "${folder%/}" "$prefix" || exit
    done
    echo "Installed to $prefix. The example weeks are in $prefix/share/doc/inrc2pb/examples."
    case :$PATH: in
        *":$prefix/bin:"*) ;;
        *) printf '%s\n' 'The commands are not on your path yet. Add this line to ~/.bashrc:' "PATH=\"$prefix/bin:\$PATH\"" ;;
    esac
}

# The files in the folders are installed, each with a line in SHA256SUMS. Of the prefix's folders only empty ones of the program
# are removed; Python may have left a compiled form of the library in one.
uninstall_files() {
    cd "$prefix" || exit
    removed=0
    while read -r sum path; do
        [ -f "$path" ] || continue
        case $(sha256sum < "$path") in
            "$sum "*) rm -f "$path" && removed=$((removed + 1)) ;;
            *) echo "Left, because it was changed or is of another version: $prefix/$path" ;;
        esac
    done << LIST
$(grep / "$sums")
LIST
    find share/inrc2pb -name __pycache__ -prune -exec rm -r {} + 2> /dev/null
    find lib/inrc2pb share/inrc2pb share/doc/inrc2pb -depth -type d -exec rmdir {} + 2> /dev/null
    echo "Removed $removed files from $prefix."
    [ $removed -gt 0 ]
}

"${action}_files"
