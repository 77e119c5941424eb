#!/usr/bin/env bash
# Installs the program and the command pgpeer-ceph, their man pages, their completions for bash, zsh and fish, and the document of
# lines with an example.
#
#     tools/install.sh [--program FILE] [--library FOLDER] PREFIX
#     tools/install.sh --uninstall PREFIX
#
# PREFIX is a folder, such as /usr/local or ~/.local. FILE is the built program: crates/pgpeer/out/pgpeer where nothing is
# said, which is proved and built first by `rt run` if it isn't there. FOLDER is what tools/build_c_library.sh made: with it the
# library for C is installed too, with its header, its man page, and its files for pkg-config and CMake. Where DESTDIR is set,
# it stands before PREFIX in the name of each file, as makers of packages want it. A second call writes the same files again.
# --uninstall removes just these files, and leaves the folders. Needs Python 3.9 or later, for pgpeer-ceph, which is one file;
# PYTHON is how it calls Python, `/usr/bin/env python3` where nothing is said.
set -eu

root=$(cd -- "$(dirname -- "${BASH_SOURCE[0]}")/.." && pwd)

fail() {
    echo "install.sh: $2" >&2
    exit "$1"
}

usage() {
    fail 2 "usage: tools/install.sh [--program FILE] [--library FOLDER] PREFIX, or --uninstall PREFIX"
}

# Calls $1 with the mode of each file, where it comes from, and where it goes. A link has the mode `link`.
each_file() {
    "$1" 755 "$program" bin/pgpeer
    "$1" 755 "$command" bin/pgpeer-ceph
    for name in pgpeer pgpeer-ceph; do
        "$1" 644 "$root/share/man/$name.1" "share/man/man1/$name.1"
        "$1" 644 "$root/share/completions/$name.bash" "share/bash-completion/completions/$name"
        "$1" 644 "$root/share/completions/_$name" "share/zsh/site-functions/_$name"
        "$1" 644 "$root/share/completions/$name.fish" "share/fish/vendor_completions.d/$name.fish"
    done
    "$1" 644 "$root/docs/FORMAT.md" share/doc/pgpeer/FORMAT.md
    "$1" 644 "$root/examples/outage.jsonl" share/doc/pgpeer/examples/outage.jsonl
    [ -n "$library" ] || [ "$act" = drop ] || return 0
    "$1" link libpgpeer.so.0 lib/libpgpeer.so
    for name in libpgpeer.so.0 libpgpeer.a; do
        "$1" 644 "$library/$name" "lib/$name"
    done
    "$1" 644 "$library/pgpeer.h" include/pgpeer.h
    "$1" 644 "$parts/pgpeer.pc" lib/pkgconfig/pgpeer.pc
    for name in pgpeer-config.cmake pgpeer-config-version.cmake; do
        "$1" 644 "$library/$name" "lib/cmake/pgpeer/$name"
    done
    "$1" 644 "$root/share/man/pgpeer.3" share/man/man3/pgpeer.3
}

put() {
    install -d -- "$(dirname -- "$into/$3")"
    if [ "$1" = link ]; then
        ln -sfn -- "$2" "$into/$3"
    else
        install -m "$1" -- "$2" "$into/$3"
    fi
    echo "$into/$3"
}

drop() {
    if [ -e "$into/$3" ] || [ -L "$into/$3" ]; then
        rm -- "$into/$3"
        echo "removed $into/$3"
    fi
}

# Proves and builds the program, and runs it once on an empty script.
build() {
    command -v rt >/dev/null || fail 1 "there is no $program, and no rt to build it"
    (cd -- "$root/crates/pgpeer" && rt run -- run </dev/null)
}

# Makes one file of the package of ceph/, in the folder $1.
pack() {
    command -v python3 >/dev/null || fail 1 "there is no python3"
    mkdir -- "$1/pgpeer_ceph"
    cp -r -- "$root"/ceph/pgpeer_ceph/*.py "$root/ceph/pgpeer_ceph/page" "$1/pgpeer_ceph"
    rm -- "$1/pgpeer_ceph/__main__.py"
    python3 -m zipapp "$1" --compress --main pgpeer_ceph.cli:main --python "${PYTHON:-/usr/bin/env python3}" --output "$2"
}

program=
library=
parts=
command=
act=put
while [ $# -gt 0 ]; do
    case $1 in
        --program) [ $# -gt 1 ] || usage; program=$2; shift 2 ;;
        --library) [ $# -gt 1 ] || usage; library=$2; shift 2 ;;
        --uninstall) act=drop; shift ;;
        -*) usage ;;
        *) break ;;
    esac
done
if [ $# -ne 1 ] || [ -z "$1" ]; then
    usage
fi
case $1 in
    /*) into=${DESTDIR:-}${1%/} ;;
    *) [ -z "${DESTDIR:-}" ] || fail 2 "with DESTDIR set, PREFIX has to begin with a slash"; into=$PWD/${1%/} ;;
esac

if [ "$act" = put ]; then
    if [ -z "$program" ]; then
        program=$root/crates/pgpeer/out/pgpeer
        [ -x "$program" ] || build
    fi
    [ -x "$program" ] || fail 1 "$program is no program"
    [ -z "$library" ] || [ -f "$library/pgpeer.pc" ] || fail 1 "$library has no library: tools/build_c_library.sh makes one"
    parts=$(mktemp -d)
    trap 'rm -rf -- "$parts"' EXIT
    mkdir -- "$parts/tree"
    command=$parts/pgpeer-ceph
    pack "$parts/tree" "$command"
    [ -z "$library" ] || sed 's|^libdir=.*|libdir=${pcfiledir}/..|; s|^includedir=.*|includedir=${pcfiledir}/../../include|' \
        -- "$library/pgpeer.pc" >"$parts/pgpeer.pc"
fi
each_file "$act"
