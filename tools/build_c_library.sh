#!/usr/bin/env bash
# Makes the library for C: libpgpeer.a, its header pgpeer.h, the shared object libpgpeer.so.0 with the link libpgpeer.so to it,
# pgpeer.pc for pkg-config, and the files of the CMake package pgpeer. Of all symbols only the calls of the header can be seen.
#
#     tools/build_c_library.sh [--after-gate] [FOLDER]
#
# FOLDER is crates/pgp_c/out/c where nothing is said. The crate pgp_c is proved and built by `rt lib` first; in a fresh clone that
# proves all crates below it. With --after-gate it is proved and built over the libraries that `rt ci` proved just before, so that
# no other crate is proved again; `rt lib` does it where checks have left all libraries that pgp_c names. Where there is neither,
# nothing is made, and the status is 3. Needs `rt`, a C compiler, $CC or cc, and ar, ld and objcopy.
set -eu

root=$(cd -- "$(dirname -- "${BASH_SOURCE[0]}")/.." && pwd)
crate=$root/crates/pgp_c

after_gate=
if [ "${1:-}" = --after-gate ]; then
    after_gate=yes
    shift
fi
if [ $# -gt 1 ] || [[ ${1-} == -* ]]; then
    echo "build_c_library.sh: usage: tools/build_c_library.sh [--after-gate] [FOLDER]" >&2
    exit 2
fi

# The kit. Its part of the library is what takes memory of the C library.
kit=$(cd -- "$(dirname -- "$(rt doc | tail -n 1)")" && pwd)
heap=$kit/c/liblibc_c.a
[ -f "$heap" ] || {
    echo "build_c_library.sh: the kit has no $heap" >&2
    exit 1
}

# The libraries that the crate names, without those of the kit.
own=()
kits=(std)
for name in $(sed -n 's/^pgp_c staticlib: *//p' -- "$root/crates.txt"); do
    if [ -d "$root/crates/$name" ]; then own+=("$name"); else kits+=("$name"); fi
done

# Whether each of them has this in its folder out/rlib. A check leaves a stamp there beside the library, and the gate none.
each_has() {
    local name
    for name in "${own[@]}"; do
        [ -e "$root/crates/$name/out/rlib/${1:-$name.rlib}" ] || return 1
    done
}

are_of_gate() {
    each_has "" && [ -z "$(find "$root/crates" -path '*/out/rlib/stamp' -print -quit)" ]
}

# Proves and builds the crate over the libraries of the gate, as `rt ci` proves it.
build_over_gate() {
    local words=(-L "dependency=$kit/rlibs") name at
    for name in "${kits[@]}"; do
        words+=(--extern "$name=$kit/rlibs/$name.rlib")
    done
    for name in "${own[@]}"; do
        words+=(--extern "$name=$root/crates/$name/out/rlib/$name.rlib")
    done
    for at in "$root"/crates/*/out/rlib; do
        words+=(-L "dependency=$at")
    done
    words+=(--antt-project "$kit/rattle/logic/antt-project.json" --logic-built "$kit/logic_built" --links pgp_c= --jobs 2)
    words+=(--crate-type staticlib --toolchain "$kit/toolchain" --backend llvm)
    mkdir -p -- "$crate/out"
    (cd -- "$crate" && "$kit/bin/rattle" build --crate-name pgp_c src/lib.rt "${words[@]}" -o out/libpgp_c.a)
}

how=(rt lib)
if [ -n "$after_gate" ]; then
    if are_of_gate; then
        how=(build_over_gate)
    elif ! each_has stamp; then
        echo "skipped, since not all libraries in crates/*/out are the gate's: tools/build_c_library.sh proves what lacks"
        exit 3
    fi
fi

work=$(mktemp -d)
trap 'rm -rf -- "$work"' EXIT
rm -f -- "$crate/out/c/libpgpeer.so" # since rt writes through no link
(cd -- "$crate" && "${how[@]}") >"$work/log" 2>&1 || {
    tail -n 20 -- "$work/log" >&2
    exit 1
}

mkdir -p -- "${1:-$crate/out/c}"
folder=$(cd -- "${1:-$crate/out/c}" && pwd)

(cd -- "$work" && ar x "$crate/out/libpgp_c.a" && ar x "$heap")
ld -r -o "$work/whole" "$work"/*.o
objcopy --wildcard --keep-global-symbol='pgp_*' "$work/whole" "$work/pgpeer.o"
echo 'PGPEER_0 { global: pgp_*; local: *; };' >"$work/map"
rm -f -- "$folder"/libpgpeer.*
ar rcsD "$folder/libpgpeer.a" "$work/pgpeer.o"
"${CC:-cc}" -shared -o "$folder/libpgpeer.so.0" "$work/pgpeer.o" -Wl,-soname,libpgpeer.so.0 -Wl,--version-script="$work/map"
ln -s libpgpeer.so.0 "$folder/libpgpeer.so"
cp -- "$root/include/pgpeer.h" "$root/share/cmake/pgpeer-config.cmake" "$folder"

# The version that pgp_version gives: ten thousand times the first part, a hundred times the second, and the third. What works
# with one version works with later ones of the same first two parts.
number=$(sed -n 's/^const VERSION: u32 = \([0-9]*\);$/\1/p' -- "$crate/src/lib.rt")
series=$((number / 10000)).$((number / 100 % 100))
version=$series.$((number % 100))
cat >"$folder/pgpeer.pc" <<END
libdir=\${pcfiledir}
includedir=\${pcfiledir}

Name: pgpeer
Description: peering core of an object store with placement groups
Version: $version
Libs: -L\${libdir} -l:libpgpeer.a
Cflags: -I\${includedir}
END
cat >"$folder/pgpeer-config-version.cmake" <<END
set(PACKAGE_VERSION $version)
if("\${PACKAGE_FIND_VERSION_MAJOR}.\${PACKAGE_FIND_VERSION_MINOR}" STREQUAL "$series" AND NOT PACKAGE_FIND_VERSION VERSION_GREATER PACKAGE_VERSION)
    set(PACKAGE_VERSION_COMPATIBLE TRUE)
endif()
END
echo "$folder"
