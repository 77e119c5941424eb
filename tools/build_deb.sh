#!/usr/bin/env bash
# Makes a Debian package of what tools/install.sh installs, with /usr as its prefix.
#
#     DEBFULLNAME=.. DEBEMAIL=.. tools/build_deb.sh [--program FILE] [--library LIBRARY] FOLDER
#
# Writes FOLDER/pgpeer_VERSION_ARCH.deb, and prints its name; VERSION is what the program says. FILE and LIBRARY are as for
# tools/install.sh. The maintainer is DEBFULLNAME at DEBEMAIL, and both have to be set. The program is stripped where `strip` is
# there. Where SOURCE_DATE_EPOCH is set, the changelog is of that second. Needs dpkg-deb.
set -eu

root=$(cd -- "$(dirname -- "${BASH_SOURCE[0]}")/.." && pwd)

fail() {
    echo "build_deb.sh: $1" >&2
    exit 2
}

parts=()
library=
while [ $# -gt 1 ]; do
    case $1 in
        --program) ;;
        --library) library=yes ;;
        *) break ;;
    esac
    parts+=("$1" "$2")
    shift 2
done
if [ $# -ne 1 ] || [ ! -d "$1" ]; then
    fail "usage: DEBFULLNAME=.. DEBEMAIL=.. tools/build_deb.sh [--program FILE] [--library LIBRARY] FOLDER"
fi
folder=$1
case ${DEBEMAIL:-} in
    ?*@?*) ;;
    *) fail "set DEBEMAIL to the address of the package's maintainer, and DEBFULLNAME to the name" ;;
esac
[ -n "${DEBFULLNAME:-}" ] || fail "set DEBFULLNAME to the name of the package's maintainer"
maintainer="$DEBFULLNAME <$DEBEMAIL>"

stage=$(mktemp -d)
trap 'rm -rf -- "$stage"' EXIT
chmod 755 "$stage"
umask 022

PYTHON=/usr/bin/python3 DESTDIR=$stage "$root/tools/install.sh" ${parts[@]+"${parts[@]}"} /usr >/dev/null
bin=$stage/usr/bin/pgpeer doc=$stage/usr/share/doc/pgpeer
version=$("$bin" --version)
version=${version#pgpeer }
arch=$(dpkg --print-architecture)

# What a package has otherwise than a folder that install.sh fills.
if command -v strip >/dev/null && [ "$(head -c 4 "$bin" | tail -c 3)" = ELF ]; then
    strip --strip-unneeded --remove-section=.comment --remove-section=.note "$bin"
fi
gzip -9 -n "$stage"/usr/share/man/man*/*
install -d "$stage/usr/share/zsh/vendor-completions"
mv "$stage"/usr/share/zsh/site-functions/_* "$stage/usr/share/zsh/vendor-completions"
rmdir "$stage/usr/share/zsh/site-functions"

cat >"$doc/copyright" <<END
Format: https://www.debian.org/doc/packaging-manuals/copyright-format/1.0/
Upstream-Name: pgpeer
Comment: No license has been chosen for this program yet. All rights are with
 its authors. Ask the maintainer of this package, $maintainer,
 before you hand it on.

Files: *
Copyright: 2026 the authors of pgpeer
License: none-yet
 All rights reserved. No license has been chosen yet.
END
cat >"$stage/changelog" <<END
pgpeer ($version) unstable; urgency=medium

  * Version $version of the program.

 -- $maintainer  $(LC_ALL=C date -u -R -d "@${SOURCE_DATE_EPOCH:-$(date +%s)}")
END
gzip -9 -n -c "$stage/changelog" >"$doc/changelog.gz"
rm "$stage/changelog"

mkdir "$stage/DEBIAN"
if [ -n "$library" ]; then
    echo 'libpgpeer 0 pgpeer' >"$stage/DEBIAN/shlibs"
    echo 'activate-noawait ldconfig' >"$stage/DEBIAN/triggers"
fi
cat >"$stage/DEBIAN/control" <<END
Package: pgpeer
Version: $version
Architecture: $arch
Maintainer: $maintainer
Section: admin
Priority: optional
Depends: libc6, python3 (>= 3.9)
Suggests: ceph-common, ceph-base, ceph-osd
Installed-Size: $(du -sk "$stage/usr" | cut -f1)
Description: peering core of an object store with placement groups
 Reads a script of map incrementals, reports of storage daemons and questions,
 and says where objects lie, whether a placement group may serve, and why it
 doesn't. The command pgpeer-ceph makes such a script of a Ceph cluster.
END
(cd "$stage" && find usr -type f -print0 | LC_ALL=C sort -z | xargs -0 md5sum >DEBIAN/md5sums)

package=$folder/pgpeer_${version}_$arch.deb
dpkg-deb --build --root-owner-group "$stage" "$package" >/dev/null
echo "$package"
