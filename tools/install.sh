#!/usr/bin/env bash
# Installs the static library, its headers and a pkg-config file under PREFIX (/usr/local), with DESTDIR before it where a
# package is made. LIBRARY names a built library; else it is target/libbilzhaan.a, built first where it isn't there.
set -euo pipefail

prefix=${PREFIX-/usr/local}
case $prefix in
*[[:space:]]*) echo "PREFIX has a blank, which parts a compiler's flags: '$prefix'" >&2; exit 2 ;;
/*) ;;
*) echo "PREFIX is not an absolute path: '$prefix'" >&2; exit 2 ;;
esac
[ -z "${LIBRARY:-}" ] || { [ -f "$LIBRARY" ] || { echo "no library at $LIBRARY" >&2; exit 2; }; library=$(realpath "$LIBRARY"); }
cd "$(dirname "$0")/.."
if [ -z "${library:-}" ]; then
    [ -f target/libbilzhaan.a ] || tools/staticlib.sh
    library=target/libbilzhaan.a
fi

version=$(sed -n 's/^#define BILZHAAN_VERSION \([0-9]*\)$/\1/p' include/bilzhaan.h)
root=${DESTDIR:-}$prefix
install -d "$root/lib/pkgconfig" "$root/include"
install -m 644 "$library" "$root/lib/libbilzhaan.a"
install -m 644 include/bilzhaan.h include/bilzhaan_record.h "$root/include"
cat >"$root/lib/pkgconfig/bilzhaan.pc" <<PC
prefix=$prefix
libdir=\${prefix}/lib
includedir=\${prefix}/include

Name: bilzhaan
Description: A half-hour offer book in lent words, for x86-64 Linux
Version: $((version / 10000)).$((version / 100 % 100)).$((version % 100))
Cflags: -I\${includedir}
Libs: -L\${libdir} -lbilzhaan
PC
chmod 644 "$root/lib/pkgconfig/bilzhaan.pc"
echo "$root"
