#!/bin/sh
# build.sh [PREFIX]: proves and builds the archive, and builds the four examples over it, in target/host; with PREFIX, installs
# archive, header and pkg-config file there, and the program seek, proved and built as well, with its man page. The examples
# are built by CC (default cc).
set -eu
cd "$(dirname "$0")/.."
prefix=${1:-}
. host/kit.sh
build_archive
out=target/host
mkdir -p $out
cp $archive $out/libsparrowhem.a
for example in example morning exchange bars; do
    ${CC:-cc} -std=c99 -O2 -Wall -Wextra -Iinclude -o $out/$example host/$example.c -L$out -lsparrowhem
done
echo "built $out/libsparrowhem.a, $out/example, $out/morning, $out/exchange and $out/bars"
[ -n "$prefix" ] || exit 0
version=$(sed -n 's/^#define SPARROWHEM_VERSION  *"\(.*\)"$/\1/p' include/sparrowhem.h)
bin/seek </dev/null >/dev/null
mkdir -p "$prefix/lib/pkgconfig" "$prefix/include" "$prefix/bin" "$prefix/share/man/man1"
cp $out/libsparrowhem.a "$prefix/lib/"
cp include/sparrowhem.h "$prefix/include/"
cp crates/seek/out/seek "$prefix/bin/"
cp man/seek.1 "$prefix/share/man/man1/"
sed "s,@prefix@,$prefix,; s,@version@,$version," sparrowhem.pc.in >"$prefix/lib/pkgconfig/sparrowhem.pc"
echo "installed below $prefix"
