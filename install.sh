#!/bin/sh
# Proves and builds the library and installs it: the archive, a shared object, the header, and what pkg-config has to know.
#
#     ./install.sh
#     PREFIX=/opt/phengaryl ./install.sh
#     DESTDIR=/tmp/package PREFIX=/usr LIBDIR=/usr/lib/x86_64-linux-gnu ./install.sh
#
# PREFIX is /usr/local and LIBDIR is PREFIX/lib if not said. DESTDIR is put before both, and stands in no installed file, for packages.
# CC is a C compiler for x86-64, cc if not said; it only makes the shared object of the archive.
set -eu
cd "$(dirname "$0")"

step() { printf '== %s\n' "$1"; }

prefix=${PREFIX:-/usr/local}
libdir=${LIBDIR:-$prefix/lib}
to=${DESTDIR:-}
version=$(sed -n 's/^#define PHENGARYL_VERSION "\(.*\)"$/\1/p' include/phengaryl.h)
soname=libphengaryl.so.${version%%.*}
shared=libphengaryl.so.$version

./build.sh

step "making $shared of the archive"
mkdir -p target/install
printf '{ global: phengaryl_*; local: *; };\n' >target/install/exported
# CC may have options, so it is not quoted.
${CC:-cc} -shared -o "target/install/$shared" -Wl,-soname,"$soname" -Wl,--version-script=target/install/exported -Wl,--no-undefined \
    -Wl,--whole-archive target/staticlib/libphengaryl.a -Wl,--no-whole-archive

step "installing version $version below $to$prefix"
sed -e "s|@PREFIX@|$prefix|" -e "s|@LIBDIR@|$libdir|" -e "s|@VERSION@|$version|" phengaryl.pc.in >target/install/phengaryl.pc
install -d "$to$prefix/include" "$to$libdir/pkgconfig"
install -m 644 include/phengaryl.h "$to$prefix/include/"
install -m 644 target/staticlib/libphengaryl.a "$to$libdir/"
install -m 755 "target/install/$shared" "$to$libdir/"
ln -sf "$shared" "$to$libdir/$soname"
ln -sf "$soname" "$to$libdir/libphengaryl.so"
install -m 644 target/install/phengaryl.pc "$to$libdir/pkgconfig/"

step "installed; where $libdir is a directory of the system, ldconfig has to be run for the shared object to be found"
