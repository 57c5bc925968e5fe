#!/bin/sh
# Proves the library and writes target/staticlib/libphengaryl.a. A line tells of each crate that is proved anew, and the last how long all of it took.
#
#     ./build.sh
set -eu
cd "$(dirname "$0")"

step() { printf '== %s\n' "$1"; }

mkdir -p target/staticlib
rm -f target/build.done
step "proving the library (some minutes from nothing, less than one where nothing has changed)"
started=$(date +%s)
# All that the prover says is kept, for the case that it refuses; a pipe has no status, so the end is marked by a file.
{ (cd crates/phengaryl && rt lib) 2>&1 && : >target/build.done; } | tee target/build.log |
    sed -un -e '/^crate \([a-z0-9_]*\): .*/{s//\1 is proved/;h;}' -e '/^logic=proved /{g;p;}'
if [ ! -f target/build.done ]; then
    cat target/build.log
    exit 1
fi
cp crates/phengaryl/out/libphengaryl.a target/staticlib/
step "target/staticlib/libphengaryl.a is written, after $(($(date +%s) - started)) seconds"
