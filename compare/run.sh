#!/bin/sh
# Compares the proved library with the second reader.
#
#     compare/run.sh DIRECTORY [N [SEED]]
#
# DIRECTORY holds libphengaryl.a; `build.sh` writes it to target/staticlib. The messages, rows, pairs of rows,
# reports, lists of rows for the radio, radio records and boards restored by hand come first. N messages (20000 if not said),
# as many observations, rows, pairs of rows, damaged records, lists of rows for the radio and radio records, and a tenth of
# that of pairs, desk inputs, board notices, live boards, radio records cut at every byte and boards restored from their
# notices are made from SEED (1 if not said) and put to both. The counts show how often each refusal was met. The first
# differences are shown, each text with its bytes escaped; the last line counts them all, and the status is 0 only if there
# are none.
#
# The library is for x86-64. On such a machine cargo builds the comparison, and nothing more is needed. On any other, two
# commands come from the environment, each with its options:
#
#     RUSTC   a rustc, 1.63 or later, that compiles and links for x86_64-unknown-linux-gnu
#     RUN     what runs such a program here: an emulator, the program's name is put after it
set -eu

fail() {
    echo "$1" >&2
    exit 2
}

if [ $# -lt 1 ] || [ $# -gt 3 ]; then
    fail "usage: compare/run.sh DIRECTORY [N [SEED]]"
fi
library=$(cd "$1" && pwd)
count=${2:-20000}
seed=${3:-1}
[ -f "$library/libphengaryl.a" ] || fail "$library has no libphengaryl.a"
cd "$(dirname "$0")"

if [ "$(uname -m)" = x86_64 ]; then
    PHENGARYL_LIB=$library exec cargo run --release --quiet --features library -- run "$count" "$seed"
fi

if [ -z "${RUSTC:-}" ] || [ -z "${RUN:-}" ]; then
    fail "this machine is not x86-64: RUSTC and RUN must say how to compile for it and how to run what was compiled"
fi
mkdir -p target/x86-64
# Both commands may have options, so they are not quoted. Overflow is checked as in the profile of cargo.
compile() {
    $RUSTC --edition 2021 -O -C overflow-checks=on --crate-name compare --cfg 'feature="library"' "$@"
}
compile --crate-type rlib -L "native=$library" -l static=phengaryl -o target/x86-64/libcompare.rlib src/lib.rs
compile --extern compare=target/x86-64/libcompare.rlib -o target/x86-64/compare src/main.rs
exec $RUN target/x86-64/compare run "$count" "$seed"
