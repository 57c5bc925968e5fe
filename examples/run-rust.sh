#!/bin/sh
# Proves and builds the library, compiles the Rust example, and reports the rows of examples/reports.txt to a board; the heading of the notice
# that comes of it is that of examples/sample.txt.
#
#     examples/run-rust.sh
#
# The library is for x86-64. On such a machine nothing more is needed. On any other, two commands come from the environment, each with its
# options:
#
#     RUSTC   a rustc, 1.63 or later, that compiles and links for x86_64-unknown-linux-gnu
#     RUN     what runs such a program here: an emulator, the program's name is put after it
set -eu
cd "$(dirname "$0")/.."

step() { printf '== %s\n' "$1"; }

./build.sh
mkdir -p target/examples
step "compiling examples/rust/src/main.rs"
# Both commands may have options, so they are not quoted.
${RUSTC:-rustc} --edition 2021 -O -L native=target/staticlib -l static=phengaryl -o target/examples/terminal-rust examples/rust/src/main.rs

step "reporting examples/reports.txt to a board of XQAA with the runways 07L of desk 1 and 07R of desk 2"
${RUN:-} target/examples/terminal-rust examples/sample.txt XQAA 07L/1 07R/2 <examples/reports.txt >target/examples/notice-rust.txt

step "the notice that it wrote, target/examples/notice-rust.txt"
cat target/examples/notice-rust.txt
