#!/bin/sh
# Tells whether include/phengaryl.h and include/phengaryl.rs declare what the library's sources have: every struct with its size, and the
# place and type of each of its fields, every exported function with its types, and every refusal and description with its number.
#
#     include/check.sh
#
# Nothing is proved or run, so it takes seconds on any machine. Both compilers may be chosen by the environment:
#
#     CC      a C compiler for x86-64
#     RUSTC   a rustc, 1.77 or later
#
# The header is also read as C++ where there is a g++, and the Rust declarations are compared where there is such a rustc.
set -eu
cd "$(dirname "$0")/.."

step() { printf '== %s\n' "$1"; }
has() { command -v "$1" >/dev/null; }

step "working out from crates/*/src/*.rt what C and Rust have to declare"
python3 include/check.py target/include

# The compilers may have options, so they are not quoted.
step "comparing include/phengaryl.h with it"
${CC:-cc} -std=c11 -Wall -Wextra -Werror -Iinclude -fsyntax-only target/include/check.c

if has g++; then
    step "reading include/phengaryl.h as C++"
    g++ -std=c++17 -Wall -Wextra -Werror -fsyntax-only -x c++ include/phengaryl.h
fi

rustc=${RUSTC:-rustc}
if has "${rustc%% *}" && [ "$($rustc --version | cut -d. -f2)" -ge 77 ]; then
    step "comparing include/phengaryl.rs with it"
    $rustc --edition 2021 --crate-type lib --emit metadata -o target/include/check.rmeta target/include/check.rs
else
    step "no rustc 1.77 or later: include/phengaryl.rs is not compared"
fi
step "they agree"
