#!/bin/sh
# Drives the second reader by LLVM's coverage-guided fuzzer and holds the proved library's answers against it.
#
#     compare/fuzz/run.sh DIRECTORY [SECONDS]
#
# DIRECTORY holds libphengaryl.a; `build.sh` writes it to target/staticlib. The branches of the second reader
# are counted, so that an input that takes a new way in it is kept and varied. The messages and rows of the program
# `test_run`, every third message with the one behind it as a pair, the input of `desk`, alone and with every tenth
# message as the model of its board's notice, and a radio record of two rows come first. It needs an x86-64 machine and
# CLANG (clang), with its fuzzer. What it found stands in target/corpus; the status is 0 only if nothing differed.
set -eu

if [ $# -lt 1 ] || [ $# -gt 2 ]; then
    echo "usage: compare/fuzz/run.sh DIRECTORY [SECONDS]" >&2
    exit 2
fi
library=$(cd "$1" && pwd)/libphengaryl.a
seconds=${2:-600}
cd "$(dirname "$0")"
target=${CARGO_TARGET_DIR:-$PWD/target}
triple=x86_64-unknown-linux-gnu
counted="-Cpasses=sancov-module -Cllvm-args=-sanitizer-coverage-level=4 -Cllvm-args=-sanitizer-coverage-inline-8bit-counters"
counted="$counted -Cllvm-args=-sanitizer-coverage-pc-table -Cllvm-args=-sanitizer-coverage-trace-compares"

RUSTFLAGS=$counted CARGO_TARGET_DIR=$target cargo build --release --quiet --target $triple
"${CLANG:-clang}" -fsanitize=fuzzer -o "$target/fuzz" "$target/$triple/release/libfuzz.a" "$library" -lpthread -ldl -lm

mkdir -p "$target/corpus"
python3 - "$target/corpus" ../../crates <<'P'
import pathlib
import sys

corpus, crates = map(pathlib.Path, sys.argv[1:])
stored = (crates / "test_run/stdin").read_bytes()
parts, at = {b"M": [], b"R": []}, 0
while at < len(stored):
    size = int(stored[at + 1:at + 6])
    parts[stored[at:at + 1]].append(stored[at + 7:at + 7 + size])
    at += 7 + size + 1
messages = parts[b"M"]
for n, row in enumerate(parts[b"R"]):
    (corpus / f"row-{n}").write_bytes(b"R" + row)
for n, message in enumerate(messages):
    (corpus / f"message-{n}").write_bytes(b"M" + message)
for n in range(0, len(messages) - 1, 3):
    (corpus / f"pair-{n}").write_bytes(b"S" + messages[n] + b"\0" + messages[n + 1])
desk = (crates / "desk/stdin").read_bytes()
(corpus / "desk").write_bytes(b"D" + desk)
for n in range(0, len(messages), 10):
    (corpus / f"board-{n}").write_bytes(b"B" + desk + b"\0" + messages[n])
radio = "02 D27E 1D 030505 030100 0C0000 02050F 00 BF9520 4B 020202 040404 E707 03 8001 07020C 63"
(corpus / "radio").write_bytes(b"C" + bytes.fromhex(radio))
P
exec "$target/fuzz" -dict=words -max_len=4200 -timeout=20 -max_total_time="$seconds" -print_final_stats=1 "$target/corpus"
