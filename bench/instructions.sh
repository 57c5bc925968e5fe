#!/usr/bin/env bash
# Instructions per message and per byte, counted for everything that `bench list` names.
#
#   cargo build --release [--features library] && ./instructions.sh [WHAT]
#   COUNT=emulator EMULATOR=qemu-x86_64 BENCH=path ./instructions.sh [WHAT]
#
# WHAT limits the count to names that begin so, e.g. `fast` or `library-read`. Each is counted for two numbers of rounds;
# the difference is that of the rounds alone, without the start of the program and the making of its inputs.
#
# Callgrind counts on the processor that the program was built for. It counts an instruction that clears or copies memory
# byte by byte once for each byte, so the C library is told to do that by vectors. The library is for x86-64 only; where the machine is
# another one, COUNT=emulator counts by QEMU's emulator of x86-64 programs, and BENCH is a `bench` for x86-64 that stands
# alone (linked statically). The emulator writes a line for each instruction that it executes. There are some hundred
# thousand for the start alone, so the rounds are few, and the lines are counted as they come and never stored. The
# processor it plays is one on which memory is cleared and copied by a loop over vectors: a single instruction that does
# it byte by byte would be counted once for each byte.
set -euo pipefail
bench=${BENCH:-${CARGO_TARGET_DIR:-$(dirname "$0")/target}/release/bench}

case ${COUNT:-callgrind} in
callgrind)
    export GLIBC_TUNABLES=glibc.cpu.x86_rep_stosb_threshold=1000000:glibc.cpu.x86_rep_movsb_threshold=1000000
    few=10
    many=60
    answer() { "$bench" "$@"; }
    counted() {
        valgrind --tool=callgrind --callgrind-out-file=/dev/null "$bench" "$@" 2>&1 >/dev/null |
            awk '/Collected/ { print $4; found = 1 } END { exit !found }'
    }
    ;;
emulator)
    few=1
    many=3
    : "${EMULATOR:?}" "${BENCH:?}"
    answer() { "$EMULATOR" "$bench" "$@"; }
    counted() {
        "$EMULATOR" -cpu max,-erms -one-insn-per-tb -d nochain,exec "$bench" "$@" 2>&1 >/dev/null | grep -c '^Trace'
    }
    ;;
*)
    echo "COUNT is callgrind or emulator" >&2
    exit 1
    ;;
esac

answer list | grep "^${1:-}" | while read -r what input bytes; do
    first=$(counted one "$what" "$input" "$few")
    second=$(counted one "$what" "$input" "$many")
    echo "$what $input $bytes $(((second - first) / (many - few)))"
done | awk '
    BEGIN { printf "%-18s %-11s %5s %14s %10s\n", "what", "input", "bytes", "instructions", "per byte" }
    {
        printf "%-18s %-11s %5d %14d %10.2f\n", $1, $2, $3, $4, $4 / $3
        fflush()
        per[$1, $2] = $4 / $3
        if (!($1 in seen)) { seen[$1] = 1; order[++count] = $1 }
    }
    END {
        printf "\ninstructions per byte of a long message beside those of the typical one\n"
        printf "%-18s %15s %15s\n", "what", "spaced/typical", "dense/typical"
        for (n = 1; n <= count; n++) {
            typical = per[order[n], "typical"]
            printf "%-18s %15.2f %15.2f\n", order[n], per[order[n], "spaced"] / typical, per[order[n], "dense"] / typical
        }
    }'
