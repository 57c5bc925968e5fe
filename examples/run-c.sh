#!/bin/sh
# Proves and builds the library, compiles the C examples, reports the rows of examples/reports.txt to a board, lists the notice that comes of it,
# whose heading is that of examples/sample.txt, and sends its rows through a radio record and back. Then a desk computer is replaced, and its
# board is restored from its last notice.
#
#     examples/run-c.sh
#
# The library is for x86-64. On such a machine nothing more is needed. On any other, two commands come from the environment, each with its
# options:
#
#     CC    a C compiler for x86-64, such as x86_64-linux-gnu-gcc
#     RUN   what runs such a program here: an emulator, the program's name is put after it
set -eu
cd "$(dirname "$0")/.."

step() { printf '== %s\n' "$1"; }

# Both commands may have options, so they are not quoted.
compile() {
    step "compiling examples/$1.c"
    ${CC:-cc} -std=c99 -O2 -Wall -Wextra -Wconversion -Iinclude -o "target/examples/$1" "examples/$1.c" target/staticlib/libphengaryl.a
}

./build.sh
mkdir -p target/examples
compile terminal
compile list
compile radio
compile replace

step "reporting examples/reports.txt to a board of XQAA with the runways 07L of desk 1 and 07R of desk 2"
${RUN:-} target/examples/terminal examples/sample.txt XQAA 07L/1 07R/2 <examples/reports.txt >target/examples/notice.txt

step "listing the notice that it wrote, target/examples/notice.txt"
${RUN:-} target/examples/list <target/examples/notice.txt

step "its rows as a radio record, and back"
grep '^[01][0-9]* [01]' target/examples/notice.txt >target/examples/rows.txt
${RUN:-} target/examples/radio write <target/examples/rows.txt >target/examples/record.txt
cat target/examples/record.txt
${RUN:-} target/examples/radio read <target/examples/record.txt >target/examples/back.txt
cat target/examples/back.txt
cmp target/examples/rows.txt target/examples/back.txt

step "restoring a board on a new desk computer from the last notice of the old one"
${RUN:-} target/examples/replace
