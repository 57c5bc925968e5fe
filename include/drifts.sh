#!/bin/sh
# Shows that include/check.sh can fail: changes one line of the sources, the header or the Rust declarations, each time in a new copy, and
# wants every change to be caught.
#
#     include/drifts.sh
set -eu
cd "$(dirname "$0")/.."
# Not in this tree: rt ci refuses a source that stands in no crate.
room=$(mktemp -d)
trap 'rm -rf "$room"' EXIT
copy=$room/drifts

# Which drift, in which file, by which sed script.
try() {
    rm -rf "$copy"
    mkdir -p "$copy/crates"
    cp -r include "$copy/"
    for crate in crates/*/; do
        mkdir -p "$copy/$crate"
        cp -r "$crate/src" "$copy/$crate"
    done
    sed -i "$3" "$copy/$2"
    if cmp -s "$2" "$copy/$2"; then
        echo "$1: the edit does not fit $2"
        exit 1
    fi
    if "$copy/include/check.sh" >"$copy/log" 2>&1; then
        echo "$1 ($2): not caught"
        exit 1
    fi
    printf '== %s (%s): caught\n' "$1" "$2"
    grep -m 1 -e error -e check.py "$copy/log"
}

try "a field's type" include/phengaryl.h 's/uint8_t description; /uint16_t description;/'
try "the order of two fields" include/phengaryl.h '/^typedef struct phengaryl_runway {/,/^}/{s/number/_/;s/side/number/;s/_;/side;/}'
try "a field that the header lacks" crates/surface/src/lib.rt 's/^    pub description: u8,/&\n    pub spare: u8,/'
try "an array's length" include/phengaryl.rs 's/pub name: \[u8; 16\]/pub name: [u8; 17]/'
try "a parameter's type" include/phengaryl.h 's/phengaryl_read_row(const uint8_t/phengaryl_read_row(uint8_t/'
try "a function" crates/phengaryl/src/lib.rt 's/fn phengaryl_valid_board/fn phengaryl_is_board/'
try "a refusal's number" crates/text/src/refusal.rt 's/NotLater = 20/NotLater = 22/'
