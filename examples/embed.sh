#!/usr/bin/env bash
# Builds examples/embed.c over the core's static library, runs it and compares what it prints with examples/embed.txt; sees that wrong headers are
# noticed; runs every function on as little stack as the header says (examples/stack.c); and asks for a library that isn't there. The library is that of `rt lib` in crates/capi; RELAY_LIB_DIR names another folder, CC another compiler.
# The last line is 'N passed, M failed'.
set -uo pipefail
cd "$(dirname "$0")/.." || exit 2
folder=$(mktemp -d) || exit 2
trap 'rm -rf "$folder"' EXIT
passed=0 failed=0

# try NAME COMMAND...
try() {
    local name=$1
    shift
    if "$@"; then
        passed=$((passed + 1))
    else
        echo "examples/embed.sh: $name: FAILED"
        failed=$((failed + 1))
    fi
}

# build HEADERS PROGRAM [SOURCE] [OPTION]
build() {
    "${CC:-cc}" -std=c99 -pedantic -Wall -Wextra -Werror "${4:--O2}" "-I$1" "examples/${3:-embed.c}" "${RELAY_LIB_DIR:-crates/capi/out}/libcapi.a" -o "$2"
}

# prints PROGRAM: whether it does what examples/embed.txt says, the difference printed
prints() {
    "$1" | tr -d '\r' | diff examples/embed.txt -
}

as_told() {
    build include "$folder/embed" && prints "$folder/embed"
}

# changed OLD NEW: writes a header with that text changed
changed() {
    OLD=$1 NEW=$2 awk '
        { at = index($0, ENVIRON["OLD"]) }
        at { $0 = substr($0, 1, at - 1) ENVIRON["NEW"] substr($0, at + length(ENVIRON["OLD"])); found++ }
        { print }
        END { exit found != 1 }' include/relay.h >"$folder/relay.h"
}

# notices OLD NEW: whether a header with that text changed makes a program that stops, or prints something else
notices() {
    changed "$1" "$2" && build "$folder" "$folder/other" && ! prints "$folder/other" >/dev/null 2>&1
}

# fits OPTION: whether every function has enough stack, the header's own included
fits() {
    build include "$folder/stack" stack.c "$1" && "$folder/stack"
}

# whether too little stack ends the program
overflows() {
    changed 'RELAY_STACK 131072' 'RELAY_STACK 49152' && build "$folder" "$folder/other" stack.c || return 1
    { ! "$folder/other"; } >/dev/null 2>&1
}

# whether the Rust crate says in a sentence what to run where the library isn't there, and nothing of a panic
tells_missing() {
    local said
    said=$(RELAY_LIB_DIR=$folder cargo build --offline --locked --manifest-path rust/Cargo.toml --target-dir "$folder/rust" -p relay 2>&1) && return 1
    grep -q "libcapi.a isn't there: \`rt lib\`" <<<"$said" && ! grep -qi 'panic\|backtrace' <<<"$said"
}

try 'what it prints' as_told
# A key that is one byte shorter moves no field: it is the size of the field that tells.
try 'a header with shorter keys is noticed' notices 'RELAY_KEY = 23' 'RELAY_KEY = 22'
try 'a header that hands back the second of equal keys is noticed' notices 'relay_key_less(a, b) ? b : a' 'relay_key_less(b, a) ? a : b'
try 'a header with shorter masks is noticed' notices 'RELAY_MASK = 100' 'RELAY_MASK = 99'
try 'a header with smaller lists is noticed' notices 'RELAY_LIST = 3233' 'RELAY_LIST = 3232'
try 'a header that leaves out the last mask is noticed' notices 'relay_at_most(RELAY_MASKS, list[0])' 'relay_at_most(RELAY_MASKS - 1, list[0])'
try 'a header that reads bytes beyond a mask is noticed' notices 'relay_at_most(RELAY_MASK, room[0])' 'room[0]'
try 'a header that keeps the old head is noticed' notices 'table->head = taken.head' 'taken.head = table->head'
try 'a header that loses the place is noticed' notices 'answer.place = taken.place' 'answer.place = 0'
try 'a header with another feeder is noticed' notices 'bool dropping;' 'uint16_t dropping;'
try 'a header whose loop ends at a line that is too long is noticed' notices 'fed->len != 0 || fed->number == RELAY_LINE_TOO_LONG' 'fed->len != 0'
try 'a header with another answer of the log reader is noticed' notices 'bool found;' 'uint16_t found;'
try 'a header whose replay lacks a link is noticed' notices 'links.set = 0xffffffff' 'links.set = 0x7fffffff'
try 'a header whose replay goes on after a refusal is noticed' notices 'done.number != RELAY_ACCEPTED) {' 'done.number == RELAY_BAD_LINK) {'
try 'a header whose replay gives the place of a refused line is noticed' notices 'done.place = done.used' 'done.place = record.line.start'
try 'a header whose replay begins with what was there is noticed' notices '    relay_replay_begin(table);' ''
try 'the stack that the header says is enough' fits -O2
try 'the stack that the header says is enough, without optimisation' fits -O0
try 'too little stack is noticed' overflows
if command -v cargo >/dev/null; then
    try 'a library that is missing is told in a sentence' tells_missing
fi
echo "$passed passed, $failed failed"
[ "$failed" -eq 0 ]
