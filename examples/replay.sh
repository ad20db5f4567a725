#!/usr/bin/env bash
# Runs the program that replays a day log, bin/replay or the one that is named, on logs that rust/ makes, whole, damaged and cut, each as a file and some
# in small pieces too, and compares what it prints with the model's text, byte for byte. Needs cargo, and the library as rust/ does.
# The last line is 'N passed, M failed'.
set -uo pipefail
cd "$(dirname "$0")/.." || exit 2
program=${1:-bin/replay}
folder=$(mktemp -d) || exit 2
trap 'rm -rf "$folder"' EXIT
passed=0 failed=0

# same NAME: whether what was printed is the text of that name
same() {
    if cmp -s "$folder/out" "$folder/$1.txt"; then
        passed=$((passed + 1))
    else
        echo "examples/replay.sh: log $1: differs: $(cmp "$folder/out" "$folder/$1.txt" 2>&1)"
        failed=$((failed + 1))
    fi
}

cargo run --quiet --offline --locked --manifest-path rust/Cargo.toml --bin logs -- "$folder" 100 || exit 2
for name in {0..99}; do
    "$program" <"$folder/$name.log" >"$folder/out"
    same "$name"
done
for name in {0..19}; do
    dd bs=13 if="$folder/$name.log" 2>"$folder/err" | "$program" >"$folder/out"
    same "$name"
done
echo "$passed passed, $failed failed"
[ "$failed" -eq 0 ]
