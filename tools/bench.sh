#!/usr/bin/env bash
# Lines a second of `replay` on a replay of a million lines, beside a plain copy of the same bytes. A benchmark, no test.
# Needs crates/replay/out/replay (any `./kevrespil replay FILE` builds it) and the oracle (`cd oracle && cargo build
# --release`), which makes the replay.
set -eu
cd "$(dirname "$0")/.."
lines=${1:-1000000}
replay=$(mktemp)
answers=$(mktemp)
trap 'rm -f "$replay" "$answers"' EXIT
oracle/target/release/oracle gen --seed 5 --lines "$lines" > "$replay"
run() {
    local begin end
    begin=$(date +%s%N)
    "$@" < "$replay" > "$answers"
    end=$(date +%s%N)
    echo $((end - begin))
}
best() {
    local least= took
    for _ in 1 2 3 4 5; do
        took=$(run "$@")
        if [ -z "$least" ] || [ "$took" -lt "$least" ]; then least=$took; fi
    done
    echo "$least"
}
echo "on this machine, five runs, the best:"
took=$(best crates/replay/out/replay)
echo "replay: $lines lines in $((took / 1000)) us, $((lines * 1000000000 / took)) lines a second"
took=$(best dd bs=16384 status=none)
echo "copy:   the same bytes in $((took / 1000)) us"
