#!/bin/sh
# The library for C and Rust: builds the archive, runs the C program of tools/library.c and the tests and the example of
# rust/ on it. What has no compiler here is skipped, with the reason. The last line is 'N passed, M failed', and the status
# is 0 if M is.
set -u
cd "$(dirname "$0")/.." || exit 2
name=tools/library.sh
. tools/kit.sh
find_kit || exit 2
work=$(mktemp -d) || exit 2
trap 'rm -rf "$work"' EXIT
passed=0 failed=0 skipped=''

# What a program said: its last line has the numbers.
count() { # NAME FILE STATUS
    last=$(sed -n 's/^\([0-9]*\) passed, \([0-9]*\) failed$/\1 \2/p' "$2" | tail -n 1)
    if [ -z "$last" ] || { [ "$3" -ne 0 ] && [ "${last#* }" -eq 0 ]; }; then
        echo "$1 failed with status $3:"
        cat "$2"
        failed=$((failed + 1))
        return
    fi
    [ "${last#* }" -eq 0 ] || cat "$2"
    echo "$1: ${last% *} passed, ${last#* } failed"
    passed=$((passed + ${last% *})) failed=$((failed + ${last#* }))
}

# A test that is passed by a status of 0.
holds() { # NAME FILE STATUS
    if [ "$3" -eq 0 ]; then
        echo "$1: passed"
        passed=$((passed + 1))
    else
        echo "$1 failed with status $3:"
        cat "$2"
        failed=$((failed + 1))
    fi
}

skip() {
    echo "$1 skipped: $2"
    skipped="$skipped, $1"
}

finish() {
    [ -z "$skipped" ] || echo "skipped: ${skipped#, }"
    echo "$passed passed, $failed failed"
    [ "$failed" -eq 0 ]
    exit
}

echo "the archive: tools/archive.sh"
archive=crates/kevrespil_c/out/libkevrespil.a
tools/archive.sh >"$work/said" 2>&1
status=$?
if [ "$status" -eq 0 ]; then
    for symbol in kevrespil_start kevrespil_step; do
        LC_ALL=C grep -aq "$symbol" "$archive" || { echo "$archive has no $symbol" >>"$work/said" && status=1; }
    done
    grep -q '^logic=proved' "$work/said" || status=1
fi
holds "the archive, proved and built" "$work/said" "$status"
[ "$status" -eq 0 ] || finish

cc=$(command -v cc || command -v gcc || command -v clang) || cc=''
if [ -z "$cc" ]; then
    skip "the C program" "there is no C compiler (cc, gcc or clang)"
else
    "$cc" -std=c11 -Wall -Wextra -Werror -Iinclude -o "$work/library" tools/library.c "$archive" >"$work/said" 2>&1 &&
        "$work/library" >"$work/said" 2>&1
    count "the C program" "$work/said" $?
fi
if ! command -v cargo >/dev/null; then
    skip "the Rust tests" "there is no cargo"
else
    (cd rust && cargo test --offline --quiet --test library) >"$work/said" 2>&1
    count "the Rust tests" "$work/said" $?
    (cd rust && cargo test --offline --quiet --doc) >"$work/said" 2>&1
    holds "the example in the crate's text" "$work/said" $?
    (cd rust && cargo run --offline --quiet --example turns) >"$work/said" 2>&1
    holds "the example turns" "$work/said" $?
fi
finish
