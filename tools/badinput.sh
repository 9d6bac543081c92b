#!/usr/bin/env bash
# Bad input for `replay`: truncated, binary, huge and empty inputs, a closed output, a read error. No crash, no hang, and
# nothing written that is not an answer. The front door builds the program where it must. REPLAY names another command.
set -u
cd "$(dirname "$0")/.."
name=tools/badinput.sh
. tools/kit.sh
find_kit || exit 2
replay=${REPLAY:-}
if [ -z "$replay" ]; then
    ./kevrespil replay /dev/null || exit 2
    replay=$(program_of replay)
fi
work=$(mktemp -d)
trap 'rm -rf "$work"' EXIT
passed=0
failed=0
# answers NAME STATUS LINES: the run ended with that status and wrote that many lines, all of them answers
answers() {
    local wrong
    wrong=$(grep -avcE '^[0-9a-f]{20}$' "$work/out")
    if [ "$2" = 0 ] && [ "$wrong" = 0 ] && [ "$(wc -l < "$work/out")" = "$3" ]; then
        passed=$((passed + 1))
    else
        failed=$((failed + 1))
        echo "$1: status $2, $(wc -l < "$work/out") lines for $3, $wrong of them no answers"
    fi
}
run() { timeout 60 $replay < "$work/in" > "$work/out"; }

: > "$work/in"; run; answers empty $? 0
printf '01000000' > "$work/in"; run; answers truncated $? 1
printf '0100000000000000000000000000' > "$work/in"; run; answers "no newline" $? 1
head -c 3000000 /dev/urandom > "$work/in"; printf '\n' >> "$work/in"; run; answers binary $? "$(tr -cd '\n' < "$work/in" | wc -c)"
head -c 50000000 /dev/zero > "$work/in"; run; answers "one huge line" $? 1
yes '' | head -n 2000000 > "$work/in"; run; answers "empty lines" $? 2000000
yes 'ffffffffffffffffffffffffffff' | head -n 1000000 > "$work/in"; run; answers "unknown kinds" $? 1000000
{ head -c 16383 /dev/zero | tr '\0' 'a'; printf '\n0100000000000000000000000000\n'; } > "$work/in"; run; answers "a line at a block's end" $? 2
timeout 60 $replay < / > "$work/out" 2> /dev/null; answers "read error" $? 0
yes '0100000000000000000000000000' | head -n 3000000 > "$work/in"
timeout 60 $replay < "$work/in" 2> /dev/null | head -n 1 > "$work/out"; answers "closed output" "${PIPESTATUS[1]}" 1
timeout 60 $replay < "$work/in" > /dev/full 2> /dev/null; status=$?; : > "$work/out"; answers "full output" "$status" 0
timeout 60 $replay < "$work/in" >&- 2> /dev/null; status=$?; : > "$work/out"; answers "no output" "$status" 0
timeout 60 $replay <&- > "$work/out" 2> /dev/null; answers "no input" $? 0
echo "$passed passed, $failed failed"
[ "$failed" = 0 ]
