#!/bin/sh
# The listings of days/. `tools/days.sh` compares each with what ./kevrespil read says of its replay; `tools/days.sh write`
# writes them. The long ones are shown in parts. The last line is 'N passed, M failed', and the status is 0 if M is.
set -u
cd "$(dirname "$0")/.." || exit 2

listing() { # DAY
    case $1 in
    storm)
        part "$1" --to 65
        part "$1" --from 9037 --to 9080
        part "$1" --from 9308 --to 9322
        part "$1" --from 11060
        ;;
    stalled)
        part "$1" --to 55
        part "$1" --from 9029 --to 9108
        part "$1" --from 11097
        ;;
    *) part "$1" ;;
    esac
}
part() { # DAY OPTIONS
    day=$1
    shift
    ./kevrespil read "$@" "days/$day.replay"
}

passed=0 failed=0
work=$(mktemp) || exit 2
trap 'rm -f "$work"' EXIT
for file in days/*.replay; do
    one=$(basename "$file" .replay)
    listing "$one" >"$work" || exit 2
    if [ "${1:-}" = write ]; then cp "$work" "days/$one.txt" || exit 2; fi
    if cmp -s "$work" "days/$one.txt"; then
        passed=$((passed + 1))
    else
        echo "days/$one.txt is not the listing of days/$one.replay (< as written, > as it is now):"
        diff "days/$one.txt" "$work" | head -n 10
        failed=$((failed + 1))
    fi
done
echo "$passed passed, $failed failed"
[ "$failed" -eq 0 ]
