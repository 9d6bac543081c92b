#!/bin/sh
# The picture: opens pages of 3 operations, of 3,000 and of two days in a browser without a window, and checks that each is
# drawn without an error and has the right number of lanes and bars. The numbers come from the replay and its answers. The
# browser is Chromium (BROWSER names another command); where there is none this says so. The last line is
# 'N passed, M failed', and the status is 0 if M is.
set -u
cd "$(dirname "$0")/.." || exit 2
work=$(mktemp -d) || exit 2
trap 'rm -rf "$work"' EXIT
passed=0 failed=0

pass() { passed=$((passed + 1)); }
fail() {
    failed=$((failed + 1))
    echo "$1"
}
is() { # WHAT, GOT, EXPECTED
    if [ "$2" = "$3" ]; then pass; else fail "$1: $2, and $3 are expected"; fi
}

# Three operations on two threads; 3,000 on three.
cat >"$work/three.replay" <<'END'
0801000000010000000000000007
0001000000000000000000000000
0100000000000000000000000000
0000000000000000000000000000
0000000000000000000000000000
0000000000000000000000000000
0000000000000000000000000000
0300000100010000000000000000
0000000000000000000000000000
0000000000000000000000000000
0000000000000000000000000000
END
awk 'BEGIN {
    for (i = 1; i <= 1000; i++) {
        for (t = 0; t < 3; t++) printf "08%02x0000%04x%016x\n", t, t + 1, i + 1000 * t
        for (t = 2; t >= 0; t--) printf "00%02x%024x\n", t, 0
    }
}' >"$work/many.replay"
cp days/epoch.replay days/linked.replay "$work/"

browser=${BROWSER:-}
for one in chromium chromium-browser google-chrome; do
    [ -z "$browser" ] && command -v "$one" >/dev/null && browser=$one
done
sandbox=''
[ "$(id -u)" -ne 0 ] || sandbox=--no-sandbox

# The page as the browser has it after its script has run.
opened() { # PAGE
    # shellcheck disable=SC2086
    timeout 120 "$browser" --headless=new $sandbox --disable-gpu --user-data-dir="$work/profile" --dump-dom "file://$1" 2>/dev/null
}

for one in three many epoch linked; do
    replay=$work/$one.replay page=$work/$one.html
    ./kevrespil picture "$replay" >"$page" 2>"$work/said" || {
        fail "the picture of $one: $(cat "$work/said")"
        continue
    }
    grep -v '^#' "$replay" >"$work/frames"
    ./kevrespil replay "$replay" >"$work/answers" || fail "the answers of $one"
    is "$one: lines in the page" "$(sed -n '/^<pre id="data"/,/^<\/pre>/p' "$page" | grep -c '^[0-9]')" "$(wc -l <"$work/frames" | tr -d ' ')"
    is "$one: addresses of other pages" "$(grep -o 'https*://[^"'"'"' ]*' "$page" | grep -vc '^http://www.w3.org/2000/svg$')" 0
    [ -n "$browser" ] || continue
    opened "$page" >"$work/dom"
    is "$one: drawn without an error" "$(grep -c '<body data-state="shown"' "$work/dom")$(grep -c 'id="wrong"' "$work/dom")" 10
    is "$one: lanes" "$(grep -o '<g class="lane"' "$work/dom" | wc -l | tr -d ' ')" "$(cut -c 3-4 "$work/frames" | sort -u | wc -l | tr -d ' ')"
    is "$one: bars" "$(grep -oE '<rect class="bar (records|claims|swap|retire|reclaim|shutdown)' "$work/dom" | wc -l | tr -d ' ')" \
        "$(paste -d ' ' "$work/frames" "$work/answers" | grep -v '^00' | grep -cE ' 0[12]')"
done

if [ -z "$browser" ]; then
    echo "the browser skipped: there is no Chromium"
else
    # Lines that are no frames, nor fit into a page as they are.
    printf '<script>x</script>\n0100000000000000000000000000\n\377\001</pre><b>&amp;\n' >"$work/bad.replay"
    ./kevrespil picture "$work/bad.replay" >"$work/bad.html"
    opened "$work/bad.html" >"$work/dom"
    is "bad lines" "$(grep -o '<body data-state="shown".*' "$work/dom" | grep -c 'data-bars="1".*data-refused="2"')" 1
    # A line is asked for by its number, as by pointing at it.
    opened "$work/linked.html#17" | grep -o '<div id="said".*' >"$work/dom"
    is "what a line shows" "$(grep -c 'swap of source 1, node 1' "$work/dom")" 1
fi
echo "$passed passed, $failed failed"
[ "$failed" -eq 0 ]
