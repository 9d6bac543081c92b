#!/bin/sh
# Tries every command of ./kevrespil, and every way in which one can fail. Needs the kit, and proves what is not proved
# yet. The last line is 'N passed, M failed', and the status is 0 if M is.
set -u
cd "$(dirname "$0")/.." || exit 2
root=$(pwd -P)
name=tools/frontdoor.sh
. tools/kit.sh
find_kit || exit 2
work=$(mktemp -d) || exit 2
chmod 755 "$work"
trap 'chmod -R u+w "$work"; rm -rf "$work"' EXIT
passed=0 failed=0

pass() { passed=$((passed + 1)); }
fail() {
    failed=$((failed + 1))
    echo "$1"
    sed 's/^/    out: /' "$work/out" | head -n 5
    sed 's/^/    err: /' "$work/err" | head -n 5
}

# Runs a command, and keeps what it writes.
run() {
    "$@" >"$work/out" 2>"$work/err" </dev/null
    status=$?
}

# The run before: its status, and that a text stands in what it wrote to `out` or `err`.
expect() { # NAME STATUS FILE TEXT
    if [ "$status" -eq "$2" ] && grep -qF -- "$4" "$work/$3"; then pass; else fail "$1: status $status for $2, or no '$4' in $3"; fi
}

# A run that fails says one sentence to standard error and nothing to standard output.
refused() { # NAME TEXT COMMAND...
    what=$1 text=$2
    shift 2
    run "$@"
    if [ "$status" -eq 2 ] && grep -qF -- "$text" "$work/err" && [ ! -s "$work/out" ] && [ "$(wc -l <"$work/err")" -eq 1 ]; then
        pass
    else
        fail "$what: status $status for 2, or not the one sentence '$text'"
    fi
}

same() { # NAME FILE: what was written is the file's
    if [ "$status" -eq 0 ] && cmp -s "$work/out" "$2"; then pass; else fail "$1: status $status, or not what is expected"; fi
}

cat >"$work/example" <<'END'
# document 01's example
0100000000000000000000000000
0000000000000000000000000000
0000000000000000000000000000
# a comment in the middle
0000000000000000000000000000
0000000000000000000000000000
END
cat >"$work/answers" <<'END'
01000000000000000000
00000000000000000000
00000000000000000000
00000000000000000000
02000000000000000001
END

# ---- what it does
run ./kevrespil help
expect "help" 0 out "./kevrespil replay FILE"
run ./kevrespil
expect "no command" 0 out "./kevrespil test"
run ./kevrespil replay "$work/example"
same "replay" "$work/answers"
./kevrespil replay - <"$work/example" >"$work/out" 2>"$work/err"
status=$?
same "replay of standard input" "$work/answers"
mkdir "$work/a folder" && cp "$work/example" "$work/a folder/a day"
cd "$work/a folder" || exit 2
run "$root/kevrespil" replay "a day"
same "replay from another folder, of a name with a blank" "$work/answers"
ln -s "$root/kevrespil" "$work/door"
run "$work/door" replay "a day"
same "replay through a link" "$work/answers"
cd "$root" || exit 2
printf '0100000000000000000000000000' >"$work/cut"
run ./kevrespil replay "$work/cut"
expect "a last line without newline" 0 out 1c000000000000000001
: >"$work/empty"
run ./kevrespil replay "$work/empty"
same "an empty file" "$work/empty"
run ./kevrespil read days/epoch.replay
same "read" days/epoch.txt
run ./kevrespil read --from 20 --to 27 days/epoch.replay
if [ "$status" -eq 0 ] && [ "$(grep -c '^ *2[0-7] ' "$work/out")" -eq 8 ] && [ "$(grep -c '^ *[0-9]' "$work/out")" -eq 8 ]; then pass; else fail "read --from --to"; fi
run ./kevrespil read days/epoch.replay --thread 2
if [ "$status" -eq 0 ] && [ "$(grep -c '^ *[0-9][0-9]*  *2 ' "$work/out")" -gt 20 ] && ! grep -q '^ *[0-9][0-9]*  *1 ' "$work/out"; then pass; else fail "read --thread"; fi
run ./kevrespil picture days/epoch.replay
expect "picture" 0 out "<!doctype html>"
for _ in 1 2 3 4 5 6 7 8; do cat days/storm.replay; done >"$work/long"
./kevrespil replay "$work/long" 2>"$work/err" | head -n 1 >"$work/out"
status=0
expect "replay into a pipe that is closed" 0 out 0101000000000000000

# ---- what it refuses
refused "an unknown command" "there is no command dance" ./kevrespil dance
refused "replay without a file" "replay takes one file" ./kevrespil replay
refused "replay of two files" "replay takes one file" ./kevrespil replay a b
refused "read without a file" "read takes a file" ./kevrespil read
refused "read of two files" "here are two" ./kevrespil read a b
refused "picture without a file" "picture takes one file" ./kevrespil picture
refused "test with a word" "test takes no argument" ./kevrespil test now
for command in replay read picture; do
    refused "$command of a file that is not there" "there is no file $work/nowhere" ./kevrespil "$command" "$work/nowhere"
    refused "$command of a folder" "is a folder" ./kevrespil "$command" "$work"
done
refused "a word for a number" "'ten' is none" ./kevrespil read --from ten "$work/example"
refused "a number below 0" "'-1' is none" ./kevrespil read --to -1 "$work/example"
refused "no number" "--thread needs a number behind it" ./kevrespil read "$work/example" --thread
refused "a number twice" "--from is given twice" ./kevrespil read --from 1 --from 2 "$work/example"
refused "an unknown option" "not --form" ./kevrespil read --form 1 "$work/example"
refused "an empty range" "so no line is asked for" ./kevrespil read --from 9 --to 8 "$work/example"
tools=$(for one in sh cat sed dirname basename readlink uname grep mktemp rm; do command -v "$one"; done | sed 's,/[^/]*$,,' | sort -u | tr '\n' ':')
case :$tools in
*:"$(dirname "$rt")":*) mkdir "$work/bin" && for one in sh cat sed dirname readlink uname; do ln -s "$(command -v "$one")" "$work/bin/$one"; done && tools=$work/bin ;;
esac
refused "no kit" "the Rattle kit is missing" env -u RATTLE_HOME PATH="$tools" sh ./kevrespil replay "$work/example"
refused "a kit's folder that is none" "there is no Rattle kit there" env RATTLE_HOME="$work" ./kevrespil replay "$work/example"
mkdir -p "$work/other/bin" && printf '#!/bin/sh\n' >"$work/other/bin/rt" && chmod +x "$work/other/bin/rt"
refused "another program called rt" "is not the Rattle kit's" env RATTLE_HOME="$work/other" ./kevrespil replay "$work/example"
mkdir "$work/arm" && printf '#!/bin/sh\necho aarch64\n' >"$work/arm/uname" && chmod +x "$work/arm/uname"
for command in replay read picture test; do
    file=$work/example
    [ "$command" != test ] || file=''
    refused "$command on another machine" "the Rattle kit is for x86-64, and this machine is aarch64" env PATH="$work/arm:$PATH" ./kevrespil "$command" ${file:+"$file"}
done

# ---- permissions, as a user who is not root
as=''
if [ "$(id -u)" -eq 0 ]; then
    as='setpriv --reuid=65534 --regid=65534 --clear-groups'
    $as true 2>/dev/null || as=none
fi
# A copy of the door, in a folder that has nothing built.
mkdir -p "$work/copy/tools" "$work/copy/crates/replay/src" "$work/copy/crates/read"
cp kevrespil "$work/copy/" && cp tools/kit.sh "$work/copy/tools/" && cp crates.txt "$work/copy/"
cp "$work/example" "$work/secret" && chmod 000 "$work/secret"
chmod 555 "$work/copy/crates/replay" "$work/copy/crates/read"
if [ "$as" = none ] || ! $as test -r "$root/kevrespil" || ! $as test -r "$kit/KIT-ID"; then
    echo "permissions skipped: they need a user other than root who can read $root and $kit"
else
    # shellcheck disable=SC2086
    refused "a file that may not be read" "permission is missing" $as "$work/copy/kevrespil" replay "$work/secret"
    # shellcheck disable=SC2086
    refused "a folder that may not be written" "/out cannot be written" $as "$work/copy/kevrespil" replay "$work/example"
fi
chmod 755 "$work/copy/crates/replay" "$work/copy/crates/read"

# ---- building, with a kit whose rt only pretends
mkdir -p "$work/kit/bin" && touch "$work/kit/KIT-ID"
cat >"$work/kit/bin/rt" <<END
#!/bin/sh
[ "\$1" != ci ] || { echo "5 passed, 0 failed"; exit; }
[ "\$1" = run ] || exit 2
mkdir -p out ../places/out
echo "rt: chose --jobs 2 for places" >&2
sleep "\${PRETEND:-3}" &
wait
[ -z "\${REFUSE:-}" ] || { echo "rt: places NOT PROVED"; exit 1; }
[ -z "\${CHANGE:-}" ] || touch src/changed
one=\$(basename "\$PWD")
cp "$root/crates/\$one/out/\$one" out/
END
chmod +x "$work/kit/bin/rt"
run env RATTLE_HOME="$work/kit" "$work/copy/kevrespil" replay "$work/example"
same "replay that builds first" "$work/answers"
expect "what it is doing" 0 err "proving and building replay, "
expect "which crate it is at" 0 err "s so far: places"
run env RATTLE_HOME="$work/kit" "$work/copy/kevrespil" replay "$work/example"
if [ "$status" -eq 0 ] && [ ! -s "$work/err" ]; then pass; else fail "what is built is not built again"; fi
# What rt wrote, of this crate and of others, is newer than the sources that it read, and is none of them.
touch "$work/copy/crates/places/out/replay" "$work/copy/crates/places" "$work/copy/crates/replay/out"
run env RATTLE_HOME="$work/kit" "$work/copy/kevrespil" replay "$work/example"
if [ "$status" -eq 0 ] && [ ! -s "$work/err" ]; then pass; else fail "what rt writes is no change"; fi
sleep 1
touch "$work/copy/crates/changed"
run env CHANGE=1 RATTLE_HOME="$work/kit" "$work/copy/kevrespil" replay "$work/example"
expect "what has changed is built again" 0 err "proving and building replay, "
run env RATTLE_HOME="$work/kit" "$work/copy/kevrespil" replay "$work/example"
expect "what has changed while it was built is built again" 0 err "proving and building replay, "
rm "$work/copy/crates/replay/src/changed"
run env RATTLE_HOME="$work/kit" "$work/copy/kevrespil" replay "$work/example"
expect "a file that went is a change" 0 err "proving and building replay, "
touch "$work/copy/crates.txt"
cd "$work" || exit 2
run env RATTLE_HOME=kit copy/kevrespil replay example
cd "$root" || exit 2
expect "another crates.txt is a change" 0 err "proving and building replay, "
same "a kit's folder that is named from here" "$work/answers"
touch "$work/copy/crates/changed"
run env REFUSE=1 RATTLE_HOME="$work/kit" "$work/copy/kevrespil" replay "$work/example"
expect "a proof that fails" 1 err "replay could not be proved and built"
rm -f "$work/copy/crates/replay/out/kevrespil-mark"
env PRETEND=77 RATTLE_HOME="$work/kit" "$work/copy/kevrespil" replay "$work/example" >"$work/out" 2>"$work/err" </dev/null &
door=$!
sleep 3
# shellcheck disable=SC2009
before=$(ps -A -o args= | grep -c '^sleep 77')
kill "$door"
wait "$door"
status=$?
sleep 1
# shellcheck disable=SC2009
after=$(ps -A -o args= | grep -c '^sleep 77')
if [ "$status" -eq 143 ] && [ "$before" -eq 1 ] && [ "$after" -eq 0 ]; then pass; else fail "a build that is stopped: status $status, $before helpers before and $after after"; fi

# ---- test, with a gate and scripts that only pretend
mkdir "$work/copy/.ci" && cp .ci/run "$work/copy/.ci/"
for one in badinput days library picture frontdoor; do
    printf '#!/bin/sh\necho "2 passed, 0 failed"\n' >"$work/copy/tools/$one.sh"
    chmod +x "$work/copy/tools/$one.sh"
done
run env RATTLE_HOME="$work/kit" "$work/copy/kevrespil" test
if [ "$status" -eq 0 ] && [ "$(tail -n 1 "$work/out")" = "15 passed, 0 failed" ]; then pass; else fail "test: status $status"; fi
expect "what the tests are at" 0 err "the gate, every proof and every wrong machine"
printf '#!/bin/sh\necho "days are wrong"; echo "1 passed, 1 failed"; exit 1\n' >"$work/copy/tools/days.sh"
printf '#!/bin/sh\necho "there is no compiler"; exit 2\n' >"$work/copy/tools/library.sh"
run env RATTLE_HOME="$work/kit" "$work/copy/kevrespil" test
if [ "$status" -eq 1 ] && [ "$(tail -n 1 "$work/out")" = "12 passed, 2 failed" ]; then pass; else fail "test with failures: status $status"; fi
expect "why a test failed" 1 out "days are wrong"

echo "$passed passed, $failed failed"
[ "$failed" -eq 0 ]
