# Where the Rattle kit is, and where the programs are that it built. Read in by ./kevrespil and by the scripts of this
# folder; it is no command of its own.
# shellcheck shell=sh disable=SC2154

# Sets `rt` (the kit's command) and `kit` (its folder), and puts rt on the PATH. Says what is missing, and fails.
# The caller's name is in `name`.
find_kit() {
    machine=$(uname -m)
    if [ "$machine" != x86_64 ]; then
        echo "$name: the Rattle kit is for x86-64, and this machine is $machine" >&2
        return 1
    fi
    if [ -n "${RATTLE_HOME:-}" ]; then
        rt=$(cd "$RATTLE_HOME" 2>/dev/null && pwd -P) || rt=$RATTLE_HOME
        rt=$rt/bin/rt
        if [ ! -x "$rt" ]; then
            echo "$name: RATTLE_HOME is $RATTLE_HOME, and there is no Rattle kit there" >&2
            return 1
        fi
    else
        rt=$(command -v rt) || {
            echo "$name: the Rattle kit is missing: put its rt on the PATH, or set RATTLE_HOME to the kit's folder" >&2
            return 1
        }
    fi
    at=$rt
    while [ -L "$at" ]; do
        link=$(readlink "$at")
        case $link in /*) at=$link ;; *) at=$(dirname "$at")/$link ;; esac
    done
    kit=$(cd "$(dirname "$at")/.." && pwd -P) || return 1
    if [ ! -f "$kit/KIT-ID" ]; then
        echo "$name: $rt is not the Rattle kit's" >&2
        return 1
    fi
    PATH=$kit/bin:$PATH
}

# Where rt builds a program, from the top of the repository. Any x86-64 Linux with a C library runs it.
program_of() { # NAME
    printf 'crates/%s/out/%s' "$1" "$1"
}
