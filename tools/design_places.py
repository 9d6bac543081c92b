#!/usr/bin/env python3
"""Counts, point by point, the places in src/ that still have an older form (docs/DESIGN-PASS.md).

    python3 tools/design_places.py [COMMIT] [--list POINT]

Of a commit, or of the working tree. It goes by text: a place is a line that one of the point's patterns fits.
`--list` prints the places themselves.
"""
import re
import subprocess
import sys

POINTS = {
    "1": [
        # numbers that stand for a kind
        r"^\s*(pub )?const (?!RECORDS|SOURCES|NODES|THREADS|SHARDS|STEPS|HEAD_CELLS|COUNTER_CELLS|REFUSES|HOLDER|FLOOR|LARGEST|PERIOD"
        r"|MOST|ROW|RECORD\b|WORDS|ANSWER|EXPECTED|BEHIND|ROOM|BLOCK|CELLS|LINE_END|THREAD_END|NAME|PURPOSE|ACCESS|CUT)[A-Z0-9_]+: u(8|32|64) = \d+;",
        r"^\s*(pub )?const (FREE|LIVE|WAITING|RECORD): u32 = \d+;",
        # answers and refusals by number
        r"\breturn (1[6-9]|2[0-9]);", r"^\s*(1[6-9]|2[0-9])$", r"\bnumber: (\d+|n|e\.number)\b", r"\bnumber == (25|26|29)\b", r"^\s*(1?\d|2\d) => (?!Ok\()",
        r"\b(answers|ends|ends_puts|ends_links|ends_puts_links|effect)\((\w+, )?(0|2|3|4|25|26|29),", r"\b(answer|n) == (1|25|26|0)\b",
        r"fn (or_else|own|not_\w+|retire_by|busy_by|busy|refusal|refuse_by|refuse)\(.*-> u32",
        # a flag with a value beside it
        r"^\s*(pub )?(writes|open|whole|found|more|is_\w+): bool,",
        # 0, or a number past the end, for none
        r"^\s*(pub )?(untaken|busy|mark|source): u(32|64),", r"-> u32.*; 0 (if|for|of)\b",
    ],
    "2": [
        r"^\s*(pub )?fn (part|copy|read|put)(32|64)\b", r"^\s*(pub )?fn (put_)?(id|word)(_from|_in)?\(",
        r"^\s*(pub )?fn (quiet|puts|links|puts_links|ends|ends_puts|ends_links|ends_puts_links|effect)\(",
        r"^\s*(pub )?fn (digit|hex|put|width|idle|fresh|cut|wide|number|say|show|word|copy|put_in|read_in|put_part|put_counter|is_hex|all_hex|all_digits|is_digit)\(",
    ],
    "3": [r"^\s*while (?!let)", r"\bturns (-=|=)", r"^\s*for \w+ in 0\.\.\w+\.len\(\)"],
    "4": [
        r"^\s*(pub )?fn (wide|cut|bit|digit|hex|name|which|verb|object|update|operation|place|purpose|cell|cell_at|window|out_of|none|no_such|plainly|no_node|swapped|fault|visible|content|record|node|available|signed)\(",
        r"wrapping_add_(u64|usize)\(", r"^\s*(\w+): \1,$",
    ],
    "5": [
        r"^\s*guards: &(mut )?\[u64\],", r"\bids: &(mut )?\[u32\], (next|state|words): ", r"\b(text|out): &mut \[u8\], at: usize", r"^\s*(s|o): (State|Out),?$",
        r"\bout: &mut \[u8\], (o: Out|s: State)", r"^fn \w+_by\(", r"\bt: u32,? flag: bool",
    ],
    "6": [
        r"struct (Window|Line|Out|Gathered|Kept|Block|Ending|Count|Options|Progress|State)\b", r"\bbytes: &\[u8\], at: usize", r"\bnth\($|\bnth\(text",
        r"let from = 0usize;",
    ],
    "7": [r"^\s*match (at|p|table|k|n) \{", r"^\s*if table == "],
    "8": [],
}


def run(*words):
    return subprocess.run(words, check=True, capture_output=True, text=True).stdout


def files(commit, ending):
    if commit:
        for name in run("git", "ls-tree", "-r", "--name-only", commit).split("\n"):
            if name.startswith("crates/") and name.endswith(ending):
                yield name, run("git", "show", f"{commit}:{name}")
    else:
        for name in run("git", "ls-files", "-co", "--exclude-standard", "crates").split("\n"):
            if name.endswith(ending):
                try:
                    yield name, open(name, encoding="utf-8").read()
                except FileNotFoundError:
                    pass


def main():
    words = [w for w in sys.argv[1:] if not w.startswith("--")]
    listed = None
    if "--list" in sys.argv:
        listed = sys.argv[sys.argv.index("--list") + 1]
        words.remove(listed)
    commit = words[0] if words else None
    sources = [(n, t) for n, t in files(commit, ".rt") if "/src/" in n]
    for point, patterns in POINTS.items():
        if point == "8":
            proofs = [n for n, _ in files(commit, ".antt") if n.endswith(("/Answers.antt", "/Invariants.antt"))]
            print(f"point 8: {len(proofs)} files of answers and invariants")
            continue
        fits = [re.compile(p) for p in patterns]
        count = 0
        for name, text in sources:
            for k, line in enumerate(text.split("\n"), 1):
                if any(f.search(line) for f in fits):
                    count += 1
                    if listed == point:
                        print(f"{name}:{k}: {line.strip()}")
        print(f"point {point}: {count}")


main()
