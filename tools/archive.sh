#!/bin/sh
# Proves the machine and writes the archive for C and for Rust, crates/kevrespil_c/out/libkevrespil.a: what `rt lib` makes
# of the crate kevrespil_c, under the name that C callers link. rt's own words go to standard output.
set -u
cd "$(dirname "$0")/.." || exit 2
name=tools/archive.sh
. tools/kit.sh
find_kit || exit 2
made=crates/kevrespil_c/out/libkevrespil_c.a
rm -f "$made" crates/kevrespil_c/out/libkevrespil.a
(cd crates/kevrespil_c && "$rt" lib) && cp "$made" crates/kevrespil_c/out/libkevrespil.a
