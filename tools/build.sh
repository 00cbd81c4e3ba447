#!/bin/sh
# Proves crates and what they stand on, and puts what is built of each where the hosts, the tests and the installation look for it:
# a program at target/bin/NAME, the archive of the crate hullashlar_c at target/staticlib/libhullashlar.a, and that of another static
# library at target/staticlib/libNAME.a. All is code for every x86-64, with SSE2. A program is built where it runs; here it runs on an
# empty input, and what it prints is dropped.
# usage: tools/build.sh NAME..
set -eu
cd "$(dirname "$0")/.."
mkdir -p target/bin target/staticlib
for crate in "$@"; do
    out=crates/$crate/out
    if [ -f "crates/$crate/src/main.rt" ]; then
        (cd "crates/$crate" && rt run --cpu x86-64 < /dev/null > /dev/null)
        cp "$out/$crate" target/bin/
    else
        (cd "crates/$crate" && rt lib --cpu x86-64)
        cp "$out/lib$crate.a" "target/staticlib/lib${crate%_c}.a"
    fi
done
