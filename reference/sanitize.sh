#!/usr/bin/env bash
# Looks for memory errors of the library's readers and writers: every frame of the differential tests is read from C under
# valgrind, as a beacon and as an acknowledgement, in a heap block of exactly its size, and the record of an accepted one is
# written into a block of just enough bytes (c/frames.c). The other C programs run under it too, so that no field of an answer
# is left unwritten. An address sanitizer would not do: it sees only what it compiled.
# Not part of the gate. Needs valgrind, cc, cargo and the static library, found as build.rs finds it.
set -euo pipefail
cd "$(dirname "$0")"

folder=${TESOLVAGNA_LIB:-../target/staticlib}
work=$(mktemp -d)
trap 'rm -rf "$work"' EXIT

fail() {
    echo "sanitize: failed: $1"
    exit 1
}

command -v valgrind >/dev/null || fail "no valgrind"
[[ -f $folder/libtesolvagna.a ]] || fail "no static library at $folder/libtesolvagna.a"
for name in frames header beacons acks; do
    cc -std=c99 -g -O1 -Wall -Wextra -Wconversion -Wpedantic -Werror -I ../include "c/$name.c" "$folder/libtesolvagna.a" \
        -o "$work/$name"
done
cargo build --release --offline --locked --quiet --bin dump_frames

dump() {
    cargo run --release --offline --locked --quiet --bin dump_frames
}

# A wide zone around each block, and no leave for a load that is only partly inside.
check() { # PROGRAM ARGUMENT..
    valgrind --quiet --error-exitcode=9 --redzone-size=1024 --partial-loads-ok=no "$work/$1" "${@:2}"
}

# The set-up must find an error that is there. The writer is cut off when the reader ends.
dump 2>/dev/null | check frames probe >"$work/probe" 2>&1 || true
grep -q "Invalid read of size 1" "$work/probe" || fail "valgrind did not find a read behind a frame"

check header || fail "c/header.c"
check beacons || fail "c/beacons.c"
check acks || fail "c/acks.c"
dump | check frames | tee "$work/verdict" || fail "see above"
echo "sanitize: passed: $(cat "$work/verdict"), no memory error"
