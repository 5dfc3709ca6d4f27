#!/usr/bin/env bash
# Prints what the library takes besides time, as tables for docs/SPEED.md: the stack of each exported call (c/stack.c) and the
# code of each function. Not part of the gate. Needs cc, nm and the static library, found as build.rs finds it.
set -euo pipefail
cd "$(dirname "$0")"

archive=${TESOLVAGNA_LIB:-../target/staticlib}/libtesolvagna.a
work=$(mktemp -d)
trap 'rm -rf "$work"' EXIT

[[ -f $archive ]] || { echo "footprint: no static library at $archive" >&2; exit 1; }
cc -std=c99 -O2 -maccumulate-outgoing-args -Wall -Wextra -Wconversion -Wpedantic -Werror -I ../include c/stack.c "$archive" \
    -o "$work/stack"
echo "Stack in bytes, of several inputs the most:"
echo
"$work/stack"

echo
echo "Code in bytes by function, those that C can call first; what is inlined counts where it is:"
echo
echo "| Function | bytes |"
echo "|---|---|"
nm -S -t d --size-sort --reverse-sort "$archive" 2>/dev/null | awk '
    $3 == "T" { exported[++outer] = "| `" $4 "` | " $2 + 0 " |"; sum += $2 }
    $3 == "t" { inner[++locals] = "| inside: `" $4 "` | " $2 + 0 " |"; sum += $2 }
    END {
        for (i = 1; i <= outer; i++) print exported[i]
        for (i = 1; i <= locals; i++) print inner[i]
        print "| all functions | " sum + 0 " |"
    }'
size -A "$archive" | awk '
    $1 ~ /^\.rodata/ { constants += $2 }
    $1 ~ /^\.(data|bss)/ { variables += $2 }
    END { print "| constants | " constants + 0 " |"; print "| variables | " variables + 0 " |" }'
