#!/usr/bin/env bash
# Exchanges two fields of a struct, or two parameters of a function, that the compiler cannot tell apart, on a copy of the
# Rust side (src/interface.rs, src/library.rs) and of the header: to the library that is the same as if it had them the other
# way round. Each time a test in tests/values.rs must fail, and for fields a C program too. Prints a table of what failed
# (docs/CLAIMS.md). Not part of the gate: some ten seconds for each of about seventy exchanges. Needs cc, cargo and the static
# library, found as build.rs finds it.
set -euo pipefail
cd "$(dirname "$0")"

folder=$(realpath "${TESOLVAGNA_LIB:-../target/staticlib}")
work=$(mktemp -d)
trap 'rm -rf "$work"' EXIT
export TESOLVAGNA_LIB=$folder CARGO_TARGET_DIR=$work/target

[[ -f $folder/libtesolvagna.a ]] || { echo "exchanges: no static library in $folder" >&2; exit 1; }
mkdir "$work/copy" "$work/copy/reference"
cp -r ../include ../examples "$work/copy/"
cp -r Cargo.toml Cargo.lock build.rs src tests c "$work/copy/reference/"
header=$work/copy/include/tesolvagna.h
structs=$work/copy/reference/src/interface.rs
calls=$work/copy/reference/src/library.rs

# The tests of tests/values.rs that fail; a test that ends the process fails too.
failing_tests() {
    local log=$work/log
    if (cd "$work/copy/reference" && cargo test --offline --locked --quiet --no-run --test values) >"$log" 2>&1; then
        (cd "$work/copy/reference" && cargo test --offline --locked --test values) >"$log" 2>&1 || true
        sed -n 's/^test \([a-z_0-9]*\) \.\.\. FAILED$/`\1`/p' "$log" | sort | paste -sd, | sed 's/,/, /g'
        grep -q 'test result' "$log" || echo "(the process)"
    else
        echo "does not compile"
        tail -n 20 "$log" >&2
    fi
}

# The C programs that fail.
failing_programs() {
    local name
    for name in header beacons acks; do
        cc -std=c99 -I "$work/copy/include" "c/$name.c" "$folder/libtesolvagna.a" -o "$work/$name" 2>"$work/log" \
            && "$work/$name" >"$work/log" 2>&1 || echo "\`$name.c\`"
    done | paste -sd, | sed 's/,/, /g'
}

# Pairs of fields of one size, as lines: struct in C, first field, second field.
field_pairs() {
    awk '
        / pub struct / { match($0, /\("[a-z_]*"\)/); name = substr($0, RSTART + 2, RLENGTH - 4); count = 0 }
        / pub [a-z_]*: / {
            field = $2; sub(/:$/, "", field)
            kind = $3 $4; sub(/,$/, "", kind); sub(/^bool$/, "u8", kind); sub(/^usize$/, "u64", kind)
            for (i = 1; i <= count; i++) if (kinds[i] == kind) print name, fields[i], field
            fields[++count] = field; kinds[count] = kind
        }' src/interface.rs
}

# Exchanges the lines of two fields between a line that begins a struct and the brace that ends it.
exchange_lines() { # FILE BEGINNING FIRST SECOND
    awk -v beginning="$2" -v first="$3" -v second="$4" '
        function has(line, name) { return line ~ ("(^|[ *])" name "(:|;|\\[)") && line !~ /^ *(\/\*|\*|\/\/)/ }
        { lines[NR] = $0 }
        index($0, beginning) { inside = 1 }
        inside && has($0, first) { one = NR }
        inside && has($0, second) { other = NR }
        inside && /^ *(\}|\))/ { inside = 0 }
        END {
            if (!one || !other) exit 1
            held = lines[one]; lines[one] = lines[other]; lines[other] = held
            for (i = 1; i <= NR; i++) print lines[i]
        }' "$1" >"$work/changed"
    cp "$work/changed" "$1"
}

# Exchanges two parameters of a function: in its declaration, in one line or one line each, and where it is called.
exchange_parameters() { # FUNCTION FIRST SECOND
    if grep -q "fn $1($" "$calls"; then
        exchange_lines "$calls" "fn $1(" "$2" "$3"
    else
        sed -i "/fn $1(/s/\($2: [a-z0-9]*\)\(.*\)\($3: [a-z0-9]*\)/\3\2\1/" "$calls"
    fi
    sed -i "/fn /!{/ $1(/s/\([( ]\)$2\([,)].*[( ]\)$3\([,)]\)/\1$3\2$2\3/}" "$calls"
}

restore() {
    cp ../include/tesolvagna.h "$header"
    cp src/interface.rs "$structs"
    cp src/library.rs "$calls"
}

tried=0 unnoticed=0
row() { # WHAT TESTS PROGRAMS
    echo "| $1 | $2 | $3 |"
    tried=$((tried + 1))
    if [[ -z $2 || $2 == *compile* || -z $3 ]]; then
        unnoticed=$((unnoticed + 1))
        echo "exchanges: unnoticed: $1" >&2
    fi
}

# Nothing fails before.
[[ -z $(failing_tests)$(failing_programs) ]] || { echo "exchanges: a test fails without an exchange" >&2; exit 1; }

echo "| Exchanged | Tests that fail (\`tests/values.rs\`) | C programs that fail |"
echo "|---|---|---|"
while read -r name first second; do
    exchange_lines "$structs" "(\"$name\")" "$first" "$second"
    exchange_lines "$header" "struct tesolvagna_$name {" "$first" "$second"
    row "\`$name\`: \`$first\`, \`$second\`" "$(failing_tests)" "$(failing_programs)"
    restore
done < <(field_pairs)

# C has no names for arguments, so that parameters are exchanged in Rust alone. Those of tesolvagna_channel cannot be told apart:
# its answer depends on (asn + channel_offset) mod 16 alone, also with either of them cut to 16 bits.
while read -r function first second; do
    exchange_parameters "$function" "$first" "$second"
    cmp -s src/library.rs "$calls" && { echo "exchanges: $function is not changed" >&2; exit 1; }
    row "\`$function\`: \`$first\`, \`$second\`" "$(failing_tests)" "-"
    restore
done <<'END'
tesolvagna_table_advertise id rank
tesolvagna_table_report id attempts
tesolvagna_table_report id acknowledged
tesolvagna_table_report attempts acknowledged
tesolvagna_slot_decide size sequence_id
tesolvagna_slot_decide size asn
tesolvagna_slot_decide size waits
tesolvagna_slot_decide sequence_id asn
tesolvagna_slot_decide sequence_id waits
tesolvagna_slot_decide asn waits
tesolvagna_increment attempts acknowledged
END

# The lists of a log that have one type.
sed -i '/tesolvagna_table_replay($/,/)$/{s/ kinds\./ held./;s/ flags\./ kinds./;s/ held\./ flags./}' "$calls"
cmp -s src/library.rs "$calls" && { echo "exchanges: the log is not changed" >&2; exit 1; }
row "\`tesolvagna_table_replay\`: \`kinds\`, \`flags\`" "$(failing_tests)" "-"
restore

echo
echo "$tried exchanges, $unnoticed unnoticed"
[[ $tried -gt 0 && $unnoticed -eq 0 ]]
