#!/usr/bin/env bash
# How long the program takes to read large scripts, which it then refuses as not built: one of 100,000 ops over 64
# clients and 16 images, wanted in under 0.5 s on one core, and one of 16 MiB, wanted in under 1.5 s. Twice the ops are
# wanted in at most 2.3 times as long. Best of 5; the seconds are with the program's start.
set -eu
top=$(cd "$(dirname "$0")/.." && pwd)
work=$(mktemp -d)
trap 'rm -rf "$work"' EXIT
"$top/bin/lightrun" run <"$top/examples/first.json" >"$work/first"

# A script of so many ops over 64 clients and 16 images, each pattern of so many digits.
script() {
    awk -v ops="$1" -v digits="$2" 'BEGIN {
        printf "{\"version\":1,\"images\":["
        for (d = 0; d < 16; d++) printf "%s{\"name\":\"image-%d\",\"block\":512,\"blocks\":1024}", (d ? "," : ""), d
        printf "],\"clients\":["
        while (length(pattern) < digits) pattern = pattern "0123456789abcdef"
        pattern = substr(pattern, 1, digits)
        for (c = 0; c < 64; c++) {
            printf "%s{\"name\":\"client-%d\",\"depth\":8,\"ops\":[", (c ? "," : ""), c
            first = int(ops * c / 64); last = int(ops * (c + 1) / 64)
            for (k = first; k < last; k++)
                if (k % 4 == 3) printf "%s[\"flush\",\"image-%d\"]", (k > first ? "," : ""), k % 16
                else printf "%s[\"write\",\"image-%d\",%d,1,\"%s\"]", (k > first ? "," : ""), k % 16, k % 1024, pattern
            printf "]}"
        }
        printf "],\"pool\":{\"small\":4,\"large\":1}}\n"
    }'
}

script 50000 8 >"$work/half.json"
script 100000 8 >"$work/ops.json"
# the same ops with longer patterns, and spaces up to the limit
script 100000 128 >"$work/large.json"
size=$(stat -c %s "$work/large.json")
[ "$size" -le 16777216 ]
head -c $((16777216 - size)) /dev/zero | tr '\0' ' ' >>"$work/large.json"

seconds() {
    local best=999 begin end i
    for i in 1 2 3 4 5; do
        begin=$(date +%s.%N)
        taskset -c 0 "$top/crates/lightrun/out/lightrun" run <"$1" >"$work/out" 2>"$work/error" || true
        end=$(date +%s.%N)
        [ "$(cat "$work/error")" = "script: not built" ] || { echo "another end: $(cat "$work/error")" >&2; exit 1; }
        best=$(echo "$begin $end $best" | awk '{t = $2 - $1; print (t < $3 ? t : $3)}')
    done
    echo "$best"
}

half=$(seconds "$work/half.json")
ops=$(seconds "$work/ops.json")
large=$(seconds "$work/large.json")
echo "$half $ops $large" | awk '{
    printf "50000 ops: %.3f s\n100000 ops: %.3f s, %.2f times as long\n16 MiB: %.3f s\n", $1, $2, $2 / $1, $3
}'
