#!/usr/bin/env bash
# How long a walk of 16 MiB over 81 threads takes: wanted in under five seconds on one core, and linear in its length.
set -euo pipefail
top=$(cd "$(dirname "$0")/.." && pwd)
work=$(mktemp -d)
trap 'rm -rf "$work"' EXIT
"$top/bin/lightrun" run <"$top/examples/first.json" >"$work/first"

# Events of all kinds over 81 threads, 16 reactors and 16 devices, as many bytes as fit.
walk() {
    awk -v most="$1" 'BEGIN {
        kinds = split("send send run run send run leave arrive give destroy visit unvisit sleep wake shut fire end", kind, " ")
        text = "world 81 16 16\n"
        size = length(text)
        printf "%s", text
        state = 1
        while (1) {
            state = (state * 1103515245 + 12345) % 2147483648
            a = int(state / 65536) % 81
            state = (state * 1103515245 + 12345) % 2147483648
            b = int(state / 65536) % 81
            k = kind[1 + int(state / 524288) % kinds]
            if ((k == "end" || k == "shut") && rare++ % 5000) k = "send"
            if (k == "send" || k == "run") text = k " " a " " b
            else if (k == "arrive" || k == "end") text = k " " a
            else if (k == "sleep" || k == "wake") text = k " " b % 16
            else text = k " " a " " b % 16
            if (size + length(text) + 1 > most) exit
            size += length(text) + 1
            print text
        }
    }'
}

for size in 8388608 16777216; do
    walk "$size" >"$work/walk"
    best=999
    for _ in 1 2 3; do
        begin=$(date +%s.%N)
        taskset -c 0 "$top/crates/lightrun/out/lightrun" walk <"$work/walk" >"$work/answer"
        end=$(date +%s.%N)
        best=$(echo "$begin $end $best" | awk '{t = $2 - $1; print (t < $3 ? t : $3)}')
    done
    echo "$(stat -c %s "$work/walk") bytes, $(wc -l <"$work/walk") lines, $(grep -c ' ok$' "$work/answer") accepted: $best s"
done
