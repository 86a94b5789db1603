#!/usr/bin/env bash
# How long the program takes beyond its start: for a write and a read of 131,072 bytes on an image of 16 MiB, and for
# a script behind as many spaces as its limit leaves. Each is wanted in under one second on one core.
set -eu
top=$(cd "$(dirname "$0")/.." && pwd)
work=$(mktemp -d)
trap 'rm -rf "$work"' EXIT
"$top/bin/lightrun" run <"$top/examples/first.json" >"$work/first"

cat >"$work/large.json" <<'SCRIPT'
{"version":1,"images":[{"name":"m","block":4096,"blocks":4096}],"clients":[{"name":"a","depth":4,"ops":[["get","m"],["write","m",8,32,"0123456789abcdef"],["read","m",8,32],["put","m"]]}],"pool":{"small":4,"large":1}}
SCRIPT
size=$(stat -c %s "$top/examples/first.json")
{ head -c $((16777216 - size)) /dev/zero | tr '\0' ' '; cat "$top/examples/first.json"; } >"$work/spaces.json"

seconds() {
    local best=999 begin end i
    for i in 1 2 3; do
        begin=$(date +%s.%N)
        taskset -c 0 "$top/crates/lightrun/out/lightrun" run <"$1" >"$work/out"
        end=$(date +%s.%N)
        best=$(echo "$begin $end $best" | awk '{t = $2 - $1; print (t < $3 ? t : $3)}')
    done
    echo "$best"
}

start=$(seconds "$top/examples/first.json")
for case in large spaces; do
    taken=$(seconds "$work/$case.json")
    echo "$case $taken $start" | awk '{printf "%s: %.3f s, of which the start is %.3f s\n", $1, $2, $3}'
done
