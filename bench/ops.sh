#!/usr/bin/env bash
# How long a run of 100,000 ops of one client takes, half of them reads of one block of 16 bytes, printing included, and
# its memory: wanted in under two seconds on one core, at most 2.3 times as long as half the ops, and in less than 64 MiB
# beyond the image and the text.
set -euo pipefail
top=$(cd "$(dirname "$0")/.." && pwd)
work=$(mktemp -d)
trap 'rm -rf "$work"' EXIT
"$top/bin/lightrun" run <"$top/examples/first.json" >"$work/first"

# A get, a write and a read of one block in turn, and a put.
script() {
    awk -v ops="$1" 'BEGIN {
        printf "{\"version\":1,\"images\":[{\"name\":\"m\",\"block\":16,\"blocks\":1024}],"
        printf "\"clients\":[{\"name\":\"a\",\"depth\":32,\"ops\":[[\"get\",\"m\"]"
        for (i = 0; i < ops - 2; i++) {
            block = int(i / 2) % 1024
            if (i % 2) printf ",[\"read\",\"m\",%d,1]", block
            else printf ",[\"write\",\"m\",%d,1,\"%08x\"]", block, i
        }
        printf ",[\"put\",\"m\"]]}],\"pool\":{\"small\":4,\"large\":1}}"
    }'
}

for ops in 50000 100000; do
    script "$ops" >"$work/script.json"
    taskset -c 0 python3 - "$top/crates/lightrun/out/lightrun" "$work/script.json" "$work/report" "$ops" <<'MEASURE'
import os, resource, subprocess, sys, time
program, script, report, ops = sys.argv[1:]
best = None
for _ in range(5):
    with open(script, 'rb') as source, open(report, 'wb') as text:
        begin = time.time()
        subprocess.run([program, 'run'], stdin=source, stdout=text, check=True)
        taken = time.time() - begin
    best = taken if best is None else min(best, taken)
most = resource.getrusage(resource.RUSAGE_CHILDREN).ru_maxrss / 1024
size = os.path.getsize(report) / 2 ** 20
print(f'{ops} ops: {best:.3f} s, {most:.0f} MiB of memory at most, {size:.1f} MiB of text')
MEASURE
done
