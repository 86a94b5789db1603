#!/usr/bin/env bash
# How long a report of 100 MB takes to be read, most of it `ran` lines, and how much memory: wanted in under five seconds
# on one core, and in at most four times the text. `check` reads it whole, and its second rule fails at the first of the
# added lines, so that hardly more than the reading is measured. A report of half the size shows that twice the text takes
# twice as long.
set -euo pipefail
top=$(cd "$(dirname "$0")/.." && pwd)
work=$(mktemp -d)
trap 'rm -rf "$work"' EXIT
"$top/bin/lightrun" run <"$top/examples/first.json" >"$work/first"

# The example's report with so many more messages that the app ran.
report() {
    sed -n '1,14p' "$work/first"
    awk -v lines="$1" 'BEGIN { for (i = 0; i < lines; i++) print "ran 1 " i + 1 " request 3" }'
    sed -n '15,$p' "$work/first"
}

for lines in 2200000 4400000; do
    report "$lines" >"$work/report"
    taskset -c 0 python3 - "$top/crates/lightrun/out/lightrun" "$work/report" <<'MEASURE'
import os, resource, subprocess, sys, time
program, report = sys.argv[1:]
size = os.path.getsize(report)
best = None
for _ in range(3):
    with open(report, 'rb') as text:
        begin = time.time()
        said = subprocess.run([program, 'check'], stdin=text, capture_output=True).stderr
        taken = time.time() - begin
    assert said == b'unlawful: clause 2 line 15\n', said
    best = taken if best is None else min(best, taken)
most = resource.getrusage(resource.RUSAGE_CHILDREN).ru_maxrss * 1024
print(f'{size} bytes: {best:.2f} s, {most / size:.2f} times the text in memory')
MEASURE
done
