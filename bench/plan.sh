#!/usr/bin/env bash
# Prints the nanoseconds that one plan takes of the round with the most rows that a script's run has, on 16 reactors. The word
# is the number of plans a run.
set -euo pipefail
plans=${1:-100000}
bench=$(cd "$(dirname "$0")" && pwd)
cd "$bench/../crates/sched_bench" && rt run -- measure "$plans"
