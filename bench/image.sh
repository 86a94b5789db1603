#!/usr/bin/env bash
# Prints reads and writes of 131,072 bytes of an image per second, beside plain copies of as many, with their ratio. The word
# is the number of reads a run.
set -euo pipefail
rounds=${1:-20000}
bench=$(cd "$(dirname "$0")" && pwd)
cd "$bench/../crates/pool_bench" && rt run -- image "$rounds"
