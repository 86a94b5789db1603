#!/usr/bin/env bash
# Prints takes and give-backs per second of the pool of read buffers, beside pops and pushes of the plain queue, with their
# ratio: on one machine thread and on three. The word is the number of takes a run.
set -euo pipefail
rounds=${1:-3000000}
bench=$(cd "$(dirname "$0")" && pwd)
cd "$bench/../crates/pool_bench" && rt run -- pool "$rounds"
