#!/usr/bin/env bash
# Prints gives and releases per second of a device's latch, beside the same two additions on a bare word, with their ratio:
# on one machine thread and on three. The word is the number of gives a run.
set -euo pipefail
rounds=${1:-3000000}
bench=$(cd "$(dirname "$0")" && pwd)
cd "$bench/../crates/device_bench" && rt run -- measure "$rounds"
