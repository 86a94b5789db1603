#!/usr/bin/env bash
# Prints messages per second of a ring and of the plain queue, case by case, with their ratio: singly and in runs, on one
# thread and from one to three sending threads, and takes of an empty ring. Then the same of DPDK's rte_ring, of pointers and
# of elements as large as the messages, where the package libdpdk-dev is there. The word is the number of messages a run.
set -euo pipefail
messages=${1:-1000000}
bench=$(cd "$(dirname "$0")" && pwd)
(cd "$bench/../crates/ring_bench" && rt run -- measure "$messages")
if ! pkg-config --exists libdpdk; then
    echo "rte_ring: skipped, since the package libdpdk-dev is not there"
    exit 0
fi
work=$(mktemp -d)
trap 'rm -rf "$work"' EXIT
# shellcheck disable=SC2046
gcc -O3 -pthread $(pkg-config --cflags libdpdk) "$bench/rte_ring.c" -o "$work/rte_ring" -lrte_ring
"$work/rte_ring" "$messages"
