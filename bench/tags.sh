#!/bin/sh
# Measures the take, lift and give of a tagged slot against the same loop of fetch_or in plain C (tags.c), in one thread and in
# two that share a table.
#
# Usage: bench/tags.sh [THOUSANDS]     (from anywhere; it builds crates/tag_bench; TAG_BENCH names a program that is built already)
set -eu
. "$(dirname "$0")/common.sh"
tag_bench=${TAG_BENCH:-$top/crates/tag_bench/out/tag_bench}
[ -n "${TAG_BENCH:-}" ] || (cd "$top/crates/tag_bench" && rt run) > "$work/rt.log" 2>&1 || { cat "$work/rt.log"; exit 1; }
build_plain tags.c
say_machine
python3 "$top/bench/kernel_times.py" "${1:-2000}" round "Rattle=$tag_bench" $plain -- \
    "one thread:1:1000:1" "two threads:2:2000:1"
