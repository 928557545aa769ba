#!/bin/sh
# Measures a job posted, taken and ended (`post`, `next`, `done` of job_queue) against a plain C ring over the same table of
# slots with the same atomic steps (jobs.c), in one thread and in two that share a queue.
#
# Usage: bench/jobs.sh [THOUSANDS]     (from anywhere; it builds crates/tag_bench; TAG_BENCH names a program that is built already)
set -eu
. "$(dirname "$0")/common.sh"
tag_bench=${TAG_BENCH:-$top/crates/tag_bench/out/tag_bench}
[ -n "${TAG_BENCH:-}" ] || (cd "$top/crates/tag_bench" && rt run) > "$work/rt.log" 2>&1 || { cat "$work/rt.log"; exit 1; }
build_plain jobs.c
say_machine
python3 "$top/bench/kernel_times.py" "${1:-1000}" job "Rattle=$tag_bench jobs" $plain -- \
    "one thread:1:1000:1" "two threads:2:2000:1"
