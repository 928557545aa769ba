#!/bin/sh
# Measures visits and edits of a bus list against the same in C (lists.c): on one thread, and visits with an editor beside them.
#
# Usage: bench/lists.sh [ROUNDS]     (from anywhere; it builds crates/list_bench; LISTS names a program that is built already)
set -eu
. "$(dirname "$0")/common.sh"
lists=${LISTS:-$top/crates/list_bench/out/list_bench}
[ -n "${LISTS:-}" ] || (cd "$top/crates/list_bench" && rt run) > "$work/rt.log" 2>&1 || { cat "$work/rt.log"; exit 1; }
build_plain lists.c
say_machine
# ROUNDS visits of one bus, and fewer of more buses
python3 "$top/bench/kernel_times.py" "${1:-1000000}" visit "Rattle=$lists" $plain -- \
    "1 bus:visits 1:1:1" "16 buses:visits 16:1:10" "256 buses:visits 256:1:160"
python3 "$top/bench/kernel_times.py" "${1:-1000000}" "pair of edits" "Rattle=$lists" $plain -- \
    "attach and detach, 16 buses:edits 16:1:1"
# the processor time of both threads; the more the editor runs while the visits do, the more
python3 "$top/bench/kernel_times.py" "${1:-1000000}" "visit beside edits" "Rattle=$lists" $plain -- \
    "1 bus, an editor beside:beside 1:1:1" "16 buses, an editor beside:beside 16:1:4"
