#!/bin/sh
# Measures the kernels of sums, `add_scaled` and `settle` of mix_fixed, against plain loops in C (sums.c), each at -O2 and at
# -O3 -msse4.2. Sums are cleared before samples are added, and this is in the times of both.
#
# Usage: bench/sums.sh [ROUNDS]     (from anywhere; it builds crates/kernel_bench; KERNEL names a program that is built already)
set -eu
. "$(dirname "$0")/common.sh"
build_kernel
plain=
for cc in gcc clang; do
    if command -v "$cc" > "$work/found"; then
        "$cc" -std=c11 -O2 "$top/bench/sums.c" -o "$work/$cc-O2"
        "$cc" -std=c11 -O3 -msse4.2 "$top/bench/sums.c" -o "$work/$cc-O3"
        plain="$plain $cc-O2=$work/$cc-O2 $cc-O3=$work/$cc-O3"
    else
        echo "skipped: no $cc"
    fi
done
say_machine
# 1024 sums a round
python3 "$top/bench/kernel_times.py" "${1:-200000}" sum "Rattle=$kernel sums" $plain -- add:add:1024:1 settle:settle:1024:1
