#!/bin/sh
# Measures linear interpolation between two samples by a multiplication by a reciprocal (`Interpolator::blend`, which `mix`
# takes) against the same by a division (`blend`). The drawing of the samples and the checksum are in the times.
#
# Usage: bench/blends.sh [ROUNDS]     (from anywhere; it builds crates/kernel_bench; KERNEL names a program that is built already)
set -eu
. "$(dirname "$0")/common.sh"
build_kernel
say_machine
python3 "$top/bench/kernel_times.py" "${1:-100}" pair \
    "multiplied=$kernel blends multiplied" "divided=$kernel blends divided" -- \
    "8000 Hz:8000:1048576:1" "44100 Hz:44100:1048576:1" "768000 Hz:768000:1048576:1"
