#!/bin/sh
# Measures the decoding of IMA ADPCM blocks against a plain loop in C (ima.c), on the same blocks, mono and stereo.
#
# Usage: bench/ima.sh [ROUNDS]     (from anywhere; it builds crates/kernel_bench; KERNEL names a program that is built already)
set -eu
. "$(dirname "$0")/common.sh"
build_kernel
build_plain ima.c
say_machine
# 16 blocks of 8185 frames a round
python3 "$top/bench/kernel_times.py" "${1:-100}" sample "Rattle=$kernel blocks" $plain -- mono:1:130960:1 stereo:2:261920:2
