#!/bin/sh
# Measures the decoding of a clip page by page against the same in C (pages.c), on the same sound of 4 MiB.
#
# Usage: bench/pages.sh [ROUNDS]     (from anywhere; it builds crates/kernel_bench; KERNEL names a program that is built already)
set -eu
. "$(dirname "$0")/common.sh"
build_kernel
build_plain pages.c
say_machine
# the samples of 4 MiB, and IMA ADPCM in a thirtieth of the rounds
python3 "$top/bench/kernel_times.py" "${1:-300}" sample "Rattle=$kernel pages" $plain -- \
    "PCM 16:pcm16:2097152:1" "PCM 24:pcm24:1398100:1" "A-law:alaw:4194304:1" "IMA ADPCM:ima:8273920:30"
