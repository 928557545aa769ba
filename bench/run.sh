#!/bin/sh
# Measures `scenetool mix` against bench/plain_mix.c, a plain C program for the same job, and compares the bytes they write.
#
# Usage: bench/run.sh [RUNS [SECONDS]]     (from anywhere; 7 runs of each program, and files of 180 seconds, by default)
#
# Builds scenetool where it is stale, makes the workloads in a directory that goes away, runs the programs in turn, and
# prints a table in Markdown of medians and their ratios: wall and processor time, peak memory, and instructions by
# callgrind on a short scene. SoX is timed on the single files. It says what it skipped where a tool is missing. No ratio
# fails it: it ends with another status than 0 where the bytes or the lines of the two programs differ.
# Set SCENETOOL to a program that is built already, to measure that one.
set -eu
runs=${1:-7}
seconds=${2:-180}
. "$(dirname "$0")/common.sh"
build_scenetool
build_plain plain_mix.c
[ -n "$compilers" ] || { echo "nothing to compare with: no C compiler"; exit 0; }
"${compilers##* }" -std=c11 -O2 "$top/bench/used.c" -o "$work/used"
for tool in sox valgrind; do
    command -v "$tool" > /dev/null || echo "skipped: no $tool"
done

say_machine
cd "$work"
"$SCENETOOL" gen 1 gen > /dev/null
python3 "$top/bench/sounds.py" . "$seconds"
mkdir short
python3 "$top/bench/sounds.py" short 2
python3 "$top/bench/measure.py" "$SCENETOOL" "$runs" "$seconds" $compilers
