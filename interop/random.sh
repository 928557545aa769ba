#!/bin/sh
# Compares scenetool on random input with readings that share no code with it:
#   `info` on WAVE files, most of them with a fault, with a reading in Python (random_waves.py);
#   `mix` on scripts, most of them with a fault, with a reading in Python (random_scripts.py);
#   `mix` on scenes of every kind of sound file, node and edit, with bench/plain_mix.c and bench/block_mix.c, plain C programs for
#   the same job, frame by frame and in blocks: the bytes written and the lines printed (random_scenes.py).
#
# Usage: interop/random.sh [COUNT [FIRST]]      (1000 of each, from number 1 on, by default; from anywhere)
#
# Builds scenetool where it is stale, and says what it skipped. An input is the same by its number each time; the first one
# that differs is named, and the status is 1.
set -eu
. "$(dirname "$0")/../bench/common.sh"
build_scenetool
count=${1:-1000}
first=${2:-1}
cd "$work"
python3 "$top/interop/random_waves.py" "$SCENETOOL" "$count" "$first"
if python3 -c 'import tomllib' 2> /dev/null; then
    python3 "$top/interop/random_scripts.py" "$SCENETOOL" "$count" "$first"
else
    echo "skipped: python3 is older than 3.11, so no random script was read"
fi
if command -v cc > /dev/null; then
    for program in plain_mix block_mix; do
        cc -std=c11 -O2 "$top/bench/$program.c" -o "$program"
        python3 "$top/interop/random_scenes.py" "$SCENETOOL" "./$program" "$count" "$first"
    done
else
    echo "skipped: no C compiler, so no random scene was mixed"
fi
