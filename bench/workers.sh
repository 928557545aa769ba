#!/bin/sh
# Times `scenerender render` with 0 to 3 workers against `scenetool mix`, by the clock, and compares the bytes and the lines.
#
# Usage: bench/workers.sh [RUNS [SECONDS]]     (from anywhere; 9 runs of each, and sound files of 60 seconds, by default)
#
# Builds both programs where they are stale, makes the workloads in a directory that goes away, runs all programs in turn,
# and prints a table of medians in Markdown. It says nothing of value on a machine that does other work: look at the load that it prints.
# No ratio fails it: it ends with another status than 0 where bytes or lines differ.
set -eu
. "$(dirname "$0")/common.sh"
build_scenetool
if [ -z "${SCENERENDER:-}" ]; then
    "$top/scenerender" --version > "$work/found"
    SCENERENDER=$top/crates/scenerender/out/scenerender
fi
say_machine
cd "$work"
"$SCENETOOL" gen 1 gen > /dev/null
python3 "$top/bench/sounds.py" . "${2:-60}" ima-stereo
python3 "$top/bench/worker_times.py" "$SCENETOOL" "$SCENERENDER" "${1:-9}"
