#!/usr/bin/env bash
# Runs the built scenerender on real files, in a directory of its own, and compares its files and lines with those of scenetool:
# the scenes of examples/ and that of `gen 1` with 0 to 16 workers, one of them fifty times, and refusals.
#
# Usage: interop/scenerender.sh         (from anywhere; it builds both programs where they are stale)
#
# It ends with a status other than 0 on a difference.
set -eu
top=$(cd "$(dirname "$0")/.." && pwd)
work=$(mktemp -d)
trap 'rm -rf "$work"' EXIT
cd "$work"

rendered() { # SCENE WORKERS: `render` leaves the bytes and prints the line of `mix`, which are in mixed.wav and line
    local again
    again=$("$top/scenerender" render "$1" rendered.wav "$2")
    if ! cmp -s mixed.wav rendered.wav || [ "$again" != "$(cat line)" ]; then
        echo "scenerender render $1 with $2 workers: other bytes or another line than scenetool mix"
        exit 1
    fi
}

mixed() { # SCENE
    "$top/scenetool" mix "$1" mixed.wav > line
}

expect() { # STATUS TEXT WORD..: scenerender with these words ends with that status, and prints that line
    local wanted=$1 text=$2 status=0 printed
    shift 2
    printed=$("$top/scenerender" "$@") || status=$?
    if [ "$status" != "$wanted" ] || [ "$printed" != "$text" ]; then
        echo "scenerender $*: status $status and '$printed', not $wanted and '$text'"
        exit 1
    fi
}

for example in "$top"/examples/*/scene.toml; do
    cp "$(dirname "$example")"/* .
    mixed scene.toml
    for workers in 0 1 2 3 16; do rendered scene.toml "$workers"; done
done
"$top/scenetool" gen 1 gen > /dev/null
mixed gen.toml
for workers in 0 1 2 3 16; do rendered gen.toml "$workers"; done
cp "$top"/examples/formats/* .
mixed scene.toml
for _ in $(seq 50); do rendered scene.toml 16; done
echo "files and lines with 0 to 16 workers: those of scenetool"

expect 2 'usage: word 0'
expect 2 'usage: word 0' mix scene.toml out.wav
expect 2 'usage: word 3' render scene.toml out.wav 17
expect 2 'usage: word 4' render scene.toml out.wav 2 more
expect 4 'absent: nothing.toml' render nothing.toml out.wav 2
expect 3 'depot failed' render scene.toml no-such-directory/out.wav 2
[ ! -e out.wav ] || { echo "a refusal left a file"; exit 1; }
[ "$("$top/scenerender" --version)" = "scenerender 0.1.0" ] || { echo "--version: another text"; exit 1; }
echo "refusals: as they should be"
