#!/bin/sh
# Counts the instructions of `scenetool mix` and of bench/block_mix.c, a plain C program that mixes in blocks, by callgrind,
# and compares the bytes and the lines they write.
#
# Usage: bench/blocks.sh [PART]     (from anywhere; the lengths of the workloads are divided by PART, 1 by default)
#
# Builds scenetool where it is stale, makes the workloads in a directory that goes away, and prints a table in Markdown.
# Each program is run once, since no load changes its instructions. No ratio fails it: it ends with another status than 0
# where the bytes or the lines of the two programs differ. Set SCENETOOL to a program that is built already.
set -eu
part=${1:-1}
. "$(dirname "$0")/common.sh"
for tool in gcc valgrind; do
    command -v "$tool" > /dev/null || { echo "nothing is measured: no $tool"; exit 0; }
done
build_scenetool
gcc -std=c11 -O2 -march=x86-64-v2 "$top/bench/block_mix.c" -o "$work/block_mix"

# callgrind counts each byte of a `rep stosb` or `rep movsb` as an instruction: glibc's memset and memcpy are to do without.
bytes=1073741824
GLIBC_TUNABLES=glibc.cpu.x86_rep_stosb_threshold=$bytes:glibc.cpu.x86_rep_movsb_threshold=$bytes
export GLIBC_TUNABLES

# count NAME PROGRAM: mixes the scene, and prints the instructions.
count() {
    valgrind --tool=callgrind --callgrind-out-file=/dev/null "$2" mix "$1.toml" out.wav > line 2> told ||
        { cat line told >&2; exit 1; }
    sed -n 's/.*refs: *//p' told | tr -d ,
}

# compare NAME TITLE: a row of the table.
compare() {
    plain=$(count "$1" "$work/block_mix")
    mv out.wav plain.wav
    mv line plain.line
    ours=$(count "$1" "$SCENETOOL")
    cmp out.wav plain.wav && cmp line plain.line || differing="$differing $1"
    echo "$plain $ours" | awk -v title="$2" '{ printf "| %s | %.1f | %.1f | %.2f |\n", title, $1 / 1e6, $2 / 1e6, $2 / $1 }'
}

say_machine
echo "$(gcc --version | head -n 1); $(valgrind --version); lengths divided by $part; instructions in millions"
cd "$work"
"$SCENETOOL" gen 1 gen > /dev/null
python3 "$top/bench/sounds.py" . $(((20 + part - 1) / part)) pcm16-stereo ima-stereo
python3 "$top/bench/block_scenes.py" "$part"
differing=
echo "| Workload | C | scenetool | scenetool / C |"
echo "|---|---|---|---|"
compare gen "gen 1"
compare own_rate "PCM 16, stereo, at its rate"
compare other_rate "the same from 44100 to 48000 Hz"
compare ima "8 files of IMA ADPCM"
compare eight "16 sounds of 8 channels, 96000 Hz to mono 44100 Hz"
compare graph "32 sounds, 60 groups and splitters"
compare edits "$((4096 / part)) edits, one each 5 frames"
compare edits_read "the same script and sounds read, and no frame mixed"
for example in "$top"/examples/*/scene.toml; do
    (cd "$(dirname "$example")" && "$work/block_mix" mix scene.toml "$work/plain.wav" > "$work/plain.line" &&
        "$SCENETOOL" mix scene.toml "$work/out.wav" > "$work/line")
    cmp out.wav plain.wav && cmp line plain.line || differing="$differing $example"
done
[ -z "$differing" ] || { echo "DIFFERENT bytes or lines:$differing"; exit 1; }
echo "bytes and lines: the same"
