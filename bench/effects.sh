#!/bin/sh
# Counts the instructions that each effect takes for a stereo frame, and chains of them, in fx_nodes and in plain C
# (effects.c), by callgrind, and compares the checksums.
#
# Usage: bench/effects.sh [BLOCKS]     (from anywhere; it builds crates/fx_bench; FX_BENCH names a program that is built already)
#
# A count is that of BLOCKS blocks of 512 frames less that of as many blocks through no effect, and of no block at all. No load
# changes it. No ratio fails it: it ends with status 1 where checksums differ.
set -eu
blocks=${1:-400}
. "$(dirname "$0")/common.sh"
command -v valgrind > "$work/found" || { echo "nothing is measured: no valgrind"; exit 0; }
fx_bench=${FX_BENCH:-$top/crates/fx_bench/out/fx_bench}
[ -n "${FX_BENCH:-}" ] || (cd "$top/crates/fx_bench" && rt run) > "$work/rt.log" 2>&1 || { cat "$work/rt.log"; exit 1; }
build_plain effects.c

# count PROGRAM EFFECTS BLOCKS: prints the instructions, and writes the checksum to `sum`.
count() {
    valgrind --tool=callgrind --callgrind-out-file=/dev/null "$1" "$2" "$3" > "$work/sum" 2> "$work/told" ||
        { cat "$work/sum" "$work/told" >&2; exit 1; }
    sed -n 's/.*refs: *//p' "$work/told" | tr -d ,
}

# alone PROGRAM EFFECTS: the instructions of the blocks alone, with what opens and ends the program taken off.
alone() {
    none=$(count "$1" "$2" 0)
    some=$(count "$1" "$2" "$blocks")
    echo $((some - none))
}

# compare TITLE EFFECTS: a row of the table.
compare() {
    ours=$(alone "$fx_bench" "$2")
    cp "$work/sum" "$work/ours"
    row=$(echo "$1 $ours $base $blocks" | awk '{ printf "%.1f", ($(NF - 2) - $(NF - 1)) / $NF / 512 }')
    ratios=
    for cc in $compilers; do
        plain=$(alone "$work/$cc" "$2")
        cmp "$work/sum" "$work/ours" || differing="$differing $cc:$2"
        row="$row | $(echo "$plain $(cat "$work/$cc.base") $blocks" | awk '{ printf "%.1f", ($1 - $2) / $3 / 512 }')"
        ratios="$ratios | $(echo "$ours $base $plain $(cat "$work/$cc.base")" | awk '{ printf "%.2f", ($1 - $2) / ($3 - $4) }')"
    done
    echo "| $1 | $row$ratios |"
}

say_machine
for cc in $compilers; do
    "$cc" --version | head -n 1
    alone "$work/$cc" none > "$work/$cc.base"
done
base=$(alone "$fx_bench" none)
echo "$(valgrind --version); instructions for a frame, $blocks blocks"
differing=
titles= rule=
for cc in $compilers; do titles="$titles | $cc" rule="$rule|---"; done
for cc in $compilers; do titles="$titles | fx_nodes / $cc" rule="$rule|---"; done
echo "| Effects | fx_nodes$titles |"
echo "|---|---$rule|"
compare "a delay of 1 frame" delay:1:32768
compare "a delay of 1000 frames" delay:1000:32768
compare "a delay of 1048576 frames" delay:1048576:32768
compare "pan" pan:16384
compare "fade, on its line" fade:0:16777216:0:1048576
compare "fade, before its line" fade:16777215:16777216:50000:1048576
compare "fade, behind its line" fade:0:1:0:50000
compare "level" level:70000
sixteen=delay:1:65536+delay:3:40000+level:70000+fade:5:600:0:131072+pan:20000+delay:7:1+fade:100:101:65536:30000
sixteen=$sixteen+delay:511:65535+pan:40000+delay:512:50000+fade:0:1300:1048576:0+delay:513:0+level:65536
compare "sixteen effects" "$sixteen+delay:700:65536+fade:9:1999:3:200000+level:1048576"
[ -z "$differing" ] || { echo "DIFFERENT checksums:$differing"; exit 1; }
echo "checksums: the same"
