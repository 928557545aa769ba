#!/usr/bin/env bash
# Runs the built scenetool on real files, in a directory of its own: its statuses and lines, standard output that is closed
# or full, an OUT that can't be written, the files of `gen`, and a file that SoX wrote.
#
# Usage: interop/scenetool.sh         (from anywhere; it builds scenetool where that is stale)
#
# It ends with a status other than 0 on a difference, and says what it skipped.
set -eu
top=$(cd "$(dirname "$0")/.." && pwd)
work=$(mktemp -d)
trap 'rm -rf "$work"' EXIT
cd "$work"

expect() { # STATUS TEXT WORD..: scenetool with these words ends with that status, and prints that line
    local wanted=$1 text=$2 status=0 printed
    shift 2
    printed=$("$top/scenetool" "$@") || status=$?
    if [ "$status" != "$wanted" ] || [ "$printed" != "$text" ]; then
        echo "scenetool $*: status $status and '$printed', not $wanted and '$text'"
        exit 1
    fi
}

expect_status() { # WANTED STATUS WHAT
    [ "$1" = "$2" ] || { echo "$3: status $2, not $1"; exit 1; }
}

scene() { # RATE FRAMES FILE: the script of a mono scene of one sound
    printf 'version = 1\nrate = %s\nchannels = 1\nwidth = 16\nlength = %s\n' "$1" "$2"
    printf '[[resource]]\nname = "a"\nfile = "%s"\n' "$3"
    printf '[[node]]\nkind = "sound"\nname = "s"\nresource = "a"\n[[bus]]\nnode = "s"\nto = "endpoint"\n'
}

# Four samples at 8000 Hz: 0, 1, -1, 32767.
printf 'RIFF\054\000\000\000WAVEfmt \020\000\000\000\001\000\001\000\100\037\000\000\200\076\000\000\002\000\020\000' > four.wav
printf 'data\010\000\000\000\000\000\001\000\377\377\377\177' >> four.wav
scene 8000 4 four.wav > four.toml
line='frames 4 rate 8000 channels 1 width 16 bytes 52 peak 8388352 sum 893'
expect 0 "$line" mix four.toml out.wav
cmp four.wav out.wav
expect 0 'pcm channels 1 rate 8000 width 16 align 2 frames 4 pages 1' info four.wav
cp four.wav itself.wav
scene 8000 4 itself.wav > itself.toml
expect 0 "$line" mix itself.toml itself.wav # OUT may be a file that the scene reads
cmp four.wav itself.wav
echo "a scene, and what a file says of its sound: as they should be"

: > empty.wav
scene 8000 4 empty.wav > empty.toml
scene 8000 4 absent.wav > absent.toml
{ scene 8000 4 four.wav; printf '[[edit]]\nop = "detach"\nat = 0\nnode = "s"\n'; } > first.toml
{ cat first.toml; printf '[[edit]]\nop = "detach"\nat = 0\nnode = "s"\n'; } > twice.toml
head -c 4194305 /dev/zero | tr '\0' '#' > long.toml
head -c 67108865 /dev/zero > long.wav
printf 'version = 2\n' > version.toml
printf 'version' > not.toml
cp out.wav before.wav
expect 2 'usage: word 0'
expect 2 'usage: word 0' play four.toml out.wav
expect 2 'usage: word 2' mix four.toml
expect 2 'usage: word 3' mix four.toml out.wav more
expect 4 'absent: nothing.toml' mix nothing.toml out.wav
expect 4 'absent: absent.wav' mix absent.toml out.wav
expect 5 'too long: long.toml limit 4194304' mix long.toml out.wav
expect 5 'too long: long.wav limit 67108864' info long.wav
expect 6 'script: NotToml' mix not.toml out.wav
expect 6 'script: Version 2' mix version.toml out.wav
expect 6 'script: EditRefused edit 2 NotAttached' mix twice.toml out.wav
expect 7 'file: 0: NotRiff' mix empty.toml out.wav
expect 7 'file: 0: NotRiff' info empty.wav
cmp before.wav out.wav
echo "refusals: as they should be, and OUT is as before"

expect 3 'depot failed' mix four.toml no-such-directory/out.wav
expect 3 'depot failed' mix . out.wav
cmp before.wav out.wav
if [ -c /dev/full ]; then
    expect 3 'depot failed' mix four.toml /dev/full
    status=0; "$top/scenetool" info four.wav > /dev/full || status=$?
    expect_status 8 "$status" "info with standard output full"
else
    echo "skipped: no /dev/full"
fi
rm out.wav
status=0; "$top/scenetool" mix four.toml out.wav >&- || status=$?
expect_status 8 "$status" "mix with standard output closed"
cmp four.wav out.wav
for word in --help --version; do
    status=0; "$top/scenetool" "$word" >&- || status=$?
    expect_status 8 "$status" "$word with standard output closed"
done
echo "files and standard output that fail: as they should be"

(cd "$top/examples/first" && "$top/scenetool" mix scene.toml "$work/first.wav" > "$work/first.txt")
python3 - first.wav first.txt <<'END'
import pathlib, struct, sys
file, line = pathlib.Path(sys.argv[1]).read_bytes(), pathlib.Path(sys.argv[2]).read_text()
data = file[44:]
samples = struct.unpack(f"<{len(data) // 2}h", data)
wanted = (f"frames {len(samples)} rate 16000 channels 1 width 16 bytes {len(file)} "
          f"peak {max(map(abs, samples)) * 256} sum {sum(data) % 2**32}\n")
sys.exit(line != wanted and f"the example's line is {line!r}, not {wanted!r}")
END
echo "the example: its line tells of its file"

for number in 0 1 4294967295; do
    mkdir "ours$number" "theirs$number"
    (cd "ours$number" && expect 0 'files 9' gen "$number" g)
    (cd "theirs$number" && python3 "$top/interop/gen.py" "$number" g)
    diff -r "ours$number" "theirs$number"
done
expect 2 'usage: word 1' gen 4294967296 g
expect 2 'usage: word 2' gen 1 'a name'
expect 3 'depot failed' gen 1 no-such-directory/g
(cd ours1 && "$top/scenetool" mix g.toml out.wav > "$work/large.txt")
[ "$(wc -c < ours1/out.wav)" = 2880044 ] || { echo "the large scene: $(wc -c < ours1/out.wav) bytes"; exit 1; }
echo "gen: the files are those of a generator in Python, and the scene is rendered"

if ! command -v sox > /dev/null; then
    echo "skipped: no sox, so no file that SoX wrote was rendered (apt-get install sox)"
    exit 0
fi
sox -n -r 44100 -b 16 -c 1 tone.wav synth 3 sine 440 vol 0.5
scene 44100 132300 tone.wav > tone.toml
"$top/scenetool" mix tone.toml out.wav > /dev/null
cmp tone.wav out.wav
echo "a file that SoX wrote: the output is the same file"
