#!/usr/bin/env bash
# Has Graphviz draw what sceneview prints: the scenes of examples/ at three frames, and one whose file names have the signs that mean
# something in a label. Compares the names, arrows and greys of the pictures with what they should be, and the statuses and lines of refusals.
#
# Usage: interop/sceneview.sh     (from anywhere; SCENEVIEW names a program that is built already)
set -euo pipefail
top=$(cd "$(dirname "$0")/.." && pwd)
sceneview=${SCENEVIEW:-$top/sceneview}
work=$(mktemp -d)
trap 'rm -rf "$work"' EXIT

# expect STATUS LINE WORD..
expect() {
    local want=$1 line=$2 status=0
    shift 2
    "$sceneview" "$@" > "$work/told" 2> "$work/said" || status=$?
    [ "$status" = "$want" ] && [ "$(cat "$work/told")" = "$line" ] ||
        { echo "sceneview $*: status $status, not $want, or another line:"; cat "$work/told"; exit 1; }
}

cd "$work"
expect 2 'usage: word 0'
expect 2 'usage: word 1' scene.toml x
expect 2 'usage: word 2' scene.toml 0 0
expect 4 'absent: scene.toml' scene.toml
printf 'version 1' > bad.toml
expect 6 'script: NotToml' bad.toml
status=0; "$sceneview" --help >&- || status=$?
[ "$status" = 8 ] || { echo "--help with standard output closed: status $status"; exit 1; }
echo "refusals: as they should be"

command -v dot > /dev/null || { echo "skipped: no dot (apt-get install graphviz)"; exit 0; }
for scene in "$top"/examples/*/scene.toml; do
    for frame in 0 48000 16777216; do
        "$sceneview" "$scene" "$frame" > scene.dot
        dot -Tsvg scene.dot > scene.svg 2> said && [ ! -s said ] || { echo "$scene at $frame:"; cat said; exit 1; }
    done
done
echo "examples: Graphviz draws them"

cat > signs.toml <<'END'
version = 1
rate = 8000
channels = 1
width = 16
length = 10
resource = [{ name = "a", file = "\"];} \\n\\G <b> & é\n\u0001.wav" }]
node = [{ kind = "sound", name = "s", resource = "a" }]
bus = [{ node = "s", to = "endpoint", gain = 98304 }]
edit = [{ op = "detach", at = 5, node = "s" }]
END
"$sceneview" signs.toml > signs.dot
dot -Tsvg signs.dot > signs.svg 2> said && [ ! -s said ] || { cat said; exit 1; }
python3 - <<'END'
import pathlib
import xml.dom.minidom
texts = [t.firstChild.data for t in xml.dom.minidom.parse("signs.svg").getElementsByTagName("text")]
lines = [text.replace("\N{NO-BREAK SPACE}", " ") for text in texts]
wanted = ['sound "];} \\n\\G <b> & é', "?.wav", "1.5000", "from 0 until 16777216", "frame 0"]
missing = [line for line in wanted if line not in lines]
assert not missing, f"not in the picture: {missing}, but {lines}"
END
"$sceneview" signs.toml 5 > signs.dot
grep -q -- '->' signs.dot && { echo "an arrow of a bus that is attached nowhere"; exit 1; }
[ "$(grep -c 'grey' signs.dot)" = 1 ] || { echo "a sound that isn't heard is not grey"; exit 1; }
echo "signs of the DOT language in names: they stand in the picture as they are"
