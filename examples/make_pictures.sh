#!/bin/sh
# Draws the wiring of examples/groups at its first frame, wiring.svg, by sceneview and Graphviz. Usage: examples/make_pictures.sh
# (from anywhere; SCENEVIEW names a program that is built already)
set -eu
top=$(cd "$(dirname "$0")/.." && pwd)
sceneview=${SCENEVIEW:-$top/sceneview}
cd "$top/examples/groups"
"$sceneview" scene.toml > wiring.dot
dot -Tsvg wiring.dot > wiring.svg
rm wiring.dot
