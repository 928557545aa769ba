#!/bin/sh
# Compares the tables of crates/g711 with what SoX makes of all 256 codes of each law.
#
# Usage: interop/g711_tables.sh       (from anywhere)
#
# Says what it skipped where SoX is not installed, and ends with status 1 where an entry differs.
set -eu
top=$(cd "$(dirname "$0")/.." && pwd)
if ! command -v sox > /dev/null 2>&1; then
    echo "skipped: no sox, so neither A-law's nor mu-law's 256 codes were compared (apt-get install sox)"
    exit 0
fi
work=$(mktemp -d)
trap 'rm -rf "$work"' EXIT
python3 -c 'import sys; sys.stdout.buffer.write(bytes(range(256)))' > "$work/codes"
for law in a-law mu-law; do
    sox -D -t raw -r 8000 -c 1 -e "$law" -b 8 "$work/codes" -t raw -e signed-integer -b 16 -L "$work/$law"
done
python3 - "$top/crates/g711/src" "$work" <<'END'
import pathlib, re, struct, sys

source, work = map(pathlib.Path, sys.argv[1:])
failed = False
for law, file, name in (("a-law", "a_law.rt", "ALAW"), ("mu-law", "mu_law.rt", "ULAW")):
    literal = re.search(rf"const {name}: \[i16; 256\] = \[([^\]]*)\]", (source / file).read_text())
    ours = [int(entry) for entry in literal[1].replace(",", " ").split()] if literal else []
    theirs = list(struct.unpack("<256h", (work / law).read_bytes()))
    wrong = [f"code {code}: {a}, and SoX {b}" for code, (a, b) in enumerate(zip(ours, theirs)) if a != b]
    if len(ours) != 256:
        wrong.append(f"{len(ours)} entries in {file}")
    print(f"{law}: {'all 256 codes agree' if not wrong else '; '.join(wrong)}")
    failed |= bool(wrong)
sys.exit(failed)
END
