#!/bin/sh
# Shows that a tag of crates/slot_tags is neither copied nor cloned: crates in a temporary directory try it, and the compiler
# refuses each for that reason. A crate that moves the tag shows that nothing else is refused.
#
# Usage: interop/tags_are_not_copied.sh       (from anywhere)
#
# It ends with status 1 where a crate is refused for another reason, or not at all.
set -eu
top=$(cd "$(dirname "$0")/.." && pwd)
work=$(mktemp -d)
trap 'rm -rf "$work"' EXIT
mkdir "$work/crates"
for crate in plain_data slot_tags; do
    mkdir "$work/crates/$crate"
    for part in src specs proofs; do
        [ ! -d "$top/crates/$crate/$part" ] || cp -R "$top/crates/$crate/$part" "$work/crates/$crate/$part"
    done
done

tried() { # NAME BODY: tries a crate with a function of a tag that has this body; sets `said`
    mkdir -p "$work/crates/$1/src" "$work/crates/$1/specs"
    : > "$work/crates/$1/specs/Lib.antt"
    cat > "$work/crates/$1/src/lib.rt" <<END
//! A function of a tag.
#![tactic(auto)]

use slot_tags::SlotTag;

pub fn two(tag: SlotTag) -> (SlotTag, u64) {
    $2
}

#[test]
fn nothing() {}
END
    { grep -E '^(plain_data|slot_tags):' "$top/crates.txt"; echo "$1: slot_tags"; } > "$work/crates.txt"
    said=$(cd "$work/crates/$1" && rt try --test 2>&1) && status=0 || status=$?
}

refused() { # NAME BODY REASON
    tried "$1" "$2"
    case $said in
        *"$3"*) echo "$1: refused, as it must be" ;;
        *) echo "$1: status $status, and not refused for '$3':"; echo "$said"; exit 1 ;;
    esac
}

tried moved 'let value = tag.value(); (tag, value)'
[ "$status" = 0 ] || { echo "moved: refused:"; echo "$said"; exit 1; }
echo "moved: taken"
refused copied 'let other = tag; (tag, other.value())' 'use of moved value: `tag`'
refused cloned 'let other = tag.clone(); (tag, other.value())' 'the method `clone` exists for `SlotTag`, but its bounds are not met'
