#!/bin/sh
# A `Held` of bus_list is lent until the pass goes on: a program that keeps one over the next call of `next` must not compile, and for
# that reason. Writes such a program, and the same without the fault, into a repository of its own, and tries both.
#
# Usage: interop/held_outlives_next.sh     (from anywhere)
set -eu
top=$(cd "$(dirname "$0")/.." && pwd)
work=$(mktemp -d)
trap 'rm -rf "$work"' EXIT
mkdir -p "$work/crates/held/src"
cp -r "$top/crates/bus_list" "$top/crates/plain_data" "$work/crates/"
rm -rf "$work"/crates/*/out "$work"/crates/*/must-fail
{ grep -E '^(bus_list|plain_data):' "$top/crates.txt"; echo 'held: bus_list'; } > "$work/crates.txt"
cp "$top/HANDLES" "$work/"

# program USE: writes the program; USE is what it does with the first bus after it has asked for the second.
program() {
    cat > "$work/crates/held/src/main.rt" << END
#![tactic(auto)]

use bus_list::BusList;

fn main(rt: HostRuntime) {
    let Ok(mut both) = BusList::<u32>::new(rt.alloc(), 2) else {
        return;
    };
    both.attach(0, 10);
    both.attach(1, 11);
    let (_editor, mut pass) = both.split();
    let _from = pass.begin();
    let first = pass.next();
    let _second = pass.next();
    $1
}
END
}

cd "$work/crates/held"
program ''
rt try > "$work/sound.log" 2>&1 || { echo 'FAILED: the program that keeps nothing was refused'; cat "$work/sound.log"; exit 1; }
program 'if let Some(held) = first { let _bus = held.bus(); }'
if rt try > "$work/faulty.log" 2>&1; then
    echo 'FAILED: a Held was kept over the next call of next'
    exit 1
fi
grep 'main.rt:.*borrow-e0499' "$work/faulty.log" || { echo 'FAILED: refused for another reason'; cat "$work/faulty.log"; exit 1; }
echo 'refused, as it must be'
