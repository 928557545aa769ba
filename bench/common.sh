# Sourced by the scripts of bench/ and interop/ that build programs. Sets `top`, and `work`, a directory that goes away.
top=$(cd "$(dirname "$0")/.." && pwd)
work=$(mktemp -d)
trap 'rm -rf "$work"' EXIT

# build_scenetool: sets SCENETOOL to the built program, or leaves it where it names one that is built already.
build_scenetool() {
    if [ -z "${SCENETOOL:-}" ]; then
        "$top/scenetool" --version > "$work/found"
        SCENETOOL=$top/crates/scenetool/out/scenetool
    fi
}

# build_kernel: sets `kernel` to the program of crates/kernel_bench, built by `rt run`, or to KERNEL, which is built already.
build_kernel() {
    kernel=${KERNEL:-$top/crates/kernel_bench/out/kernel_bench}
    [ -n "${KERNEL:-}" ] || (cd "$top/crates/kernel_bench" && rt run) > "$work/rt.log" 2>&1 || { cat "$work/rt.log"; exit 1; }
}

# build_plain FILE: sets `compilers` to the C compilers that are there, and `plain` to NAME=PROGRAM for each.
build_plain() {
    compilers=
    plain=
    for cc in gcc clang; do
        if command -v "$cc" > "$work/found"; then
            "$cc" -std=c11 -O2 -march=x86-64-v2 "$top/bench/$1" -o "$work/$cc"
            compilers="$compilers $cc"
            plain="$plain $cc=$work/$cc"
        else
            echo "skipped: no $cc"
        fi
    done
}

say_machine() {
    echo "machine: $(sed -n 's/^model name[^:]*: //p' /proc/cpuinfo | head -n 1), $(nproc) cores, $(date -u +%Y-%m-%d)," \
        "load$(uptime | sed 's/.*average://')"
}
