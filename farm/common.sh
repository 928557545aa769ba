# Sourced by the scripts of farm/, which set `name`, their own, and `farm`, their directory. A list has one scene a line: SCENE, a tab,
# OUT. Sets `top`, the directory of the clone.
top=$(dirname "$farm")

fail() { # TEXT: says it and ends with status 2
    echo "$name: $1" >&2
    exit 2
}

# check_list LIST: ends with status 2 where it is no list, and says which line is wrong.
check_list() {
    [ -f "$1" ] && [ -r "$1" ] || fail "no list '$1'"
    [ -s "$1" ] || fail "the list '$1' is empty"
    LC_ALL=C awk -F '\t' '
        function wrong(text) { print "line " NR ": " text; exit 1 }
        /\r$/ { wrong("it ends with a carriage return") }
        NF != 2 || $1 == "" || $2 == "" { wrong("not SCENE, one tab and OUT") }
        $2 in line { wrong("OUT is that of line " line[$2] ", too") }
        { line[$2] = NR }' < "$1" > "$checked" || fail "the list '$1', $(cat "$checked")"
}

# open_run LIST RUN: makes the directory RUN, which keeps the list and what became of each line, or ends with status 2 where
# RUN is of another list. Lines that were added at the end of the list are no other list.
open_run() {
    mkdir -p -- "$2" || fail "no directory '$2'"
    if [ -e "$2/list" ] && ! head -n "$(wc -l < "$2/list")" < "$1" | awk 1 | cmp -s - "$2/list"; then
        fail "'$2' is of another list than '$1' is now: remove it, or name another by --run"
    fi
    local copy
    copy=$(mktemp "$2/list.XXXXXX") && awk 1 < "$1" > "$copy" && mv -f -- "$copy" "$2/list" || fail "'$2' can't be written"
}

# find_program: sets `program` to SCENERENDER, or to the one of this clone.
find_program() {
    program=${SCENERENDER:-$top/crates/scenerender/out/scenerender}
    case $program in */*) ;; *) program=$(command -v -- "$program") || program=$SCENERENDER ;; esac
    [ -x "$program" ] || fail "no program '$program': build it ('$top/scenerender --version'), or name one by SCENERENDER"
    program=$(readlink -f -- "$program")
}

# check_workers NUMBER
check_workers() {
    case $1 in [0-9] | 1[0-6]) ;; *) fail "workers are 0 to 16, not '$1'" ;; esac
}
