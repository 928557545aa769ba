#!/usr/bin/env bash
# Renders 40 scenes, good and refused ones, by the scripts of farm/ and by a plain loop, in a directory of its own, and compares the
# files, the statuses and the lines:
#   with GNU parallel, 4 at once, ended by TERM and by KILL on the way and resumed;
#   with GNU parallel on two machines, of which one is this machine over ssh, by an sshd of its own on the loopback;
#   with Slurm, by a munged, a slurmctld and a slurmd of its own on the loopback, cancelled on the way and submitted again.
#
# Usage: interop/farm.sh         (from anywhere; it builds scenerender where that is stale, or SCENERENDER names one that is built)
#
# What it starts it ends. It ends with a status other than 0 on a difference, and says what it skipped.
set -eu
. "$(dirname "$0")/../bench/common.sh"
started=
finish() {
    local pid
    for pid in $started; do kill "$pid" 2> /dev/null || true; done
    wait
    rm -rf "$work"
}
trap finish EXIT
trap 'exit 143' TERM
trap 'exit 130' INT

if ! command -v parallel > /dev/null; then
    echo "skipped: no GNU parallel, so no list of scenes was rendered (apt-get install parallel)"
    exit 0
fi
if [ -z "${SCENERENDER:-}" ]; then
    "$top/scenerender" --version > "$work/found"
    SCENERENDER=$top/crates/scenerender/out/scenerender
fi
export SCENERENDER
chmod 755 "$work" # munged wants it
mkdir "$work/the scenes"
cd "$work/the scenes"

different() { # TEXT
    echo "$1"
    exit 1
}

make_scenes() { # 28 scenes that are rendered, 8 that are refused; scene 37 is absent, and 38 to 40 have no place for OUT
    local number example
    python3 "$top/interop/gen.py" 1 noise
    for number in $(seq 1 25); do
        sed "s/^length = .*/length = $((number * 24000))/" noise.toml > "scene $number.toml"
    done
    for example in first groups formats; do
        number=$((number + 1))
        cp "$top/examples/$example"/*.wav .
        cp "$top/examples/$example/scene.toml" "scene $number.toml"
    done
    : > empty.wav
    printf 'version' > 'scene 29.toml'
    sed 's/^version = .*/version = 2/' noise.toml > 'scene 30.toml'
    sed 's/^rate = .*/rate = 0/' noise.toml > 'scene 31.toml'
    sed 's/^file = .*/file = "empty.wav"/' noise.toml > 'scene 32.toml'
    sed 's/^file = .*/file = "absent.wav"/' noise.toml > 'scene 33.toml'
    sed 's/^\[\[edit\]\]/&\nop = "turn"/' noise.toml > 'scene 34.toml'
    : > 'scene 35.toml'
    sed 's/^channels = .*/channels = 3/' noise.toml > 'scene 36.toml'
    for number in 38 39 40; do cp 'scene 1.toml' "scene $number.toml"; done
}

make_list() { # DIRECTORY: a list of the 40 scenes, whose outputs lie there
    local number place
    mkdir "$1"
    for number in $(shuf -i 1-40 --random-source=noise.toml); do
        place=$1
        [ "$number" -lt 38 ] || place=$1/nowhere
        printf 'scene %s.toml\t%s/out %s.wav\n' "$number" "$place" "$number"
    done > "$1.tsv"
}

same() { # DIRECTORY: its list came to what the loop came to
    "$top/farm/table" "$1.tsv" > "$1.table" || [ $? = 1 ]
    tail -n +2 "$1.table" | cut -f 1-3 | diff loop.rows - || different "$1: another status or line than in the loop"
    diff -r loop "$1" || different "$1: other files than those of the loop"
}

render() { # DIRECTORY OPTION..
    local list=$1.tsv
    shift
    "$top/farm/render_all" --jobs 4 "$@" "$list"
}

logged() { # how many scenes the joblog of `parallel` has
    tail -n +2 parallel.tsv.run/joblog 2> /dev/null | wc -l
}

ended_on_the_way() { # SIGNAL COUNT OPTION..: starts the run of `parallel`, and ends it once so many scenes are in its joblog
    local signal=$1 count=$2 pids
    shift 2
    "$top/farm/render_all" --jobs 4 "$@" parallel.tsv > ended.table 2> told &
    pids=$!
    until [ "$(logged)" -ge "$count" ]; do sleep 0.02; done
    [ "$signal" != KILL ] || pids="$pids $(ps -o pid= --ppid "$pids")" # parallel, too; the scenes in work go on
    kill -"$signal" $pids
    status=0; wait $! 2> /dev/null || status=$?
    [ "$(logged)" -lt 40 ] || different "the run had ended before it was to be ended on the way"
    echo "GNU parallel, ended by $signal after $(logged) of 40 scenes"
}

make_scenes
make_list loop
make_list parallel
while IFS=$'\t' read -r scene out; do
    status=0
    line=$("$SCENERENDER" render "$scene" "$out" 0) || status=$?
    printf '%s\t%s\t%s\n' "$scene" "$status" "$line"
done < loop.tsv > loop.rows
echo "a plain loop: statuses$(cut -f 2 loop.rows | sort | uniq -c | while read -r count status; do echo -n " $status ($count)"; done)"

ended_on_the_way TERM 8
[ "$status" = 143 ] || different "render_all that was ended by TERM: status $status, not 143"
[ -z "$(find parallel -name '*.part.*')" ] || different "render_all that was ended by TERM left a part of a file"
status=0; render parallel > refused 2> told || status=$?
[ "$status" = 2 ] || different "an earlier run without --resume: status $status, not 2"
ended_on_the_way KILL 20 --resume
for _ in $(seq 100); do ! flock --nonblock parallel.tsv.run/lock true || break; sleep 0.1; done
status=0; render parallel --resume > last.table || status=$?
[ "$status" = 1 ] || different "render_all with refused scenes: status $status, not 1"
same parallel
[ "$(logged)" = 40 ] && [ "$(tail -n +2 parallel.tsv.run/joblog | cut -f 1 | sort -u | wc -l)" = 40 ] ||
    different "the joblog doesn't have each of the 40 scenes once"
echo "GNU parallel, resumed: files, statuses and lines are those of the loop"

awk -F '\t' -v OFS='\t' '$1 == "scene 7.toml" { sub(/ sum .*/, " sum 1", $3); $5 = "elsewhere" } { print }' parallel.table > other.table
status=0; "$top/farm/table" --against other.table parallel.tsv > compared.table || status=$?
[ "$status" = 3 ] || different "a table with another sum: status $status, not 3"
[ "$(grep -c 'differs from elsewhere: .* sum 1$' compared.table)" = 1 ] || different "a table with another sum: not one row differs"
[ "$(grep -c 'same$' compared.table)" = 36 ] || different "a table with another sum: not 36 rows are the same"
echo "a sum that differs is in the table"

free_port() {
    python3 -c 'import socket; s = socket.socket(); s.bind(("127.0.0.1", 0)); print(s.getsockname()[1])'
}

start_sshd() { # SSHD: sets `machines`, a file of two machines: this one, and this one over ssh
    local port
    port=$(free_port)
    ssh-keygen -q -t ed25519 -N '' -f "$work/host_key"
    ssh-keygen -q -t ed25519 -N '' -f "$work/user_key"
    printf '[127.0.0.1]:%s %s\n' "$port" "$(cut -d ' ' -f 1-2 "$work/host_key.pub")" > "$work/known_hosts"
    printf '%s\n' "ListenAddress 127.0.0.1" "Port $port" "HostKey $work/host_key" "PidFile none" "StrictModes no" \
        "AuthorizedKeysFile $work/user_key.pub" "PasswordAuthentication no" "UsePAM no" > "$work/sshd_config"
    printf '%s\n' "Host second" "HostName 127.0.0.1" "Port $port" "IdentityFile $work/user_key" "IdentitiesOnly yes" \
        "UserKnownHostsFile $work/known_hosts" "BatchMode yes" > "$work/ssh_config"
    [ "$(id -u)" != 0 ] || mkdir -p /run/sshd
    "$1" -D -f "$work/sshd_config" -E "$work/sshd.log" &
    started="$started $!"
    machines=$work/machines
    printf '2/:\n2/ssh -F %s second\n' "$work/ssh_config" > "$machines"
    for _ in $(seq 50); do
        ! ssh -F "$work/ssh_config" second true 2> /dev/null || return 0
        sleep 0.1
    done
    cat "$work/sshd.log"
    different "sshd doesn't answer"
}

if sshd=$(PATH=$PATH:/usr/sbin command -v sshd); then
    start_sshd "$sshd"
    make_list ssh
    status=0; render ssh --jobs 2 --sshloginfile "$machines" --against parallel.table > against.table || status=$?
    [ "$status" = 1 ] || different "two machines: status $status, not 1"
    [ "$(grep -c 'same$' against.table)" = 37 ] || different "two machines: not all 37 scenes with a settled status are the same"
    same ssh
    [ "$(tail -n +2 ssh.tsv.run/joblog | cut -f 2 | sort -u | wc -l)" = 2 ] || different "one of the two machines did nothing"
    echo "GNU parallel on two machines, one of them over ssh: files, statuses and lines are those of the loop"
else
    echo "skipped: no sshd, so nothing was rendered over ssh (apt-get install openssh-server)"
fi

start_slurm() { # a Slurm of one machine
    local host port control
    host=$(uname -n | cut -d . -f 1)
    control=$(free_port)
    port=$(free_port)
    head -c 128 /dev/urandom > "$work/munge.key"
    chmod 600 "$work/munge.key"
    mkdir "$work/state" "$work/spool"
    sed "s|WORK|$work|; s|HOST|$host|; s|USER|$(id -un)|" > "$work/slurm.conf" <<END
ClusterName=farm
SlurmctldHost=HOST(127.0.0.1)
SlurmUser=USER
SlurmdUser=USER
AuthInfo=socket=WORK/munge.socket
SlurmctldPort=$control
SlurmdPort=$port
SlurmctldPidFile=WORK/slurmctld.pid
SlurmdPidFile=WORK/slurmd.pid
SlurmctldLogFile=WORK/slurmctld.log
SlurmdLogFile=WORK/slurmd.log
StateSaveLocation=WORK/state
SlurmdSpoolDir=WORK/spool
ProctrackType=proctrack/linuxproc
TaskPlugin=task/none
SelectType=select/cons_tres
SelectTypeParameters=CR_CPU
SchedulerParameters=bf_interval=1
MpiDefault=none
NodeName=HOST NodeAddr=127.0.0.1 CPUs=$(nproc)
PartitionName=all Nodes=HOST Default=YES State=UP
END
    export SLURM_CONF=$work/slurm.conf
    munged --foreground --key-file="$work/munge.key" --socket="$work/munge.socket" --pid-file="$work/munged.pid" \
        --log-file="$work/munged.log" --seed-file="$work/munge.seed" 2> "$work/munged.err" &
    started="$started $!"
    for _ in $(seq 50); do [ ! -S "$work/munge.socket" ] || break; sleep 0.1; done
    slurmctld -D 2> "$work/slurmctld.err" &
    started="$! $started"
    slurmd -D 2> "$work/slurmd.err" &
    started="$! $started"
    for _ in $(seq 100); do
        [ "$(sinfo --noheader --format %T 2> /dev/null)" != idle ] || return 0
        sleep 0.2
    done
    tail -n 20 "$work"/munged.err "$work"/slurmctld.log "$work"/slurmd.log
    different "Slurm doesn't answer"
}

records() { # how many scenes Slurm has rendered or refused
    find slurm.tsv.run -name '[0-9]*' -not -name '*.part.*' 2> /dev/null | wc -l
}

export PATH=$PATH:/usr/sbin
for tool in munged slurmctld slurmd sbatch; do
    if ! command -v "$tool" > "$work/found"; then
        echo "skipped: no $tool, so nothing was rendered by Slurm (apt-get install slurm-wlm munge)"
        exit 0
    fi
done
start_slurm
make_list slurm
array=(--array=1-8 "$top/farm/slurm.sbatch" slurm.tsv)
job=$(sbatch --parsable "${array[@]}")
until [ "$(records)" -ge 10 ]; do sleep 0.05; done
scancel "$job"
while [ -n "$(squeue --noheader)" ]; do sleep 0.2; done
[ "$(records)" -lt 40 ] || different "the array had ended before it was to be cancelled"
echo "Slurm, cancelled after $(records) of 40 scenes"
status=0; sbatch --wait "${array[@]}" > "$work/found" || status=$?
[ "$status" = 1 ] || different "a job array with refused scenes: status $status, not 1"
same slurm
[ "$(cat slurm-*.out | grep -c '^0 ')" -le 28 ] || different "Slurm rendered a scene again"
echo "Slurm, submitted again: files, statuses and lines are those of the loop"
