#!/usr/bin/env bash
#SBATCH --job-name=scenes
# Renders the scenes of a list with scenerender, as a job array of Slurm.
set -u
usage() {
    cat <<'END'
Usage: sbatch --array=1-N [OPTION OF sbatch..] farm/slurm.sbatch [--workers W] [--run DIR] LIST

Renders the scenes of LIST (see render_all --help) in N jobs: job K takes the lines K, K + N, K + 2N and so on. Each machine sees the
directory that you are in, the clone and the program at the same paths. The same command again renders only what hasn't the status 0 yet.
farm/table LIST prints what became of each scene.

  --workers W   threads that decode for each scene, beside the one that mixes, 0 to 16 (0); ask for --cpus-per-task=W+1
  --run DIR     where the answers are kept (LIST.run)

SCENERENDER names the program; without it, that of the clone is used, which has to be built. FARM names the clone's directory farm/
where `scontrol show job` doesn't tell it.

A job ends with 0 where each of its scenes has the status 0, with 1 where one has another, with 2 where these words or LIST are
wrong.
END
}
if [ -z "${SLURM_JOB_ID:-}" ]; then
    usage
    [ "${1:-}" = --help ] && exit 0
    echo "slurm.sbatch: this is no job of Slurm: start it by sbatch" >&2
    exit 2
fi
# Slurm runs a copy of this script that lies elsewhere.
farm=${FARM:-$(scontrol show job "$SLURM_JOB_ID" | sed -n 's|^ *Command=\(.*\)/slurm\.sbatch.*|\1|p' | head -n 1)}
name=slurm.sbatch
[ -r "$farm/common.sh" ] || { echo "slurm.sbatch: the directory farm/ isn't found: name it by FARM" >&2; exit 2; }
. "$farm/common.sh"
checked=$(mktemp)
trap 'rm -f "$checked"' EXIT

list= run= workers=0
while [ $# -gt 0 ]; do
    case $1 in
        --workers | --run) [ $# -ge 2 ] || fail "$1 wants a word after it"; declare "${1#--}=$2"; shift 2 ;;
        -*) fail "no option '$1'" ;;
        *) [ -z "$list" ] || fail "more than one list: '$list' and '$1'"; list=$1; shift ;;
    esac
done
[ -n "$list" ] || fail "no list"
task=${SLURM_ARRAY_TASK_ID:-1} tasks=${SLURM_ARRAY_TASK_MAX:-1}
[ "${SLURM_ARRAY_TASK_MIN:-1}" = 1 ] && [ "${SLURM_ARRAY_TASK_COUNT:-1}" = "$tasks" ] || fail "an array is --array=1-N"
check_workers "$workers"
check_list "$list"
find_program
run=${run:-$list.run}
open_run "$list" "$run"

missed=0 number=0
while IFS=$'\t' read -r scene out; do
    number=$((number + 1))
    [ $((number % tasks)) = $((task % tasks)) ] || continue
    [ "$(cut -f 1 -- "$run/$number" 2> /dev/null)" != 0 ] || continue
    status=0
    "$farm/render_one" "$program" "$workers" "$run" "$number" "$scene" "$out" < /dev/null || status=$?
    echo "$status $scene"
    [ "$status" = 0 ] || missed=1
done < "$run/list"
exit "$missed"
