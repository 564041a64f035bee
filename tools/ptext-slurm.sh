#!/bin/sh
# Runs the parts of a plan of ptext-parts as one array job of Slurm, and puts their outputs together.
# usage: ptext-slurm.sh PLAN FOLDER RESULT [OPTION OF SBATCH..]
# All nodes can read the files of the plan, and write the folder, in which log.N is of part N. ptext and ptext-parts are
# in PATH, also there. A part that was on a node that died is queued again. If a part fails, the others are cancelled,
# and the status is 1. The outputs of parts stay in the folder then, and a second call takes those that are complete.
set -eu
[ $# -ge 3 ] || { echo 'usage: ptext-slurm.sh PLAN FOLDER RESULT [OPTION OF SBATCH..]' >&2; exit 2; }
PTEXT_PLAN=$(realpath -- "$1") PTEXT_FOLDER=$(realpath -- "$2") result=$3
export PTEXT_PLAN PTEXT_FOLDER
shift 3
parts=$(($(wc -l <"$PTEXT_PLAN") - 2))
rm -f "$PTEXT_FOLDER"/log.*
job=$(sbatch --parsable --requeue --job-name=ptext --array="1-$parts" --ntasks=1 --open-mode=append \
    --output="$PTEXT_FOLDER/log.%a" "$@" <<'END'
#!/bin/sh
ptext-parts run "$PTEXT_PLAN" "$SLURM_ARRAY_TASK_ID" "$PTEXT_FOLDER" || {
    status=$?
    scancel "$SLURM_ARRAY_JOB_ID"
    exit "$status"
}
END
)
job=${job%%;*}
trap 'scancel "$job"; exit 143' HUP INT TERM
# (`sbatch --wait` ends when a part is queued again. A controller that is away is asked again.)
while said=$(squeue --noheader --jobs="$job" 2>&1 || echo "no answer: $said"); [ "$said" ]; do
    case $said in *'Invalid job id'*) break ;; esac
    sleep 2
done
ptext-parts whole "$PTEXT_PLAN" "$PTEXT_FOLDER" "$result" || {
    cat "$PTEXT_FOLDER"/log.* >&2
    exit 1
}
