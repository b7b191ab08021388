#!/usr/bin/env bash
#SBATCH --job-name=papcalc
#SBATCH --requeue
#SBATCH --open-mode=append
#SBATCH --output=papcalc-%A_%a.log
# One part of a folder that split_table.py made, as a task of a job array: sbatch --array=1-PARTS papcalc.sbatch FOLDER [QUESTION ..].
# The question is a line of a script, `report` where none is said, or `file MONTH`. PAPCALC names the program, else it is papcalc.
#
# The result goes to part-NNNN.report, or part-NNNN.filed-MONTH, by a rename once it is whole: so a task that runs twice leaves one result.
# What was read stands at its front. A refusal (status 1) ends the task. For any other fault the task is put back into the queue, at most
# RETRIES times (3 where nothing is said); one whose node fails is put back by Slurm. Without Slurm, tools/run_part.sh runs it.
set -uo pipefail
export LC_ALL=C
usage='usage: sbatch --array=1-PARTS papcalc.sbatch FOLDER [QUESTION ..]
Runs one part of a folder that split_table.py made, and puts its result there.
QUESTION is a line of a script: report where none is said, or file MONTH.
PAPCALC in the environment names the program, else it is papcalc; RETRIES says
how often a task is tried again (3).'
case ${1:-} in -h | --help) echo "$usage"; exit ;; esac
if [ $# -eq 0 ] || [ -z "${SLURM_ARRAY_TASK_ID:-}" ]; then echo "$usage" >&2; exit 2; fi
folder=$1 question=${*:2}
question=${question:-report}
part=$(printf 'part-%04d' "$SLURM_ARRAY_TASK_ID")
result=$part.${question/#file /filed-}
papcalc=${PAPCALC:-papcalc}
attempt=${SLURM_RESTART_COUNT:-0}

end_with() {
    echo "papcalc: $part: $2; nothing is put at $folder/$result" >&2
    rm -f "${made:-}"
    if [ "$1" -ne 1 ] && [ -n "${SLURM_JOB_ID:-}" ] && [ "$attempt" -lt "${RETRIES:-3}" ]; then
        scontrol requeue "${SLURM_ARRAY_JOB_ID}_$SLURM_ARRAY_TASK_ID" && sleep 60
    fi
    exit "$1"
}

cd "$folder" || end_with 3 "there is no folder $folder"
[ -e "$part.csv" ] || end_with 1 "there is no $folder/$part.csv"
edits=$part.edits
[ -e "$edits" ] || edits=
made=.$result.$(hostname).$$.$attempt
trap 'rm -f "$made"' EXIT

receipt() {
    sha256sum "$part.csv" plans.script plans/* ${edits:+"$edits"} && "$papcalc" --version && echo "$question"
}

script() {
    cat plans.script && printf '\nload %s.csv\n' "$part" && { [ -z "$edits" ] || cat "$edits"; } && printf '\n%s\n' "$question"
}

receipt | sed 's/^/# /' > "$made" || end_with 3 "a file of the part or the program $papcalc can't be read, or the disk is full"
script | "$papcalc" run >> "$made"
status=$?
[ "$status" -eq 0 ] || end_with "$status" "status $status"
{ sync "$made" && mv -f "$made" "$result"; } || end_with 5 "the result can't be brought to the disk"
