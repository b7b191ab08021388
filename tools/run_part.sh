#!/usr/bin/env bash
# Runs one part on this machine as a task of a cluster runs it: run_part.sh FOLDER NUMBER [QUESTION ..]. PAPCALC names the program.
usage='usage: run_part.sh FOLDER NUMBER [QUESTION ..]
Runs one part of a folder that split_table.py made, and puts its result there.
QUESTION is a line of a script: report where none is said, or file MONTH.
PAPCALC in the environment names the program, else it is papcalc.'
case ${1:-} in -h | --help) echo "$usage"; exit ;; esac
if [ $# -lt 2 ] || [[ ! $2 =~ ^[1-9][0-9]*$ ]]; then echo "$usage" >&2; exit 2; fi
SLURM_ARRAY_TASK_ID=$2 exec bash "$(dirname "$0")/cluster/papcalc.sbatch" "$1" "${@:3}"
