#!/usr/bin/env bash
# A job array for Slurm: each task does its part of the runs, and keeps them in a folder that all nodes see.
#   sbatch --array=1-16 examples/cluster/array.sbatch FOLDER FILES.. --bars BARS..
# then, when all have ended: ysh totals join FOLDER/part-*.json
# A task that was interrupted and is started again goes on where it was. YSH names the program where it is not on the path.
#SBATCH --job-name=ysh-trials
#SBATCH --output=%x-%A-%a.log
#SBATCH --requeue
set -euo pipefail
folder=$1
shift
part=$SLURM_ARRAY_TASK_ID
exec "${YSH:-ysh}" trials "$@" --part "$part/$SLURM_ARRAY_TASK_COUNT" --threads "${SLURM_CPUS_PER_TASK:-1}" \
    --totals "$folder/part-$part.json" --resume "$folder/part-$part.journal"
