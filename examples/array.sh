#!/bin/bash
#SBATCH --array=0-63
#SBATCH --output=%A_%a.lines
# A task of a Slurm array: it seals the files that are named in lists/TASK, a name a line, at most 65,535 of them.
# Its ledger is in ~/sealer/TASK, on storage that stays, and was made once by hand; its device number is 4096 + TASK.
task=$SLURM_ARRAY_TASK_ID
state=$HOME/sealer/$task
mapfile -t files < "lists/$task"
exec sealer seal --key "$HOME/sealer/key" --ledger "$state/ledger" --no-new-ledger --device $((4096 + task)) \
    --journal "$state/journals/$SLURM_JOB_ID.$(date +%s)" -- "${files[@]}"
