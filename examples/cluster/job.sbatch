#!/bin/sh
#SBATCH --job-name=cubes
#SBATCH --cpus-per-task=1
#SBATCH --output=job.%a.log
# One job for each task of a Slurm array, whose tasks are numbered from 0; how many jobs the whole run has is this script's word, since an array
# may be started again with some of its tasks alone: sbatch --array=0-15 job.sbatch 16
exec sh job.sh "$SLURM_ARRAY_TASK_ID" "${1:?how many jobs the run has}"
