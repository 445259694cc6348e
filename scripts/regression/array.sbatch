#!/bin/sh
#SBATCH --job-name=svamon --cpus-per-task=4 --output=/dev/null
# sbatch --array=1-$(wc -l < dumps.txt) array.sbatch rules.sva reports dumps.txt [OPTION ..]: one dump of the list for
# each task, with more options of svamon check.
rules=$1 reports=$2 dump=$(sed -n "${SLURM_ARRAY_TASK_ID}p" "$3")
shift 3
./judge "$rules" "$reports" "$dump" "$@"
