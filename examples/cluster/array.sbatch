#!/usr/bin/env bash
#SBATCH --job-name=wfprov
#SBATCH --requeue
#SBATCH --output=/dev/null
# An array of jobs for Slurm: task N does the job whose name stands in line N of a list. What it says goes to the file `said` of the job.
#   sbatch --array=1-N array.sbatch PARTS FOLDER LIST    PARTS is the path of parts.py; slurm.sh makes such calls
set -euo pipefail

cd -- "$2"
job=$(sed -n "${SLURM_ARRAY_TASK_ID}p" "$3")
exec python3 "$1" answer "$job" 2>"$job/said"
