#!/bin/bash
# A Slurm job array that answers frames in parts (docs/SCALING.md). With jingcobu-parts and jingcobu-desk on the path of every node (make
# install), and FOLDER on a file system that all of them see:
#
#   jingcobu-parts cut frames FOLDER 100
#   sbatch --wait --array=0-99 --requeue frames.sbatch FOLDER
#   jingcobu-parts join FOLDER > answers
#
# A part that is done is not worked again: the same sbatch line, given again, brings back what was lost.
#SBATCH --job-name=jingcobu
#SBATCH --ntasks=1
#SBATCH --cpus-per-task=1
#SBATCH --time=01:00:00
set -eu
jingcobu-parts work "$(printf '%s/%06d.frames' "$1" "$SLURM_ARRAY_TASK_ID")"
