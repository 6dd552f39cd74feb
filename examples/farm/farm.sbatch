#!/usr/bin/env bash
#SBATCH --job-name=farm --cpus-per-task=4 --mem=2G --time=01:00:00 --output=farm-%A-%a.out
# Solves one group of a farm by each task of a Slurm array, called at the top of the checkout, on a file system that all machines see:
#
#   sbatch --array=0-N examples/farm/farm.sbatch FARM REPO SETTINGS DATABASE      (N: the number of the last group)
set -euo pipefail
cd "$SLURM_SUBMIT_DIR"
group="$(printf %04d "$SLURM_ARRAY_TASK_ID")"
exec examples/farm/solve_group "$1" "$group" "${@:2}"
