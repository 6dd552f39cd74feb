#!/usr/bin/env bash
# Runs the program over long lists of every kind on a stack of 256 KiB: `bench/stack.sh [PROGRAM]`, some minutes. It needs no kit, and ends with 1
# where a signal ends a run.
set -euo pipefail
cd "$(dirname "${BASH_SOURCE[0]}")/.."
exec nice -n 5 python3 bench/stack.py "${1:-release/spack_concretize-x86_64-linux}" --kib 256
