#!/usr/bin/env bash
# Solves the problems of files of cases by `concretize` and by gringo and clasp, and compares answers and times.
#
#   bench/concretize.sh [--program PROGRAM] [OPTION..] FILE..
#
# Without --program it runs the build of these sources. `--help` has the options, and bench/concretize/compare.py says what a case
# is and what is timed. gringo and clasp come with Debian and Ubuntu: apt-get install gringo clasp.
set -euo pipefail

top="$(cd "$(dirname "${BASH_SOURCE[0]}")/.." && pwd)"

for tool in python3 gringo clasp; do
  command -v "$tool" >/dev/null || { echo "bench/concretize.sh: $tool is missing" >&2; exit 2; }
done

words=("$@")
case " $* " in
*" --program "* | *" --program="* | *" --help "* | *" -h "*) ;;
*)
  source "$top/tools/launch.sh"
  ready_program spack_concretize # the build of these sources, or none
  words=(--program "$program" "$@")
  ;;
esac

exec python3 "$top/bench/concretize/compare.py" "${words[@]}"
