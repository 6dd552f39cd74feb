#!/usr/bin/env bash
# Has other solvers answer the problems of files of cases, makes certificates and lock files outside of the program (site_tools/optimize), and
# asks `check` and `refute` for their yes; then hands in graphs that are not the best, and wants a no.
#
#   bench/foreign.sh [--program FILE --encoder FILE] [OPTION..] FILE..
#
# Without --program and --encoder it runs the builds of these sources. `--help` has the options, and bench/foreign.py says what a case is. It
# ends with 1 where an answer is wrong. The solver is cadical (apt-get install cadical), or what --solver and --prover say.
set -euo pipefail

top="$(cd "$(dirname "${BASH_SOURCE[0]}")/.." && pwd)"

words=("$@")
case " $* " in
*" --program "* | *" --program="* | *" --help "* | *" -h "*) ;;
*)
  source "$top/tools/launch.sh"
  ready_program encode_dimacs # the builds of these sources, or none
  words=(--encoder "$program" "$@")
  ready_program spack_concretize
  words=(--program "$program" "${words[@]}")
  ;;
esac

exec python3 "$top/bench/foreign.py" "${words[@]}"
