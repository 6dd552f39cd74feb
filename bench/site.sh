#!/usr/bin/env bash
# Asks for twenty roots of a made repository in the shape of Spack's (8,000 recipes), by `concretize` and by gringo and clasp, and compares
# answers, times and memory.
#
#   bench/site.sh [--program [LABEL=]FILE].. [--encoder [LABEL=]FILE].. [OPTION..]
#
# Without --program it runs the builds of these sources. `--help` has the options, `--small` is a run of a minute, and bench/site/README.md
# says what is made and what is measured. It ends with 1 where an answer differs or a run was cut. gringo and clasp come with Debian and
# Ubuntu: apt-get install gringo clasp.
set -euo pipefail

top="$(cd "$(dirname "${BASH_SOURCE[0]}")/.." && pwd)"

for tool in python3 gringo clasp prlimit /usr/bin/time; do
  command -v "$tool" >/dev/null || { echo "bench/site.sh: $tool is missing" >&2; exit 2; }
done

words=("$@")
case " $* " in
*" --program "* | *" --program="* | *" --help "* | *" -h "*) ;;
*)
  source "$top/tools/launch.sh"
  ready_program encode_dimacs # the builds of these sources, or none
  words=(--encoder "$program" "$@")
  ready_program spack_concretize
  words=(--program "$program" "${words[@]}")
  ;;
esac

exec python3 "$top/bench/site/measure.py" "${words[@]}"
