#!/usr/bin/env bash
# Tries the program where machines fail and files are hostile: kills, full disks, little memory, refused allocations, several runs
# at once, faults of calls of the system, links, pipes and devices, long lists on a small stack, damaged files of each kind, files
# that are made to stop the importers.
#
#   bench/hostile.sh [--program FILE] [OPTION..] [WORD..]
#
# Without --program it runs the build of these sources. It needs no kit then where there is one; python3 and strace (apt-get install
# strace), cc for the refused allocations, and for the full disk the right to mount one. With words only the parts whose name has one
# of them; `--help` has their names.
# It ends with 1 where something was wrong.
set -euo pipefail

top="$(cd "$(dirname "${BASH_SOURCE[0]}")/.." && pwd)"

for tool in python3 strace; do
  command -v "$tool" >/dev/null || { echo "bench/hostile.sh: $tool is missing" >&2; exit 2; }
done

words=("$@")
case " $* " in
*" --program "* | *" --program="* | *" --help "* | *" -h "*) ;;
*)
  source "$top/tools/launch.sh"
  ready_program spack_concretize # the build of these sources, or none
  words=(--program "$program" "$@")
  ;;
esac

exec python3 "$top/bench/hostile/hostile.py" "${words[@]}"
