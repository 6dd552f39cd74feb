#!/usr/bin/env bash
# Compares the models of encodings with the graphs that `judge` calls valid, over files of cases; rows of rules with `compare.sh rules`.
#
#   bench/encoding/compare.sh [OPTION..] FILE..      compare.py: problems of files of cases
#   bench/encoding/compare.sh rules [OPTION..]       rules.py: for each rule a graph that keeps all, and one that breaks it
#   bench/encoding/compare.sh required [OPTION..]    required.py: all graphs of small problems whose settings have `require`
#   bench/encoding/compare.sh named [OPTION..]       named.py: all graphs of small problems over databases of version 2
#   bench/encoding/compare.sh together [OPTION..]    together.py: all graphs of small problems whose recipes provide several virtuals at once
#   bench/encoding/compare.sh times [OPTION..] FILE..     times.py: sizes and times of encodings
#
# Without --encode and --program it runs the builds of these sources. `--help` has the options. clasp comes with Debian and Ubuntu:
# apt-get install clasp.
set -euo pipefail

here="$(cd "$(dirname "${BASH_SOURCE[0]}")" && pwd)"
top="$here/../.."

for tool in python3 clasp; do
  command -v "$tool" >/dev/null || { echo "compare.sh: $tool is missing" >&2; exit 2; }
done

script=compare.py
case ${1:-} in
rules | required | named | together | times)
  script="$1.py"
  shift
  ;;
esac
words=("$@")
source "$top/tools/launch.sh"
# Adds the build of a program where the words do not name one.
add() {
  case " ${words[*]} " in
  *" $1 "* | *" $1="* | *" --help "* | *" -h "*) ;;
  *)
    ready_program "$2" # the build of these sources, or none
    words=("$1" "$program" "${words[@]}")
    ;;
  esac
}
add --encode encode_dimacs
[ "$script" = times.py ] || add --program spack_concretize

exec python3 "$here/$script" "${words[@]}"
