#!/bin/sh
# The outside checks of the search crates: run.sh [SOLVER]. Builds the proved program `log_rows` and asks it for
# 5,000 small sets (all assignments tried), 3-SAT of 50 to 150 variables, pigeon holes to 7 and sets with bits (beside
# SOLVER, minisat by default: `apt-get install minisat`, or cadical), sums as bits among them; `check_logs.py` checks each
# answer, each line of each log and each model. PROGRAM=FILE takes a build that is there.
set -e
here=$(cd "$(dirname "$0")" && pwd)
solver=${1:-minisat}
out=$(mktemp -d)
program=${PROGRAM:-}
if [ -z "$program" ]; then
    (cd "$here/../../crates/log_rows" && rt run < /dev/null > /dev/null)
    program="$here/../../crates/log_rows/out/log_rows"
fi
check() {
    name=$1
    shift
    python3 "$here/sets.py" "$@" > "$out/$name.rows"
    start=$(date +%s.%N)
    "$program" < "$out/$name.rows" > "$out/$name.answers"
    end=$(date +%s.%N)
    printf '%s: %.2f s; ' "$name" "$(echo "$end - $start" | bc)"
    python3 "$here/check_logs.py" "$out/$name.rows" "$out/$name.answers" --sat "$solver"
}
check small small 2000 1
check tight tight 2000 8
check ends ends 1000 9
check threesat50 threesat 400 2 50
check threesat75 threesat 200 3 75
check threesat100 threesat 80 4 100
check threesat125 threesat 20 5 125
check threesat150 threesat 10 6 150
check pigeons pigeons 6 4 7
check bits40 bits 300 5 40
check bits80 bits 60 6 80
check bits120 bits 20 7 120
check totals totals 6 8 16 3
rm -r "$out"
