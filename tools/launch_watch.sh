# shellcheck shell=bash
# A run on a terminal: that it is at work is told, and of its refusal what a person asks next. Sourced by tools/launch.sh.

# The number of seconds after which a run is next said to be at work: 1, 2, 5, 10, 20, and then each half minute.
next_time() {
  local time
  for time in 1 2 5 10 20; do
    [ "$1" -ge "$time" ] || break
  done
  [ "$1" -lt "$time" ] || time=$(($1 / 30 * 30 + 30))
  printf '%s\n' "$time"
}

# The text with commas in its long numbers.
with_commas() {
  local text=$1
  while [[ $text =~ ^(.*[0-9])([0-9]{3})(([^0-9].*)?)$ ]]; do
    text="${BASH_REMATCH[1]},${BASH_REMATCH[2]}${BASH_REMATCH[3]}"
  done
  printf '%s\n' "$text"
}

# Says that the run with this process number is at work, which memory it holds, and the stage that it writes into the file:
# at those times, and where it is at another part of its work, but at most once a second. A line on its standard input ends
# it; the end of that input without a line means that the launcher was killed outright, and then the run goes on no longer.
watch_run() {
  local name=$1 run=$2 file=$3 seconds=0 next=1 stage='' part='' status pages line
  while true; do
    status=0
    read -r -t 1 || status=$?
    [ "$status" != 0 ] || return 0
    [ "$status" -gt 128 ] || { kill -TERM "$run" 2>/dev/null || true; return 0; }
    seconds=$((seconds + 1))
    { read -r _ pages _ <"/proc/$run/statm"; } 2>/dev/null || continue
    { read -r line <"$file" && stage="$(with_commas "$line")"; } 2>/dev/null
    [ "$seconds" -ge "$next" ] || [ "$part" != "${stage%%[ :]*}" ] || continue
    next="$(next_time "$seconds")" part="${stage%%[ :]*}"
    tell "$name: at work for $seconds s, $((pages / 256)) MiB${stage:+, $stage}"
  done
}

# Opens a file without a name, and sets `opened` to its number here and in the processes that are started.
open_nameless() {
  local path status=0
  path="$(mktemp 2>/dev/null)" || return
  { exec {opened}<>"$path"; } 2>/dev/null || status=$?
  rm -f "$path"
  return "$status"
}

# The run ends with the launcher: by the same signal, but that the run is sent SIGTERM, since a shell's child ignores SIGINT. The
# file that it was about to put, which it holds open until that has its name, goes too: the run stands still while it is looked for.
end_with() {
  local link path beside=()
  trap '' INT TERM HUP QUIT
  kill -STOP "$run" 2>/dev/null || true
  for link in "/proc/$run/fd/"*; do
    path="$(readlink "$link" 2>/dev/null)" || continue
    [[ $path != */.spack_concretize-*.tmp ]] || beside+=("$path")
  done
  kill -TERM "$run" 2>/dev/null || true
  kill -CONT "$run" 2>/dev/null || true
  wait "$run" 2>/dev/null || true
  [ "${#beside[@]}" = 0 ] || rm -f -- "${beside[@]}" || true
  trap - "$1"
  kill -s "$1" $$
}

# Says what the run said on standard error, with control bytes escaped, and behind a refusal what a person asks next.
tell_said() {
  local status=$1 said shown
  shift
  said="$(head -c 65536 "/proc/self/fd/$opened" | tr '\0' ' ')"
  [ -n "$said" ] || return 0
  show "$said" 2000
  tell "$shown"
  [ "$status" != 2 ] || tell_wrong_words "$@"
  [ "$status" -lt 4 ] || [ "$status" -gt 8 ] ||
    printf '%s\n' "$said" | PATH="$callers_path" "$top/site_tools/show_fault" --more - "$@" >&2 2>/dev/null || true
}

# Runs the program for a person: a terminal is told that a long run is at work, and of a refusal its place.
run_on_terminal() {
  local name=$1 status=0 run held signal said opened='' stage=''
  shift
  ! open_nameless || export SPACK_CONCRETIZE_STAGE="${stage:=/proc/self/fd/$opened}"
  opened=2
  [ "$name" != spack_concretize ] || open_nameless || opened=2
  PATH="$callers_path" "$program" "$@" <&0 2>&"$opened" &
  run=$!
  for signal in INT TERM HUP QUIT; do trap "end_with $signal" "$signal"; done
  exec {held}> >(trap '' INT && watch_run "$name" "$run" "$stage" >/dev/null)
  wait "$run" || status=$?
  (echo ended >&"$held") 2>/dev/null || true
  [ "$opened" = 2 ] || tell_said "$status" "$@"
  case "$name:$status:${1:-}" in
  spack_concretize:1:concretize | spack_concretize:1:explain | spack_concretize:1:reasons)
    printf -v said ' %q' "${@:2:3}" "${@:$([ "$1" = concretize ] && echo 7 || echo 5)}"
    tell "why, in words: $top/site_tools/show_reasons$said"
    ;;
  spack_concretize:1:each)
    printf -v said ' %q' "${@:2:3}"
    tell "why, in words, of each root that is unsatisfiable: $top/site_tools/show_reasons$said ROOT"
    ;;
  esac
  exit "$status"
}
