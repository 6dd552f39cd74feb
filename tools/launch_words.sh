# shellcheck shell=bash
# The words of ./spack_concretize: the commands with what each takes, which word of a wrong call is wrong and why, and help
# about one command. Sourced by tools/launch.sh. The program alone decides what is wrong; this only says more behind its line.

# What each command takes; SPEC, the last, is one word or more. The order is that of the help.
command_words=(
  'concretize REPO SETTINGS DATABASE LOCK CERT SPEC'
  'judge REPO SETTINGS DATABASE LOCK SPEC'
  'check REPO SETTINGS DATABASE LOCK CERT SPEC'
  'fresh REPO SETTINGS DATABASE LOCK SPEC'
  'refute REPO SETTINGS DATABASE CERT SPEC'
  'explain REPO SETTINGS DATABASE SPEC'
  'reasons REPO SETTINGS DATABASE SPEC'
  'find REPO SETTINGS DATABASE SPEC'
  'plan REPO SETTINGS DATABASE LOCK SPEC'
  'each REPO SETTINGS DATABASE DIR SPEC'
  'check_each REPO SETTINGS DATABASE DIR SPEC'
  'trial N SEED'
)
# What the launcher itself takes in place of a command.
own_words=(--help --json --version --where)

# Sets `takes` to what the command takes, or is false.
command_takes() {
  local row
  for row in "${command_words[@]}"; do
    [ "${row%% *}" != "$1" ] || { read -r -a takes <<<"${row#* }" && return; }
  done
  return 1
}

# Sets `shown` to a word as it can be shown: its control bytes as \u001b, and cut where it is longer than $2 (60) bytes.
show() {
  local text=$1 at sign
  local -i limit=${2:-60}
  shown=''
  [ "${#text}" -le "$limit" ] || text="${text:0:limit}..."
  if [[ $text != *[[:cntrl:]]* && $text != *$'\xc2'[$'\x80'-$'\x9f']* ]]; then
    shown=$text
    return
  fi
  for ((at = 0; at < ${#text}; at++)); do
    sign="${text:at:1}"
    if [[ $sign == $'\xc2' && ${text:at+1:1} == [$'\x80'-$'\x9f'] ]]; then
      at=$((at + 1))
      sign="\\u00$(printf %s "${text:at:1}" | od -An -tx1 | tr -d ' \n')"
    elif [[ $sign == [[:cntrl:]] ]]; then
      printf -v sign '\\u%04x' "'$sign"
    fi
    shown+=$sign
  done
}

# Sets `distance` to how many signs are to be put in, taken out or replaced between two words.
distance_of() {
  local one=$1 two=$2 row=() above=() at to cost
  for ((to = 0; to <= ${#two}; to++)); do row+=("$to"); done
  for ((at = 1; at <= ${#one}; at++)); do
    above=("${row[@]}") row=("$at")
    for ((to = 1; to <= ${#two}; to++)); do
      cost=${above[to - 1]}
      [ "${one:at-1:1}" = "${two:to-1:1}" ] || cost=$((cost + 1))
      cost=$((above[to] + 1 < cost ? above[to] + 1 : cost))
      row+=("$((row[to - 1] + 1 < cost ? row[to - 1] + 1 : cost))")
    done
  done
  distance=${row[-1]}
}

# Sets `nearest` to the command that is nearest to a word, where one is near.
nearest_to() {
  local row name distance best=4 text=${1,,}
  nearest=''
  [ "${#text}" -le 20 ] || return 0
  for row in "${command_words[@]}" "${own_words[@]}"; do
    name=${row%% *}
    distance_of "${text#--}" "${name#--}"
    [ "$distance" -ge "$best" ] || [ "$distance" -ge "${#text}" ] || best=$distance nearest=$name
  done
}

# Sets `wrong` to why the first word is none of the commands.
wrong_command() {
  local names nearest shown
  printf -v names '%s, ' "${command_words[@]%% *}"
  names="${names%, }"
  if [ "$#" = 0 ]; then
    wrong="no word was given; the first is a command: $names"
  elif [[ " ${own_words[*]} " == *" $1 "* ]]; then
    wrong="\`$1\` stands alone (but --json, which stands before a command)"
  else
    show "$1" && nearest_to "$1"
    wrong="word 1, \`$shown\`, is no command${nearest:+; \`$nearest\` is the nearest}: $names"
  fi
}

# Sets `wrong` to what is missing, with what the words that are there were taken for.
missing_words() {
  local command=$1 at=0 shown were='' missing=''
  shift
  for ((at = 0; at < ${#takes[@]}; at++)); do
    if [ "$at" -lt "$#" ]; then
      show "${@:at+1:1}"
      were+="${were:+, }${takes[at]} is \`$shown\`"
    else
      missing+="${missing:+, }${takes[at]}"
    fi
  done
  wrong="$command takes ${takes[*]}: $missing missing${were:+; $were}"
}

# Sets `wrong` to why N or SEED of a trial is none.
wrong_trial() {
  local shown
  if [[ ! $1 =~ ^[1-9][0-9]{0,3}$ ]] || [ "$1" -gt 1000 ]; then
    show "$1"
    wrong="N, word 2, is \`$shown\`: a number from 1 to 1000, in digits alone"
  elif [[ ! $2 =~ ^(0|[1-9][0-9]{0,19})$ || ${#2} = 20 && $2 > 18446744073709551615 ]]; then
    show "$2"
    wrong="SEED, word 3, is \`$shown\`: a number from 0 to 18446744073709551615, in digits alone"
  fi
}

# Sets `wrong` to which word is wrong and why, in the order in which they stand; empty where none is.
wrong_word() {
  local takes=() command=${1:-} at text lock='' shown
  wrong=''
  command_takes "$command" || { wrong_command "$@" && return; }
  shift
  [ "$#" -ge "${#takes[@]}" ] || { missing_words "$command" "$@" && return; }
  if [ "$command" = trial ]; then
    [ "$#" = 2 ] && wrong_trial "$@" || wrong="trial takes N SEED, and no more words"
    return
  fi
  for at in "${!takes[@]}"; do
    text="${@:at+1:1}"
    case ${takes[at]} in
    LOCK)
      lock=$text
      [ "$text" != - ] || wrong="LOCK, word $((at + 2)), is \`-\`: it names a file${command:+ for $command}"
      ;;
    DIR)
      [ "$text" != - ] || wrong="DIR, word $((at + 2)), is \`-\`: it names the folder of the files of all roots"
      ;;
    CERT)
      if [ "$text" = - ] && [ "$command" != concretize ]; then
        wrong="CERT, word $((at + 2)), is \`-\`: $command reads the file of a certificate"
      elif [ -n "$lock" ] && [ "$text" = "$lock" ]; then
        show "$text"
        wrong="LOCK and CERT, words $((at + 1)) and $((at + 2)), are both \`$shown\`: each is a file of its own"
      fi
      ;;
    SPEC)
      text="${*:at+1}"
      [[ $text == *[!$' \t\n\r']* ]] || wrong="SPEC, from word $((at + 2)) on, is blank: name a package, as in 'hdf5@1.14: +mpi'"
      ;;
    esac
    [ -z "$wrong" ] || return 0
  done
}

words_are_right() {
  local wrong
  wrong_word "$@"
  [ -z "$wrong" ]
}

# Says which word is wrong, behind the program's own line.
tell_wrong_words() {
  local wrong takes=()
  wrong_word "$@"
  [ -n "$wrong" ] || return 0
  tell "spack_concretize: $wrong"
  if command_takes "${1:-}"; then
    tell "  spack_concretize $1 ${takes[*]}$([ "${takes[-1]}" != SPEC ] || echo ..)    (more by \`spack_concretize $1 --help\`)"
  else
    tell '  `spack_concretize --help` has each with its words'
  fi
}

# Runs the program with words that are wrong, and says which is, where the program says that they are.
run_wrong_words() {
  local status=0
  "$program" "$@" || status=$?
  [ "$status" != 2 ] || tell_wrong_words "$@"
  exit "$status"
}

# Says how the program, or one of its commands, is called, for `help`, `help COMMAND`, `COMMAND --help`: false for other words.
help_with_a_word() {
  local command takes=()
  case "$#:${1:-}:${2:-}" in
  1:help:) command='' ;;
  2:help:* | 2:--help:*) command=$2 ;;
  2:*:--help | 2:*:-h) command=$1 ;;
  *) return 1 ;;
  esac
  [ -z "$command" ] || command_takes "$command" || return 1
  need launch_help.sh help_of
  if [ -n "$command" ]; then
    help_of_command "$command" || true # a reader that has enough closes its end
  else
    help_of spack_concretize || true
  fi
}

# Runs the program by site_tools/run_json, which says all that it says as one JSON object.
run_for_json() {
  local wrong
  wrong_word "$@"
  PATH="$callers_path" exec "$top/site_tools/run_json" "$program" "$wrong" "$@"
}
