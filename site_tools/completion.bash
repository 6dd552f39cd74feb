# Completion for bash: `source site_tools/completion.bash`. It completes the commands and the launcher's own words, files by
# their places, and the names of packages in REPO, also behind `^`. Behind `--json` and `help` stands a command.
_spack_concretize() {
  local word=${COMP_WORDS[COMP_CWORD]} front='' commands='concretize judge check fresh refute explain reasons find plan each check_each trial' at=1 specs_from
  COMPREPLY=()
  case ${COMP_WORDS[1]:-} in --json | help) [ "$COMP_CWORD" = 1 ] || at=2 ;; esac
  local command=${COMP_WORDS[at]:-} place=$((COMP_CWORD - at))
  if [ "$place" = 0 ]; then
    [ "$at" = 2 ] || commands+=' help --help --json --version --where'
    mapfile -t COMPREPLY < <(compgen -W "$commands" -- "$word")
    return
  fi
  [ "${COMP_WORDS[1]:-}" != help ] || return
  case $command in
  concretize | check) specs_from=6 ;;
  judge | fresh | refute | plan | each | check_each) specs_from=5 ;;
  explain | reasons | find) specs_from=4 ;;
  *) return ;;
  esac
  if [ "$place" = 1 ] && [[ $word == -* ]]; then
    mapfile -t COMPREPLY < <(compgen -W --help -- "$word")
  elif [ "$place" = 1 ]; then
    compopt -o filenames 2>/dev/null
    mapfile -t COMPREPLY < <(compgen -d -- "$word")
  elif [ "$place" = 4 ] && [[ $command == *each ]]; then
    compopt -o filenames 2>/dev/null
    mapfile -t COMPREPLY < <(compgen -d -- "$word")
  elif [ "$place" -lt "$specs_from" ]; then
    compopt -o filenames 2>/dev/null
    mapfile -t COMPREPLY < <(compgen -f -- "$word")
  else
    [ "${word#^}" = "$word" ] || front='^'
    local names=()
    if [ -d "${COMP_WORDS[at + 1]}/packages" ]; then
      mapfile -t names < <(cd "${COMP_WORDS[at + 1]}/packages" && printf '%s\n' */package.py)
    fi
    names=("${names[@]%/package.py}")
    mapfile -t COMPREPLY < <(compgen -P "$front" -W "${names[*]}" -- "${word#^}")
  fi
}
complete -F _spack_concretize spack_concretize ./spack_concretize
