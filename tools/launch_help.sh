# shellcheck shell=bash
# What the launchers say of a program without running it: how it is called, and of which sources it is. Sourced by
# tools/launch.sh where it is asked for.

# How a program is called, for --help.
help_of() {
  case $1 in
  spack_concretize) cat <<'HELP' ;;
spack_concretize concretize REPO SETTINGS DATABASE LOCK CERT SPEC..
    finds the best graph of the specs, and puts it at LOCK as a lock file
spack_concretize judge REPO SETTINGS DATABASE LOCK SPEC..
    says whether the graph of the lock file LOCK is valid, and what it costs
spack_concretize check REPO SETTINGS DATABASE LOCK CERT SPEC..
    says whether it is the best besides, as the certificate CERT shows
spack_concretize fresh REPO SETTINGS DATABASE LOCK SPEC..
    says whether it is still the best, which takes a search and no certificate
spack_concretize refute REPO SETTINGS DATABASE CERT SPEC..
    says whether the certificate CERT shows that there is no valid graph
spack_concretize explain REPO SETTINGS DATABASE SPEC..
    says that there is a graph, or which directives and specs stand against one
spack_concretize reasons REPO SETTINGS DATABASE SPEC..
    says so by as few that none can be left out, and below each shows a graph without it
spack_concretize find REPO SETTINGS DATABASE SPEC..
    says which installed packages meet the spec, which need not name one
spack_concretize plan REPO SETTINGS DATABASE LOCK SPEC..
    says in which waves the packages of the lock file LOCK can be built
spack_concretize each REPO SETTINGS DATABASE DIR SPEC..
    finds the best graph of each root by itself, and puts DIR/N.lock and DIR/N.cert, N from 0 on
spack_concretize check_each REPO SETTINGS DATABASE DIR SPEC..
    says whether each DIR/N.lock is the best for its root, as DIR/N.cert shows
spack_concretize trial N SEED
    finds the best graph of N packages (1 to 1,000) that are made from SEED

REPO      a folder with packages/NAME/package.py           docs/formats/recipes.md
SETTINGS  a JSON file, or - for the standard settings      docs/formats/settings.md
DATABASE  what is installed, or - for nothing              docs/formats/database.md
LOCK      where the lock file is put; the others read it   docs/formats/lock-file.md
CERT      the log of the search, or - for none             docs/CERTIFICATES.md
DIR       a folder that is there, for files of each root   docs/FARMS.md
SPEC      such as 'hdf5@1.14: +mpi ^mpich'                 docs/formats/specs.md

0 done  1 unsatisfiable  2 usage  3 undecided  4 bad input  5 read fault  6 write fault  7 too large  8 refused
9 no memory  10 no words  11 stale  70 no program could be built. What a refusal means: docs/WHEN-REFUSED.md

spack_concretize --where | --version | --help | COMMAND --help
    which file runs, and why; of which sources it is; this text, or that of one command. They run nothing, and build nothing.
spack_concretize --json COMMAND ARGUMENT..
    runs the command, and says the answer as one JSON object       docs/formats/json.md
HELP
  replay_scenarios) cat <<'HELP' ;;
replay FILE-OR-FOLDER..     replays scenarios (docs/SCENARIOS.md); without words those of the repository
replay --where | --version | --help
0 all the same  1 something differs or is no scenario  2 could not be said  70 no program could be built
HELP
  encode_dimacs) cat <<'HELP' ;;
encode_dimacs REPO SETTINGS DATABASE SPEC..
    prints the clauses of the problem as DIMACS, with comments that say what its variables mean (docs/ENCODING.md)
encode_dimacs --where | --version | --help
0 done  2 usage  4 bad input  5 read fault  6 write fault  7 too large  9 no memory  10 no words  70 no program could be built
HELP
  *) echo "$1 WORD.. | --where | --version | --help" ;;
  esac
}

# How one command is called, cut out of the whole text: its own lines, those of the words that it takes, and the statuses.
help_of_command() {
  local line is_own='' takes=() words
  command_takes "$1"
  words=" ${takes[*]} "
  while IFS= read -r line; do
    case $line in
    "spack_concretize $1 "*) is_own=1 ;;
    ' '*) ;;
    [A-Z]*) [[ $words == *" ${line%% *} "* ]] && is_own=1 || is_own='' ;;
    [0-9]* | '') is_own=1 ;;
    *) is_own='' ;;
    esac
    [ -z "$is_own" ] || printf '%s\n' "$line"
  done < <(help_of spack_concretize) | cat -s
}

# Of which sources a program is: their hash, and whether its release is of them.
version_of() {
  local hash fault key name of=none
  if [ -e "$top/INSTALLED" ]; then
    printf '%s\n' "$1, installed, $(<"$top/INSTALLED")"
    return
  fi
  hash="$(sources_hash "$1")" || hash='that cannot be read'
  fault="$(release_fault "$1" "$hash" 2>/dev/null)"
  printf '%s of the sources %s\n' "$1" "$hash"
  printf 'release: %s\n' "${fault:-of these sources}"
  while read -r key name; do
    [ "$key" != kit ] || of=$name
  done 2>/dev/null <"$top/release/PROVENANCE" || true
  printf 'kit of the release: %s\n' "$of"
}

