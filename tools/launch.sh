# shellcheck shell=bash
# Which file is the build of a program crate from these very sources, and how one is made. Sourced by the launchers at the
# top and by the scripts of bench/ and tools/, with `top` set to the top of the checkout; it needs bash, coreutils, findutils.
#
#   launch NAME WORD..          runs NAME with the words; `--where` alone says which file that would be, `--help` how NAME is
#                               called, `--version` of which sources it is: these three run and build nothing
#   find_program NAME           sets `program` to a build of these sources and `why` to how that is known, or is false
#   ready_program NAME          the same, and proves and builds one where none is there
#   sources_hash NAME           the hash of all that NAME is made of
#   release_fault NAME HASH     why the release of NAME is not the build of the sources with that hash: nothing where it is
#
# No file is taken by its age or name. The release counts where release/ names the hash of these sources and the file's
# SHA-256. Failing that, a local build counts where the note beside it names the two; the note is written only after a build
# that ended well and in which no source was touched, and what was built before is removed first. So what runs is the build
# of these sources, or nothing runs; and what stands in a folder that git ignores runs only where the release is no build
# of them.
#
# To hash all sources takes longer than most runs. So out/NAME.stamp keeps, as one hash, the sizes, inodes and times of
# status changes of all files that were looked at when the release was last found right; where all are as they were, the
# release runs. Nobody can set these times. A stamp never leads to any other file than the release.

# The caller's environment has no say in how the commands below work; that it cannot bring functions of its own is by the
# launchers' `bash -p`. Texts are bytes. A launcher takes the machine's commands before those of `callers_path`, but for `rt`.
unset -v POSIXLY_CORRECT BASH_COMPAT EXECIGNORE TMOUT FIND_BLOCK_SIZE BLOCK_SIZE BLOCKSIZE LS_BLOCK_SIZE GREP_OPTIONS
export LC_ALL=C
: "${callers_path:=$PATH}"

# The program crates that are released.
programs=(encode_dimacs replay_scenarios spack_concretize)

# A status and the words of a run that ends with it, touches no file, whatever stands in the caller's folder, and tells
# that a file is the program and runs here: a status that neither `rt`, the shell nor the loader gives.
trial_of() {
  case $1 in
  spack_concretize) echo 4 concretize /dev/null - - l - @ ;;
  # Without words it says how it is called.
  replay_scenarios) echo 64 ;;
  encode_dimacs) echo 4 /dev/null - - @ ;;
  esac
}

tell() { printf '%s\n' "$*" >&2; }

# Reads further functions, once.
need() { declare -F "$2" >/dev/null || source "$top/tools/$1"; }

sha256_of() { sha256sum <"$1" | cut -c1-64; }

# The lines of crates.txt for the crate and for all of the repository that it stands on, in byte order, without comments.
crate_lines() {
  local -A lines=()
  local text words todo=("$1") name
  while read -r text || [ -n "$text" ]; do
    text="${text%%#*}"
    read -r -a words <<<"${text//,/ }"
    name="${words[0]:-}"
    [ -z "$name" ] || lines[${name%%:*}]="${words[*]}"
  done <"$top/crates.txt"
  while [ "${#todo[@]}" -gt 0 ]; do
    name="${todo[-1]}"
    unset 'todo[-1]'
    [ -n "${lines[$name]:-}" ] || continue
    printf '%s\n' "${lines[$name]}"
    read -r -a words <<<"${lines[$name]#*:}"
    todo+=("${words[@]}")
    unset "lines[$name]"
  done | sort
}

# The folders of those crates that a build reads, one a line, by their paths below the top.
source_folders() {
  local line name part
  while read -r line; do
    name="${line%%[ :]*}"
    for part in src specs proofs c; do
      [ ! -d "$top/crates/$name/$part" ] || printf '%s\n' "crates/$name/$part"
    done
  done < <(crate_lines "$1")
}

# The SHA-256 and path of each file in these folders below the top, crates' out/ aside, in the byte order of the paths.
file_sums() (
  set -o pipefail
  cd "$top" && find "$@" -regex 'crates/[^/]*/out' -prune -o \( -type f -o -type l \) -print0 |
    sort -z | xargs -0 sha256sum
)

# One hash over those lines, and over the path and content of each file in those folders.
sources_hash() {
  local folders sums
  mapfile -t folders < <(source_folders "$1")
  [ "${#folders[@]}" -gt 0 ] && sums="$(file_sums "${folders[@]}")" || return
  printf '%s\n' "$(crate_lines "$1")" "$sums" | sha256sum | cut -c1-64
}

# Whether a source of the crate was touched since the file $2 was made, also where it was changed back: by the times of
# status changes, which nobody can set.
sources_touched() (
  cd "$top" || exit 0
  mapfile -t folders < <(source_folders "$1")
  touched="$(find crates.txt "${folders[@]}" -newercm "$2" -print -quit)" || exit 0
  [ -n "$touched" ]
)

# Whether the file $1 has the SHA-256 $2 and can be executed.
is_file() { [ -x "$1" ] && [ "$(sha256_of "$1")" = "$2" ]; }

release_fault() {
  local file="$1-x86_64-linux" key name of=none sum=none status=0 trial
  [ -e "$top/release/$file" ] || { echo "there is no release of it" && return; }
  while read -r key name of; do
    [ "$key $name" != "sources $1" ] || break
    of=none
  done <"$top/release/PROVENANCE" || true
  [ "$of" = "$2" ] || { echo "release/$file is the build of other sources" && return; }
  read -r sum name <"$top/release/$file.sha256" || true
  is_file "$top/release/$file" "$sum" || { echo "release/$file is not the file that release/$file.sha256 names" && return; }
  read -r -a trial <<<"$(trial_of "$1")"
  "$top/release/$file" "${trial[@]:1}" </dev/null >/dev/null 2>&1 || status=$?
  [ "$status" = "${trial[0]}" ] || echo "release/$file does not run on this machine"
}

# One hash over the kind, inode, size and time of status change of each file and folder by which the release of NAME is found
# right, in the order in which they are found: crates.txt, all that any crate is built from, the release, and this machine's
# loader; and over the start of the machine. (A new name in a folder is a change of the folder.) Three look at a time.
files_stamp() (
  shopt -s nullglob
  boot='' loader=/lib64/ld-linux-x86-64.so.2 form='%y %i %s %C@\n'
  { read -r boot </proc/sys/kernel/random/boot_id; } 2>/dev/null || true
  cd "$top" || exit
  [ -e "$loader" ] || loader=.
  {
    printf 'stamp 2 %s %s\n' "$1" "$boot"
    cat <(find -H crates.txt crates/[!a-m]*/proofs -printf "$form") <(find -H crates.txt crates/[a-m]*/proofs -printf "$form") \
      <(find -H crates.txt crates/*/{src,specs,c} release "$loader" -printf "$form")
  } | sha256sum
)

# Whether the release was found right before, and nothing that was looked at then has changed.
is_stamped() {
  local kept=''
  { read -r kept <"$top/out/$1.stamp"; } 2>/dev/null || true
  [ -n "$kept" ] && [ "$kept" = "$(files_stamp "$1" 2>/dev/null)" ]
}

# Makes a file for a new stamp, before the sources are looked at, and sets `begun` to its name; empty where none can be made.
begin_stamp() {
  begun=''
  [ ! -e "$1" ] || begun="$(mkdir -p "$top/out" && mktemp "$top/out/stamp.XXXXXX")" || begun=''
  # Those of calls that were killed.
  [ -z "$begun" ] || find "$top/out" -maxdepth 1 -name 'stamp.??????' -mmin +60 -delete || true
} 2>/dev/null

# Keeps the stamp $2, which was taken behind `begin_stamp` and before the sources were hashed, in the place of that of NAME,
# where it still is the stamp, no file was touched in the two seconds before that or later (an edit during the hashing could
# else have the time that was seen), and none is a link, whose own times say nothing of its text. Else the next call hashes.
keep_stamp() {
  if [ -n "$2" ] && touch -c -d "@$(($(stat -c %Z "$begun") - 2))" "$begun" &&
    [ -z "$(cd "$top" && find crates.txt crates release \( -newercm "$begun" -o -type l \) -not -path '*/out/*' -print -quit || echo fault)" ] &&
    [ "$2" = "$(files_stamp "$1")" ] && printf '%s\n' "$2" >"$begun" && chmod 644 "$begun"; then
    mv -f "$begun" "$top/out/$1.stamp" || rm -f "$begun"
  fi
} 2>/dev/null

find_program() {
  local name=$1 sources='' of='' sum='' fault stamp begun
  local built="$top/crates/$name/out/$name" file="$top/release/$name-x86_64-linux"
  program='' why=''
  if [ -e "$top/INSTALLED" ]; then
    if [ -x "$file" ]; then
      program="$file" why="installed, $(<"$top/INSTALLED")"
      return
    fi
    why="there is no $file: install it again"
    return 1
  fi
  if is_stamped "$name"; then
    program="$file" why='the release of these sources'
    return
  fi
  begin_stamp "$file"
  [ -n "$begun" ] && stamp="$(files_stamp "$name" 2>/dev/null)" || stamp=''
  sources="$(sources_hash "$name")" || sources=''
  [ -z "$sources" ] || fault="$(release_fault "$name" "$sources" 2>/dev/null)" || fault='its release cannot be judged'
  [ -z "$sources" ] || [ -n "$fault" ] || [ -z "$stamp" ] || keep_stamp "$name" "$stamp"
  [ -z "$begun" ] || rm -f "$begun"
  if [ -z "$sources" ]; then
    why="the sources of $name cannot be read"
    return 1
  elif [ -z "$fault" ]; then
    program="$file" why='the release of these sources'
    return
  fi
  { read -r of sum <"$built.note"; } 2>/dev/null || true
  if [ "$of" = "$sources" ] && is_file "$built" "$sum"; then
    program="$built" why='proved and built here, from these sources'
    return
  fi
  why="no build of these sources is here, and $fault"
  return 1
}

ready_program() {
  find_program "$1" && return
  [ ! -e "$top/INSTALLED" ] || { tell "$1: $why" && return 70; }
  need launch_build.sh build_program
  build_program "$1" || return 70
  find_program "$1" && return
  tell "$1: sources changed since the program was built, so it is not run; call again"
  return 70
}

# What is said without a run, for the words that ask for it: false for all others.
said_without_a_run() {
  local name=$1
  shift
  case "$*" in
  --help | -h)
    need launch_help.sh help_of
    help_of "$name" || true # a reader that has enough closes its end
    ;;
  --version)
    need launch_help.sh help_of
    version_of "$name"
    ;;
  --where)
    find_program "$name" || {
      tell "$name: $why; a call proves and builds one"
      exit 70
    }
    printf '%s\n' "$program"
    tell "$name: $why"
    ;;
  *) return 1 ;;
  esac
}

launch() {
  local name=$1
  shift
  ! said_without_a_run "$name" "$@" || exit 0
  if [ "$name" = spack_concretize ]; then
    source "$top/tools/launch_words.sh"
    ! help_with_a_word "$@" || exit 0
    if [ "${1:-}" = --json ]; then
      shift
      ready_program "$name" || {
        printf '{"answer": "NoProgram", "program": "", "status": 70, "version": 1, "words": []}\n'
        exit 70
      }
      run_for_json "$@"
    fi
  fi
  ready_program "$name" || exit 70
  unset SPACK_CONCRETIZE_STAGE
  # A limit of file sizes is then a fault of writing, which the program says, and no signal that kills it.
  trap '' XFSZ
  # Only a terminal is told more, but of wrong words: what a run says on a file or a pipe is what it promises.
  if [ -t 2 ]; then
    source "$top/tools/launch_watch.sh"
    run_on_terminal "$name" "$@"
  fi
  [ "$name" != spack_concretize ] || words_are_right "$@" || run_wrong_words "$@"
  PATH="$callers_path" exec "$program" "$@"
}
