# shellcheck shell=bash
# Makes the build of a program crate from these very sources. Sourced by tools/launch.sh where none is there.

# Proves and builds the program, and notes what it was built from. Two at once take turns, by a lock on the top folder.
build_program() (
  name=$1
  folder="$top/crates/$name"
  built="$folder/out/$name"
  rt="$(PATH="$callers_path" command -v rt || echo /opt/rattle/bin/rt)"
  fail() {
    tell "$name: $*"
    exit 70
  }
  tell "$name: $why"
  [ -x "$rt" ] || fail "there is no rt on the path and no $rt, so the program cannot be built here"
  mkdir -p "$folder/out" || fail "$folder/out cannot be made"
  exec {lock}<"$top"
  if ! flock -n "$lock"; then
    tell "$name: waiting for another build in this checkout"
    flock "$lock" || true
  fi
  ! find_program "$name" || exit 0

  # A run of `rt` in this crate, as of the gate, keeps what it made until it ends.
  flock -n "$folder" true || tell "$name: waiting for a run of rt in this checkout"
  flock "$folder" rm -f "$built" "$built.note" "$folder/out/begun."* || fail "$built cannot be removed"
  begun="$(mktemp "$folder/out/begun.XXXXXX")" || fail "$folder/out cannot be written"
  trap 'rm -f "$begun"' EXIT
  sources="$(sources_hash "$name")" || fail "the sources cannot be read"

  tell "$name: proving and building the program; from nothing this takes some minutes"
  read -r -a trial <<<"$(trial_of "$name")"
  # `rt run` proves each crate in turn, links the program, and runs it.
  (cd "$folder" && PATH="$callers_path" exec "$rt" run -- "${trial[@]:1}") {lock}<&- </dev/null 2>&1 |
    tee "$folder/out/build.log" {lock}<&- |
    sed -un -e "s/^rt: chose .* for \(.*\)$/$name: proving the crate \1/p" \
      -e 's/^so far: \([0-9]* of [0-9]* functions\) checked.*/  \1/p' \
      -e '/^error\|: error\|: no proof\|waiting for/p' {lock}<&- >&2
  status=${PIPESTATUS[0]}

  [ "$status" = "${trial[0]}" ] || fail "the program could not be built: rt run ended with $status; see $folder/out/build.log"
  [ -x "$built" ] || fail "the program could not be built: rt run left no $built; see $folder/out/build.log"
  ! sources_touched "$name" "$begun" || fail "sources changed while the program was built, so it is not run; call again"
  printf '%s %s\n' "$sources" "$(sha256_of "$built")" >"$begun" && mv "$begun" "$built.note"
)

