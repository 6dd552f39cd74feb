# shellcheck shell=bash
# What tools/test_launcher and tools/test_launcher_real share: a scratch copy of this checkout, calls in it, and checks of
# what they did. To be sourced.
set -uo pipefail

here="$(dirname "$(dirname "$(readlink -f "${BASH_SOURCE[0]}")")")"
work="$(mktemp -d)"
trap 'rm -rf "$work"' EXIT
copy="$work/a copy"
before=0
built="$copy/crates/spack_concretize/out/spack_concretize"
released="$copy/release/spack_concretize-x86_64-linux"
source_file="$copy/crates/plain_data/src/lib.rt"
failures=0
export RUNS="$work/runs" SOURCE="$source_file" MODE=

fresh_copy() {
  rm -rf "$copy"
  mkdir -p "$copy"
  tar -C "$here" --exclude=out --exclude=.git --exclude=./release -cf - . | tar -C "$copy" -xf -
  : >"$RUNS"
}

begin() { status=0 before="$(runs)"; }
call() {
  begin
  out="$(cd "$work" && PATH="$work/bin:$PATH" "$copy/spack_concretize" "$@" 2>"$work/err")" || status=$?
}
runs() { wc -l <"$RUNS"; }
text_now() { cksum <"$source_file"; }
check() {
  local name=$1
  shift
  if "$@"; then
    echo "ok    $name"
  else
    failures=$((failures + 1))
    echo "FAIL  $name (status $status, out '$out', $(builds) builds, err:)"
    sed 's/^/      /' "$work/err"
  fi
}
answers_from_now() { [ "$status" = 0 ] && [ "$out" = "built from $(text_now) in $work: a b" ]; }
builds() { echo $(($(runs) - before)); }
after_builds() { [ "$(builds)" = "$1" ] && answers_from_now; }
refuses() { [ "$status" = 70 ] && [ -z "$out" ]; }
refuses_after() { [ "$(builds)" = "$1" ] && refuses; }
says() { grep -q -- "$1" "$work/err"; }

gate() {
  begin
  out="$(cd "$work" && PATH="$work/bin:$PATH" "$copy/.ci/run" 2>"$work/err")" || status=$?
}
make_release() {
  begin
  out="$(cd "$work" && PATH="$work/bin:$PATH" "$copy/tools/release" "$@" 2>"$work/err")" || status=$?
}
last_line() { [ "$(tail -n 1 <<<"$out")" = "$1" ]; }
passes() { [ "$status" = 0 ] && last_line "$1"; }
makes_none() { [ "$status" = 1 ] && [ ! -e "$copy/release" ] && says "$1"; }

# The launcher where no kit can be found: an empty folder lies over /opt/rattle, and the path has no rt.
without_kit() {
  mkdir -p "$work/empty"
  begin
  out="$(cd "$work" && unshare -m sh -c 'mount --bind "$1" /opt/rattle && shift && exec "$@"' - "$work/empty" \
    env PATH=/usr/bin:/bin "$copy/spack_concretize" "$@" 2>"$work/err")" || status=$?
}

# The last line of a test: how many checks failed.
conclude() {
  echo "$failures failed"
  [ "$failures" = 0 ]
}
