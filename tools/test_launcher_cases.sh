# shellcheck shell=bash
# Further cases of tools/test_launcher: the stamp, the caller's environment, words, the terminal, installing, and releases. To
# be sourced.

stamp="$copy/out/spack_concretize.stamp"
stamp_is() { stat -c %i "$stamp" 2>/dev/null || echo none; }
# Waits until no file was touched in the two seconds before, so that a stamp can be kept.
settle() { sleep 2.2; }
with_env() {
  begin
  out="$(cd "$work" && env "$1" PATH="$work/bin:$PATH" "$copy/spack_concretize" a b 2>"$work/err")" || status=$?
}

cases_of_stamps() {
  local kept
  call a b
  release_it
  touch "$source_file"
  call a b
  check "no stamp is kept of files that were just touched" test "$(stamp_is)" = none
  settle
  call a b
  kept="$(stamp_is)"
  check "a release of these sources runs, and a stamp is kept" sh -c '[ "$1" != none ] && exit 0' - "$kept"
  call a b
  check "where nothing was touched the sources are not hashed again" test "$(stamp_is):$status" = "$kept:0"
  mkdir -p "$copy/crates/spack_concretize/out"
  cp "$released" "$built" && echo 'echo planted' >>"$built"
  printf '%s %s\n' "$(top="$copy" && source "$copy/tools/launch.sh" && sources_hash spack_concretize)" "$(sha256sum <"$built" | cut -c1-64)" >"$built.note"
  call --where
  check "a local build with a right note does not beat the release" test "$out" = "$released"
  rm "$stamp"
  call a b
  check "nor without a stamp" after_builds 0
  rm -r "$copy/crates/spack_concretize/out"
  settle
  call a b
  cp -p "$source_file" "$work/was"
  sed -i 's/^./\//' "$source_file" && truncate -r "$work/was" "$source_file" && touch -r "$work/was" "$source_file"
  call a b
  check "an edit that keeps size and time is seen" after_builds 1
  rm -r "$copy/crates/spack_concretize/out"
  cp -p "$work/was" "$source_file"
  call a b
  check "put back: the release runs" after_builds 0
  settle
  call a b
  for turn in more renamed less; do
    case $turn in
    more) echo x >"$copy/crates/spec_grammar/src/more.rt" ;;
    renamed) mv "$copy/crates/spec_grammar/src/more.rt" "$copy/crates/spec_grammar/src/more_.rt" ;;
    less) rm "$copy/crates/spec_grammar/src/more_.rt" ;;
    esac
    call --where
    check "a file $turn is seen" test "$out" = "$([ "$turn" = less ] && echo "$released")"
  done
  settle
  call a b
  mkdir -p "$copy/crates/spec_grammar/proofs" && touch -d 2001-01-01 "$work/old" && mv "$work/old" "$copy/crates/spec_grammar/proofs/old.proof"
  call --where
  check "an old file that was moved there is seen" refuses_after 0
  rm "$copy/crates/spec_grammar/proofs/old.proof"
  settle
  call a b
  printf '\n' >>"$released"
  call --where
  check "a changed byte of the release is seen" refuses_after 0
  truncate -s -1 "$released"
  settle
  call a b
  echo garbage >"$stamp"
  call a b
  check "another text in the stamp counts for nothing" after_builds 0
  rm "$stamp"
  mv "$source_file" "$work/source" && ln -s "$work/source" "$source_file"
  settle
  call a b
  check "where a source is a link no stamp is kept" test "$status:$(stamp_is)" = 0:none
  rm "$source_file" && mv "$work/source" "$source_file"
  rm -rf "$copy/out" && : >"$copy/out"
  settle
  call a b
  check "where no stamp can be kept the release runs all the same" after_builds 0
  rm "$copy/out"
}

cases_of_the_environment() {
  local name
  call a b
  release_it
  for name in find cut sha256sum sort xargs readlink dirname stat mktemp cat source exec printf declare local unset read test '[' command builtin; do
    with_env "BASH_FUNC_$name%%=() { echo planted; }"
    check "an exported function $name changes nothing" after_builds 0
  done
  echo 'find() { echo planted; }; echo planted; exit 3' >"$work/start"
  for name in FIND_BLOCK_SIZE=1 BLOCK_SIZE=x BLOCKSIZE=x "BASH_ENV=$work/start" "ENV=$work/start" POSIXLY_CORRECT=1 IFS=e CDPATH=/ GLOBIGNORE='*' \
    'EXECIGNORE=*' TMOUT=1 BASH_COMPAT=3.2 SHELLOPTS=noglob:noexec:xtrace BASHOPTS=failglob LC_ALL=tr_TR.UTF-8 LANG=none TZ=none GREP_OPTIONS=-v \
    TMPDIR=/none HOME=/none; do
    with_env "$name"
    check "$name changes nothing" after_builds 0
    check "and nothing is said of it" sh -c '! grep -v "^bash: warning: setlocale" "$1"' - "$work/err"
  done
  mkdir "$work/planted"
  for name in find sha256sum sort cut readlink dirname stat env; do
    printf '#!/bin/sh\necho planted\n' >"$work/planted/$name"
  done
  chmod +x "$work"/planted/*
  with_env "PATH=$work/planted:$PATH"
  check "commands on the caller's path do not come before the machine's" after_builds 0
  begin
  out="$(cd "$work" && env 'BASH_FUNC_exec%%=() { echo planted; }' 'BASH_FUNC_find%%=() { echo planted; }' bash "$copy/spack_concretize" a b 2>"$work/err")" || status=$?
  check "nor do functions where bash is called by hand" after_builds 0
  begin
  out="$(cd "$work" && env -i "$copy/spack_concretize" a b 2>"$work/err")" || status=$?
  check "it works in an empty environment" after_builds 0
}

cases_of_words() {
  call a b
  release_it
  for words in help 'help judge' 'judge --help' 'judge -h' '--help judge'; do
    call $words
    check "$words says how it is called" sh -c '[ "$1" = 0:0 ] && grep -q "^spack_concretize judge REPO"' - "$status:$(builds)" <<<"$out"
  done
  call judge --help
  check "help about one command has no other" sh -c '! grep -q "^spack_concretize explain\|^CERT"' <<<"$out"
  for command in fresh find plan each check_each; do
    call help $command
    check "help $command has its line" sh -c 'grep -q "^spack_concretize $1 REPO SETTINGS DATABASE .*SPEC"' - "$command" <<<"$out"
  done
  call end 2
  check "where the program says Usage, the wrong word is named behind it" says '^spack_concretize: word 1, `end`, is no command'
  check "and the status stays" test "$status" = 2
  call end 2 $'\e[31m'
  check "and no other word of the caller's" sh -c '! grep -q "31m" "$1"' - "$work/err"
  call concretize r - - - - x
  check "where the program takes the words, nothing is said" test "$status:$(wc -c <"$work/err")" = 0:0
  call help each
  check "help each says what DIR is" grep -q '^DIR ' <<<"$out"
  call --json end 7
  check "--json says one object, and has the status" sh -c '[ "$1" = 7 ] && grep -q "^{.*\"status\": 7, .*}$"' - "$status" <<<"$out"
}

# Has a call go on at a terminal beside this script, whose run writes its number and its parent's into a file.
call_beside_on_terminal() {
  rm -f "$work/pids"
  (cd "$work" && PATH="$work/bin:$PATH" exec script -qec "'$copy/spack_concretize' pids '$work/pids'" /dev/null) </dev/null >"$work/other" 2>&1 &
  for _ in {1..100}; do
    [ ! -s "$work/pids" ] || break
    sleep 0.1
  done
  read -r run parent <"$work/pids"
}
is_gone() {
  for _ in {1..40}; do
    kill -0 "$1" 2>/dev/null || return 0
    sleep 0.1
  done
  return 1
}

cases_of_the_terminal() {
  local run parent signal
  call a b
  call_on_terminal say "'bad input: settings: UnknownKey /\\033]0;x\\007\\nforged'" 4
  check "control bytes of what is said are escaped on a terminal" grep -qF 'UnknownKey /\u001b]0;x\u0007\u000aforged' <<<"$out"
  check "and no such byte is left of it" sh -c '! grep -a "^bad input" | tr -d "\r\n" | grep -q "[[:cntrl:]]"' <<<"$out"
  check "with the run's status" test "$status" = 4
  mkdir -p "$work/r/packages/x" && printf 'class X(Package):\n    if 1:\n        pass\n' >"$work/r/packages/x/package.py"
  call_on_terminal explain r - - 'bad\ input:\ recipe\ x:\ Unsupported\ 22' 4
  check "of a fault a terminal is told line and column" grep -q 'r/packages/x/package.py:2:5:' <<<"$out"
  call_on_terminal each r s - d 1
  check "of roots without a graph a terminal is told how to ask why" grep -q 'each root that is unsatisfiable: .*/site_tools/show_reasons r s - ROOT' <<<"$out"
  call_on_terminal each r s - d 0
  check "and nothing where each has one" sh -c '! grep -q show_reasons' <<<"$out"
  call explain r - - 'bad input: recipe x: Unsupported 22' 4
  check "a file is not told them" test "$(wc -l <"$work/err")" = 1
  : >"$work/.spack_concretize-0.tmp" # another run's
  for signal in TERM INT HUP KILL; do
    call_beside_on_terminal
    kill -s "$signal" "$parent"
    check "a launcher at a terminal that ends by SIG$signal takes its run with it" is_gone "$run"
    wait
    check "and says nothing of that" sh -c '! grep -q "kill:" "$1"' - "$work/other"
    [ "$signal" = KILL ] || check "and the file that it was about to put" test "$(cd "$work" && echo .spack_concretize-*)" = .spack_concretize-0.tmp
  done
  rm "$work"/.spack_concretize-*
}

cases_of_installing() {
  local prefix="$work/a prefix"
  install() {
    begin
    out="$(cd "$work" && PATH="$work/bin:$PATH" "$copy/tools/install" "$@" 2>"$work/err")" || status=$?
  }
  install "$prefix"
  check "where no build is here nothing is installed" test "$status:$(ls -A "$prefix" 2>/dev/null)" = 70:
  call a b
  release_it
  for words in '' '-x' 'a b' --remove; do
    install $words
    check "wrong words '$words' are refused" test "$status" = 2
  done
  install --help
  check "--help says how it is called" sh -c '[ "$1" = 0 ] && grep -q "tools/install PREFIX"' - "$status" <<<"$out"
  install "$prefix"
  check "it installs, and says which file runs" test "$status:$out" = "0:$prefix/lib/tarosickle/release/spack_concretize-x86_64-linux"
  install "$prefix"
  check "again over the old one" test "$status:$(ls "$prefix/lib")" = 0:tarosickle
  mv "$copy" "$work/moved"
  begin
  out="$(cd "$work" && "$prefix/bin/spack_concretize" a b 2>"$work/err")" || status=$?
  check "what is installed answers without the checkout" test "$status:${out%% from*}:$(wc -c <"$work/err")" = 0:built:0
  check "with its help" sh -c '"$1/bin/spack_concretize" judge --help | grep -q "^spack_concretize judge"' - "$prefix"
  check "and its version" sh -c '"$1/bin/spack_concretize" --version | grep -q "installed, of the sources [0-9a-f]\{64\}"' - "$prefix"
  check "its man page" test -s "$prefix/share/man/man1/spack_concretize.1"
  check "its completion" sh -c 'bash -c "source \"\$0\" && complete -p spack_concretize" "$1" >/dev/null' - "$prefix/share/bash-completion/completions/spack_concretize"
  check "the programs of site_tools for a site" test "$(ls "$prefix/bin" | wc -l)" -ge 13
  for view in "$prefix"/bin/spack_concretize-*; do
    check "and ${view##*/}" sh -c '"$1" --help | grep -q "^usage"' - "$view"
  done
  mv "$work/moved" "$copy"
  mkdir -p "$work/another/lib/tarosickle"
  install "$work/another"
  check "a folder of that name that is no installation stays" test "$status:$(ls -A "$work/another/lib/tarosickle")" = 6:
  install --remove "$prefix"
  check "--remove leaves no file" test "$status:$(find "$prefix" ! -type d | wc -l)" = 0:0
}

cases_of_making_a_release() {
  gate
  check "the gate ends with rt ci's last line" passes '3 passed, 0 failed'
  check "and notes that there is no release" grep -q '^note: there is no release' <<<"$out"
  echo "$out" >"$work/log"
  make_release "$work/log"
  check "a release is made of what a passed gate left" passes "sources spack_concretize $(top="$copy" && source "$copy/tools/launch.sh" && sources_hash spack_concretize)"
  check "with the gate's program" cmp -s "$built" "$released"
  check "and its SHA-256" sh -c 'cd "$1/release" && sha256sum --quiet -c spack_concretize-x86_64-linux.sha256' - "$copy"
  gate
  check "the gate notes nothing where the release is of these sources" sh -c '! grep -q "^note" && exit 0' <<<"$out"
  rm -rf "$copy/crates/spack_concretize/out"
  call a b
  check "the release runs, and nothing is built" after_builds 0

  rm -rf "$copy/release"
  gate
  echo "$out" >"$work/log"
  echo x >>"$copy/crates/worked_runs/src/lib.rt"
  make_release "$work/log"
  check "a file changed since the gate: no release" makes_none 'files have changed'
  sed -i '$d' "$copy/crates/worked_runs/src/lib.rt"
  cp -p "$built" "$work/kept" && touch -d '+1 minute' "$built"
  make_release "$work/log"
  check "a program built after the gate: no release" makes_none 'was made after the gate'
  cp -p "$work/kept" "$built"
  sed '/^gate: /d' "$work/log" >"$work/other_log"
  make_release "$work/other_log"
  check "a log of a plain rt ci: no release" makes_none "has no line 'gate: ..'"
  sed '$d' "$work/log" >"$work/other_log"
  make_release "$work/other_log"
  check "a log that was cut off: no release" makes_none 'does not end with a passed gate'
  sed '$d' "$work/log" >"$work/other_log" && echo '2 passed, 1 failed' >>"$work/other_log"
  make_release "$work/other_log"
  check "a failed gate's log: no release" makes_none 'does not end with a passed gate'
  MODE=edited
  make_release
  check "a file edited while the gate runs: no release" makes_none 'files have changed'
  MODE=refused
  gate
  check "a failed gate: its status and last line" test "$status:$(tail -n 1 <<<"$out")" = '1:2 passed, 1 failed'
  make_release
  check "a failed gate: no release" test "$status:$(ls -d "$copy/release" 2>&1 | grep -c '^/')" = 1:0
  MODE=
  make_release
  check "without a log it runs the gate, and makes the release" test "$status:$(cmp "$built" "$released" && echo same)" = 0:same
  rm -rf "$copy/tools"
  gate
  check "the gate runs also where nothing can be noted" passes '3 passed, 0 failed'
}
