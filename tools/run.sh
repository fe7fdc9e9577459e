# shellcheck shell=bash
# Runs the built program on a command line, with the program's own output and status: ./lpis and the installed lpis source it.
#
#     run_program FOLDER WORD..     FOLDER has the program `lpis` and `facts`, what was known when it was built
#
# --explain, which the program does not get, puts a refusal into words on standard error, as does a standard error that is a terminal.
# A program that cannot start on this system ends with status 70, in one line, before anything else: a loader that misses its C library ends
# with 1, which would read as refused by the gate. What else is said on standard error, before the program runs and behind its own words,
# is said by python/src/lpis/commands/remarks.py, which starts only where there may be something to say.

WITH_EXPLAIN='With each command: --explain puts a refusal into words on standard error, as where that is a terminal.'
NEEDS='Linux on x86-64 with glibc 2.34 or later (Debian 12, Ubuntu 22.04, RHEL 9)'

# A standard error that the caller closed takes everything and keeps nothing: else its number would be given to a file that is opened here.
true >&2 || exec 2>/dev/null

# Says a line. Names of tables and views of a stranger's file stand in some: letters that move the cursor do not reach the terminal. Where it
# cannot be said, nothing else hangs on that.
say() {
  local text=$*
  printf 'lpis: %s\n' "${text//[[:cntrl:]]/?}" >&2 || true
}

# The value of the line `$1 VALUE` of a file of facts; nothing where it has none.
fact() {
  local name value
  while read -r name value; do
    [[ $name != "$1" ]] || { printf '%s' "$value" && return; }
  done 2>/dev/null <"$2" || true
}

# Looks whether the program of a folder starts here, which takes milliseconds; else says what it needs, and ends with 70. Status 3 is an answer
# of the program, such as that it had no memory.
look() {
  local told status=0
  if [[ ! -x $1/lpis ]]; then
    say "$1/lpis may not be run: chmod +x it, on a file system from which programs may run"
    exit 70
  fi
  told=$("$1/lpis" --version 2>&1 >/dev/null </dev/null) || status=$?
  if [[ $status -ne 0 && $status -ne 3 ]]; then
    told=${told##*$'\n'}
    say "the program does not start here, it needs $NEEDS: ${told:-it ended with status $status}"
    exit 70
  fi
}

# Has Python say what there is to say, where the program's standard output is file descriptor $1. Status 64: the program is not to run.
remarks() {
  local out=$1
  shift
  python3 -I -B -c 'import sys
sys.path.insert(0, sys.argv.pop(1))
from lpis.commands import remarks
sys.exit(remarks.main(sys.argv[1:]))' "${BASH_SOURCE[0]%/*}/../python/src" "$@" 3>&2 2>/dev/null 1>&"$out" </dev/null
}

# Whether a command has a register among its words.
has_register() { [[ $'\n'$(<"${BASH_SOURCE[0]%/*}/words.txt") =~ $'\n'"${1-}"\ +register\  ]]; }

# Whether the file of a folder that says which run made its tables (python/src/lpis/register/table_standing.py) says that its last run made none.
is_unfinished() { [[ -e $1/.lpis-standing ]] && ! grep -qs '^ "state": "whole",$' "$1/.lpis-standing"; }

# Puts in `unfinished` the folder among the words that is unfinished, or lies in one.
find_unfinished() {
  local word
  unfinished=
  for word; do
    if [[ -d $word ]] && { is_unfinished "$word" || is_unfinished "$word/.."; }; then unfinished=$word; fi
  done
}

# Says what there is to say before the program runs; ends with 64 where the words name a folder whose tables are of an earlier run than its last.
say_before() {
  local unfinished status=0
  find_unfinished "$@"
  [[ -n $unfinished ]] || has_register "$@" || return 0
  remarks 2 before "$@" || status=$?
  [[ -n $unfinished && $status -ne 0 ]] || return 0
  [[ $status -eq 64 ]] || say "$unfinished is unfinished: its last run did not finish, so the tables there are from an earlier run: run it again"
  exit 64
}

# Whether a word is a folder in which a tool told what it left out of a source.
is_prepared() {
  local word
  for word; do [[ ! -f $word/prepared.csv && ! -f $word/report.csv ]] || return 0; done
  return 1
}

# Says what there is to say behind the program's own words.
say_behind() {
  [[ -z $refused ]] || remarks "$out" refusal "$refused" "$@" || true
  case $status in
    0) [[ ${1-} != check && ${1-} != publish ]] || ! is_prepared "$@" || remarks "$out" origin "$@" || true ;;
    2) [[ -z $told ]] || remarks "$out" packages "$@" || true ;;
    3) remarks "$out" cause "${told%$'\n'}" "$@" || true ;;
  esac
}

# Puts the words without --explain in `said`, and in `explain` whether it stands among them, before --.
take_explain() {
  local word
  explain='' said=()
  while (($#)); do
    word=$1
    [[ $word != -- ]] || break
    [[ $word == --explain ]] && explain=yes || said+=("$word")
    shift
  done
  said+=("$@")
}

# Whether a refusal is put into words on standard error: where that is a terminal, or --explain is given. Of a pipe only --explain asks for it: its
# reader may be tools/explain.
is_explained() { [[ -n $explain ]] || { [[ -t 2 ]] && ! [[ -p /dev/fd/$1 || -S /dev/fd/$1 ]]; }; }

# Runs the program as `run_and_hear` does, and puts in `refused` the line by which it refuses. What it prints is the same byte for byte: of a file
# the line is read there, and else the output goes on through `tee`, whose failure is one of standard output.
run_and_keep() {
  local out=$1 shown='' teller kept
  shift
  refused=
  if [[ -f /dev/fd/$out ]]; then
    run_and_hear "$out" "$@"
    [[ $status -ne 1 && $status -ne 2 ]] || refused=$(tail -n 1 -- "/proc/$BASHPID/fd/$out" 2>/dev/null | grep -a '^refused ') || true
    return 0
  fi
  kept=$(mktemp) || { run_and_hear "$out" "$@" && return 0; }
  exec {shown}> >(exec tee -i -- "$kept" 1>&"$out" 2>/dev/null)
  teller=$!
  run_and_hear "$shown" "$@"
  exec {shown}>&-
  wait "$teller" || { [[ $status -ne 0 ]] || { status=3 told=$'failed write out\n'; }; }
  [[ $status -ne 1 && $status -ne 2 ]] || refused=$(grep -a '^refused ' -- "$kept" | tail -n 1) || true
  rm -f -- "$kept"
}

# Hands a signal on to the program, or keeps it until the program is begun.
hand_on() {
  signal=$1
  [[ -z $child ]] || kill -s "$1" "$child" 2>/dev/null || true
}

# Runs the program, and puts in `told` what it wrote to standard error and in `status` how it ended. It has the caller's standard input, and
# file descriptor $1 as its output. TERM, INT and HUP are handed on to it, so that it has ended when this ends; `signal` is then the last of them.
run_and_hear() {
  local out=$1 program=$2 in=- child='' heard name ended
  shift 2
  told='' signal=''
  { exec {in}<&0; } 2>/dev/null || in=-
  for name in TERM INT HUP; do trap "hand_on $name" "$name"; done
  # shellcheck disable=SC2094
  exec {heard}< <(trap - TERM INT HUP && exec "$program" "$@" 2>&1 >&"$out" <&"$in" {out}>&-)
  child=$!
  [[ -z $signal ]] || hand_on "$signal"
  IFS= read -r -d '' -u "$heard" told || true # a signal is handed on at once while this waits
  status=127
  while :; do # a signal ends a `wait` too; once the program has ended its number may be another's
    ended=0
    wait "$child" || ended=$?
    ((ended != 127)) || break
    status=$ended
    ((status > 128)) && kill -0 "$child" 2>/dev/null || break
  done
  trap - TERM INT HUP
  exec {heard}<&-
}

# What `--version` adds: what was known of the program in a folder when it was built, and `remark`, where the caller has one.
say_facts() {
  grep -vE '^(version|sha256|glibc) ' -- "$1/facts" 2>/dev/null || true
  [[ -z ${remark-} ]] || printf '%s\n' "$remark"
}

run_program() {
  local home_of_program=$1 program=$1/lpis status told signal out explain refused='' said
  shift
  take_explain "$@"
  set -- "${said[@]}"
  # The C library would keep a freed block for itself where it is smaller than the largest freed before: of a cut that is a fifth more memory at its peak.
  export MALLOC_MMAP_THRESHOLD_=${MALLOC_MMAP_THRESHOLD_-131072}
  look "$home_of_program"
  say_before "$@"
  # The program's standard output is the caller's own; its standard error, of a few lines, is passed on as it is.
  { exec {out}>&1; } 2>/dev/null || exec "$program" "$@" # standard output is closed
  if is_explained "$out"; then
    run_and_keep "$out" "$program" "$@"
  else
    run_and_hear "$out" "$program" "$@"
  fi
  printf '%s' "$told" >&2 || true
  [[ $status -ne 0 || $# -ne 1 || ($1 != --version && $1 != -V) ]] || say_facts "$home_of_program"
  [[ $status -ne 0 || $# -ne 1 || ($1 != --help && $1 != -h) ]] || printf '\n%s\n' "$WITH_EXPLAIN"
  say_behind "$@"
  # A caller sees that a signal ended it, as it would of the program itself.
  [[ -z $signal || $status -le 128 ]] || kill -s "$signal" "$$"
  exit "$status"
}
