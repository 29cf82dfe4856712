#!/usr/bin/env bash
# Times `stllint check FILE` on texts of 1 MB that stress the lexer, and on one of functions that the parser reads too, and prints a line
# for each: the seconds of wall clock, the status, and what the text is made of. An empty text comes first: what the other figures have on
# top of its own is the lexer's, and of the functions the parser's too. These are of the program itself; the last line is what a call of
# the launcher costs beside it. It judges nothing.
# usage: bench/speed.sh [RUNS]   RUNS times each, the least of which counts; 3 if left out
set -u

fail() {
  printf 'bench/speed.sh: %s\n' "$1" >&2
  exit 1
}

runs=${1:-3}
size=1048576
top=$(cd "$(dirname "$(readlink -f "${BASH_SOURCE[0]}")")/.." && pwd) || fail 'cannot find the top'
program=$top/crates/stllint/out/stllint
texts=$(mktemp -d) || fail 'cannot make a folder'
trap 'rm -rf "$texts"' EXIT

# as many bytes of a repeated word as a text may have
repeated() {
  yes "$1" | tr -d '\n' | head -c "$size"
}

repeated ' ' >"$texts/blanks"
repeated '(' >"$texts/parentheses"
repeated '7' >"$texts/digits"
repeated 'number7 ' >"$texts/names"
repeated '<<= ' >"$texts/marks"
repeated '"a\\n" ' >"$texts/texts"
repeated 'int f() { int x = 1 + 2 * 3; if (x < 4) x = f(); else std::cout << x << std::endl; } ' >"$texts/functions"
{ printf '/*'; head -c "$((size - 4))" /dev/zero | tr '\0' '*'; printf '*/'; } >"$texts/comment"
: >"$texts/empty"

# Runs $2 of the calls `$1 check $3`. Leaves in `least` the microseconds of the fastest, and in `status` the status of the last.
time_calls() {
  local i start end micros
  least=
  for ((i = 0; i < $2; i++)); do
    start=$EPOCHREALTIME
    "$1" check "$3" >/dev/null 2>&1
    status=$?
    end=$EPOCHREALTIME
    micros=$((${end/[.,]/} - ${start/[.,]/}))
    if [ -z "$least" ] || [ "$micros" -lt "$least" ]; then least=$micros; fi
  done
}

# Prints a line: the seconds of $1 microseconds, and what they are of.
tell() {
  printf '%3d.%04d s  %s\n' "$(($1 / 1000000))" "$(($1 / 100 % 10000))" "$2"
}

# builds the program before anything is timed
"$top/stllint" check "$texts/empty" >/dev/null
[ $? -ne 125 ] || fail 'the program could not be built'

for text in empty blanks parentheses digits comment names marks texts functions; do
  time_calls "$program" "$runs" "$texts/$text"
  tell "$least" "status $status  $text"
done

# A hundred calls each: the difference of the two fastest is a few milliseconds.
time_calls "$program" 100 "$texts/empty"
alone=$least
time_calls "$top/stllint" 100 "$texts/empty"
tell "$((least - alone))" 'the launcher beside the program'
