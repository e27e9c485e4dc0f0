#!/usr/bin/env bash
# usage: tests/streams.sh [PROGRAM]      by default the built program crates/pcode2c/out/pcode2c
# The built program on real files, pipes and full devices: its status, and what it wrote. It proves nothing and is no part
# of the gate. Skipped where the program isn't built (`rt run` in its folder makes it).
set -u
top=$(cd -- "$(dirname -- "$0")/.." && pwd)
program=${1:-$top/crates/pcode2c/out/pcode2c}
if [ ! -x "$program" ]; then
  echo "streams: skipped, $program isn't built"
  exit 0
fi
work=$(mktemp -d) || exit 2
trap 'rm -rf -- "$work"' EXIT
cd -- "$work" || exit 2
examples=$top/crates/example_suite/data
cp -- "$examples/add1.pcode" good
cp -- "$examples/refused_text.pcode" bad
printf '# a comment\r\n\n' | cat - good | sed 's/0x38/0x0038/' > loose
head -c 4194305 /dev/zero | tr '\0' '#' > long
head -c 4194304 /dev/zero | tr '\0' '#' > longest
mkdir folder
wrong=0

# The last status must be the first word; standard error and output must have the texts of two files.
must() {
  local what=$1 wanted=$2 status=$3 out=$4 err=$5
  if [ "$status" -ne "$wanted" ] || ! cmp -s -- out "$out" || ! cmp -s -- err "$err"; then
    wrong=$((wrong + 1))
    echo "streams: $what ended with $status and not $wanted, and wrote '$(head -c 200 out)' and '$(head -c 200 err)'"
  fi
}

# A run on the words, with good as its input.
run() {
  "$program" "$@" < good > out 2> err
}

: > none
echo 'pcode2c: bad arguments' > arguments
echo 'pcode2c: read fault' > fault
echo 'pcode2c: input too long' > too_long
cp -- "$examples/add1.c" text
cp -- "$examples/refused_text.err" refusal
"$program" --stage listing < good > canonical

run;                          must "the input" 0 $? text none
run -;                        must "the file -" 0 $? text none
run good;                     must "a file" 0 $? text none
run --stage c good;           must "--stage c" 0 $? text none
run --stage=plain good;       must "--stage=plain" 0 $? text none
run good --stage plain;       must "a file before its stage" 0 $? text none
run -- good;                  must "a file behind --" 0 $? text none
run --stage listing good;     must "the canonical text" 0 $? canonical none
run --stage listing loose;    must "a text that isn't canonical" 0 $? canonical none
run --stage listing canonical; must "the canonical text again" 0 $? canonical none
run bad;                      must "a refused file" 1 $? none refusal
run --stage listing bad;      must "a refused file's listing" 1 $? none refusal
run missing;                  must "a missing file" 3 $? none fault
run folder;                   must "a folder" 3 $? none fault
run good/x;                   must "a file below a file" 3 $? none fault
run long;                     must "a file that is too long" 6 $? none too_long
"$program" longest > out 2> err; status=$?
[ "$status" -eq 1 ] || { wrong=$((wrong + 1)); echo "streams: the longest file ended with $status"; }

for words in "--stage x" "--stage ssa" "--stage" "--gen" "--gen 1 good" "--gen 1 --stage c" "--gen 1 --gen 1" \
  "--gen 4294967296" "--gen 00000000001" "--gen 1x" "--gen -1" "--gen 0x1" "--help" "--version" "good bad" "-x" "--stages c"; do
  # shellcheck disable=SC2086 # these are several words
  run $words;                 must "$words" 2 $? none arguments
done
run "";                       must "an empty word" 3 $? none fault
run --stage "";               must "an empty stage" 2 $? none arguments
run --gen "";                 must "an empty number" 2 $? none arguments
run $'\xff\xfe';              must "a word that isn't text" 2 $? none arguments

"$program" --gen 0 < /dev/null > numbers 2> err
for word in ops blocks atoms gotos bytes; do
  grep -qx "$word [0-9]*" numbers || { wrong=$((wrong + 1)); echo "streams: --gen 0 has no line for $word"; }
done
"$program" --gen=0000000000 <&- > out 2> err; must "--gen with a closed input" 0 $? numbers none
# what isn't read stays
{ "$program" --gen 0 > out 2> err; cat > rest; } < good; cmp -s rest good || { wrong=$((wrong + 1)); echo "streams: --gen reads its input"; }
{ "$program" --stage x > out 2> err; cat > rest; } < good; cmp -s rest good || { wrong=$((wrong + 1)); echo "streams: refused words read the input"; }
{ "$program" bad > out 2> err; cat > rest; } < good; cmp -s rest good || { wrong=$((wrong + 1)); echo "streams: a file was wanted, and the input was read"; }

"$program" <&- > out 2> err;             must "a closed input" 3 $? none fault
"$program" < folder > out 2> err;        must "a folder as input" 3 $? none fault
cat good | "$program" > out 2> err;      must "a pipe" 0 $? text none
{ head -c 40 good; sleep 1; tail -c +41 good; } | "$program" > out 2> err; must "a slow pipe" 0 $? text none
if [ -w /dev/full ]; then
  "$program" good > /dev/full 2> err; status=$?; : > out; must "a full device" 4 $status none none
  "$program" --gen 0 > /dev/full 2> err; status=$?; : > out; must "--gen on a full device" 4 $status none none
  "$program" bad > out 2> /dev/full; status=$?; : > err; must "a full device for the refusal" 4 $status none none
fi
"$program" good >&- 2> err; status=$?; : > out; must "a closed output" 4 $status none none
# a reader that is gone: no signal ends the program
( "$program" good 2> err; echo $? > status ) | :
: > out; must "a closed pipe" 4 "$(cat status)" none none
( "$program" --gen 0 2> err; echo $? > status ) | :
: > out; must "--gen to a closed pipe" 4 "$(cat status)" none none

if [ "$wrong" -gt 0 ]; then
  echo "streams: $wrong wrong"
  exit 1
fi
echo "streams: all as they must be"
