#!/usr/bin/env bash
# usage: tests/run_script.sh
# The script ./run: its words, statuses and stamp, on a copy of the repository's files with a stand-in for rt, whose
# program prints its input, refuses one that has the word bad, and gives no answer to one that has the word endless.
set -u
top=$(cd -- "$(dirname -- "$0")/.." && pwd)
work=$(mktemp -d) || exit 2
trap 'rm -rf -- "$work"' EXIT
copy=$work/copy
mkdir -p -- "$copy/crates/pcode2c/src" "$work/bin" && cd -- "$work" || exit 2
cp -- "$top/run" "$top/crates.txt" "$top/HANDLES" "$copy/"
cp -- "$top"/crates/pcode2c/std{in,out} "$copy/crates/pcode2c/"
cp -- "$top/crates/pcode2c/src/main.rt" "$copy/crates/pcode2c/src/"
ln -s -- "$copy/run" link

cat > program <<'END'
#!/usr/bin/env bash
case ${*-} in "" | "--stage listing" | --stage=listing) ;; "--gen 7" | --gen=7) echo numbers || exit 4; exit ;; *) echo "pcode2c: bad arguments" >&2; exit 2 ;; esac
text=$(cat 2>/dev/null) || { echo "pcode2c: read fault" >&2; exit 3; }
case $text in *bad*) echo "pcode2c: line 1: syntax" >&2; exit 1 ;; esac
echo "$text" || exit 4
END
cat > bin/rt <<END
#!/usr/bin/env bash
case \$1 in
  version) echo "\${KIT:-a kit}" ;;
  run) mkdir -p out && cp "$work/program" out/pcode2c && cat stdout ;;
  try)
    for case in "\$3"/*; do
      if grep -q endless "\$case"; then echo "case=\${case##*/} run=no-answer proved=no" >&2; continue; fi
      echo "== \${case##*/}"
      "$work/program" "\${@:5}" < "\$case"
      echo "case=\${case##*/} run=ended status=\$? runners=1 proved=no" >&2
    done
    echo "cases=1 ended=1 proved=no" >&2 ;;
esac
END
chmod +x program bin/rt
echo good > good
echo bad > bad
echo endless > endless
echo other > -x
with=$work/bin:$PATH wrong=0

# A run that must end with a status, write a text, and have some words on standard error.
must() {
  local status=$1 text=$2 words=$3 ended
  shift 3
  PATH=$with ./link "$@" > out 2> err < good
  ended=$?
  if [ "$ended" -ne "$status" ] || [ "$(cat out)" != "$text" ] || { [ -n "$words" ] && ! grep -q -- "$words" err; }; then
    wrong=$((wrong + 1))
    echo "run_script: $* ended with $ended and '$(cat out)' and said '$(cat err)'"
  fi
}

# What is the same by both ways.
both_ways() {
  must 0 good "$1" good
  must 0 good "$1"
  must 0 good "$1" -
  must 0 other "$1" -- -x
  must 1 "" "line 1: syntax" bad
  must 3 "" "nothere can't be read" nothere
  must 3 "" "pcode2c: read fault" .
  must 2 "" "bad arguments" --no-such-word
  must 2 "" "bad arguments" --prove good
  must 0 good "$1" --stage listing good
  must 0 other "$1" --stage=listing -- -x
  must 2 "" "bad arguments" --stage none good
  must 2 "" "bad arguments" --stage
  must 0 numbers "$1" --gen 7
  must 0 numbers "$1" --gen=7
  must 2 "" "bad arguments" --gen x
  must 2 "" "bad arguments" --gen
  must 2 "" "bad arguments" --gen 7 good
  must 1 $'good\ngood' "^run: bad" good bad nothere -
  PATH=$with ./link good > /dev/full 2> err
  [ $? -eq 4 ] || { wrong=$((wrong + 1)); echo "run_script: a full output isn't status 4"; }
  PATH=$with ./link good >&- 2> err
  [ $? -eq 4 ] || { wrong=$((wrong + 1)); echo "run_script: a closed output isn't status 4"; }
}

# Whether the program that stands counts as proved.
stands() {
  PATH=$with ./link --version | grep -q "^the proved program stands" && echo yes || echo no
}

must_stand() {
  [ "$(stands)" = "$1" ] || { wrong=$((wrong + 1)); echo "run_script: $2: does the program count as proved? It must be $1"; }
}

must 0 "$("$top/run" --help)" "" --help
must 0 "$("$top/run" --help)" "" -h
both_ways "^run: unproved"
must 70 "" "no answer" endless
with=$work/none:/usr/bin:/bin must 70 "" "neither" good
must_stand no "before"
must 0 "" "^run: proved" --prove
must_stand yes "after --prove"
both_ways "^run: the proved program"
echo "// more" >> "$copy/crates/pcode2c/src/main.rt"
must_stand no "after an edit of the code"
must 0 good "^run: unproved" good
must 0 "" "^run: proved" --prove
KIT=another must_stand no "with another kit"
mkdir -p -- "$copy/crates/pcode2c/specs" && echo > "$copy/crates/pcode2c/specs/New.antt"
must_stand no "with a new definition"
must 0 "" "^run: proved" --prove
echo >> "$copy/crates/pcode2c/out/pcode2c"
must_stand no "with another program"
[ "$wrong" -eq 0 ] && echo "run_script: ./run does what it says"
exit $((wrong != 0))
