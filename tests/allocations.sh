#!/usr/bin/env bash
# usage: tests/allocations.sh [NAME..]     the programs of crates/, by default pcode2c and graphbench
# Refuses each allocation of a built program's stored run, one a run, until a run has no allocation left to be refused.
# Each must end with status 5 and nothing written, or with status 0 and the stored text. It proves nothing and is no part
# of the gate. A program that isn't built (`rt run` in its folder makes it) is skipped, and all are without a C compiler.
set -u
here=$(cd "$(dirname "$0")" && pwd)
if ! command -v cc >/dev/null 2>&1; then
  echo "allocations: skipped, there is no C compiler"
  exit 0
fi
work=$(mktemp -d) || exit 2
trap 'rm -rf "$work"' EXIT
cc -shared -fPIC -o "$work/refuse.so" "$here/refuse.c" || exit 2

# Refuses one allocation of a program after another; fails where a run ends otherwise than it must.
refuse_each() {
  local name=$1 number=0 none=0 status wanted words=() input=/dev/null
  cd "$here/../crates/$name" || return 2
  if [ ! -x "out/$name" ]; then
    echo "allocations: $name is skipped, it isn't built"
    return 0
  fi
  if [ -f args ]; then mapfile -t words < args; fi
  if [ -f stdin ]; then input=stdin; fi
  while :; do
    number=$((number + 1))
    REFUSE=$number MARK=$work/refused LD_PRELOAD=$work/refuse.so "./out/$name" "${words[@]}" < "$input" > "$work/out" 2> "$work/err"
    status=$?
    case "$status" in
      0) wanted=stdout ;;
      5) wanted=/dev/null; none=$((none + 1)) ;;
      *) wanted=$work/none ;;
    esac
    if ! cmp -s "$work/out" "$wanted" || [ -s "$work/err" ]; then
      echo "allocations: $name is wrong with allocation $number refused: status $status"
      cat "$work/out" "$work/err"
      return 1
    fi
    [ -e "$work/refused" ] || break
    rm "$work/refused"
  done
  echo "allocations: $name: $((number - 1)) refused in turn, of which $none ended with status 5"
  [ "$number" -gt 1 ] && [ "$status" = 0 ]
}

[ $# -gt 0 ] || set -- pcode2c graphbench
failed=0
for name in "$@"; do
  refuse_each "$name" || failed=1
done
exit "$failed"
