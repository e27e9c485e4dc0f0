#!/usr/bin/env bash
# usage: tests/header.sh     CC names the compiler, else one is looked for
# Compiles the C of each example with include/pcode2c.h, without a warning at -Wall. Each example that calls nothing, with
# an entry of register and unique bytes alone, is also run on it, optimised and with the undefined behaviour sanitizer: it
# must give what the run of the listing gives, which stands in crates/example_suite/stdout. It proves nothing, and is
# skipped where no compiler is installed that knows _BitInt and its suffix.
set -u
top=$(cd -- "$(dirname -- "$0")/.." && pwd)
work=$(mktemp -d) || exit 2
trap 'rm -rf -- "$work"' EXIT

# The first compiler that takes the words of 128 bits, as words of a command, nothing where there is none.
compiler() {
  local name standard
  echo 'unsigned _BitInt(128) word = 0x10000000000000000uwb;' > "$work/probe.c"
  for name in ${CC:-} cc gcc clang $(compgen -c | grep -xE '(clang|gcc)-[0-9]+' | sort -ru); do
    for standard in c23 c2x; do
      if "$name" -std="$standard" -c "$work/probe.c" -o "$work/probe.o" 2>/dev/null; then
        echo "$name -std=$standard"
        return
      fi
    done
  done
}

# The bytes of an entry's line `reg HEX PAIRS` or `uni HEX PAIRS`, as assignments.
put_bytes() {
  local space=$1 at=$(($2)) pairs=$3
  while [ -n "$pairs" ]; do
    echo "  ${space}_bytes[$at] = 0x${pairs:0:2};"
    at=$((at + 1)) pairs=${pairs:2}
  done
}

# The operands of a call: for each parameter of the C in a file, the word at its place.
operands() {
  grep -m 1 -oE '\bf_[A-Za-z0-9_]+\(.*\)$' "$1" | grep -oE 'u[0-9]+ (p|in)_(register|unique)_[0-9a-f]+' |
    while read -r type name; do
      echo "MEM$((${type#u} / 8))($(cut -d _ -f 2 <<< "$name"), 0x${name##*_})"
    done | paste -sd ,
}

# A program that calls the function of an example on its entry and prints how it returned.
runner() {
  local name=$1 kind at pairs
  printf '#include "pcode2c.h"\n#include "%s.c"\n#include <stdio.h>\n' "$name"
  printf 'PCODE2C_SPACE(register, 65536);\nPCODE2C_SPACE(unique, 65536);\nint main(void)\n{\n'
  while read -r kind at pairs; do
    case $kind in
      reg) put_bytes register "$at" "$pairs" ;;
      uni) put_bytes unique "$at" "$pairs" ;;
    esac
  done < "$name.entry"
  if grep -q "^void f_" "$name.c"; then
    printf '  f_%s(%s);\n  puts("returned");\n}\n' "$name" "$(operands "$name.c")"
  else
    printf '  printf("returned 0x%%llx\\n", (unsigned long long)f_%s(%s));\n}\n' "$name" "$(operands "$name.c")"
  fi
}

# What the listing's run gave, from the stored run of the suite.
wanted() {
  awk -v name="$1:" '$1 == name { here = 1; next } here && /^p / { print substr($0, 3) } !/^[pc] / { here = 0 }' \
    "$top/crates/example_suite/stdout"
}

says() {
  echo "header: $*"
}

# Runs an example with an entry; fails where it gives something else than the listing.
runs() {
  local gave
  grep -qvE '^(entry 1|reg .*|uni .*|end)$' "$1.entry" && return 0
  grep -qE '; // 0x[0-9a-f]+$' "$1.c" && return 0 # what it calls stands nowhere
  runner "$1" > "$work/$1.run.c"
  "${cc[@]}" -O2 -fsanitize=undefined -fsanitize-trap=undefined -I . "$work/$1.run.c" -o "$work/$1.run" || return 1
  gave=$("$work/$1.run")
  if [ "$gave" != "$(wanted "$1")" ]; then
    says "$1 gave '$gave', and its listing '$(wanted "$1")'"
    return 1
  fi
  ran=$((ran + 1))
}

read -r -a cc <<< "$(compiler)"
if [ ${#cc[@]} -eq 0 ]; then
  says "skipped, no compiler that knows _BitInt is installed"
  exit 0
fi
# An address of a narrow space is a narrower word than a pointer.
cc+=(-Wall -Werror -Wno-int-to-pointer-cast -I "$top/include")
cd -- "$top/examples" || exit 2
failed=0 compiled=0 ran=0
"${cc[@]}" -O2 -fsanitize=undefined -fsanitize-trap=undefined "$top/tests/pseudo_calls.c" -o "$work/pseudo_calls" &&
  "$work/pseudo_calls" || failed=1
for text in *.c; do
  name=${text%.c}
  "${cc[@]}" -include pcode2c.h -c "$text" -o "$work/$name.o" && compiled=$((compiled + 1)) || failed=1
  if [ -f "$name.entry" ]; then runs "$name" || failed=1; fi
done
says "by ${cc[0]}: $compiled examples compile, and $ran of them give what their listings give"
exit "$failed"
