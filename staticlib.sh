#!/usr/bin/env bash
# Proves what C and Rust link, and writes it to target/staticlib/libNAME.a: the calls (exports), or the part of receiver (receiver_part).
#   bash staticlib.sh [--proved] exports|receiver_part
# A library that is newer than all that it is made from is left as it is. Else each crate is proved after those that it names, and `rt` keeps
# what is proved; how far that is goes to standard error, a line a crate. With --proved, for use right after `rt ci` in this checkout, the
# libraries below are taken as it left them: `rt lib` cannot, and would prove each of them once more.
set -euo pipefail
cd "$(dirname "$0")"

proved=
if [ "${1:-}" = --proved ]; then
  proved=1
  shift
fi
name=${1:-}
case $name in
  exports | receiver_part) ;;
  *)
    echo "staticlib.sh: give exports or receiver_part, not '$name'" >&2
    exit 2
    ;;
esac
library=target/staticlib/lib$name.a

# What a line of crates.txt names, and with `all` what those name in turn, each after those that it names.
libraries() {
  awk -v crate="$name" -v all="${1:-}" '
    function add(names, word, n, i) {
      n = split(names, word, " ")
      for (i = 1; i <= n; i++) if (!(word[i] in seen)) { seen[word[i]] = 1; if (all) add(of[word[i]]); print word[i] }
    }
    { sub(/#.*/, ""); split($0, part, ":"); split(part[1], head, " "); of[head[1]] = part[2] }
    END { add(of[crate]) }
  ' crates.txt
}
mapfile -t below < <(libraries all)

# A folder is newer than what was made before a file was added to it or taken away. What `rt` makes and what only tries the prover is no source.
is_up_to_date() {
  local it folder sources=(crates.txt staticlib.sh)
  for it in "${below[@]}" "$name"; do
    for folder in src specs proofs; do
      if [ -d "crates/$it/$folder" ]; then sources+=("crates/$it/$folder"); fi
    done
  done
  [ -f "$library" ] && [ -z "$(find "${sources[@]}" -newer "$library" -print -quit)" ]
}

if [ -z "$proved" ] && is_up_to_date; then
  echo "staticlib: $library is up to date"
  exit 0
fi
if ! command -v rt >/dev/null; then
  echo "staticlib.sh: the Rattle toolchain's command rt is not on the PATH" >&2
  exit 2
fi
said=$(mktemp)
trap 'rm -f "$said" "$said.begun"' EXIT
touch "$said.begun"

# Has a crate proved and built, and says how long that took; where it fails, the last of what `rt` said.
prove() {
  local it=$1 at=$2 begun=$SECONDS status=0
  printf 'staticlib: %d of %d: %s, ' "$at" "$((${#below[@]} + 1))" "$it" >&2
  touch "$said"
  (cd "crates/$it" && rt lib) >"$said" 2>&1 || status=$?
  if [ "$status" -ne 0 ]; then
    echo "failed after $((SECONDS - begun)) s; the last of what rt said:" >&2
    tail -n 40 "$said" >&2
    exit "$status"
  elif [ "$it" != "$name" ] && [ ! "crates/$it/out/rlib/stamp" -nt "$said.begun" ]; then
    echo "as it was proved" >&2
  else
    echo "proved in $((SECONDS - begun)) s" >&2
  fi
}

# `rt ci` leaves its libraries without the stamp by which other commands know theirs, and where those had some it puts them back.
for it in "${below[@]}"; do
  if [ ! -f "crates/$it/out/rlib/$it.rlib/format" ] || [ -e "crates/$it/out/rlib/stamp" ]; then
    proved=
  fi
done

archive=crates/$name/out/lib$name.a
rm -f "$archive"
if [ -n "$proved" ]; then
  kit=$(dirname "$(rt doc)")
  words=(--crate-name "$name" src/lib.rt --crate-type staticlib --links "$name=" -o "out/lib$name.a" --toolchain "$kit/toolchain" --backend llvm)
  words+=(--antt-project "$kit/rattle/logic/antt-project.json" --logic-built "$kit/logic_built")
  words+=(--extern "std=$kit/rlibs/std.rlib" -L "dependency=$kit/rlibs")
  for it in $(libraries); do words+=(--extern "$it=../$it/out/rlib/$it.rlib"); done
  for it in "${below[@]}"; do words+=(-L "dependency=../$it/out/rlib"); done
  (cd "crates/$name" && "$kit/bin/rattle" build "${words[@]}")
else
  at=0
  for it in "${below[@]}" "$name"; do
    at=$((at + 1))
    prove "$it" "$at"
  done
  echo "staticlib: all $at in $SECONDS s" >&2
fi

# A source that changed meanwhile is newer than the library.
mkdir -p target/staticlib
cp "$archive" "$library"
touch -r "$said.begun" "$library"
echo "staticlib: $library"
