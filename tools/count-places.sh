#!/usr/bin/env bash
# Counts the places that docs/DESIGN-PASS.md speaks of, in the sources of a tree.
#   bash tools/count-places.sh [TREE] [-l]
# TREE is a checkout (this one, if none is given); with -l each place is listed under its count.
set -euo pipefail
tree=$(dirname "$0")/..
list=
for word in "$@"; do
  case $word in
    -l) list=1 ;;
    *) tree=$word ;;
  esac
done
cd "$tree"
sources=(crates/*/src/*.rt)

# A line of the table: what is counted, and the lines found, which come on standard input.
say() {
  local found
  found=$(cat)
  printf '%-4s %4d  %s\n' "$1" "$(grep -c . <<<"$found" || true)" "$2"
  if [ -n "$list" ] && [ -n "$found" ]; then sed 's/^/         /' <<<"$found"; fi
}
lines() { grep -nE "$@" "${sources[@]}" || true; }
pick() { grep -E "$1" || true; }
code() { lines "$1" | grep -vE ':[0-9]+: *(//|requires|ensures)' || true; }

# The parameter list of each function in one line, with `requires` and `ensures` behind it.
signatures() {
  perl -0ne 'while (/^[ \t]*(?:pub )?(?:extern "C" )?fn (\w+)[^(]*\((.*?)\)(?=[^()]*?\{)/msg) { my ($f, $p) = ($1, $2); $p =~ s/\s+/ /g; print "$ARGV: $f($p)\n" }' "${sources[@]}"
}

code '^(pub )?enum ' | say 1a 'own enums'
code '^ +(pub )?(refusal|todo|rule|fixed|ok|all|past|yes|number|command|strictness): (u8|u16|u32|bool),' | say 1b 'fields and parameters that are a flag or the number of a kind'
code '^(pub )?const [A-Z_]+: u(8|32) = ' | say 1c 'constants of codes'
code '\b(kind|command\([^)]*\)|receiver|placed|c|rule|todo|refusal) (==|!=|<) (0x)?[0-9]+\b' | say 1d 'comparisons of a kind or a refusal with a number'
code 'fn [a-z_]*(_few|_many|16|32|_of_node|_inner|_number|_part)\b' | say 2a 'functions whose name ends in a size or in the case that it is for'
grep -hoE '^ *(pub )?(extern "C" )?fn [a-z_0-9]+' "${sources[@]}" | sed -E 's/.*fn //' | sort | uniq -c | awk '$1 > 1 && $2 != "main" { for (i = 0; i < $1; i++) print $2 }' | say 2b 'functions whose name another function has'
code '^ +[a-z]+ (\+=|-=) 1;|^ +[a-z] = [a-z] [-+] 1;' | say 3 'counts by hand'
code ' as u(8|16|32|64|size)\b' | say 4a 'conversions by as'
code '% 256|/ 256|\* 256|fn (lt|copy|fill|zero|same|only|begins|flag|max|wide)\b' | say 4b 'order, copying, filling and bytes of a number by hand'
lines 'q \* 32 \+ 32 ≤ length' | say 5a 'clauses that say that record q lies in the area'
signatures | pick 'table: &\[u8\], ?places: &\[u32\]|bytes: &\[u8\], ?places: &\[u32\]' | say 5b 'functions with a table and its places beside it'
signatures | pick '(rep|line|buffer|out): &mut \[u8\], ?(at|from|i): usize' | say 5c 'functions with a buffer and a position in it'
code '\[[0-9A-Za-z]+(u8|u32)?; [0-9A-Z_]+\]' | say 6a 'arrays of a fixed length'
code 'while [a-z]+ != (0|above|upto)|while (starts_before|passes)' | say 6b 'walks along links'
code 'match (s\[0\]|past\()|while st\.todo|if st\.(todo|rule) ==|loop \{' | say 7 'switches on what comes next'
