#!/usr/bin/env bash
# Compiles and links the example, runs it, and holds what it prints to example.expected, and what the library needs from outside to memset.
#
# The library is taken from the folder PAPERSLOE_LIB_DIR, if that is set, and else from the repository's
# target/staticlib, where the toolchain proves and builds it if it is not there or older than its sources. CC names the compiler.
set -euo pipefail
cd "$(dirname "$0")"

folder=${PAPERSLOE_LIB_DIR:-../../target/staticlib}
if [ -z "${PAPERSLOE_LIB_DIR:-}" ]; then
  bash ../../staticlib.sh exports
elif [ ! -f "$folder/libexports.a" ]; then
  echo "example.sh: PAPERSLOE_LIB_DIR is $folder, which has no libexports.a" >&2
  exit 2
fi

# Who links the library without a C library brings this one function.
needed=$(nm -u "$folder/libexports.a" | awk '$1 == "U" { print $2 }' | sort -u | tr '\n' ' ')
if [ "$needed" != "memset " ]; then
  echo "example.sh: the library needs from outside: ${needed:-nothing}, where memset alone is expected" >&2
  exit 1
fi

built=$(mktemp -d)
trap 'rm -rf "$built"' EXIT
"${CC:-cc}" -std=c11 -O2 -Wall -Wextra -Wpedantic -Werror example.c -o "$built/example" -L "$folder" -lexports
"$built/example" | tee "$built/printed"
if ! diff -u example.expected "$built/printed"; then
  echo "example.sh: the example printed something else than example.expected" >&2
  exit 1
fi
echo "example: as expected"
