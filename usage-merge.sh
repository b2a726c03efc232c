#!/usr/bin/env bash
# The command usage-merge, with the library proved and built in sight where that is to be done: cargo, which would do it too, hides it.
#   bash usage-merge.sh 'O8[0:D4,0]' 'D4,1'
set -euo pipefail
top=$(dirname "$0")

if [ -z "${PAPERSLOE_LIB_DIR:-}" ]; then
  bash "$top/staticlib.sh" exports >/dev/null
fi
exec cargo run --quiet --release --manifest-path "$top/bindings/rust/Cargo.toml" -- "$@"
