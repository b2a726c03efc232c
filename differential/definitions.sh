#!/usr/bin/env bash
# The definitions held against the Rust, and with other choices against the reading, by computation: recorded and generated calls as theorems, all
# of which must be proved.
# Options (--count N, --seed N) go to the command `theorems`; JUDGE names the harness where it is built already.
set -euo pipefail
cd "$(dirname "$0")/.."

# A repository of its own, outside this one (`rt ci` refuses theorems that no crate here has): the definitions without their own
# theorems (the gate proves those), so that it is the rows that speak where a definition is wrong; and the rows. It stays where a row
# is refused.
folder=$(mktemp -d)
trap 'rm -rf "$folder"' EXIT
mkdir -p "$folder/crates/definitions/proofs"
cp -R crates/definitions/src crates/definitions/specs "$folder/crates/definitions/"
: >"$folder/crates/definitions/proofs/Lib.antt"
printf 'definitions:\nrecorded_rows: definitions\n' >"$folder/crates.txt"
judge=(cargo run --release --quiet --manifest-path differential/Cargo.toml --)
if [ -n "${JUDGE:-}" ]; then judge=("$JUDGE"); fi
rows=$("${judge[@]}" theorems "$folder" "$@")

# Many rows refuse a wrong definition at once: the first lines say enough.
said=$folder/said
if ! (cd "$folder/crates/recorded_rows" && rt check) >"$said" 2>&1; then
  trap - EXIT
  grep -v -e '^logic' -e '^library' -e '^statements' -e '^note: no function' "$said" | cut -c1-300 | head -n 30 >&2 || true
  refused=$(grep -c 'specs/Rows.*: error: ' "$said" || true)
  echo "definitions.sh: not proved; rows refused: $refused. $folder/crates/recorded_rows/specs has each row below its call, $said all messages" >&2
  exit 1
fi
tail -n 1 "$said"
echo "definitions: ${rows#theorems: }; every row is proved"
