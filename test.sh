#!/usr/bin/env bash
# Everything that must hold of this repository. The last line is the proofs': 'N passed, 0 failed'.
set -euo pipefail
cd "$(dirname "$0")"

for tool in rt cargo cc; do
  if ! command -v "$tool" >/dev/null; then
    echo "test.sh: $tool is not on the PATH (rt is the Rattle toolchain's; the bindings and the comparison need cargo and a C compiler)" >&2
    exit 2
  fi
done

# The definitions are what a reader must believe: they stay short enough to be read in an hour.
lines=$(cat crates/definitions/specs/*.antt | wc -l)
echo "definitions: $lines lines"
if [ "$lines" -ge 1200 ]; then
  echo "test.sh: the definitions have grown past 1,200 lines" >&2
  exit 1
fi

# As many checks at a time as there are processors, and memory for them, each with one job: two jobs in one check take a fifth more processor
# time, and end a sixth sooner at best (docs/DECISIONS.md).
checks=$(awk -v most="$(nproc)" '/^MemAvailable:/ { n = int($2 / 2500000); print n < 1 ? 1 : n < most ? n : most }' /proc/meminfo)
export RT_JOBS=${RT_JOBS:-$checks}

# Every proof, every must-fail edit, every program, and the layout of every file: from nothing, or as an earlier run on this machine passed
# the same files. A bad edit (it could not be applied or read) fails nothing there, so it is looked for here.
said=$(mktemp)
trap 'rm -f "$said" "$said.second"' EXIT
rt ci | tee "$said"
verdict=$(tail -n 1 "$said")
if grep -qE '^rt: ok.*, [1-9][0-9]* bad' "$said"; then
  echo "test.sh: there are bad must-fail edits, as the lines BAD EDIT above say" >&2
  exit 1
fi

# Every edit was refused because a fact fails, not because the proof no longer fits the code.
bash must-fail.sh "$said"

# Most of what follows uses one core, so two of it run side by side. What the second says comes when both have ended.
both() {
  local first second status=0
  "$1" &
  first=$!
  "$2" >"$said.second" 2>&1 &
  second=$!
  wait "$first" || status=$?
  wait "$second" || status=$?
  cat "$said.second"
  return "$status"
}

# The library as others link it: from C and from Rust. All that follows uses the library that was proved above.
library() { bash staticlib.sh --proved exports; }
receiver() { bash staticlib.sh --proved receiver_part; }
linked() {
  bash bindings/c/example.sh
  cargo test --quiet --manifest-path bindings/rust/Cargo.toml
}
both library receiver

# The original Rust as judge: worked rows, recorded answers, generated calls, deliberate faults; the library beside it, with how often
# its layout test asks; the definitions themselves, computed on recorded and generated calls. Its source is not part of this repository
# (differential/README.md). The merge gate demands it; elsewhere its absence is told, and the proofs and the recorded answers are left.
judge=(--release --quiet --manifest-path differential/Cargo.toml --features library)
tested() { cargo test "${judge[@]}"; }
compared() { cargo run "${judge[@]}" -- ci; }
computed() {
  cargo run "${judge[@]}" -- compare --sides reference,library --count 20000
  cargo run "${judge[@]}" -- compare --sides reading,library --choices 1,2,3 --count 10000
  cargo run "${judge[@]}" -- questions
  JUDGE=${CARGO_TARGET_DIR:-differential/target}/release/differential bash differential/definitions.sh
}
if [ -d "${SPIRT_SRC:-../shared/docs/src}" ] || [ -n "${REQUIRE_RUST_SOURCE:-}" ]; then
  both linked tested
  both compared computed
else
  linked
  echo "test.sh: NOT COMPARED WITH THE RUST: its source is not there; differential/README.md says where it is looked for" >&2
fi

echo "$verdict"
