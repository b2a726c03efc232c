#!/usr/bin/env bash
# Every must-fail edit was refused because a fact fails: read from what `rt ci` or `rt must-fail` printed, which has a line for each edit,
# with the first message of its check.
#   bash must-fail.sh LOG
# Where that says that the proof has a name, a field or an argument that the edited code has not, the edit changed the code's shape: the
# proof's text no longer fits, and nothing is shown about the wrong answer. Such an edit, one without a message, and one that could not be
# applied or read (a bad edit), fail this check.
set -euo pipefail
said=$(realpath "${1:?give what rt ci or rt must-fail printed, as a file}")
cd "$(dirname "$0")"

# What is printed where the proof does not fit the code: a name or a field is missing (`rt` tells so itself where nothing else is wrong),
# or what is known at one place is looked for at another (`Lts` has a record for each place).
unfit='only because a proof file names|can be named from here|has no field|too many arguments|too few arguments'
unfit+='|where one has `[^` ]*Lts\.'

# The line of an edit shows something if it is refused by a message, and by another one than these.
shows_nothing() { ! grep -q ': refused, as it must be\( (only .*)\)\?: .' <<<"$1" || grep -qE "$unfit" <<<"$1"; }

# The check can fail: it tells an edit that shows nothing from one that shows something.
edit='rt: must-fail stream/left_over.edit:'
if ! shows_nothing '' || ! shows_nothing "$edit refused, as it must be" ||
  ! shows_nothing "$edit BAD EDIT: an 'old:' text is in src/lib.rt 0 times, and not once" ||
  ! shows_nothing "$edit NOT REFUSED: the crate is still proved with this edit" ||
  ! shows_nothing "$edit refused, as it must be (only because a proof file names what the edit took away): proofs/f/Answers.antt:1:1: error" ||
  ! shows_nothing "$edit refused, as it must be: ./proofs/f/Answers.antt:1:1: error: \`returns\`: too many arguments" ||
  ! shows_nothing "$edit refused, as it must be: ./proofs/f/Answers.antt:1:1: error: the two types differ only where one has \`f.Lts.Else1\`" ||
  shows_nothing "$edit refused, as it must be (only by a limit of the prover): src/lib.rt:1:1: error: out of steps" ||
  shows_nothing "$edit refused, as it must be: ./proofs/f/Answers.antt:1:1: error: \`returns\`: \`omega\`: the goal does not follow"; then
  echo "must-fail.sh: its own test failed" >&2
  exit 2
fi

edits=0 bad=0 limits=0
for edit in crates/*/must-fail/*.edit; do
  edits=$((edits + 1))
  crate=${edit#crates/}
  line=$(grep -F "rt: must-fail ${crate%%/*}/$(basename "$edit"): " "$said" | tail -n 1 || true)
  if [ -z "$line" ]; then
    echo "must-fail.sh: $edit was not tried: $1 has no line for it" >&2
    bad=$((bad + 1))
  elif shows_nothing "$line"; then
    echo "must-fail.sh: $edit shows nothing about its wrong answer: ${line#*.edit: }" | cut -c1-400 >&2
    bad=$((bad + 1))
  elif [[ $line == *'(only by a limit'* ]]; then
    limits=$((limits + 1))
  fi
done
echo "must-fail: $edits edits, of which $bad show nothing and $limits are refused only by a limit of the prover"
[ "$edits" -gt 0 ] && [ "$bad" -eq 0 ]
