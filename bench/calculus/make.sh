#!/bin/bash
# Makes the lemmas of the written cases: cases/NAME.ol and cases/NAME.steps give proofs/NAME.antt. Doubled is by hand.
cd "$(dirname "$0")" || exit 1
to=../../crates/test_calculus/proofs
echo "mod Doubled" > $to/Lib.antt
for steps in cases/*.steps; do
  n=$(basename "$steps" .steps)
  python3 convert.py --steps "cases/$n.ol" "$steps" > "$to/$n.antt" && echo "mod $n" >> $to/Lib.antt
done
