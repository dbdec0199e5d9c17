#!/bin/bash
# batch.sh NAME..: makes a module of lemmas of each recorded run (strands/041 ..) and checks them. VECTORS names the
# folder of the runs; KEPT=--kept asks what holds of each configuration instead. Each session that is told otherwise is
# an error of its lemma.
cd "$(dirname "$0")/../../crates/test_calculus" || exit 1
cp proofs/Lib.antt /tmp/trials-lib.$$
for c in "$@"; do
  n=$(echo "$c" | sed 's#/##;s/strands/Strands/;s/whole/Whole/;s/first/First/')
  python3 ../../bench/calculus/convert.py $KEPT "$VECTORS/$c" > "proofs/$n.antt" && echo "mod $n" >> proofs/Lib.antt
done
nice -n 10 rt check --jobs 1 2>&1 | grep -v ^statements
for c in "$@"; do rm -f "proofs/$(echo "$c" | sed 's#/##;s/strands/Strands/;s/whole/Whole/;s/first/First/').antt"; done
mv /tmp/trials-lib.$$ proofs/Lib.antt
