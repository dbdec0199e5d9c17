#!/bin/bash
# batch.sh NAME..: makes a module of lemmas of each recorded run (strands/041 ..) and checks them.
# VECTORS names the folder of the runs. WHOLE=--whole asks of its sessions, too, and whether it is quiet and still;
# SPOILT=N asks for N spoilt copies of each kind instead. A run that is told otherwise is an error of its lemma.
cd "$(dirname "$0")/../../crates/test_trials" || exit 1
cp proofs/Lib.antt /tmp/office-lib.$$
for c in "$@"; do
  n=$(echo "$c" | sed 's#/##;s/strands/Strands/;s/whole/Whole/;s/first/First/')
  python3 ../../bench/office/convert.py $WHOLE ${SPOILT:+--spoilt} "$VECTORS/$c" $SPOILT > "proofs/$n.antt" && echo "mod $n" >> proofs/Lib.antt
done
nice -n 10 rt check --jobs 1 2>&1 | grep -v ^statements
for c in "$@"; do rm -f "proofs/$(echo "$c" | sed 's#/##;s/strands/Strands/;s/whole/Whole/;s/first/First/').antt"; done
mv /tmp/office-lib.$$ proofs/Lib.antt
