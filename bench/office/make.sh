#!/bin/bash
# Makes the lemmas of the cases: cases/NAME.ol and cases/NAME.record give proofs/NAME.antt. Those that are named first
# are by hand.
# A line is NAME, the kinds of spoilt copies (all: one of each kind), and what the case shows.
cd "$(dirname "$0")" || exit 1
to=../../crates/test_trials/proofs
printf 'mod %s\n' CheckedHeads Responses NoResponses CutResponses LinkRequests > $to/Lib.antt
printf 'mod %s\n' Requests Sent First Parts ConnectionStopped ConnectionSpoilt TwoCalls TwoClients Pipelined Failed >> $to/Lib.antt
printf 'mod %s\n' Statuses Endings Cuts Noted >> $to/Lib.antt
printf 'mod %s\n' Counted Told Standing Acting Quiets Agreeing Runs Workers Spends >> $to/Lib.antt
while read -r name kinds title; do
  python3 convert.py --case "cases/$name" "$title" "$kinds" > "$to/$name.antt" && echo "mod $name" >> $to/Lib.antt
done <<'CASES'
HaltedBeside all A fault beside a request answers it; a one-way message has void at once.
Correlated all A session is found by its key, while it lives.
LeftInTheBox all What a session leaves in its box has ended with it.
FullBox accepted_against_the_rules,take_not_the_oldest,another_answer_collected The box of a session holds 256 messages.
Spent all A session that used its budget leaves its request to the stop.
JustEnough all A session that ends with its last event within the budget.
Stopped all A session that waits leaves its request to the stop.
Bound all A binding gives a key, which nobody else may bind while its session lives.
Orders all The order service: served, not paid, too many, and the rest of the stock.
SmallBox all Small boxes: the third message is refused, until one was taken.
SmallBoxOfASingle all Small boxes: all messages of a single service's session count, of whatever operation.
SmallRun all Few messages: the third is refused before anything is asked of it.
SmallWeight all Little weight: values and replies count, and the limit itself is not passed.
FewSessions all Few sessions: a start is refused as full, a key that is there is found.
NoSession all No sessions: a single service that got none finds nobody.
TwoWorkers taken_twice,answered_twice,ended_twice,stopped_by_a_session,collected_by_another Two workers: what is collected first is answered first.
Run001 taken_by_another_session,reply_by_another_session,call_number_skipped,fetched_twice,brought_twice A recorded run.
Run002 bound_otherwise,bound_again,refused_without_cause,take_not_the_oldest,ended_twice A recorded run.
Run006 accepted_against_the_rules,refused_for_another_reason,collected_by_another,posted_by_a_session A recorded run.
Run012 adopted_twice,adopted_for_another_service,taken_twice,stopped_by_a_session A recorded run.
Run029 bound_otherwise,collected_twice,closed_twice,message_number_skipped A recorded run.
Run030 answer_taken_twice,another_outcome,call_number_again,brought_by_another A recorded run.
Run034 another_answer_collected,adopted_after_the_stop,fetched_by_a_session,adoption_left_out A recorded run.
Run036 answered_twice,take_before_the_adoption,stopped_twice A recorded run.
Run038 bound_otherwise,fetched_by_a_session,brought_by_another,refused_for_another_reason A recorded run.
Run048 taken_by_another_session,reply_by_another_session,call_number_skipped A recorded run.
Run057 take_left_out,message_number_skipped,refused_without_cause,another_outcome A recorded run.
Run068 accepted_against_the_rules,collected_by_another,adopted_after_the_stop A recorded run.
CASES

# The lines of some of them: cases/NAME.jsonl is what was read, cases/NAME.stdout what was written.
for lines in cases/*.jsonl; do
  n=$(basename "$lines" .jsonl)
  python3 convert.py --lines "cases/$n" "What was read and what was written, in the run $n." > "$to/Line$n.antt" && echo "mod Line$n" >> $to/Lib.antt
done
