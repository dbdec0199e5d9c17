#!/bin/sh
# Counts what sessions cost, by the instructions of callgrind and by the bytes of the heap, and prints it with the most
# that each ratio is to be: of 10,000 events to 1,000; of a step to a look at each strand that is enabled, for 10 and
# 100 strands, beside that of the list of these strands, which has no limit; of a look in a large store to one in a
# small store; and of an assignment that is looked at and done to one evaluation of its value. It proves a crate of its
# own over the libraries that `rt ci` proved here, or in the repository that PROVED names, and needs valgrind. Outside
# the gate: bench/sessions.sh
# shellcheck source=bench/common.sh
. "$(dirname "$0")/common.sh"

make_crate "session_times: term_session service_check jolie_parse jolie_tokens jolie_expr behaviour_tree jolie_trees \
anyhow" <<'EOF'
//! Does a task so many times with a session of the service of a file, to which the office gives nothing, and says how
//! much it did. The words are the task, the file, how many events are done first, and how many times the task is done:
//!
//! - `runs`: a session from its start to its end,
//! - `starts`: the start of a session,
//! - `firsts`: the start of a session, a look at strand 0 and its event,
//! - `enabled`: the strands that are enabled,
//! - `looks`: a look at each of these,
//! - `steps`: an event of each of these,
//! - `values`: the value of the assignment that the service consists of.
#![tactic(auto)]

ghost use Rattle.std.specs.Prelude.{◌<◌, IsTrue, length};
ghost use Rattle.behaviour_tree.specs.PartsView.{parts_of};

use behaviour_tree::{Behaviour, Expr, Given, Program};
use jolie_expr::eval;
use jolie_parse::parse;
use jolie_tokens::lex;
use jolie_trees::Tree;
use service_check::check;
use std::alloc::{AllocError, Global};
use std::{env, fs};
use term_session::{StepError, TermSession};

fn main(rt: HostRuntime) -> anyhow::Result<()> {
    let mut words = env::args(&rt)?.skip(1);
    let (Some(task), Some(path)) = (words.next(), words.next()) else {
        return Ok(());
    };
    let events = number(words.next());
    let times = number(words.next());
    let text = fs::read_to_string(&rt, path.as_str())?;
    let Some(program) = program_of(rt.alloc(), text.as_bytes()) else {
        println!(rt; "no program")?;
        return Ok(());
    };
    let done = done(rt.alloc(), &program, task.as_str(), events, times)?;
    println!(rt; "{done}")?;
    Ok(())
}

fn number(word: Option<String>) -> u32 {
    match word {
        Some(word) => word.as_str().parse::<u32>().unwrap_or(0),
        None => 0,
    }
}

fn program_of(alloc: Global, text: &[u8]) -> Option<Program> {
    let tokens = lex(alloc, text).ok()?;
    let file = parse(alloc, text, &tokens).ok()?;
    check(alloc, &file).ok()
}

fn done(
    alloc: Global,
    program: &Program,
    task: &str,
    events: u32,
    times: u32,
) -> Result<u32, StepError> {
    match task {
        "runs" => runs(alloc, program, times),
        "starts" => starts(alloc, program, times),
        "firsts" => firsts(alloc, program, times),
        "values" => Ok(values(alloc, program, times)),
        _ => {
            let mut session = session_of(alloc, program)?;
            go_on(&mut session, program, events)?;
            of_session(&mut session, program, task, times)
        }
    }
}

/// A task with one session.
fn of_session(
    session: &mut TermSession,
    program: &Program,
    task: &str,
    times: u32,
) -> Result<u32, StepError> {
    match task {
        "enabled" => Ok(enabled(session, program, times)?),
        "looks" => Ok(looks(session, program, times)?),
        "steps" => steps(session, program, times),
        _ => Ok(0),
    }
}

#[tactic(auto, using(crate::proofs::Services::as_many_services))]
fn has_service(program: &Program) -> bool
    ensures { IsTrue result → 0 < length (parts_of program.now).services }
{
    0 < program.parts().services.len()
}

/// A session of the first service.
fn session_of(alloc: Global, program: &Program) -> Result<Box<TermSession>, AllocError> {
    if !has_service(program) {
        return Err(AllocError);
    }
    Ok(Box::new(alloc, TermSession::start(alloc, program, 0)?)?)
}

/// Does at most so many events, each of the least strand that is enabled and after a look at it; and gives how many
/// there were.
fn go_on(session: &mut TermSession, program: &Program, most: u32) -> Result<u32, StepError> {
    for done in 0..most {
        let enabled = session.enabled(program)?;
        let Some(strand) = enabled.as_slice().first() else {
            return Ok(done);
        };
        drop(session.need(program, *strand)?);
        session.step(program, *strand, Given::Nothing)?;
    }
    Ok(most)
}

fn runs(alloc: Global, program: &Program, times: u32) -> Result<u32, StepError> {
    let mut done = 0_u32;
    for _ in 0..times {
        let mut session = session_of(alloc, program)?;
        done = done.wrapping_add(go_on(&mut session, program, u32::MAX)?);
    }
    Ok(done)
}

fn starts(alloc: Global, program: &Program, times: u32) -> Result<u32, StepError> {
    let mut done = 0_u32;
    for _ in 0..times {
        let session = session_of(alloc, program)?;
        if !session.ended() {
            done = done.wrapping_add(1);
        }
    }
    Ok(done)
}

fn firsts(alloc: Global, program: &Program, times: u32) -> Result<u32, StepError> {
    let mut done = 0_u32;
    for _ in 0..times {
        let mut session = session_of(alloc, program)?;
        if session.need(program, 0)?.is_some() {
            session.step(program, 0, Given::Nothing)?;
            done = done.wrapping_add(1);
        }
    }
    Ok(done)
}

fn enabled(session: &TermSession, program: &Program, times: u32) -> Result<u32, AllocError> {
    let mut found = 0_u32;
    for _ in 0..times {
        for _ in session.enabled(program)?.as_slice() {
            found = found.wrapping_add(1);
        }
    }
    Ok(found)
}

fn looks(session: &TermSession, program: &Program, times: u32) -> Result<u32, AllocError> {
    let mut found = 0_u32;
    let strands = session.enabled(program)?;
    for _ in 0..times {
        for strand in strands.as_slice() {
            if session.need(program, *strand)?.is_some() {
                found = found.wrapping_add(1);
            }
        }
    }
    Ok(found)
}

fn steps(session: &mut TermSession, program: &Program, times: u32) -> Result<u32, StepError> {
    let mut done = 0_u32;
    let strands = session.enabled(program)?;
    for _ in 0..times {
        for strand in strands.as_slice() {
            session.step(program, *strand, Given::Nothing)?;
            done = done.wrapping_add(1);
        }
    }
    Ok(done)
}

fn values(alloc: Global, program: &Program, times: u32) -> u32 {
    let mut found = 0_u32;
    let store = Tree::void(alloc);
    for service in &program.parts().services {
        if let Some(value) = assigned(&service.main) {
            for _ in 0..times {
                if eval(alloc, &store, value).is_ok() {
                    found = found.wrapping_add(1);
                }
            }
        }
    }
    found
}

/// The value of an assignment.
fn assigned(behaviour: &Behaviour) -> Option<&Expr> {
    match behaviour {
        Behaviour::Assign { value, .. } => Some(value),
        _ => None,
    }
}
EOF
mkdir "$work/crates/session_times/proofs"
echo 'mod Services' > "$work/crates/session_times/proofs/Lib.antt"
cat > "$work/crates/session_times/proofs/Services.antt" <<'EOF'
use Rattle.std.specs.Prelude.{◌≡◌, length}
use Rattle.std.proofs.lemmas.List.{length-map}
use Rattle.behaviour_tree.specs.declared.program.Parts.{Parts}
use Rattle.behaviour_tree.specs.PartsSeen.{parts_view, service_view}

pub as_many_services : (parts : Parts) → length (parts_view parts).services ≡ length parts.services.items
as_many_services parts = length-map parts.services.items service_view
EOF

# A service that counts to a number, which takes three events and two for each turn.
counting() {
    echo "service S { main { i = 0 ; while (i < $1) { i = i + 1 } } }"
}

# A service of so many strands, each of which has events without an end.
beside() {
    printf 'service S { main { while (true) { x1 = 1 }'
    for number in $(seq 2 "$1"); do
        printf ' | while (true) { x%d = 1 }' "$number"
    done
    echo ' } }'
}

# A service whose store grows to twice as much so often, with five events for each time and three more, before its last
# assignment.
growing() {
    echo "service S { main { a.x = 1 ; i = 0 ;"
    echo "  while (i < $1) { b << a ; a.l << b ; a.r << b ; i = i + 1 } ; z = 1 } }"
}

# A service that sets the sum of so many numbers.
adding() {
    printf 'service S { main { z = 1'
    for _ in $(seq 2 "$1"); do
        printf ' + 1'
    done
    echo ' } }'
}

counting 499 > "$work/few.ol"
counting 4999 > "$work/many.ol"
beside 10 > "$work/ten.ol"
beside 100 > "$work/hundred.ol"
growing 1 > "$work/small.ol"
growing 10 > "$work/large.ol"
adding 500 > "$work/sum.ol"
build_over_proved

# Puts into `count` what a tool of valgrind, with its words, counts in a run that must do so much; a text stands before
# it.
counted() {
    tool=$1
    before=$2
    wanted=$3
    shift 3
    program=$work/crates/session_times/out/session_times
    # shellcheck disable=SC2086
    valgrind $tool "$program" "$@" > "$work/done" 2> "$work/counts"
    [ "$(cat "$work/done")" = "$wanted" ] || { echo "$*: $(cat "$work/done"), not $wanted" >&2; exit 1; }
    count=$(sed -n "s/.*$before//p" "$work/counts" | tr -d , | cut -d ' ' -f 1)
}

# What doing a task once costs, which does so much: as much more as it costs to do it twice as often.
instructions() {
    task_costs '--tool=callgrind --callgrind-out-file=/dev/null' 'Collected : ' "$@"
}
bytes() {
    task_costs --tool=memcheck 'frees, ' "$@"
}
task_costs() {
    tool=$1
    before=$2
    each=$3
    file=$work/$5.ol
    times=$7
    counted "$tool" "$before" $((each * times)) "$4" "$file" "$6" "$times"
    once=$count
    counted "$tool" "$before" $((each * times * 2)) "$4" "$file" "$6" $((times * 2))
    echo $(((count - once) / times))
}

few=$(instructions 1001 runs few 0 1)
many=$(instructions 10001 runs many 0 1)
small=$(bytes 1 looks small 8 100)
large=$(bytes 1 looks large 53 100)
value=$(instructions 1 values sum 0 10)
start=$(instructions 1 starts sum 0 10)
first=$(instructions 1 firsts sum 0 10)
failed=0
echo "$few $many" | awk '{
    printf "1,001 events: %d instructions, 10,001 events: %d, ratio %.2f (at most 12)\n", $1, $2, $2 / $1
    exit !($2 <= 12 * $1)
}' || failed=1
for strands in 10:ten 100:hundred; do
    number=${strands%%:*}
    file=${strands##*:}
    enabled=$(instructions "$number" enabled "$file" 0 10)
    looks=$(instructions "$number" looks "$file" 0 10)
    steps=$(instructions "$number" steps "$file" 0 10)
    echo "$number $enabled $looks $((steps / number))" | awk '{
        printf "%d strands: %d instructions for a look at each\n", $1, $3
        printf "- those enabled: %d, ratio %.2f\n", $2, $2 / $3
        printf "- a step: %d, ratio %.2f (at most 1)\n", $4, $4 / $3
        exit !($4 <= $3)
    }' || failed=1
done
echo "$small $large" | awk '{
    printf "a look: %d bytes in a small store, %d in a large one (the same)\n", $1, $2
    exit !($1 == $2)
}' || failed=1
echo "$value $start $first" | awk '{
    both = $3 - $2
    printf "a value: %d instructions, looked at and set: %d, ratio %.2f (at most 2.2)\n", $1, both, both / $1
    exit !(both <= 2.2 * $1)
}' || failed=1
exit "$failed"
