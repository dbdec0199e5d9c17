#!/bin/sh
# Counts what an office costs, by the instructions of callgrind, and prints it with the most that each ratio is to be:
# of 60,000 messages to 6,000; and of a message to one of 4,096 live sessions, each with a key of its own, to a message
# to one of 4. Each message is posted, finds its session by its key, and is taken there. Then a history of 65,536
# messages whose values weigh 64 MiB, all that a run takes, with the memory that it needs, which is to be at most
# 352 MiB: a value is held twice, and a tree of 1 KiB takes some 2.3. Then, by time, what a call through a pass
# costs more than the plain call, which is to be at most 100 ns alone, and how many calls a second four threads make. It
# proves crates of its own over the libraries that `rt ci` proved here, or in the repository that PROVED names, and needs
# valgrind and python3. Outside the gate:
#   bench/office.sh         all of it
#   bench/office.sh passes  the calls through passes alone
# shellcheck source=bench/common.sh
. "$(dirname "$0")/common.sh"

cat > "$work/keys.ol" <<'EOF'
type Key: void { k: string fill: string }
interface GoI { OneWay: open(Key), more(Key) }
service S {
  execution: concurrent
  inputPort In { location: "local://s" interfaces: GoI }
  cset { k: Key.k }
  main { open(x) ; while (true) { more(x) } }
}
EOF
failed=0

if [ "${1:-}" != passes ]; then
make_crate "office_costs: test_programs test_conditions office_plain office_core reqresp_book behaviour_tree \
jolie_trees anyhow" <<'EOF'
//! An office in which so many sessions are started, each with a key of its own, takes so many messages, each of which
//! has the key of one of them, and gives each to its session; and how many it took and gave in all. The words are the
//! file of the service, how many sessions, how many messages, and how many letters each value is filled with.
#![tactic(auto)]

use behaviour_tree::Program;
use jolie_trees::{Root, Text, Tree};
use office_core::{PostReply, Posted};
use office_plain::Office;
use reqresp_book::Origin;
use std::alloc::{AllocError, Global};
use std::{env, fs};
use test_conditions::{acts, is_running, works};
use test_programs::with_program;

const WORKER: u32 = 4_096;

fn main(rt: HostRuntime) -> anyhow::Result<()> {
    let mut words = env::args(&rt)?.skip(1);
    let Some(path) = words.next() else {
        return Ok(());
    };
    let sessions = number(words.next());
    let messages = number(words.next());
    let letters = number(words.next());
    let text = fs::read_to_string(&rt, path.as_str())?;
    let alloc = rt.alloc();
    let done = with_program(alloc, text.as_bytes(), |program| {
        done(alloc, program, sessions, messages, letters)
    })?;
    println!(rt; "{done}")?;
    Ok(())
}

fn number(word: Option<String>) -> u32 {
    match word {
        Some(word) => word.as_str().parse::<u32>().unwrap_or(0),
        None => 0,
    }
}

fn done(
    alloc: Global,
    program: &Program,
    sessions: u32,
    messages: u32,
    letters: u32,
) -> anyhow::Result<u32> {
    let copy = program.again()?;
    let mut office = Office::new(alloc, copy)?;
    let done = done_by(alloc, &mut office, sessions, messages, letters);
    drop(office.into_history());
    Ok(done?)
}

fn done_by(
    alloc: Global,
    office: &mut Office,
    sessions: u32,
    messages: u32,
    letters: u32,
) -> Result<u32, AllocError> {
    let started = started(alloc, office, sessions, letters)?;
    let given = given(alloc, office, sessions, messages, letters)?;
    Ok(started.wrapping_add(given))
}

/// How many sessions were started, each by a message with the next key.
fn started(alloc: Global, office: &mut Office, count: u32, letters: u32) -> Result<u32, AllocError> {
    let mut done: u32 = 0;
    for session in 0..count {
        if is_posted(alloc, office, "open", session, letters)? && is_running(office) {
            drop(office.adopt(session)?);
            if is_taken(office, session, 0)? {
                done = done.wrapping_add(1);
            }
        }
    }
    Ok(done)
}

/// How many messages were given to these sessions.
fn given(
    alloc: Global,
    office: &mut Office,
    sessions: u32,
    count: u32,
    letters: u32,
) -> Result<u32, AllocError> {
    let mut done: u32 = 0;
    for number in 0..count {
        let session = number.wrapping_mul(1_365).checked_rem(sessions).unwrap_or(0);
        if is_posted(alloc, office, "more", session, letters)? && is_taken(office, session, 1)? {
            done = done.wrapping_add(1);
        }
    }
    Ok(done)
}

/// Whether a message with the key of a session is accepted.
fn is_posted(
    alloc: Global,
    office: &mut Office,
    op: &str,
    session: u32,
    letters: u32,
) -> Result<bool, AllocError> {
    if !works(office, WORKER) {
        return Ok(false);
    }
    let posted = Posted {
        service: 0,
        op: Text::new(alloc, op)?,
        value: value(alloc, session, letters)?,
    };
    let origin = Origin::Port {
        posting: 0,
        index: 0,
    };
    match office.post(WORKER, origin, posted)? {
        PostReply::Accepted(_) => Ok(true),
        PostReply::Refused(_) => Ok(false),
    }
}

fn is_taken(office: &mut Office, session: u32, op: u32) -> Result<bool, AllocError> {
    if !acts(office, session)? {
        return Ok(false);
    }
    Ok(office.take(session, &[op])?.is_some())
}

/// A value that weighs 35 and as much as it has letters: a key of six bytes and what fills it.
fn value(alloc: Global, session: u32, letters: u32) -> Result<Tree, AllocError> {
    let number = session.wrapping_add(10_000);
    let mut value = Tree::void(alloc);
    let key = format!(in alloc; "k{number}")?;
    put(alloc, &mut value, "k", key)?;
    let mut fill = String::new(alloc);
    for _ in 0..letters {
        fill.push('a')?;
    }
    put(alloc, &mut value, "fill", fill)?;
    Ok(value)
}

fn put(alloc: Global, value: &mut Tree, name: &str, text: String) -> Result<(), AllocError> {
    let name = Text::new(alloc, name)?;
    let child = Tree::of_root(alloc, Root::Text(Text::from_string(text)));
    value.push(&name, child)
}
EOF

build_over_proved
program=$work/crates/office_costs/out/office_costs

# The instructions of so many sessions and messages, all of which are taken.
instructions() {
    valgrind --tool=callgrind --callgrind-out-file=/dev/null "$program" "$work/keys.ol" "$1" "$2" 10 > "$work/done" \
        2> "$work/counts"
    [ "$(cat "$work/done")" = $(($1 + $2)) ] || { echo "$1 sessions, $2 messages: $(cat "$work/done")" >&2; exit 1; }
    sed -n 's/.*Collected : //p' "$work/counts"
}

start=$(instructions 1 0)
few=$(($(instructions 1 6000) - start))
many=$(($(instructions 1 60000) - start))
small=$(($(instructions 4 4000) - $(instructions 4 0)))
large=$(($(instructions 4096 4000) - $(instructions 4096 0)))
echo "$few $many" | awk '{
    printf "6,000 messages: %d instructions, 60,000: %d, ratio %.2f (at most 13)\n", $1, $2, $2 / $1
    exit !($2 <= 13 * $1)
}' || failed=1
echo "$small $large" | awk '{
    printf "a message to one of 4 sessions: %d instructions, of 4,096: %d, ratio %.2f (at most 3)\n", \
        $1 / 4000, $2 / 4000, $2 / $1
    exit !($2 <= 3 * $1)
}' || failed=1
# Each of these values weighs 1,024, and there is one more than a run takes.
python3 - "$program" "$work/keys.ol" 1 65536 989 <<'EOF' || failed=1
import resource
import subprocess
import sys

taken = int(subprocess.run(sys.argv[1:], capture_output=True, check=True).stdout)
mib = resource.getrusage(resource.RUSAGE_CHILDREN).ru_maxrss // 1024
print(f'{taken:,} messages of 1,024 bytes (65,536): {mib} MiB of memory (at most 352)')
sys.exit(taken != 65536 or mib > 352)
EOF
fi

name=pass_costs
entry="pass_costs: office_turn office_sharing test_programs test_conditions office_plain office_core behaviour_tree \
anyhow"
mkdir -p "$work/crates"
# Its files have a second ending there, since the gate lets no text of this kind stand outside of crates.
cp -r "$top/bench/office/pass_costs" "$work/crates/"
find "$work/crates/pass_costs" -name '*.txt' | while read -r file; do mv "$file" "${file%.txt}"; done
build_over_proved
# The least of seven runs each, less one without calls: of one thread the time of its processor, of four the time by the
# clock, with how many processors they had meanwhile.
python3 - "$work/crates/pass_costs/out/pass_costs" "$work/keys.ol" 20000000 <<'EOF' || failed=1
import resource
import subprocess
import sys
import time

program, file, calls = sys.argv[1], sys.argv[2], int(sys.argv[3])


def worked():
    usage = resource.getrusage(resource.RUSAGE_CHILDREN)
    return usage.ru_utime + usage.ru_stime


# The seconds by the clock, and those of processors.
def run(how, count):
    start, before = time.perf_counter(), worked()
    made = int(subprocess.run([program, file, how, str(count)], capture_output=True, check=True).stdout)
    if made != count * (4 if how == 'four' else 1):
        sys.exit(f'{how}: {made} calls of {count} each')
    return time.perf_counter() - start, worked() - before


def least(how):
    return min(run(how, calls)[1] for _ in range(7)) - min(run(how, 0)[1] for _ in range(7))


plain, passed = least('plain'), least('pass')
more = (passed - plain) / calls * 1e9
print(f'a call: {plain / calls * 1e9:.1f} ns plain, {more:.1f} ns more through a pass (at most 100)')
took, used = min(run('four', calls) for _ in range(7))
print(f'four threads, on {used / took:.1f} processors: {4 * calls / took / 1e6:.2f} million calls a second in all')
sys.exit(more > 100)
EOF
exit "$failed"
