#!/bin/sh
# Times the reading of a line of 6,000 and of one of 60,000 bytes, and the writing of an answer with the same tree, and
# prints the times and their ratios, each of which is to be at most 12. It runs in a folder of its own, outside the
# gate: bench/lines.sh
# shellcheck source=bench/common.sh
. "$(dirname "$0")/common.sh"

make_crate "line_times: jsonrpc_text service_check jolie_parse jolie_tokens behaviour_tree jolie_trees" \
    jolie_trees jolie_tokens jolie_ast jolie_parse behaviour_tree program_locations check_base check_types check_ports \
    check_processes lower_types lower_processes service_check jsonrpc_text <<'END'
//! The times of reading the line that the argument names and of writing an answer with its params, in microseconds, and
//! the bytes of both.
#![tactic(auto)]

use behaviour_tree::{Outcome, Program, TypeDef};
use jolie_parse::parse;
use jolie_tokens::lex;
use jolie_trees::Tree;
use jsonrpc_text::{Id, Read, answer_text, read_message};
use service_check::check;
use std::alloc::{AllocError, Global};
use std::time::Instant;
use std::{env, fs, io};

fn main(rt: HostRuntime) -> io::Result<()> {
    for path in env::args(&rt)?.skip(1) {
        let line = fs::read_to_string(&rt, path.as_str())?;
        let alloc = rt.alloc();
        let start = Instant::now(&rt)?;
        let read = read_message(alloc, line.as_bytes());
        let reading = start.elapsed(&rt)?.as_micros();
        let Ok(outcome) = read.and_then(|read| outcome_of(alloc, &read)) else {
            println!(rt; "out of memory")?;
            continue;
        };
        let Some(program) = least(alloc) else {
            println!(rt; "out of memory")?;
            continue;
        };
        let start = Instant::now(&rt)?;
        let text = answer_text(alloc, &Id::Int(1), &outcome, &TypeDef::Undefined, &program);
        let writing = start.elapsed(&rt)?.as_micros();
        match text {
            Ok(text) => {
                let (read, written) = (line.len(), text.len());
                println!(rt; "{reading} {writing} {read} {written}")?;
            }
            Err(_) => println!(rt; "out of memory")?,
        }
    }
    Ok(())
}

/// The params of the first call as a value.
fn outcome_of(alloc: Global, read: &Read) -> Result<Outcome, AllocError> {
    for call in read.calls.as_slice() {
        if let Ok(what) = &call.what {
            return Ok(Outcome::Value(what.1.copied()?));
        }
    }
    Ok(Outcome::Value(Tree::void(alloc)))
}

const LEAST: &[u8] = b"service S { main { } }";

/// The least program, if there is memory.
fn least(alloc: Global) -> Option<Program> {
    let tokens = lex(alloc, LEAST).ok()?;
    let file = parse(alloc, LEAST, &tokens).ok()?;
    check(alloc, &file).ok()
}
END

# A line of an order with so many lines in it.
line() {
    printf '{"jsonrpc":"2.0","method":"order","params":{"line":['
    for number in $(seq "$1"); do
        [ "$number" = 1 ] || printf ','
        printf '{"id":"item%05d","price":%d}' "$number" "$((1000 + number))"
    done
    printf ']},"id":1}'
}
line 187 > "$work/short.txt"
line 1880 > "$work/long.txt"

build_crate "$work/short.txt"

# One of the times of a run. Each run is a process of its own; the least of 40 times counts.
micros() {
    run_crate "$1" | cut -d ' ' -f "$2"
}
bytes=$(wc -c < "$work/short.txt")
more=$(wc -c < "$work/long.txt")
reading="$(least 40 micros "$work/short.txt" 1) $(least 40 micros "$work/long.txt" 1)"
writing="$(least 40 micros "$work/short.txt" 2) $(least 40 micros "$work/long.txt" 2)"
echo "$reading $writing $bytes $more" | awk '{
    printf "reading: %.2f ms of %d bytes, %.2f ms of %d bytes, ratio %.1f (at most 12)\n", $1 / 1000, $5, $2 / 1000, $6, $2 / $1
    printf "writing: %.2f ms, %.2f ms, ratio %.1f (at most 12)\n", $3 / 1000, $4 / 1000, $4 / $3
    exit !($2 <= 12 * $1 && $4 <= 12 * $3)
}'
