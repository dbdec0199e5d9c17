#!/bin/sh
# Times 10,000 `get` and 10,000 `set` of twenty paths in a tree of about 60 nodes and in one of about 60,000, and prints
# the times and their ratios; that of `get` is to be at most 4. The third line tells what 10,000 `get` of as many paths
# cost in the large tree, where each waits for the memory. It runs in a folder of its own, outside the gate:
# bench/trees.sh
# shellcheck source=bench/common.sh
. "$(dirname "$0")/common.sh"

make_crate 'tree_times: jolie_trees sqlite_items' jolie_trees <<'END'
//! The time of 10,000 `get` of twenty prices, or with a second word `set` or `all` of 10,000 `set` or of `get` of other
//! prices each time, in an order of as many lines as the first word says, each with an id and a price, in microseconds,
//! and how many nodes the order has.
#![tactic(auto)]

use jolie_trees::{Path, Root, SetError, Step, Text, Tree};
use sqlite_items::Items;
use std::alloc::{AllocError, Global};
use std::time::Instant;
use std::{env, io};

const TIMES: u32 = 10_000;

/// What is timed.
#[derive(Clone, Copy)]
enum Deed {
    Get,
    GetAll,
    Set,
}

fn main(rt: HostRuntime) -> io::Result<()> {
    let mut lines: u32 = 1;
    let mut deed = Deed::Get;
    for word in env::args(&rt)?.skip(1) {
        match word.as_str() {
            "set" => deed = Deed::Set,
            "all" => deed = Deed::GetAll,
            number => lines = number.parse::<u32>().unwrap_or(1).max(1),
        }
    }
    let alloc = rt.alloc();
    let Ok(mut tree) = order(alloc, lines) else {
        println!(rt; "out of memory")?;
        return Ok(());
    };
    let start = Instant::now(&rt)?;
    let done = match deed {
        Deed::Get => read(alloc, &tree, lines, 20).is_ok(),
        Deed::GetAll => read(alloc, &tree, lines, TIMES).is_ok(),
        Deed::Set => write(alloc, &mut tree, lines).is_ok(),
    };
    let time = start.elapsed(&rt)?.as_micros();
    let nodes = tree.size();
    println!(rt; "{time} {nodes} {done}")?;
    Ok(())
}

fn order(alloc: Global, lines: u32) -> Result<Tree, AllocError> {
    let mut order = Tree::void(alloc);
    let name = Text::new(alloc, "line")?;
    for number in 0..lines {
        order.push(&name, line(alloc, number)?)?;
    }
    Ok(order)
}

fn line(alloc: Global, number: u32) -> Result<Tree, AllocError> {
    let mut line = Tree::void(alloc);
    line.push(&Text::new(alloc, "id")?, Tree::of_root(alloc, Root::Int(i32::try_from(number).unwrap_or(0))))?;
    line.push(&Text::new(alloc, "price")?, Tree::of_root(alloc, Root::Int(1)))?;
    Ok(line)
}

fn price(alloc: Global, number: u32) -> Result<Path, AllocError> {
    let mut steps = Items::new(alloc);
    steps.push(Step {
        name: Text::new(alloc, "line")?,
        index: Some(number),
    })?;
    steps.push(Step {
        name: Text::new(alloc, "price")?,
        index: None,
    })?;
    Ok(Path { steps })
}

/// One of so many lines all over the order.
fn place(time: u32, lines: u32, places: u32) -> u32 {
    let place = time.checked_rem(places).unwrap_or(0);
    let apart = lines.checked_div(places).unwrap_or(0).max(1);
    place.wrapping_mul(apart).checked_rem(lines).unwrap_or(0)
}

/// How many prices are found at so many lines.
fn read(alloc: Global, tree: &Tree, lines: u32, places: u32) -> Result<u32, AllocError> {
    let mut found: u32 = 0;
    for time in 0..TIMES {
        let path = price(alloc, place(time, lines, places))?;
        if tree.get(&path).is_some() {
            found = found.wrapping_add(1);
        }
    }
    Ok(found)
}

/// Sets prices at twenty lines.
fn write(alloc: Global, tree: &mut Tree, lines: u32) -> Result<(), SetError> {
    for time in 0..TIMES {
        let path = price(alloc, place(time, lines, 20))?;
        tree.set(&path, Tree::of_root(alloc, Root::Int(2)))?;
    }
    Ok(())
}
END
build_crate 1

# The time of a run. The least of so many runs counts, each a process of its own.
micros() {
    run_crate "$@" | cut -d ' ' -f 1
}
gets="$(least 20 micros 20) $(least 20 micros 20000)"
sets="$(least 5 micros 20 set) $(least 1 micros 20000 set)"
echo "$gets $sets $(least 20 micros 20000 all)" | awk '{
    printf "10,000 get: %.2f ms in 61 nodes, %.2f ms in 60,001 nodes, ratio %.1f (at most 4)\n", $1 / 1000, $2 / 1000, $2 / $1
    printf "10,000 set: %.2f ms in 61 nodes, %.2f ms in 60,001 nodes, ratio %.1f\n", $3 / 1000, $4 / 1000, $4 / $3
    printf "10,000 get of other paths each time: %.2f ms in 60,001 nodes\n", $5 / 1000
    exit !($2 <= 4 * $1)
}'
