#!/bin/sh
# Times the lexing of a dense text of 100 KiB and of one of 1 MiB, and prints both times and their ratio, which is to be
# at most 12. It runs in a folder of its own, outside the gate: bench/tokens.sh
# shellcheck source=bench/common.sh
. "$(dirname "$0")/common.sh"

line='x1=a.b[0]+12L*"s\n"<=y&&!z;{p++|q<<#r}/*c*/(1,22,333);'
yes "$line" | head -c 102400 > "$work/short.txt"
yes "$line" | head -c 1048576 > "$work/long.txt"

make_crate 'token_times: jolie_tokens' jolie_trees jolie_tokens <<'EOF'
//! The time of lexing the text that the argument names, in microseconds, and how many tokens it has.
#![tactic(auto)]

use jolie_tokens::lex;
use std::time::Instant;
use std::{env, fs, io};

fn main(rt: HostRuntime) -> io::Result<()> {
    for path in env::args(&rt)?.skip(1) {
        let text = fs::read_to_string(&rt, path.as_str())?;
        let start = Instant::now(&rt)?;
        let found = lex(rt.alloc(), text.as_bytes());
        let micros = start.elapsed(&rt)?.as_micros();
        match found {
            Ok(tokens) => {
                let count = tokens.len();
                println!(rt; "{micros} {count}")?;
            }
            Err(error) => println!(rt; "{error}")?,
        }
    }
    Ok(())
}
EOF
build_crate "$work/short.txt"

# Each run is a process of its own, so that both texts begin with no memory; the least of 40 times counts.
short=$(least 40 run_crate "$work/short.txt")
long=$(least 40 run_crate "$work/long.txt")
echo "$short $long" | awk '{
    printf "100 KiB: %.2f ms, %d tokens\n", $1 / 1000, $2
    printf "1 MiB:   %.2f ms, %d tokens\n", $3 / 1000, $4
    printf "ratio:   %.1f (at most 12)\n", $3 / $1
    exit !($3 <= 12 * $1)
}'
