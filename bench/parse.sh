#!/bin/sh
# Times the parsing of a service of 100 KiB and of one of 1 MiB, and prints both times and their ratio, which is to be
# at most 12. It runs in a folder of its own, outside the gate: bench/parse.sh
# shellcheck source=bench/common.sh
. "$(dirname "$0")/common.sh"

# A service of whole lines of statements, with at most so many bytes.
service() {
    printf 'service S { main { nullProcess\n'
    line=';a.b[i]=-1+2*c/(d-3)%4 ; if(x<y&&!z){p++}else{q<<{r=1,s="t"}} | op@Out(u)(v) | w(x)(y){y=x}'
    yes "$line" | head -n $((($1 - 40) / (${#line} + 1)))
    printf '} }\n'
}
service 102400 > "$work/short.txt"
service 1048576 > "$work/long.txt"

make_crate 'parse_times: jolie_parse jolie_ast jolie_tokens' jolie_trees jolie_tokens jolie_ast jolie_parse <<'EOF'
//! The time of parsing the text that the argument names, in microseconds, and how many tokens it has.
#![tactic(auto)]

use jolie_parse::parse;
use jolie_tokens::lex;
use std::time::Instant;
use std::{env, fs, io};

fn main(rt: HostRuntime) -> io::Result<()> {
    for path in env::args(&rt)?.skip(1) {
        let text = fs::read_to_string(&rt, path.as_str())?;
        match lex(rt.alloc(), text.as_bytes()) {
            Ok(tokens) => {
                let start = Instant::now(&rt)?;
                let found = parse(rt.alloc(), text.as_bytes(), &tokens);
                let micros = start.elapsed(&rt)?.as_micros();
                let count = tokens.len();
                match found {
                    Ok(_) => println!(rt; "{micros} {count}")?,
                    Err(refusal) => println!(rt; "{refusal}")?,
                }
            }
            Err(refusal) => println!(rt; "{refusal}")?,
        }
    }
    Ok(())
}
EOF
build_crate "$work/short.txt"

# Each run is a process of its own, so that both texts begin with no memory; the least of 40 times counts.
short=$(least 40 run_crate "$work/short.txt")
long=$(least 40 run_crate "$work/long.txt")
echo "$short $long" | awk '{
    printf "100 KiB: %.2f ms, %d tokens\n", $1 / 1000, $2
    printf "1 MiB:   %.2f ms, %d tokens\n", $3 / 1000, $4
    printf "ratio:   %.1f (at most 12)\n", $3 / $1
    exit !($3 <= 12 * $1)
}'
