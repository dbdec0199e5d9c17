#!/bin/sh
# Counts the instructions, by callgrind, of reading 1,000,000 requests in one piece and of parsing their heads alone by
# httparse, of which the first are to be at most 3 times the second; and of reading 2,000 and 20,000 requests byte by
# byte, whose ratio is to be at most 12. What making the requests takes is taken off. It runs in a folder of its own,
# outside the gate: bench/requests.sh
# shellcheck source=bench/common.sh
. "$(dirname "$0")/common.sh"

make_crate 'request_times: http_port jolie_trees outside_traits httparse http1 memchr' jolie_trees outside_traits http_port <<'EOF'
//! Reads so many requests: `whole` in one piece, `bytes` byte by byte, `heads` by httparse alone, or `none` of them;
//! and says how many were read.
#![tactic(auto)]

use http_port::{Fed, HeadReader};
use httparse::Status;
use httparse::spans::{EMPTY_HEADER_SPAN, parse_request};
use std::alloc::{AllocError, Global};
use std::{env, io};

const REQUEST: &[u8] = b"POST / HTTP/1.1\r\nHost: localhost\r\nContent-Length: 59\r\n\r\n{\"jsonrpc\":\"2.0\",\"method\":\"twice\",\"params\":{\"n\":21},\"id\":1}";

const BODY: usize = 59;

fn main(rt: HostRuntime) -> io::Result<()> {
    let mut how = String::new(rt.alloc());
    for word in env::args(&rt)?.skip(1) {
        match word.as_str().parse::<u32>() {
            Ok(count) => match read(rt.alloc(), how.as_str(), count) {
                Ok(read) => println!(rt; "{read}")?,
                Err(_) => println!(rt; "out of memory")?,
            },
            Err(_) => how = word,
        }
    }
    Ok(())
}

fn read(alloc: Global, how: &str, count: u32) -> Result<u32, AllocError> {
    let stream = stream_of(alloc, count)?;
    let stream = stream.as_slice();
    match how {
        "whole" => whole(alloc, stream),
        "bytes" => bytes(alloc, stream),
        "heads" => Ok(heads(stream, count)),
        _ => Ok(0),
    }
}

/// So many requests.
fn stream_of(alloc: Global, count: u32) -> Result<Vec<u8>, AllocError> {
    let mut stream = Vec::new(alloc);
    for _ in 0..count {
        stream.extend_from_slice(REQUEST)?;
    }
    Ok(stream)
}

fn whole(alloc: Global, stream: &[u8]) -> Result<u32, AllocError> {
    let mut reader = HeadReader::new(alloc);
    let mut fed = reader.feed(stream)?;
    let mut count = 0_u32;
    for _ in 0..u32::MAX {
        if !matches!(&fed, Fed::Request { .. }) {
            break;
        }
        count = count.wrapping_add(1);
        fed = reader.feed(&[])?;
    }
    Ok(count)
}

fn bytes(alloc: Global, stream: &[u8]) -> Result<u32, AllocError> {
    let mut reader = HeadReader::new(alloc);
    let mut count = 0_u32;
    for byte in stream {
        if let Fed::Request { .. } = reader.feed(&[*byte])? {
            count = count.wrapping_add(1);
        }
    }
    Ok(count)
}

fn heads(stream: &[u8], most: u32) -> u32 {
    let mut fields = [EMPTY_HEADER_SPAN; 64];
    let mut rest = stream;
    let mut count = 0_u32;
    for _ in 0..most {
        let Ok(Status::Complete(head)) = parse_request(rest, &mut fields) else {
            break;
        };
        let end = head.len.saturating_add(BODY);
        if rest.len() < end {
            break;
        }
        rest = &rest[end..];
        count = count.wrapping_add(1);
    }
    count
}
EOF
build_crate whole 1

# The instructions of reading so many requests, without those of making them. All of them must be read.
instructions() {
    counted "$1" "$2" "$2"
    all=$count
    counted none "$2" 0
    echo $((all - count))
}

# Puts the instructions of a run into `count`, which must read so many requests.
counted() {
    run="$work/crates/request_times/out/request_times $1 $2"
    # shellcheck disable=SC2086
    valgrind --tool=callgrind --callgrind-out-file=/dev/null $run > "$work/read" 2> "$work/counts"
    [ "$(cat "$work/read")" = "$3" ] || { echo "not all requests were read" >&2; exit 1; }
    count=$(sed -n 's/.*Collected : //p' "$work/counts")
}

whole=$(instructions whole 1000000)
heads=$(instructions heads 1000000)
short=$(instructions bytes 2000)
long=$(instructions bytes 20000)
echo "$whole $heads $short $long" | awk '{
    printf "in one piece: %d million instructions, httparse alone %d million, ratio %.2f (at most 3)\n", $1 / 1e6, $2 / 1e6, $1 / $2
    printf "byte by byte: %d million, ten times the bytes %d million, ratio %.2f (at most 12)\n", $3 / 1e6, $4 / 1e6, $4 / $3
    exit !($1 <= 3 * $2 && $4 <= 12 * $3)
}'
