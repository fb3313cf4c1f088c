#!/bin/sh
# Takes the processor time of `tokens` of midl_lex and `parse` of midl_parse together, on one core: sources of 20,000 enums and of 20,000
# interfaces with 5 methods, and twice as many. It is no part of the merge gate.
#
#   bench/parse.sh [N]      N declarations, which are 20000 where none is given and at most 20000, and 2N
#
# At 20000 each is to take less than 500 ms, and at 2N less than 2.3 times as long as at N.
set -eu
count=${1:-20000}
. "$(dirname "$0")/programs.sh"

program parse_bench 'midl_lex midl_parse wr_base' <<'PROGRAM'
//! Cuts a file into tokens and parses them, and prints the processor time that it took and what came of it.
#![tactic(auto)]

use midl_lex::tokens;
use midl_parse::parse;
use std::alloc::Global;
use std::env;
use std::fs;
use std::test::Fail;
use std::time::CpuClock;

/// How many namespaces there are.
fn parsed(alloc: Global, bytes: &[u8]) -> Option<u64> {
    if bytes.len() > 4194304 {
        return None;
    }
    let Ok(found) = tokens(alloc, 0, bytes) else {
        return None;
    };
    match parse(alloc, 0, &found) {
        Ok(file) => Some(file.items.len() as u64),
        Err(_) => None,
    }
}

fn main(rt: HostRuntime) -> Result<(), Fail> {
    for word in env::args(&rt)?.skip(1) {
        let bytes = fs::read(&rt, word.as_str())?;
        let start = rt.process_cpu_time()?;
        let spaces = parsed(rt.alloc(), &bytes);
        let took = rt
            .process_cpu_time()?
            .checked_sub(start)
            .ok_or("the clock went back")?
            .as_micros();
        match spaces {
            Some(spaces) => println!(rt; "{took} {spaces}")?,
            None => println!(rt; "{took} refused")?,
        }
    }
    Ok(())
}
PROGRAM

# enums N, interfaces N: a source of so many
enums() {
    awk -v n="$1" 'BEGIN { print "namespace Gen {"; for (i = 0; i < n; i++) printf "enum E%d { Small, Medium = 5, Large };\n", i; print "}" }'
}
interfaces() {
    awk -v n="$1" 'BEGIN { print "namespace Gen {"; for (i = 0; i < n; i++) printf "interface I%d { void A(Int32 a); Int32 B(); void C(); void D(); void E(); }\n", i; print "}" }'
}
for kind in enums interfaces; do
    "$kind" "$count" > "$work/$kind"
    "$kind" $((2 * count)) > "$work/${kind}2"
done

# least FILE: the least of five runs, each of a process of its own, as `midl` is one
least() {
    for _ in 1 2 3 4 5; do "$work/crates/parse_bench/out/parse_bench" "$1"; done | sort -n | head -n 1
}

built parse_bench "$work/enums"
for kind in enums interfaces; do
    once=$(least "$work/$kind")
    twice=$(least "$work/${kind}2")
    awk -v kind="$kind" -v n="$count" -v once="$once" -v twice="$twice" 'BEGIN {
        split(once, a, " "); split(twice, b, " ")
        printf "%d %s: %.0f ms (%s), %d: %.0f ms (%s), ratio %.2f\n", n, kind, a[1] / 1000, a[2], 2 * n, b[1] / 1000, b[2], b[1] / a[1]
    }'
done
