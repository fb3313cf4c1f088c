#!/bin/sh
# Times `full` of class_synthesis alone, on one core, over a file that is cut, parsed and resolved before: classes with
# constructors, properties, an event and statics, and twice as many; and `signature_of` of pinterface_id over a struct that
# holds a struct, and so on. It is no part of the merge gate.
#
#   bench/synthesis.sh [N]      N classes, which are 6000 where none is given, and 2N; structs nested 20,000 deep
#
# At 6000 it is to take less than 1 s, and at 2N less than 2.3 times as long as at N; the signature is to come at once.
set -eu
count=${1:-6000}
. "$(dirname "$0")/programs.sh"

program synthesis_bench 'class_synthesis midl_lex midl_names midl_parse midl_tree pinterface_id placed_items wr_base' <<'PROGRAM'
//! The full types of a file: the least time of five runs, how many types came, and what the signature of the first takes.
#![tactic(auto)]

use class_synthesis::full;
use midl_lex::tokens;
use midl_names::resolve;
use midl_parse::parse;
use midl_tree::File;
use placed_items::Placed;
use pinterface_id::signature;
use std::alloc::Global;
use std::env;
use std::fs;
use std::test::Fail;
use std::time::Instant;
use wr_base::{PlacedTypes, Refusal, Stop, TypeUse};

/// The file of these bytes, where they are one.
fn parsed(alloc: Global, bytes: &[u8]) -> Option<File> {
    if bytes.len() > 4194304 {
        return None;
    }
    let Ok(found) = tokens(alloc, 0, bytes) else {
        return None;
    };
    match parse(alloc, 0, &found) {
        Ok(file) => Some(file),
        Err(_) => None,
    }
}

/// How long the signature of the first type is.
fn first_signature(alloc: Global, set: &PlacedTypes) -> usize {
    if set.types.len() == 0 {
        return 0;
    }
    let Ok(name) = set.types.at(0).name().clone() else {
        return 0;
    };
    match signature(alloc, &set.types, &TypeUse::Value(name)) {
        Ok(Some(text)) => text.len(),
        _ => 0,
    }
}

/// What those of the sources declare that are files.
fn declared(alloc: Global, sources: &[Vec<u8>]) -> Result<Placed, Stop<Refusal>> {
    let mut files = Vec::new(alloc);
    for bytes in sources {
        if let Some(file) = parsed(alloc, bytes) {
            files.push(file)?;
        }
    }
    resolve(alloc, files)
}

fn main(rt: HostRuntime) -> Result<(), Fail> {
    let mut sources = Vec::new(rt.alloc());
    for word in env::args(&rt)?.skip(1) {
        sources.push(fs::read(&rt, word.as_str())?)?;
    }
    let mut least = u128::MAX;
    for _ in 0..5 {
        let Ok(placed) = declared(rt.alloc(), &sources) else {
            println!(rt; "refused by names")?;
            return Ok(());
        };
        let start = Instant::now(&rt)?;
        let made = full(rt.alloc(), placed);
        let took = start.elapsed(&rt)?.as_micros();
        if took < least {
            least = took;
        }
        let count = match &made {
            Ok(set) => set.types.len(),
            Err(_) => 0,
        };
        let start = Instant::now(&rt)?;
        let length = match &made {
            Ok(set) => first_signature(rt.alloc(), set),
            Err(_) => 0,
        };
        let signed = start.elapsed(&rt)?.as_micros();
        println!(rt; "{least} {count} types; the first one's signature has {length} bytes, after {signed}")?;
    }
    Ok(())
}
PROGRAM

# classes N: a source of so many
classes() {
    awk -v n="$1" 'BEGIN {
        print "namespace Gen {"
        for (i = 0; i < n; i++)
            printf "runtimeclass C%d { C%d(); C%d(Int32 a); C%d(String a, Int32 b); Int32 P; String Q { get; }; event Windows.Foundation.EventHandler<C%d> E; void M(C%d c); static Int32 S(); static C%d T { get; }; }\n", i, i, i, i, i, i, i
        print "}"
    }'
}
# structs N: one in the other
structs() {
    awk -v n="$1" 'BEGIN {
        print "namespace Gen {"
        for (i = 0; i < n - 1; i++) printf "struct S%05d { S%05d x; };\n", i, i + 1
        printf "struct S%05d { Int32 x; };\n}\n", n - 1
    }'
}
classes "$count" > "$work/once"
classes $((2 * count)) > "$work/twice"
structs 20000 > "$work/nested"

# least FILE: the last line of five runs in one process
least() {
    "$work/crates/synthesis_bench/out/synthesis_bench" "$1" | tail -n 1
}
built synthesis_bench "$work/once"
once=$(least "$work/once")
twice=$(least "$work/twice")
awk -v n="$count" -v once="$once" -v twice="$twice" 'BEGIN {
    split(once, a, " "); split(twice, b, " ")
    printf "%d classes: %.0f ms (%s types), %d: %.0f ms (%s types), ratio %.2f\n", n, a[1] / 1000, a[2], 2 * n, b[1] / 1000, b[2], b[1] / a[1]
}'
echo "20000 nested structs (microseconds first): $(least "$work/nested")"
