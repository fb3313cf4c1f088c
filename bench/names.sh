#!/bin/sh
# Times `resolve` of midl_names alone, on one core, over files that are cut and parsed before: interfaces in 20 files, each
# in a namespace of its own, whose members use interfaces of the next file, and twice as many. It is no part of the merge gate.
#
#   bench/names.sh [N]      N interfaces, which are 20000 where none is given, and 2N
#
# At 20000 it is to take less than 1 s, and at 2N less than 2.3 times as long as at N. Then as many uses in namespaces of 5, 50 and
# 250 parts, of a found type and of one that is declared outermost, where 250 parts are to take less than twice what 5 take; and a
# source of 82 KB with 2,000 uses in a namespace of 2,000 parts, which is to take less than 0.2 s.
set -eu
count=${1:-20000}
. "$(dirname "$0")/programs.sh"

program names_bench 'midl_lex midl_names midl_parse midl_tree wr_base' <<'PROGRAM'
//! Resolves files, and prints the least time of five runs and what came of it.
#![tactic(auto)]

use midl_lex::tokens;
use midl_names::resolve;
use midl_parse::parse;
use midl_tree::File;
use std::alloc::{AllocError, Global};
use std::env;
use std::fs;
use std::test::Fail;
use std::time::Instant;
use wr_base::Stop;

/// The file of these bytes, where they are one.
fn parsed(alloc: Global, number: u32, bytes: &[u8]) -> Option<File> {
    if bytes.len() > 4194304 {
        return None;
    }
    let Ok(found) = tokens(alloc, number, bytes) else {
        return None;
    };
    match parse(alloc, number, &found) {
        Ok(file) => Some(file),
        Err(_) => None,
    }
}

/// How many items there are, or where the first fault stands.
fn resolved(alloc: Global, files: Vec<File>) -> (u64, bool) {
    match resolve(alloc, files) {
        Ok(placed) => (placed.len() as u64, true),
        Err(Stop::Refused(refusal)) => (refusal.place.offset as u64, false),
        Err(Stop::Memory) => (0, false),
    }
}

/// Those of the sources that are files.
fn all_parsed(alloc: Global, sources: &[Vec<u8>]) -> Result<Vec<File>, AllocError> {
    let mut files = Vec::new(alloc);
    let mut number = 0u32;
    for bytes in sources {
        if let Some(file) = parsed(alloc, number, bytes) {
            files.push(file)?;
        }
        number = number.wrapping_add(1);
    }
    Ok(files)
}

fn main(rt: HostRuntime) -> Result<(), Fail> {
    let mut sources = Vec::new(rt.alloc());
    for word in env::args(&rt)?.skip(1) {
        sources.push(fs::read(&rt, word.as_str())?)?;
    }
    let mut least = u128::MAX;
    let mut answer = (0, false);
    for _ in 0..5 {
        let files = all_parsed(rt.alloc(), &sources)?;
        if files.len() != sources.len() {
            println!(rt; "no file")?;
        }
        let start = Instant::now(&rt)?;
        answer = resolved(rt.alloc(), files);
        let took = start.elapsed(&rt)?.as_micros();
        if took < least {
            least = took;
        }
    }
    let (count, is_whole) = answer;
    if is_whole {
        println!(rt; "{least} {count} items")?;
    } else {
        println!(rt; "{least} refused at {count}")?;
    }
    Ok(())
}
PROGRAM

# sources FOLDER N: N interfaces in 20 files
sources() {
    mkdir "$work/$1"
    for k in 0 1 2 3 4 5 6 7 8 9 10 11 12 13 14 15 16 17 18 19; do
        awk -v n="$2" -v k="$k" 'BEGIN {
            next_ = (k + 1) % 20
            printf "namespace Gen.Part%d {\n", k
            for (i = 0; i < n / 20; i++)
                printf "interface I%d { void A(Gen.Part%d.I%d a, Part%d.I%d b); I%d B(); Windows.Foundation.EventHandler<Part%d.I%d> C(Int32 c); I%d D { get; }; }\n", i, next_, i, next_, i, i, next_, i, i
            print "}"
        }' > "$work/$1/$k.idl"
    done
}
sources once "$count"
sources twice $((2 * count))

built names_bench "$work/once/0.idl"
once=$("$work/crates/names_bench/out/names_bench" "$work"/once/*.idl)
twice=$("$work/crates/names_bench/out/names_bench" "$work"/twice/*.idl)
awk -v n="$count" -v once="$once" -v twice="$twice" 'BEGIN {
    split(once, a, " "); split(twice, b, " ")
    printf "%d interfaces: %.0f ms (%s %s), %d: %.0f ms (%s %s), ratio %.2f\n", n, a[1] / 1000, a[2], a[3], 2 * n, b[1] / 1000, b[2], b[3], b[1] / a[1]
}'

# deep FOLDER PARTS USES TYPE: a namespace of so many parts, in which interfaces use the type so often
deep() {
    mkdir "$work/$1"
    awk -v parts="$2" -v uses="$3" -v type="$4" 'BEGIN {
        print "namespace a { interface Outer {}; }"
        printf "namespace a"
        for (i = 1; i < parts; i++) printf ".a"
        print " {"
        for (i = 0; i < uses; i++) {
            if (i % 400 == 0) printf "%sinterface I%d {", i == 0 ? "" : "};\n", i / 400
            printf " void M%d(%s x);", i % 400, type
        }
        print "};\n}"
    }' > "$work/$1/0.idl"
}
for type in Windows.Foundation.IClosable Outer; do
    for parts in 5 50 250; do
        deep "$type$parts" $parts 40000 $type
        taken=$("$work/crates/names_bench/out/names_bench" "$work/$type$parts/0.idl")
        echo "40000 uses of $type in $parts parts: $taken (microseconds first)"
    done
    deep "${type}2000" 2000 2000 $type
    taken=$("$work/crates/names_bench/out/names_bench" "$work/${type}2000/0.idl")
    echo "2000 uses of $type in 2000 parts, $(wc -c < "$work/${type}2000/0.idl") bytes: $taken"
done
