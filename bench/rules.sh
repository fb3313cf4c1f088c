#!/bin/sh
# Times `first_fault` of type_rules alone, the pass of `check`, on one core, over sets that are cut, parsed, resolved and made full
# before. It is no part of the merge gate.
#
#   bench/rules.sh [N]      N interfaces of 5 methods, which are 20000 where none is given, and 2N; then the other sets
#
# At 20000 interfaces, and at 6000 classes, it is to take less than 1 s, and twice as many less than 2.3 times as long. A chain of
# 20,000 structs, a ring of as many, 4,000 members of one name, 500,000 cases, and 20,000 types in a tree of namespaces are to take
# less than 2 s each. A chain of 2,800 interfaces, with four times as
# many listed uses as one of half, is to take less than 5 times as long. Sets above a limit are refused, after as many passes.
set -eu
count=${1:-20000}
. "$(dirname "$0")/programs.sh"

program rules_bench 'class_synthesis midl_lex midl_names midl_parse midl_tree type_rules wr_base' <<'PROGRAM'
//! The first fault of the full types of files: the least time of three runs, how many types there are, and what is broken.
#![tactic(auto)]

use class_synthesis::full;
use midl_lex::tokens;
use midl_names::resolve;
use midl_parse::parse;
use midl_tree::File;
use std::alloc::Global;
use std::env;
use std::fs;
use std::test::Fail;
use std::time::Instant;
use type_rules::first_fault;
use wr_base::PlacedTypes;

/// The file of these bytes, where they are one.
fn parsed(alloc: Global, number: u32, bytes: &[u8]) -> Option<File> {
    if bytes.len() > 4194304 {
        return None;
    }
    let Ok(found) = tokens(alloc, number, bytes) else {
        return None;
    };
    match parse(alloc, number, &found) {
        Ok(file) => Some(file),
        Err(_) => None,
    }
}

/// The full types of the files, where names and synthesis refuse nothing.
fn full_types(alloc: Global, files: Vec<File>) -> Option<PlacedTypes> {
    let Ok(placed) = resolve(alloc, files) else {
        return None;
    };
    match full(alloc, placed) {
        Ok(set) => Some(set),
        Err(_) => None,
    }
}

/// What is broken first.
fn told(alloc: Global, set: &PlacedTypes) -> &'static str {
    match first_fault(alloc, set) {
        Ok(None) => "nothing",
        Ok(Some(refusal)) => refusal.code.name(),
        Err(_) => "want of memory",
    }
}

fn main(rt: HostRuntime) -> Result<(), Fail> {
    let mut files = Vec::new(rt.alloc());
    let mut number = 0u32;
    for word in env::args(&rt)?.skip(1) {
        let bytes = fs::read(&rt, word.as_str())?;
        match parsed(rt.alloc(), number, &bytes) {
            Some(file) => files.push(file)?,
            None => println!(rt; "no file")?,
        }
        number = number.wrapping_add(1);
    }
    let Some(set) = full_types(rt.alloc(), files) else {
        println!(rt; "0 refused before")?;
        return Ok(());
    };
    let mut least = u128::MAX;
    let mut broken = "";
    for _ in 0..3 {
        let start = Instant::now(&rt)?;
        broken = told(rt.alloc(), &set);
        let took = start.elapsed(&rt)?.as_micros();
        if took < least {
            least = took;
        }
    }
    let count = set.types.len();
    println!(rt; "{least} {count} types, broken: {broken}")?;
    Ok(())
}
PROGRAM

# spread FOLDER: the lines of the input over 20 files, each in a namespace of its own
spread() {
    mkdir "$work/$1"
    awk -v at="$work/$1" '
        { k = NR % 20; file = at "/" k ".idl"; if (!(k in open)) { printf "namespace Gen.Part%d {\n", k > file; open[k] = 1 } print > file }
        END { for (k in open) print "}" > (at "/" k ".idl") }'
}
# interfaces N: each with 5 methods, whose types are those of its own part and found ones
interfaces() {
    awk -v n="$1" 'BEGIN {
        for (i = 0; i < n; i++)
            printf "interface I%d { void A(I%d a, String b); I%d B(); Windows.Foundation.EventHandler<I%d> C(Int32 c); Boolean D(UInt64 d, out Guid e); void E(I%d f); };\n", i, (i + 20) % n, i, i, i
    }'
}
# classes N: each with the interface of its members and of its constructors
classes() {
    awk -v n="$1" 'BEGIN {
        for (i = 0; i < n; i++)
            printf "runtimeclass C%d { C%d(Int32 a); C%d(String a, Int32 b); Int32 P; String Q { get; }; event Windows.Foundation.EventHandler<C%d> E; void M(C%d c); };\n", i, i, i, i, i
    }'
}
# cases N: enums of 4000 cases, with so many together
cases() {
    awk -v n="$1" 'BEGIN {
        for (i = 0; i < n / 4000; i++) { printf "enum E%d { ", i; for (k = 0; k < 4000; k++) printf "c%d, ", k; print "};" }
    }'
}
# structs N LAST: a chain of so many, the last of which holds this
structs() {
    awk -v n="$1" -v last="$2" 'BEGIN {
        print "namespace Gen {"
        for (i = 0; i < n - 1; i++) printf "struct S%05d { S%05d x; };\n", i, i + 1
        printf "struct S%05d { %s x; };\n}\n", n - 1, last
    }'
}
# required N: a chain of so many interfaces, each of which requires the one before, so that the lists hold N(N - 1)/2 together
required() {
    awk -v n="$1" 'BEGIN {
        print "namespace Gen {\ninterface I0 { void M0(); };"
        for (i = 1; i < n; i++) printf "interface I%d requires I%d { void M%d(); };\n", i, i - 1, i
        print "}"
    }'
}
# members N: one interface with so many methods of one name
members() {
    awk -v n="$1" 'BEGIN { print "namespace Gen { interface I {"; for (i = 0; i < n; i++) print "void M();"; print "}; }" }'
}
# spaces N: a type in each namespace of a binary tree
spaces() {
    awk -v n="$1" 'BEGIN {
        for (i = 1; i <= n; i++) {
            path = ""
            for (k = i; k > 1; k = int(k / 2)) path = (k % 2 ? ".R" : ".L") path
            printf "namespace Gen%s { enum E { a }; }\n", path
        }
    }'
}

# least FOLDER: the least time of three runs in one process, in microseconds, and what is broken
least() {
    "$work/crates/rules_bench/out/rules_bench" "$work/$1"/*.idl
}
# compared NAME N: a set and twice the set right after that, twelve times over, since other work on a machine disturbs single pairs.
# What is shown is the least time of each, and how many times as long twice the set takes in such a pair, as the median of the twelve.
compared() {
    for _ in $(seq 12); do
        least "$1-once"
        least "$1-twice"
    done | awk -v name="$1" -v n="$2" '
        # the median of the ratios, which are put in order
        function median(ratios,    i, j, one) {
            for (i = 2; i <= pairs; i++)
                for (j = i; j > 1 && ratios[j] < ratios[j - 1]; j--) { one = ratios[j]; ratios[j] = ratios[j - 1]; ratios[j - 1] = one }
            return (ratios[int((pairs + 1) / 2)] + ratios[int(pairs / 2) + 1]) / 2
        }
        NR % 2 == 1 { before = $1; if (NR == 1 || $1 < once) once = $1; $1 = ""; told = $0 }
        NR % 2 == 0 { ratios[++pairs] = $1 / before; if (NR == 2 || $1 < twice) twice = $1; $1 = ""; told_twice = $0 }
        END { printf "%d %s: %.0f ms (%s), %d: %.0f ms (%s), the median ratio of %d pairs: %.2f\n", n, name, once / 1000, substr(told, 2), 2 * n, twice / 1000, substr(told_twice, 2), pairs, median(ratios) }'
}
alone() {
    mkdir "$work/$1"
    cat > "$work/$1/0.idl"
}

interfaces "$count" | spread interfaces-once
interfaces $((2 * count)) | spread interfaces-twice
classes 6000 | spread classes-once
classes 12000 | spread classes-twice
cases 500000 | spread cases-once
cases 1000000 | spread cases-twice
structs 20000 Int32 | alone chain-once
structs 40000 Int32 | alone chain-twice
structs 20000 S00000 | alone ring-once
structs 40000 S00000 | alone ring-twice
required 1400 | alone required-once
required 2800 | alone required-twice
members 4000 | alone members-once
members 8000 | alone members-twice
spaces 20000 | alone spaces-once
spaces 40000 | alone spaces-twice

built rules_bench "$work/members-once/0.idl"
compared interfaces "$count"
compared classes 6000
compared cases 500000
compared chain 20000
compared ring 20000
compared required 1400
compared members 4000
compared spaces 20000
