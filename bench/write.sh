#!/bin/sh
# Times `image_of` of winmd_write alone, on one core, over the full types of a file that is cut, parsed, resolved and made whole
# before: enums of 3 cases, interfaces of 5 methods, classes, and a quarter of each. It is no part of the merge gate.
#
#   bench/write.sh [N [M]]      N enums and N interfaces, which are 20000 where none is given, and M classes, which are 4000
#
# Four times as many are to take less than 4.4 times as long. The memory is that of the whole process, with the file's tree and types.
set -eu
count=${1:-20000}
classes=${2:-4000}
. "$(dirname "$0")/programs.sh"

program write_bench 'class_synthesis midl_lex midl_names midl_parse midl_tree winmd_write wr_base' <<'PROGRAM'
//! The image of the full types of a file: the least time of five runs in microseconds, how many types there are, and how long the image is.
#![tactic(auto)]

use class_synthesis::full;
use midl_lex::tokens;
use midl_names::resolve;
use midl_parse::parse;
use midl_tree::File;
use std::alloc::Global;
use std::env;
use std::fs;
use std::test::Fail;
use std::time::Instant;
use winmd_write::image_of;

/// The file of these bytes, where they are one.
fn parsed(alloc: Global, bytes: &[u8]) -> Option<File> {
    if bytes.len() > 4194304 {
        return None;
    }
    let Ok(found) = tokens(alloc, 0, bytes) else {
        return None;
    };
    match parse(alloc, 0, &found) {
        Ok(file) => Some(file),
        Err(_) => None,
    }
}

fn main(rt: HostRuntime) -> Result<(), Fail> {
    let mut files = Vec::new(rt.alloc());
    for word in env::args(&rt)?.skip(1) {
        let bytes = fs::read(&rt, word.as_str())?;
        match parsed(rt.alloc(), &bytes) {
            Some(file) => files.push(file)?,
            None => println!(rt; "no file")?,
        }
    }
    let Ok(placed) = resolve(rt.alloc(), files) else {
        println!(rt; "refused by names")?;
        return Ok(());
    };
    let Ok(made) = full(rt.alloc(), placed) else {
        println!(rt; "refused by synthesis")?;
        return Ok(());
    };
    let count = made.types.len();
    let mut least = u128::MAX;
    for _ in 0..5 {
        let start = Instant::now(&rt)?;
        let image = image_of(rt.alloc(), &made.types);
        let took = start.elapsed(&rt)?.as_micros();
        if took < least {
            least = took;
        }
        let length = match &image {
            Ok(bytes) => bytes.len(),
            Err(_) => 0,
        };
        println!(rt; "{least} {count} {length}")?;
    }
    Ok(())
}
PROGRAM

# a namespace with so many of a kind
many_enums() {
    awk -v n="$1" 'BEGIN {
        print "namespace Gen {"
        for (i = 0; i < n; i++) printf "enum E%d { A%d, B%d, C%d = 9 };\n", i, i, i, i
        print "}"
    }'
}
many_interfaces() {
    awk -v n="$1" 'BEGIN {
        print "namespace Gen {"
        for (i = 0; i < n; i++) printf "interface I%d { void A(); Int32 B(Int32 n); I%d C(String s, out Int32 r); void D(I%d o); Guid E(); }\n", i, i, i
        print "}"
    }'
}
many_classes() {
    awk -v n="$1" 'BEGIN {
        print "namespace Gen {"
        for (i = 0; i < n; i++)
            printf "runtimeclass C%d { C%d(); C%d(Int32 a); Int32 P; String Q { get; }; event Windows.Foundation.EventHandler<C%d> E; void M(C%d c); static Int32 S(); }\n", i, i, i, i, i
        print "}"
    }'
}

# last FILE: the last line of five runs in one process, and behind it the memory in KiB
last() {
    /usr/bin/time -f %M -o "$work/memory" "$work/crates/write_bench/out/write_bench" "$1" | tail -n 1 | tr '\n' ' '
    cat "$work/memory"
}

# compared WORD KIND N: so many, and a quarter right after that, eight times over, since other work on a machine disturbs single
# pairs. What is shown is the least time of each, and how many times as long all take in such a pair, as the median of the eight.
compared() {
    "many_$2" "$3" > "$work/all"
    "many_$2" $(($3 / 4)) > "$work/quarter"
    for _ in $(seq 8); do
        last "$work/all"
        last "$work/quarter"
    done | awk -v word="$1" -v n="$3" '
        # the median of the ratios, which are put in order
        function median(ratios,    i, j, one) {
            for (i = 2; i <= pairs; i++)
                for (j = i; j > 1 && ratios[j] < ratios[j - 1]; j--) { one = ratios[j]; ratios[j] = ratios[j - 1]; ratios[j - 1] = one }
            return (ratios[int((pairs + 1) / 2)] + ratios[int(pairs / 2) + 1]) / 2
        }
        NR % 2 == 1 { before = $1; types = $2; length_ = $3; memory = $4; if (NR == 1 || $1 < all) all = $1 }
        NR % 2 == 0 { ratios[++pairs] = before / $1; if (NR == 2 || $1 < quarter) quarter = $1 }
        END {
            printf "%d %s: %.0f ms, an image of %.1f MiB of %d types, %.0f MiB of memory; a quarter: %.0f ms; the median ratio of %d pairs: %.2f\n", n, word, all / 1000, length_ / 1048576, types, memory / 1024, quarter / 1000, pairs, median(ratios)
        }'
}

many_enums 4 > "$work/few"
built write_bench "$work/few"
compared 'enums of 3 cases' enums "$count"
compared 'interfaces of 5 methods' interfaces "$count"
compared classes classes "$classes"
