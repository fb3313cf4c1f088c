#!/bin/sh
# Times `tokens` of midl_lex on sources of 4 MiB, on one core: declarations as a component has them, and runs of one
# spelling that are the worst for a lexer which reads a byte more than a few times. It is no part of the merge gate.
#
# The first is to take less than 150 ms, and each of the others at most three times as long as that bound.
set -eu
. "$(dirname "$0")/programs.sh"

program lex_bench 'midl_lex wr_base' <<'PROGRAM'
//! Cuts a file into tokens, and prints how long that takes and what came of it.
#![tactic(auto)]

use midl_lex::tokens;
use std::alloc::Global;
use std::env;
use std::fs;
use std::test::Fail;
use std::time::Instant;
use wr_base::Stop;

/// How many tokens there are, or where the fault stands.
fn lexed(alloc: Global, bytes: &[u8]) -> (u64, bool) {
    if bytes.len() > 4194304 {
        return (0, false);
    }
    match tokens(alloc, 0, bytes) {
        Ok(found) => (found.len() as u64, true),
        Err(Stop::Refused(refusal)) => (refusal.place.offset as u64, false),
        Err(Stop::Memory) => (0, false),
    }
}

fn main(rt: HostRuntime) -> Result<(), Fail> {
    for word in env::args(&rt)?.skip(1) {
        let bytes = fs::read(&rt, word.as_str())?;
        let start = Instant::now(&rt)?;
        let (count, is_cut) = lexed(rt.alloc(), &bytes);
        let took = start.elapsed(&rt)?.as_micros();
        if is_cut {
            println!(rt; "{took} us, {count} tokens")?;
        } else {
            println!(rt; "{took} us, a fault at {count}")?;
        }
    }
    Ok(())
}
PROGRAM

# Sources of 4,194,304 bytes.
yes '/// A bell that rings. /* not a comment */
namespace Shop.Goods { [uuid(0b0e5a10-1111-4222-8333-444455556666), version(1)] interface IBell requires Windows.Foundation.IClosable {
  void Ring(Int32 times, out Boolean done); String Name { get; set; }; event Windows.Foundation.EventHandler<Object> Rung; }
  enum Size { Small, Medium = 5, Large = 0xFF, Negative = -3, }; }' | head -c 4194304 > "$work/realistic"
for run in '/' '"' 'a' '0' '/*' '-'; do
    yes "$run" | tr -d '\n' | head -c 4194304 > "$work/run$(printf %s "$run" | od -An -tx1 | tr -d ' \n')"
done

built lex_bench "$work/realistic"
echo 'declarations:' && "$work/crates/lex_bench/out/lex_bench" "$work/realistic"
for run in '/' '"' 'a' '0' '/*' '-'; do
    echo "4 MiB of $run:" && "$work/crates/lex_bench/out/lex_bench" "$work/run$(printf %s "$run" | od -An -tx1 | tr -d ' \n')"
done
