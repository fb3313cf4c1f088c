#!/bin/sh
# Times what the heaps must do at full size, on one core: it copies the crates to a folder of its own, adds a small program
# there, proves and builds that with `rt run`, and runs it. It is no part of the merge gate.
#
#   bench/tables.sh [N]      at N texts, which is 500000 where none is given, and at 2N
#
# At 500000 each time is to be below 1 s, and at 2N below 2.3 times that at N. A walk through a table of the size of an index
# is measured beside it: it shows what memory itself adds.
set -eu
count=${1:-500000}
. "$(dirname "$0")/programs.sh"

program heap_bench 'md_heaps ranked' <<'PROGRAM'
//! Interns distinct texts, and then the same texts again, and prints how long each takes.
#![tactic(auto)]

ghost use Rattle.std.specs.Prelude.{IsTrue};
ghost use Rattle.md_heaps.specs.Texts.{HasNoZero};

use md_heaps::{HeapFull, TextHeap};
use ranked::Stop;
use std::env;
use std::test::Fail;
use std::time::CpuClock;

fn has_no_zero(text: &[u8]) -> bool
    ensures { IsTrue result → HasNoZero text.now }
{
    text.iter().all(|byte| *byte != 0)
}

fn intern_all(heap: &mut TextHeap, texts: &[String]) -> Result<(), Stop<HeapFull>> {
    for text in texts {
        let text = text.as_bytes();
        if has_no_zero(text) {
            heap.intern(text)?;
        }
    }
    Ok(())
}

fn main(rt: HostRuntime) -> Result<(), Fail> {
    let alloc = rt.alloc();
    let mut count = 0;
    for word in env::args(&rt)?.skip(1) {
        count = word.as_str().parse::<u32>()?;
    }
    let mut texts = Vec::new(alloc);
    for number in 0..count {
        texts.push(format!(in alloc; "Name{number}")?)?;
    }
    let mut heap = TextHeap::new(alloc)?;
    let start = rt.process_cpu_time()?;
    intern_all(&mut heap, texts.as_slice())?;
    let interned = rt.process_cpu_time()?;
    intern_all(&mut heap, texts.as_slice())?;
    let again = rt.process_cpu_time()?;
    let first_time = interned.checked_sub(start).ok_or("the clock went back")?;
    let again_time = again.checked_sub(interned).ok_or("the clock went back")?;
    println!(rt; "{count} {} {} {}", first_time.as_micros(), again_time.as_micros(), heap.bytes().len())?;
    Ok(())
}
PROGRAM

program walk_bench '' <<'PROGRAM'
//! Follows links from place to place of a table, in an order that no cache foresees, as often as there are texts. The table has four bytes for
//! each place, and as many places as a hash table of so many texts has.
#![tactic(auto)]

use std::env;
use std::test::Fail;
use std::time::CpuClock;

/// The least power of two that leaves an eighth of the places free.
fn places(count: u32) -> u32 {
    let mut places = 8u32;
    for _ in 0..28 {
        if places / 8 < count / 7 + 1 {
            places = places.wrapping_mul(2);
        }
    }
    places
}

fn walked(links: &[u32], count: u32) -> u32 {
    let mut at = 0u32;
    for _ in 0..count {
        if let Some(next) = links.get(at as usize) {
            at = *next;
        }
    }
    at
}

fn main(rt: HostRuntime) -> Result<(), Fail> {
    let mut count = 0;
    for word in env::args(&rt)?.skip(1) {
        count = word.as_str().parse::<u32>()?;
    }
    // A generator of numbers whose period is the whole table.
    let places = places(count);
    let mut links = Vec::new(rt.alloc());
    for place in 0..places {
        links.push(place.wrapping_mul(1664525).wrapping_add(1013904223) & places.wrapping_sub(1))?;
    }
    let start = rt.process_cpu_time()?;
    let first = walked(&links, count);
    let once = rt.process_cpu_time()?;
    let second = walked(&links, count);
    let again = rt.process_cpu_time()?;
    let first_time = once.checked_sub(start).ok_or("the clock went back")?;
    let again_time = again.checked_sub(once).ok_or("the clock went back")?;
    println!(rt; "{count} {} {} {}", first_time.as_micros(), again_time.as_micros(), first.wrapping_add(second))?;
    Ok(())
}
PROGRAM

built heap_bench 1
echo 'Texts interned, and the same again, the least of 61 runs, in seconds of processor time:'
timed heap_bench "$count" interned again
echo
built walk_bench 1
echo 'For comparison, as many steps from place to place of a table of the same size:'
timed walk_bench "$count" walked again
