#!/bin/sh
# Times writing and reading rows of Param at full size, on one core: it copies the crates to a folder of its own, adds a small
# program there, proves and builds that with `rt run`, and runs it. It is no part of the merge gate.
#
#   bench/rows.sh [N]      at N rows, which is 500000 where none is given, and at 2N
#
# At 500000 writing and reading are each to take less than 1 s, and at 2N less than 2.3 times as long as at N.
set -eu
count=${1:-500000}
. "$(dirname "$0")/programs.sh"

program rows_bench 'md_schema md_tables ranked' <<'PROGRAM'
//! Writes rows of Param, reads them from there, and prints how long each takes.
#![tactic(auto)]

use md_schema::{Row, Table};
use md_tables::{TableSet, is_writable, read_tables, write_tables};
use std::env;
use std::test::Fail;
use std::time::CpuClock;

fn main(rt: HostRuntime) -> Result<(), Fail> {
    let alloc = rt.alloc();
    let mut count = 0;
    for word in env::args(&rt)?.skip(1) {
        count = word.as_str().parse::<u32>()?;
    }
    let mut set = TableSet::new(alloc, false, false, false)?;
    for number in 0..count {
        set.push(
            Table::Param,
            &Row {
                cells: [1, number % 65536, number / 65536],
            },
        )?;
    }
    if !is_writable(&set) {
        Err("not writable")?;
    }
    let start = rt.process_cpu_time()?;
    let bytes = write_tables(alloc, &set)?;
    let written = rt.process_cpu_time()?;
    let view = match read_tables(alloc, &bytes) {
        Ok(view) => view,
        _ => Err("refused")?,
    };
    let read = rt.process_cpu_time()?;
    let write_time = written.checked_sub(start).ok_or("the clock went back")?;
    let read_time = read.checked_sub(written).ok_or("the clock went back")?;
    println!(rt; "{count} {} {} {}", write_time.as_micros(), read_time.as_micros(), view.count(Table::Param))?;
    Ok(())
}
PROGRAM

built rows_bench 1
echo 'Rows of Param, the least of 61 runs, in seconds of processor time:'
timed rows_bench "$count" written read
