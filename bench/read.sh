#!/bin/bash
# Times `types_of` of winmd_read alone, on one core, over images that the program writes: interfaces of 5 methods, enums of 3 cases and classes, and a
# quarter of each; and monodis, Mono's disassembler, on the same images where it is installed. Then come images of 64 MiB that no tool
# would write. It is no part of the merge gate.
#
#   bench/read.sh [N [M]]      N interfaces and N enums, which are 20000 where none is given, and M classes, which are 4000
#
# Each figure is the least of five runs in one process, and one whole run of monodis. Four times as many of a kind are to take less than 4.4
# times as long, and each hostile image less than 2 s. The memory is that of the whole process, with the image.
# Needs bash, python3, GNU time (/usr/bin/time) and awk, and the program, which `./winrt --prove` builds; else the one that `./winrt` builds
# without its proofs.
set -eu
count=${1:-20000}
classes=${2:-4000}
top=$(CDPATH='' cd -- "$(dirname -- "$0")/.." && pwd)
tool=$top/crates/winrt/out/winrt
[ -x "$tool" ] || tool=$top/crates/winrt/out/unproved/winrt
[ -x "$tool" ] || { echo "bench/read.sh: build the program first, by ./winrt --prove, or by ./winrt" >&2; exit 1; }
. "$top/bench/programs.sh"

program read_bench 'md_schema ranked winmd_read wr_base' <<'PROGRAM'
//! What is read from an image: the least time of so many runs in microseconds, and how many types there are, or the fault.
#![tactic(auto)]

use md_schema::ImageFault;
use ranked::Stop;
use std::alloc::{AllocError, Global};
use std::env;
use std::fs;
use std::test::Fail;
use std::time::Instant;
use winmd_read::types_of;
use wr_base::Types;

fn said_of_stop(alloc: Global, stop: &Stop<ImageFault>) -> Result<String, AllocError> {
    match stop {
        Stop::Refused(fault) => format!(in alloc; "{:?} at {:x}", fault.kind, fault.offset),
        Stop::Memory => String::from_str(alloc, "memory"),
    }
}

fn said(alloc: Global, found: &Result<Types, Stop<ImageFault>>) -> Result<String, AllocError> {
    match found {
        Ok(types) => format!(in alloc; "{} types", types.len()),
        Err(stop) => said_of_stop(alloc, stop),
    }
}

fn main(rt: HostRuntime) -> Result<(), Fail> {
    for word in env::args(&rt)?.skip(1) {
        let bytes = fs::read(&rt, word.as_str())?;
        let mut least = u128::MAX;
        for _ in 0..5 {
            let start = Instant::now(&rt)?;
            let found = types_of(rt.alloc(), &bytes);
            let took = start.elapsed(&rt)?.as_micros();
            if took < least {
                least = took;
            }
            let text = said(rt.alloc(), &found)?;
            println!(rt; "{least} {text}")?;
        }
    }
    Ok(())
}
PROGRAM

# a namespace with so many of a kind
many_interfaces() {
    awk -v n="$1" 'BEGIN {
        print "namespace Gen {"
        for (i = 0; i < n; i++) printf "interface I%d { void A(); Int32 B(Int32 n); I%d C(String s, out Int32 r); void D(I%d o); Guid E(); };\n", i, i, i
        print "}"
    }'
}
many_enums() {
    awk -v n="$1" 'BEGIN {
        print "namespace Gen {"
        for (i = 0; i < n; i++) printf "enum E%d { A%d, B%d, C%d = 9 };\n", i, i, i, i
        print "}"
    }'
}
many_classes() {
    awk -v n="$1" 'BEGIN {
        print "namespace Gen {"
        for (i = 0; i < n; i++)
            printf "runtimeclass C%d { C%d(); C%d(Int32 a); Int32 P; String Q { get; }; event Windows.Foundation.EventHandler<C%d> E; void M(C%d c); static Int32 S(); };\n", i, i, i, i, i
        print "}"
    }'
}

# image KIND N: its image, whose name is printed
image() {
    (cd "$work" && "many_$1" "$2" > "$1-$2.idl" && "$tool" midl -o "$1-$2.winmd" "$1-$2.idl")
    echo "$work/$1-$2.winmd"
}

# last FILE: the last line of five runs in one process, and behind it the memory in KiB
last() {
    /usr/bin/time -f %M -o "$work/memory" "$work/crates/read_bench/out/read_bench" "$1" | tail -n 1 | tr '\n' ' '
    cat "$work/memory"
}

# disassembled FILE: the seconds of a run of monodis
disassembled() {
    /usr/bin/time -f %e -o "$work/seconds" monodis "$1" > /dev/null 2>&1 || :
    tail -n 1 "$work/seconds"
}

# compared WORD KIND N: so many, and a quarter
compared() {
    all_image=$(image "$2" "$3")
    quarter_image=$(image "$2" $(($3 / 4)))
    all=$(last "$all_image")
    quarter=$(last "$quarter_image")
    awk -v word="$1" -v all="$all" -v quarter="$quarter" -v n="$3" -v size="$(wc -c < "$all_image")" 'BEGIN {
        split(all, a, " "); split(quarter, q, " ")
        printf "%d %s: %s types of %.1f MiB in %.0f ms, %.0f MiB of memory; a quarter: %.0f ms, ratio %.2f\n", n, word, a[2], size / 1048576, a[1] / 1000, a[4] / 1024, q[1] / 1000, a[1] / q[1]
    }'
    ! command -v monodis > /dev/null || echo "    monodis: $(disassembled "$all_image") s"
}

built read_bench "$(image enums 4)"
compared 'interfaces of 5 methods' interfaces "$count"
compared 'enums of 3 cases' enums "$count"
compared classes classes "$classes"

# Images of 64 MiB: an image of one enum whose stream of tables is written anew, behind all else.
(cd "$work" && python3 - "$(image enums 1)" <<'PYTHON'
import sys

SIZE = 64 << 20
first = open(sys.argv[1], "rb").read()


def number(at):
    return int.from_bytes(first[at : at + 4], "little")


def two(number):
    return number.to_bytes(2, "little")


def hostile(name, stream):
    """The image with this as its stream of tables, filled up to 64 MiB by the last byte; the metadata begins at 0x248, the headers of streams at 0x270."""
    at = len(first)
    stream = stream + stream[-1:] * (SIZE - at - len(stream))
    image = bytearray(first) + stream
    for cell, value in (0x188, SIZE), (0x190, SIZE - 0x200), (0x20C, SIZE - 0x248), (0x270, at - 0x248), (0x274, len(stream)):
        image[cell : cell + 4] = value.to_bytes(4, "little")
    open(name, "wb").write(image)


def tables(*counts):
    """The header of a stream of tables with so many rows."""
    valid = sum(1 << n for n, count in counts)
    return bytes((0, 0, 0, 0, 2, 0, 0, 1)) + valid.to_bytes(8, "little") + bytes(8) + b"".join(count.to_bytes(4, "little") for n, count in counts)


texts = first[0x248 + number(0x27C) :][: number(0x280)]
blobs = first[0x248 + number(0x2AC) :][: number(0x2B0)]


def text(name):
    return two(texts.index(b"\0" + name + b"\0") + 1)


def blob(content):
    return two(blobs.index(bytes([len(content)]) + content))


room = SIZE - len(first) - 256
value = text(b"value__") + blob(b"\6\x08")
enum_ref = b"\0\0" + text(b"Enum") + text(b"System")
hostile("zeros", bytes(1))
hostile("ones", b"\xff")
hostile("rows-of-zeros", tables((0x1A, 1 << 24)) + bytes(1))  # 2^24 rows of ModuleRef
hostile("interfaces-of-nothing", tables((0x09, room // 4)) + bytes(1))  # InterfaceImpl
hostile("types-that-state-nothing", tables((0x02, room // 16)) + (bytes(12) + b"\1\0\1\0") * (room // 16) + bytes(1))
# an enum whose attributes are all made by one constructor
count = room // 6
hostile(
    "attributes-of-one-type",
    tables((0x01, 1), (0x02, 1), (0x04, 1), (0x0A, 1), (0x0C, count))
    + enum_ref
    + b"\1\x41\0\0" + text(b"E0") + text(b"Gen") + b"\5\0\1\0\1\0"
    + b"\1\6" + value
    + b"\x09\0\0\0\0\0"
    + b"\x23\0\x0B\0\0\0" * count + bytes(1),
)
# an enum with all fields, each a case with a constant
count = room // 14
hostile(
    "cases-of-one-type",
    tables((0x01, 1), (0x02, 1), (0x04, count), (0x0B, count - 1))
    + enum_ref
    + b"\1\x41\0\0" + text(b"E0") + text(b"Gen") + b"\5\0\1\0\0\0\1\0"
    + b"\1\6" + value
    + (b"\x56\x80" + text(b"A0") + b"\0\0") * (count - 1)
    + b"".join(b"\x08\0" + (n * 4).to_bytes(4, "little") + blob(bytes(4)) for n in range(2, count + 1))
    + bytes(1),
)
PYTHON
)
for name in zeros ones rows-of-zeros interfaces-of-nothing types-that-state-nothing attributes-of-one-type cases-of-one-type; do
    awk -v name="$name" -v found="$(last "$work/$name")" 'BEGIN {
        n = split(found, a, " ")
        text = a[2]
        for (i = 3; i < n; i++) text = text " " a[i]
        printf "%s: %s in %.0f ms, %.0f MiB of memory\n", name, text, a[1] / 1000, a[n] / 1024
    }'
done
