#!/bin/bash
# Times whole runs of `winrt midl`, from the sources on the disk to the image on it: enums of 3 cases, interfaces of 5 methods, and
# classes with constructors, properties, events and static members; and mcs, Mono's compiler of C#, on the same declarations in C#
# where it is installed. It is no part of the merge gate.
#
#   bench/midl.sh [N [M]]      N enums and N interfaces, which are 20000 where none is given, and M classes, which are 4000
#
# Each figure is the least of five runs (of three for mcs): the time by the clock, the processor time of all threads, and the most
# memory. Enums and interfaces are to take less than 0.2 times as long as mcs takes, and less than 200 MB; four times as many of a
# kind less than 4.4 times as long. Then come sources of 16 MiB in four files, which are to take less than 1 GB: interfaces near the
# limits, enums of short cases far past them, and one token after another that no file begins with.
# Needs bash, GNU time (/usr/bin/time) and awk, and the program, which `./winrt --prove` builds; else the one that `./winrt` builds
# without its proofs. It says which of them it measures. A set of more than 20,000 types is refused, after as many passes.
set -eu
count=${1:-20000}
classes=${2:-4000}
top=$(CDPATH='' cd -- "$(dirname -- "$0")/.." && pwd)
program=$top/crates/winrt/out/winrt
if [ -x "$program" ]; then
    echo "the proved program"
else
    program=$top/crates/winrt/out/unproved/winrt
    [ -x "$program" ] || { echo "bench/midl.sh: build the program first, by ./winrt --prove, or by ./winrt" >&2; exit 1; }
    echo "the program that is built without its proofs"
fi
room=$(mktemp -d)
trap 'rm -rf "$room"' EXIT
cd "$room"

# enums N, interfaces N, classes N: a source with so many of a kind; and the same in C#
enums() {
    awk -v n="$1" 'BEGIN {
        print "namespace Gen {"
        for (i = 0; i < n; i++) printf "enum E%d { A%d, B%d, C%d = 9 };\n", i, i, i, i
        print "}"
    }'
}
enums_in_cs() {
    enums "$1" | sed 's/^enum/public enum/'
}
interfaces() {
    awk -v n="$1" 'BEGIN {
        print "namespace Gen {"
        for (i = 0; i < n; i++) printf "interface I%d { void A(); Int32 B(Int32 n); I%d C(String s, out Int32 r); void D(I%d o); Guid E(); };\n", i, i, i
        print "}"
    }'
}
interfaces_in_cs() {
    awk -v n="$1" 'BEGIN {
        print "namespace Gen {"
        for (i = 0; i < n; i++) printf "public interface I%d { void A(); int B(int n); I%d C(string s, out int r); void D(I%d o); System.Guid E(); };\n", i, i, i
        print "}"
    }'
}
classes() {
    awk -v n="$1" 'BEGIN {
        print "namespace Gen {"
        for (i = 0; i < n; i++)
            printf "runtimeclass C%d { C%d(); C%d(Int32 a); Int32 P; String Q { get; }; event Windows.Foundation.EventHandler<C%d> E; void M(C%d c); static Int32 S(); };\n", i, i, i, i, i
        print "}"
    }'
}
# (C# has no class without bodies, so they are as short as they can be)
classes_in_cs() {
    awk -v n="$1" 'BEGIN {
        print "namespace Gen {"
        for (i = 0; i < n; i++)
            printf "public class C%d { public C%d() {} public C%d(int a) {} public int P { get; set; } public string Q { get { return null; } } public event System.EventHandler<C%d> E; public void M(C%d c) {} public static int S() { return 0; } };\n", i, i, i, i, i
        print "}"
    }'
}

# least RUNS STATUS COMMAND..: the least seconds by the clock, the least of the processors, and the most memory in KiB. Another status stops.
least() {
    runs=$1
    wanted=$2
    shift 2
    TIMEFORMAT='%3R %3U %3S'
    for ((i = 0; i < runs; i++)); do
        status=0
        { time /usr/bin/time -q -f %M -o memory "$@" > said 2> told || status=$?; } 2> took
        [ "$status" -eq "$wanted" ] || { cat said told >&2; echo "bench/midl.sh: status $status of $*" >&2; exit 1; }
        echo "$(cat took) $(cat memory)"
    done | awk '
        { processor = $2 + $3 }
        NR == 1 || $1 < clock { clock = $1 }
        NR == 1 || processor < least { least = processor }
        $4 > memory { memory = $4 }
        END { print clock, least, memory }'
}

# compared WORD KIND N: so many, a quarter of them, and as many in C#
compared() {
    "$2" "$3" > all.idl
    "$2" $(($3 / 4)) > quarter.idl
    "$2_in_cs" "$3" > all.cs
    all=$(least 5 0 "$program" midl -o all.winmd all.idl)
    quarter=$(least 5 0 "$program" midl -o quarter.winmd quarter.idl)
    other=
    if command -v mcs > /dev/null; then other=$(least 3 0 mcs -target:library -warn:0 -out:all.dll all.cs); fi
    awk -v word="$1" -v n="$3" -v all="$all" -v quarter="$quarter" -v other="$other" -v source="$(wc -c < all.idl)" -v image="$(wc -c < all.winmd)" 'BEGIN {
        split(all, a, " "); split(quarter, q, " ")
        printf "%d %s, %.1f MiB to %.1f MiB: %.3f s (processors %.3f s), %.0f MiB; a quarter: %.3f s (%.3f s), ratio %.2f (%.2f)\n", n, word, source / 1048576, image / 1048576, a[1], a[2], a[3] / 1024, q[1], q[2], a[1] / q[1], a[2] / q[2]
        if (split(other, m, " ")) printf "    mcs: %.3f s (processors %.3f s), %.0f MiB: midl takes %.3f times as long (%.3f)\n", m[1], m[2], m[3] / 1024, a[1] / m[1], a[2] / m[2]
    }'
}

compared 'enums of 3 cases' enums "$count"
compared 'interfaces of 5 methods' interfaces "$count"
compared classes classes "$classes"

# wide K: a file of 4 MiB, the K-th of four, with 4,096 interfaces of 12 methods: fewer than a quarter of what a set may have
wide() {
    awk -v k="$1" 'BEGIN {
        line = sprintf("namespace Gen.Part%d {\n", k)
        size = length(line); printf "%s", line
        for (i = 0; i < 4096; i++) {
            line = sprintf("interface I%d {\n", i)
            for (m = 0; m < 12; m++) line = line sprintf("    Part%d.I%d MethodWithNumber%02d(Windows.Foundation.EventHandler<I%d> a);\n", (k + 1) % 4, (i + m) % 4096, m, i)
            line = line "}\n"
            size += length(line); printf "%s", line
        }
        printf "%*s}\n", 4194304 - size - 2, ""
    }'
}
# short K: a file of 4 MiB with enums of 4,000 cases, whose names are as short as they can be
short() {
    awk -v k="$1" 'BEGIN {
        letters = "abcdefghijklmnopqrstuvwxyz"
        for (i = 0; i < 26; i++) cases = cases substr(letters, i + 1, 1) ","
        for (i = 0; i < 26; i++) for (j = 0; j < 26; j++) cases = cases substr(letters, i + 1, 1) substr(letters, j + 1, 1) ","
        line = sprintf("namespace Gen.Part%d{", k)
        size = length(line); printf "%s", line
        for (i = 0; ; i++) {
            line = sprintf("enum E%d{%s}", i, cases)
            if (size + length(line) + 1 > 4194304) break
            size += length(line); printf "%s", line
        }
        printf "%*s}", 4194304 - size - 1, ""
    }'
}
# marks K: a file of 4 MiB of tokens of one byte
marks() {
    awk 'BEGIN { s = sprintf("%1024s", ""); gsub(" ", ";", s); for (i = 0; i < 4096; i++) printf "%s", s }'
}

# large WORD KIND STATUS: four files of 4 MiB
large() {
    for k in 0 1 2 3; do
        "$2" "$k" > "$k.idl"
        [ "$(wc -c < "$k.idl")" -eq 4194304 ] || { echo 'bench/midl.sh: a source has a wrong size' >&2; exit 1; }
    done
    all=$(least 3 "$3" "$program" midl -o large.winmd 0.idl 1.idl 2.idl 3.idl)
    awk -v word="$1" -v all="$all" -v told="$("$program" midl -o large.winmd 0.idl 1.idl 2.idl 3.idl 2>&1)" 'BEGIN {
        split(all, a, " ")
        printf "16 MiB of %s: %.3f s (processors %.3f s), %.0f MiB: %s\n", word, a[1], a[2], a[3] / 1024, told == "" ? "an image" : told
    }'
}
large interfaces wide 0
large 'short cases' short 1
large marks marks 1
