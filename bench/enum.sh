#!/bin/sh
# Times `winrt midl` on a source of 4 MiB: spaces, and at its end a namespace with an enum of 200 cases.
# Prints the seconds and the memory of the best of five runs, and the ratios to `wc -c` and to a plain read of the file.
# Needs bash, GNU time (/usr/bin/time) and awk, and the program, which `./winrt --prove` builds.
top=$(CDPATH='' cd -- "$(dirname -- "$0")/.." && pwd) || exit 1
program=$top/crates/winrt/out/winrt
[ -x "$program" ] || { echo "bench/enum.sh: build the program first, by ./winrt --prove" >&2; exit 1; }
room=$(mktemp -d) || exit 1
trap 'rm -rf "$room"' EXIT
cd "$room" || exit 1

# The enum, and spaces before it up to 4,194,304 bytes.
awk 'BEGIN {
    printf "namespace Shop { enum Many { "
    for (i = 0; i < 200; i++) printf "Case%03d = %d, ", i, i * 7
    print "} }"
}' >tail.txt
size=$(wc -c <tail.txt)
awk -v n=$((4194304 - size)) 'BEGIN { s = sprintf("%1024s", ""); while (n >= 1024) { printf "%s", s; n -= 1024 } printf "%*s", n, "" }' >source.idl
cat tail.txt >>source.idl
[ "$(wc -c <source.idl)" -eq 4194304 ] || { echo 'bench/enum.sh: the source has a wrong size' >&2; exit 1; }

# The least seconds of five runs of a command, to the millisecond.
least() {
    bash -c 'best=; for i in 1 2 3 4 5; do
        start=$(date +%s%N); "$@" >/dev/null || exit 1; end=$(date +%s%N)
        took=$(((end - start) / 1000)); if [ -z "$best" ] || [ "$took" -lt "$best" ]; then best=$took; fi
    done; echo "$best"' least "$@"
}

tool=$(least "$program" midl -o many.winmd source.idl) || { echo 'bench/enum.sh: midl failed' >&2; exit 1; }
count=$(least wc -c source.idl)
plain=$(least cat source.idl)
memory=$( { /usr/bin/time -f %M "$program" midl -o many.winmd source.idl; } 2>&1 | tail -n 1)
awk -v tool="$tool" -v count="$count" -v plain="$plain" -v memory="$memory" 'BEGIN {
    printf "midl: %.3f s, %.1f MiB\n", tool / 1e6, memory / 1024
    printf "wc -c: %.4f s, ratio %.1f\n", count / 1e6, tool / count
    printf "cat: %.4f s, ratio %.1f\n", plain / 1e6, tool / plain
}'
