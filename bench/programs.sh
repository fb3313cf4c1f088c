# Read by the benchmarks that need a program of their own: copies the crates to a folder of its own, $work, in which small
# programs are added, proved and built. Nothing of it is part of the merge gate.
root=$(cd "$(dirname "$0")/.." && pwd)
work=$(mktemp -d)
trap 'rm -rf "$work"' EXIT

mkdir "$work/crates"
cp "$root/crates.txt" "$root/HANDLES" "$work/"
for crate in "$root"/crates/*/; do
    name=$(basename "$crate")
    mkdir "$work/crates/$name"
    for part in src specs proofs; do
        [ ! -d "$crate/$part" ] || cp -R "$crate/$part" "$work/crates/$name/"
    done
    # (a library that is proved here is taken along; one whose text has changed since is proved there anew)
    if [ -d "$crate/out/rlib" ]; then
        mkdir "$work/crates/$name/out"
        cp -Rl "$crate/out/rlib" "$work/crates/$name/out/" 2>/dev/null || cp -R "$crate/out/rlib" "$work/crates/$name/out/"
    fi
done

# program NAME 'DEP DEP ..' < main.rt: a program over these crates
program() {
    echo "$1: $2" >> "$work/crates.txt"
    mkdir -p "$work/crates/$1/src"
    cat > "$work/crates/$1/src/main.rt"
}

# built NAME WORD..: proves and builds the program, which is run on these words once
built() {
    built_name=$1
    shift
    (cd "$work/crates/$built_name" && rt run -- "$@") > "$work/built" 2>&1 || { cat "$work/built" >&2; exit 1; }
}

# timed NAME N 'FIRST' 'SECOND': runs a built program at N and right after that at 2N, 61 times over, since other work on a
# machine disturbs single pairs. It prints its number and two times in microseconds; what is shown is the least of each, and how
# many times as long twice the number takes in such a pair of runs, as the median of the 61.
timed() {
    for _ in $(seq 61); do
        for number in "$2" $((2 * $2)); do "$work/crates/$1/out/$1" "$number"; done
    done | awk -v first="$3" -v second="$4" '
        # the median of the ratios, which are put in order
        function median(ratios,    i, j, one) {
            for (i = 2; i <= pairs; i++)
                for (j = i; j > 1 && ratios[j] < ratios[j - 1]; j--) { one = ratios[j]; ratios[j] = ratios[j - 1]; ratios[j - 1] = one }
            return ratios[int((pairs + 1) / 2)]
        }
        !($1 in least_first) { numbers[++kinds] = $1; least_first[$1] = $2; least_second[$1] = $3 }
        $2 < least_first[$1] { least_first[$1] = $2 }
        $3 < least_second[$1] { least_second[$1] = $3 }
        NR % 2 == 1 { before_first = $2; before_second = $3 }
        NR % 2 == 0 { firsts[++pairs] = $2 / before_first; seconds[pairs] = $3 / before_second }
        END {
            for (i = 1; i <= kinds; i++) printf "%d: %s %.3f s, %s %.3f s\n", numbers[i], first, least_first[numbers[i]] / 1e6, second, least_second[numbers[i]] / 1e6
            printf "twice as many take %.2f and %.2f times as long\n", median(firsts), median(seconds)
        }'
}
