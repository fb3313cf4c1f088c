#!/bin/sh
# Tries wrong bodies that the gate leaves out: each edit of bench/edits/NAME must be refused by the contracts of crates/NAME.
#     bench/edits.sh [NAME..]      these crates, or each that has edits
# It works in a copy of the checkout, files that aren't committed yet included, and changes nothing in it. There the edits stand
# in place of the crate's own, and `rt must-fail NAME` tries them: some 10 s an edit, where a check of the crate on this machine kept its work.
# Prints a line for each edit that is refused, isn't, or can't be applied (BAD EDIT), and their numbers; ends with 0 where all are refused.
top=$(CDPATH='' cd -- "$(dirname -- "$0")/.." && pwd) || exit 1
cd "$top" || exit 1
[ $# -gt 0 ] || set -- $(ls bench/edits)
room=$(mktemp -d) || exit 1
trap 'rm -rf "$room"' EXIT
trap 'exit 1' INT TERM
git ls-files -z --cached --others --exclude-standard | xargs -0 sh -c 'for it; do [ ! -e "$it" ] || printf "%s\0" "$it"; done' list |
    tar -cf - --null -T - | tar -xf - -C "$room" || exit 1
rm -rf "$room"/crates/*/must-fail
cd "$room" || exit 1

for name; do
    edits=$top/bench/edits/$name
    [ -d "$edits" ] && [ -d "crates/$name" ] || { echo "bench/edits.sh: no edits, or no crate: $name" >&2; exit 1; }
    mkdir "crates/$name/must-fail" && cp "$edits"/*.edit "crates/$name/must-fail/" || exit 1
    echo "$name: $(ls "$edits" | wc -l) edits"
    rt must-fail "$name" >"$name.log" 2>&1 || :
    cat "$name.log" >>all.log
    sed "s|$room/||g" "$name.log"
    rm -rf "crates/$name/must-fail"
done

tried=$(grep -c '^rt: must-fail ' all.log)
refused=$(grep -c '^rt: must-fail .*: refused, as it must be' all.log)
little=$(grep -c '^rt: must-fail .*: refused, as it must be (only' all.log)
bad=$(grep -c '^rt: must-fail .*: BAD EDIT' all.log)
echo "$tried tried: $refused refused ($little only by a limit or a proof file's names), $bad bad, $((tried - refused - bad)) not refused or not tried"
[ "$tried" -gt 0 ] && [ "$refused" -eq "$tried" ]
