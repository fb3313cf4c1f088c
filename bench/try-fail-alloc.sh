#!/bin/sh
# Lets each allocation of the tool fail in turn under `rt try`, which stops at each bad access, over a source, a missing file and a source that is
# refused: each run must end with 6 and nothing on the standard error and no image, or with the right status, text and image.
# `rt try --fail-alloc N` builds the program anew for each N, so that N is the same here for all runs: in a copy of the repository the program
# makes as many allocations before the tool is called as its last word says. Needs git and the kit; what isn't committed isn't tried. The image
# that is wanted is the file that is named, else what the program that `./winrt` builds writes.
top=$(CDPATH='' cd -- "$(dirname -- "$0")/.." && pwd) || exit 1
room=$(mktemp -d) || exit 1
trap 'rm -rf "$room"' EXIT
git clone -q "$top" "$room/copy" || exit 1
main=$room/copy/crates/winrt/src/main.rt

sed -i 's/^winrt: winrt_run$/winrt: winrt_run wr_tools/' "$room/copy/crates.txt" || exit 1
cat >"$room/main" <<'END'
use std::process::ExitCode;
use std::{env, io};
use winrt_run::{Disk, Stream};
use wr_tools::winrt_tool;

fn words_of(rt: &HostRuntime) -> io::Result<Vec<String>> {
    let mut words = Vec::new(rt.alloc());
    for word in env::args(rt)?.skip(1) {
        words
            .push(word)
            .map_err(|_| io::Error::from(io::ErrorKind::OutOfMemory))?;
    }
    Ok(words)
}

// So many texts, each of which is an allocation, in a list that has room for all.
fn spend(rt: &HostRuntime, count: usize) -> Vec<String> {
    let Ok(mut kept) = Vec::with_capacity(rt.alloc(), 1000) else {
        return Vec::new(rt.alloc());
    };
    for i in 0..count {
        if let Ok(text) = format!(in rt.alloc(); "{}", i % 10) {
            let _ = kept.push(text);
        }
    }
    kept
}

fn image_of(rt: &HostRuntime, name: &str, wanted: &str) -> &'static str {
    let Ok(image) = std::fs::read(rt, name) else {
        return "no image";
    };
    match std::fs::read(rt, wanted) {
        Ok(want) if image.as_slice() == want.as_slice() => "the image",
        _ => "another image",
    }
}

fn main(rt: HostRuntime) -> ExitCode {
    let Ok(mut words) = words_of(&rt) else {
        return ExitCode::from(6);
    };
    let last = words.pop().unwrap_or(String::new(rt.alloc()));
    let before = spend(&rt, last.as_str().parse::<usize>().unwrap_or(0));
    let mut store = Disk::new(&rt);
    let mut out = Stream::new(rt.stdout());
    let mut err = Stream::new(rt.stderr());
    let status = winrt_tool(rt.alloc(), &words, &mut store, &mut out, &mut err);
    let behind = spend(&rt, 900);
    let image = image_of(&rt, "shop.winmd", "want");
    let _ = println!(rt; "{} {} {status} {image}", before.len(), behind.len());
    ExitCode::from(status)
}
END
cp "$room/main" "$main" || exit 1

if [ "$#" -gt 0 ]; then
    cp "$1" "$room/want" || exit 1
else
    (cd "$room" && "$top/winrt" midl -o want "$top/examples/shop.idl") || exit 1
fi
printf 'namespace Shop { enum Size { Small, Small }; }\n' >"$room/twice.idl"
mkdir "$room/cases" || exit 1
for source in shop gone twice; do
    count=20
    while [ "$count" -lt 190 ]; do
        : >"$room/cases/$source-$count"
        printf 'midl\n-o\nshop.winmd\n%s.idl\n%s\n' "$source" "$count" >"$room/cases/$source-$count.args"
        count=$((count + 1))
    done
done
cd "$room/copy/crates/winrt" || exit 1
rt try --fail-alloc 200 --cases "$room/cases" --data shop.idl="$top/examples/shop.idl" --data twice.idl="$room/twice.idl" --data want="$room/want" >"$room/log" 2>&1

# The first two numbers of a run's line say where the allocation failed: before the tool, in it, or behind it.
awk '
    /^== / { split($2, name, "-"); source = name[1]; text = ""; line = ""; next }
    /^[0-9]+ [0-9]+ [0-9] / { line = $0; next }
    /^allocations/ { next }
    /^case=/ {
        split(line, part, " ")
        answer = part[3]; image = substr(line, length(part[1] part[2] part[3]) + 4)
        in_tool = part[1] == name[2] && part[2] == 900
        right = (source == "shop" && answer == 0 && text == "" && image == "the image") ||
            (source == "gone" && answer == 3 && text == "gone.idl: Missing\n" && image == "no image") ||
            (source == "twice" && answer == 1 && text == "twice.idl(1,37): EnumRepeat: Shop.Size.Small\n" && image == "no image")
        refused = answer == 6 && text == "" && image == "no image"
        if (!($0 ~ /run=ended/) || !(right || (in_tool && refused))) { print source " behind " name[2] ": " line " " text $0; failed = 1 }
        if (part[1] < name[2]) before[source]++
        if (in_tool) inside[source]++
        if (part[1] == name[2] && part[2] < 900) behind[source]++
        next
    }
    /^cases=/ { print; next }
    { text = text $0 "\n" }
    END {
        for (s in before) {
            printf "%s.idl: %d allocations of the tool failed in turn; %d runs before them, %d behind\n", s, inside[s], before[s], behind[s]
            if (!before[s] || !behind[s]) failed = 1
        }
        exit failed
    }' "$room/log" || { tail -5 "$room/log" >&2; exit 1; }
