#!/bin/bash
# Times whole runs of `winrt mdmerge`, from two images on the disk to the one on it: two halves of interfaces of 5 methods; and Mono.Cecil,
# a library of .NET for metadata, reading the same two images and writing one of all their types, where it is installed. It is no part of the merge gate.
#
#   bench/merge.sh [N]      two halves of N interfaces, which are 10000 where none is given, the most that one image may have together
#
# Each figure is the least of five runs (of three for Mono.Cecil): the time by the clock, the processor time of all threads, and the most
# memory. The two halves are to take less than 0.5 times as long as Mono.Cecil takes, and less than 2.3 times as long as halves of N/2. That
# what is merged has the bytes that `winrt midl` writes of both sources is looked at too.
# Needs bash, GNU time (/usr/bin/time) and awk, and the program, which `./winrt --prove` builds; else the one that `./winrt` builds
# without its proofs. It says which of them it measures. Mono.Cecil needs mcs, mono and its library, `apt-get install mono-mcs libmono-cecil-cil`;
# without them it is left out.
set -eu
count=${1:-10000}
top=$(CDPATH='' cd -- "$(dirname -- "$0")/.." && pwd)
program=$top/crates/winrt/out/winrt
if [ -x "$program" ]; then
    echo "the proved program"
else
    program=$top/crates/winrt/out/unproved/winrt
    [ -x "$program" ] || { echo "bench/merge.sh: build the program first, by ./winrt --prove, or by ./winrt" >&2; exit 1; }
    echo "the program that is built without its proofs"
fi
room=$(mktemp -d)
trap 'rm -rf "$room"' EXIT
cd "$room"

# interfaces FROM TO: a source of the interfaces of these numbers
interfaces() {
    awk -v from="$1" -v to="$2" 'BEGIN {
        print "namespace Gen {"
        for (i = from; i < to; i++) printf "interface I%d { void A(); Int32 B(Int32 n); I%d C(String s, out Int32 r); void D(I%d o); Guid E(); };\n", i, i, i
        print "}"
    }'
}

# halves NAME N: the images NAME-a.winmd and NAME-b.winmd of N interfaces each, and NAME-all.winmd of both
halves() {
    interfaces 0 "$2" > a.idl
    interfaces "$2" $((2 * $2)) > b.idl
    "$program" midl -o "$1-a.winmd" a.idl
    "$program" midl -o "$1-b.winmd" b.idl
    "$program" midl -o "$1-all.winmd" a.idl b.idl
}

# least RUNS COMMAND..: the least seconds by the clock, the least of the processors, and the most memory in KiB
least() {
    runs=$1
    shift
    TIMEFORMAT='%3R %3U %3S'
    for ((i = 0; i < runs; i++)); do
        status=0
        { time /usr/bin/time -q -f %M -o memory "$@" > said 2> told || status=$?; } 2> took
        [ "$status" -eq 0 ] || { cat said told >&2; echo "bench/merge.sh: status $status of $*" >&2; exit 1; }
        echo "$(cat took) $(cat memory)"
    done | awk '
        { processor = $2 + $3 }
        NR == 1 || $1 < clock { clock = $1 }
        NR == 1 || processor < least { least = processor }
        $4 > memory { memory = $4 }
        END { print clock, least, memory }'
}

# merged NAME: the figures of merging its halves, once it is seen what they merge to
merged() {
    "$program" mdmerge -o merged.winmd "$1-b.winmd" "$1-a.winmd"
    cmp merged.winmd "$1-all.winmd" >&2
    least 5 "$program" mdmerge -o merged.winmd "$1-a.winmd" "$1-b.winmd"
}

# What Mono.Cecil does: each type of the second image is made anew in the first, with its attributes, what it requires, its methods and
# their parameters, and all that they name is looked up or imported.
cat > merge.cs <<'PROGRAM'
using System.Collections.Generic;
using Mono.Cecil;

static class Merge
{
    static ModuleDefinition module;
    static Dictionary<string, TypeDefinition> made = new Dictionary<string, TypeDefinition>();

    static TypeReference Use(TypeReference use)
    {
        TypeDefinition found;
        if (made.TryGetValue(use.FullName, out found)) return found;
        var byReference = use as ByReferenceType;
        if (byReference != null) return new ByReferenceType(Use(byReference.ElementType));
        return module.Import(use);
    }

    static void Attributes(ICustomAttributeProvider from, ICustomAttributeProvider to)
    {
        foreach (var attribute in from.CustomAttributes)
            to.CustomAttributes.Add(new CustomAttribute(module.Import(attribute.Constructor), attribute.GetBlob()));
    }

    static void Method(MethodDefinition from, TypeDefinition to)
    {
        var method = new MethodDefinition(from.Name, from.Attributes, Use(from.ReturnType));
        method.ImplAttributes = from.ImplAttributes;
        method.HasThis = from.HasThis;
        foreach (var parameter in from.Parameters)
            method.Parameters.Add(new ParameterDefinition(parameter.Name, parameter.Attributes, Use(parameter.ParameterType)));
        Attributes(from, method);
        to.Methods.Add(method);
    }

    static void Main(string[] words)
    {
        module = ModuleDefinition.ReadModule(words[1]);
        var second = ModuleDefinition.ReadModule(words[2]);
        foreach (var type in module.Types) made[type.FullName] = type;
        var added = new List<TypeDefinition>();
        foreach (var type in second.Types)
        {
            if (made.ContainsKey(type.FullName)) continue;
            var copy = new TypeDefinition(type.Namespace, type.Name, type.Attributes);
            made[type.FullName] = copy;
            added.Add(type);
            module.Types.Add(copy);
        }
        foreach (var type in added)
        {
            var copy = made[type.FullName];
            foreach (var required in type.Interfaces) copy.Interfaces.Add(Use(required));
            foreach (var method in type.Methods) Method(method, copy);
            Attributes(type, copy);
        }
        module.Write(words[0]);
    }
}
PROGRAM

cecil=
if command -v mcs > /dev/null && command -v mono > /dev/null; then
    for library in /usr/lib/mono-cecil/Mono.Cecil.dll /usr/lib/mono/gac/Mono.Cecil/0.9.5.0__0738eb9f132ed756/Mono.Cecil.dll; do
        if [ -z "$cecil" ] && [ -f "$library" ]; then cecil=$library; fi
    done
fi
if [ -n "$cecil" ]; then
    cp "$cecil" Mono.Cecil.dll
    mcs -r:Mono.Cecil.dll -out:merge.exe merge.cs
else
    echo "Mono.Cecil is left out: apt-get install mono-mcs libmono-cecil-cil"
fi

halves all "$count"
halves half $((count / 2))
all=$(merged all)
half=$(merged half)
other=
if [ -n "$cecil" ]; then other=$(least 3 mono merge.exe cecil.winmd all-a.winmd all-b.winmd); fi
awk -v n="$count" -v all="$all" -v half="$half" -v other="$other" -v image="$(wc -c < all-a.winmd)" 'BEGIN {
    split(all, a, " "); split(half, h, " ")
    printf "two halves of %d interfaces, %.1f MiB each: %.3f s (processors %.3f s), %.0f MiB; halves of half: %.3f s (%.3f s), ratio %.2f (%.2f)\n", n, image / 1048576, a[1], a[2], a[3] / 1024, h[1], h[2], a[1] / h[1], a[2] / h[2]
    if (split(other, m, " ")) printf "    Mono.Cecil: %.3f s (processors %.3f s), %.0f MiB: mdmerge takes %.3f times as long (%.3f)\n", m[1], m[2], m[3] / 1024, a[1] / m[1], a[2] / m[2]
}'
