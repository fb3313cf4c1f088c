#!/usr/bin/env bash
# What other readers of images say of IMAGE: those of them that are installed.
#   bench/outside.sh IMAGE
# monodis, ikdasm and Mono.Cecil come with Mono (Debian: mono-utils, mono-devel, libmono-cecil-cil), dnlib with libdnlib2.1-cil, pefile with python3-pefile,
# objdump with binutils. monodis looks for the types of Windows that signatures and attributes name, and stops at the first event where it doesn't find
# them, so mcs (mono-mcs) makes an assembly with them first, from what Windows documents of these.
image=${1:?usage: bench/outside.sh IMAGE}
has() { command -v "$1" > /dev/null; }
say() { printf '\n== %s\n' "$1"; }

room=$(mktemp -d)
trap 'rm -rf "$room"' EXIT
if has mcs; then
    cat > "$room/windows.cs" << 'CODE'
using System;
[assembly: System.Reflection.AssemblyVersion("255.255.255.255")]
namespace Windows.Foundation {
    public struct EventRegistrationToken { public long Value; }
}
namespace Windows.Foundation.Metadata {
    public class ActivatableAttribute : Attribute { public ActivatableAttribute(uint version) {} public ActivatableAttribute(Type factory, uint version) {} }
    public class DefaultAttribute : Attribute {}
    public class ExclusiveToAttribute : Attribute { public ExclusiveToAttribute(Type name) {} }
    public class GuidAttribute : Attribute { public GuidAttribute(uint a, ushort b, ushort c, byte d, byte e, byte f, byte g, byte h, byte i, byte j, byte k) {} }
    public class OverloadAttribute : Attribute { public OverloadAttribute(string method) {} }
    public class StaticAttribute : Attribute { public StaticAttribute(Type type, uint version) {} }
    public class VersionAttribute : Attribute { public VersionAttribute(uint version) {} }
}
CODE
    mcs -target:library -out:"$room/Windows.Foundation.FoundationContract.dll" "$room/windows.cs" && export MONO_PATH=$room
fi
if has monodis; then
    say "$(monodis --version 2>&1 | head -1)"
    monodis "$image"
    for table in typedef typeref method fields property event methodsem interface constant customattr memberref assembly assemblyref module; do
        say "monodis --$table"
        monodis "--$table" "$image"
    done
fi
if has ikdasm; then
    say "ikdasm"
    ikdasm "$image"
fi
# the newest of the files of this name
newest() { find /usr/lib/mono /usr/lib/mono-cecil /usr/lib/cli -name "$1" 2> /dev/null | sort -V | tail -1; }
cecil=$(newest Mono.Cecil.dll)
if has csharp && [ -n "$cecil" ]; then
    say "Mono.Cecil: $cecil"
    csharp -r:"$cecil" -e "
var m = Mono.Cecil.ModuleDefinition.ReadModule(\"$image\");
Console.WriteLine(\"{0} {1}: {2} types\", m.Name, m.Runtime, m.Types.Count);
foreach (var t in m.Types) {
  Console.WriteLine(\"{0} : {1} [{2}]\", t.FullName, t.BaseType, t.Attributes);
  foreach (var a in t.CustomAttributes) Console.WriteLine(\"  @{0}({1})\", a.AttributeType.FullName, string.Join(\", \", a.ConstructorArguments.Select(x => x.Value)));
  foreach (var i in t.Interfaces) Console.WriteLine(\"  is {0}{1}\", i.InterfaceType, i.HasCustomAttributes ? \", by default\" : \"\");
  foreach (var f in t.Fields) Console.WriteLine(\"  field {0} {1} {2}\", f.FieldType, f.Name, f.HasConstant ? f.Constant : \"\");
  foreach (var x in t.Methods) Console.WriteLine(\"  method {0}\", x);
  foreach (var x in t.Properties) Console.WriteLine(\"  property {0}: {1}, {2}\", x, x.GetMethod, x.SetMethod);
  foreach (var x in t.Events) Console.WriteLine(\"  event {0}: {1}, {2}\", x, x.AddMethod, x.RemoveMethod);
}"
fi
dnlib=$(newest dnlib.dll)
if has csharp && [ -n "$dnlib" ]; then
    say "dnlib: $dnlib"
    csharp -r:"$dnlib" -e "
var m = dnlib.DotNet.ModuleDefMD.Load(\"$image\");
Console.WriteLine(\"{0} {1}: {2} types\", m.Name, m.RuntimeVersion, m.Types.Count);
foreach (var t in m.Types) {
  Console.WriteLine(\"{0} : {1}\", t.FullName, t.BaseType);
  foreach (var a in t.CustomAttributes) Console.WriteLine(\"  @{0}\", a);
  foreach (var i in t.Interfaces) Console.WriteLine(\"  is {0}\", i.Interface);
  foreach (var f in t.Fields) Console.WriteLine(\"  {0} {1}\", f.FullName, f.Constant == null ? \"\" : f.Constant.Value);
  foreach (var x in t.Methods) Console.WriteLine(\"  {0}\", x);
  foreach (var x in t.Properties) Console.WriteLine(\"  {0}\", x);
  foreach (var x in t.Events) Console.WriteLine(\"  {0}\", x);
}"
fi
if /usr/bin/python3 -c 'import pefile' 2> /dev/null; then
    say "pefile $(/usr/bin/python3 -c 'import pefile; print(pefile.__version__)')"
    /usr/bin/python3 -c 'import sys, pefile; pe = pefile.PE(sys.argv[1]); print("\n".join(pe.get_warnings()) or "no warnings"); print([(s.Name, hex(s.VirtualAddress), s.SizeOfRawData) for s in pe.sections]); d = pe.OPTIONAL_HEADER.DATA_DIRECTORY[14]; print(d.name, hex(d.VirtualAddress), d.Size)' "$image"
fi
if has objdump; then
    say "$(objdump --version | head -1)"
    objdump -x "$image" | head -40
fi
