#!/usr/bin/env python3
"""The answers of write_cases to its cases of many declarations, from a layout of these images by ECMA-335 (II.22 to II.25) that shares nothing with the
program.

    bench/many_images.py < crates/write_cases/stdin       an answer for each such case
    bench/many_images.py KIND COUNT PARTS                 the case of so many declarations, with the places that are worth a look

KIND is `enums`: so many enums have so many cases each, `c0000`, `c0001` .. of the numbers from 0 on; or `readable` or `settable`: so many interfaces,
whose ids are their numbers, have so many properties of type Int32 each, `p0000`, `p0001` ... The declarations are `N.E00000`, `N.E00001` ...
Where the entries of the heaps stand is free, so an answer follows the cells that name them, and shows the bytes of the others.
"""
import sys

NUMBERS = {  # II.22
    "Module": 0x00, "TypeRef": 0x01, "TypeDef": 0x02, "Field": 0x04, "MethodDef": 0x06, "Param": 0x08, "MemberRef": 0x0A, "Constant": 0x0B,
    "CustomAttribute": 0x0C, "PropertyMap": 0x15, "Property": 0x17, "MethodSemantics": 0x18, "Assembly": 0x20, "AssemblyRef": 0x23,
}
NAMES = list(NUMBERS)
# a coded index: its tag bits, and the tables of its tags that may have rows here (II.24.2.6)
CODED = {
    "TypeDefOrRef": (2, {"TypeDef": 0, "TypeRef": 1}),
    "HasConstant": (2, {"Field": 0, "Param": 1, "Property": 2}),
    "HasCustomAttribute": (5, {
        "MethodDef": 0, "Field": 1, "TypeRef": 2, "TypeDef": 3, "Param": 4, "MemberRef": 6, "Module": 7, "Property": 9, "Assembly": 14, "AssemblyRef": 15,
    }),
    "HasSemantics": (1, {"Property": 1}),
    "MemberRefParent": (3, {"TypeDef": 0, "TypeRef": 1, "MethodDef": 3}),
    "CustomAttributeType": (3, {"MethodDef": 2, "MemberRef": 3}),
    "ResolutionScope": (2, {"Module": 0, "AssemblyRef": 2, "TypeRef": 3}),
}
COLUMNS = {
    "Module": [2, "text", "guid", "guid", "guid"],
    "TypeRef": ["ResolutionScope", "text", "text"],
    "TypeDef": [4, "text", "text", "TypeDefOrRef", "Field", "MethodDef"],
    "Field": [2, "text", "blob"],
    "MethodDef": [4, 2, 2, "text", "blob", "Param"],
    "Param": [2, 2, "text"],
    "MemberRef": ["MemberRefParent", "text", "blob"],
    "Constant": [1, 1, "HasConstant", "blob"],
    "CustomAttribute": ["HasCustomAttribute", "CustomAttributeType", "blob"],
    "PropertyMap": ["TypeDef", "Property"],
    "Property": [2, "text", "blob"],
    "MethodSemantics": [2, "MethodDef", "HasSemantics"],
    "Assembly": [4, 2, 2, 2, 2, 4, "blob", "text", "text"],
    "AssemblyRef": [2, 2, 2, 2, 4, "blob", "text", "text", "blob"],
}


def low(value, width):
    return value.to_bytes(width, "little")


def compressed(value):  # II.23.2
    if value < 0x80:
        return bytes([value])
    if value < 0x4000:
        return (0x8000 + value).to_bytes(2, "big")
    return (0xC0000000 + value).to_bytes(4, "big")


def up(value, multiple):
    return -(-value // multiple) * multiple


FOUNDATION = "Windows.Foundation.Metadata"
VERSION = bytes([0x20, 1, 1, 9])  # the constructor of VersionAttribute: void (UInt32)
GUID = bytes([0x20, 11, 1, 9, 7, 7, 5, 5, 5, 5, 5, 5, 5, 5])
INT32 = 8


def first_rows():
    """The rows of every image. A text is a str, a blob bytes, a GUID a tuple, a row of a table a pair."""
    rows = {table: [] for table in NAMES}
    rows["Module"] = [[0, "types.winmd", (1,), (0,), (0,)]]
    rows["TypeDef"] = [[0, "<Module>", "", ("TypeDef", 0), ("Field", 1), ("MethodDef", 1)]]
    rows["Assembly"] = [[0x8004, 255, 255, 255, 255, 0x200, b"", "types", ""]]
    rows["AssemblyRef"] = [
        [255, 255, 255, 255, 0, bytes.fromhex("b77a5c561934e089"), "mscorlib", "", b""],
        [255, 255, 255, 255, 0x200, b"", "Windows.Foundation.FoundationContract", "", b""],
    ]
    return rows


def rows_of_enums(count, cases):
    rows = first_rows()
    rows["TypeRef"] = [[("AssemblyRef", 1), "Enum", "System"], [("AssemblyRef", 2), "VersionAttribute", FOUNDATION]]
    rows["MemberRef"] = [[("TypeRef", 2), ".ctor", VERSION]]
    fields = cases + 1
    for n in range(count):
        own = n + 2
        rows["TypeDef"].append([0x4101, "E%05d" % n, "N", ("TypeRef", 1), ("Field", n * fields + 1), ("MethodDef", 1)])
        rows["Field"].append([0x601, "value__", bytes([6, INT32])])
        for k in range(cases):
            rows["Field"].append([0x8056, "c%04d" % k, bytes([6, 0x11]) + compressed(own << 2)])
            rows["Constant"].append([8, 0, ("Field", n * fields + k + 2), low(k, 4)])
        rows["CustomAttribute"].append([("TypeDef", own), ("MemberRef", 1), bytes([1, 0, 1, 0, 0, 0, 0, 0])])
    return rows


def rows_of_interfaces(count, properties, put):
    rows = first_rows()
    rows["TypeRef"] = [[("AssemblyRef", 2), "GuidAttribute", FOUNDATION], [("AssemblyRef", 2), "VersionAttribute", FOUNDATION]]
    rows["MemberRef"] = [[("TypeRef", 1), ".ctor", GUID], [("TypeRef", 2), ".ctor", VERSION]]

    def accessor(kind, name, signature, semantics):
        rows["MethodDef"].append([0, 0, 0xDC6, kind + name, signature, ("Param", len(rows["Param"]) + 1)])
        rows["MethodSemantics"].append([semantics, ("MethodDef", len(rows["MethodDef"])), ("Property", len(rows["Property"]))])

    for n in range(count):
        own = n + 2
        rows["TypeDef"].append([0x40A1, "E%05d" % n, "N", ("TypeDef", 0), ("Field", 1), ("MethodDef", len(rows["MethodDef"]) + 1)])
        if properties > 0:
            rows["PropertyMap"].append([("TypeDef", own), ("Property", len(rows["Property"]) + 1)])
        for k in range(properties):
            name = "p%04d" % k
            rows["Property"].append([0, name, bytes([0x28, 0, INT32])])
            accessor("get_", name, bytes([0x20, 0, INT32]), 2)
            if put:
                accessor("put_", name, bytes([0x20, 1, 1, INT32]), 1)
                rows["Param"].append([1, 1, "value"])
        rows["CustomAttribute"].append([("TypeDef", own), ("MemberRef", 1), bytes([1, 0] + [0] * 12) + n.to_bytes(4, "big") + bytes(2)])
        rows["CustomAttribute"].append([("TypeDef", own), ("MemberRef", 2), bytes([1, 0, 1, 0, 0, 0, 0, 0])])
    return rows


KINDS = {
    "enums": rows_of_enums,
    "readable": lambda count, properties: rows_of_interfaces(count, properties, False),
    "settable": lambda count, properties: rows_of_interfaces(count, properties, True),
}


class Image:
    def __init__(self, rows):
        self.rows = rows
        self.present = [t for t in NAMES if self.rows[t]]
        cells = [cell for t in NAMES for row in self.rows[t] for cell in row]
        texts = {c for c in cells if isinstance(c, str)} - {""}
        blobs = {c for c in cells if isinstance(c, bytes)} - {b""}
        self.texts = up(1 + sum(len(t) + 1 for t in texts), 4)
        self.blobs = up(1 + sum(len(compressed(len(b))) + len(b) for b in blobs), 4)
        self.sizes = {t: sum(map(self.width, COLUMNS[t])) for t in NAMES}
        self.starts = {}
        at = 24 + 4 * len(self.present)
        for t in self.present:
            self.starts[t] = at
            at += self.sizes[t] * len(self.rows[t])
        self.tables = up(at, 4)
        self.heads = 16 + 20 + 4 + sum(8 + up(len(name) + 1, 4) for name in self.names())
        self.metadata = self.heads + self.tables + self.texts + 4 + 16 + self.blobs
        self.raw = up(0x48 + self.metadata, 0x200)
        self.length = 0x200 + self.raw
        self.stream = 0x248 + self.heads

    @staticmethod
    def names():
        return ["#~", "#Strings", "#US", "#GUID", "#Blob"]

    def width(self, column):
        count = lambda t: len(self.rows.get(t, []))
        if isinstance(column, int):
            return column
        if column == "text":
            return 4 if self.texts >= 1 << 16 else 2
        if column == "blob":
            return 4 if self.blobs >= 1 << 16 else 2
        if column == "guid":
            return 2
        if column in CODED:
            bits, tables = CODED[column]
            return 4 if max(map(count, tables)) >= 1 << (16 - bits) else 2
        return 4 if count(column) >= 1 << 16 else 2

    def offset(self, table, row, column):
        """Where a cell stands in the image, and its width."""
        before = sum(map(self.width, COLUMNS[table][:column]))
        return self.stream + self.starts[table] + self.sizes[table] * (row - 1) + before, self.width(COLUMNS[table][column])

    def head(self):
        """The bytes up to the first row."""
        out = b"MZ".ljust(0x3C, b"\0") + low(0x80, 4)
        out = out.ljust(0x80, b"\0") + b"PE\0\0"
        out += low(0x14C, 2) + low(1, 2) + bytes(12) + low(0xE0, 2) + low(0x2102, 2)  # II.25.2.2
        out += low(0x10B, 2) + bytes([11, 0]) + low(self.raw, 4) + bytes(12) + low(0x2000, 4) + bytes(4)  # II.25.2.3.1
        out += low(0x400000, 4) + low(0x2000, 4) + low(0x200, 4) + (low(6, 2) + low(2, 2) + bytes(4) + low(6, 2) + low(2, 2)) + bytes(4)
        out += low(up(0x2000 + 0x48 + self.metadata, 0x2000), 4) + low(0x200, 4) + bytes(4) + low(3, 2) + low(0x540, 2)
        out += low(0x100000, 4) + low(0x1000, 4) + low(0x100000, 4) + low(0x1000, 4) + bytes(4) + low(16, 4)
        out += bytes(14 * 8) + low(0x2000, 4) + low(0x48, 4) + bytes(8)
        out += b".text\0\0\0" + low(0x48 + self.metadata, 4) + low(0x2000, 4) + low(self.raw, 4) + low(0x200, 4) + bytes(12) + low(0x60000020, 4)
        out = out.ljust(0x200, b"\0")
        out += low(0x48, 4) + low(2, 2) + low(5, 2) + low(0x2048, 4) + low(self.metadata, 4) + low(1, 4) + bytes(52)  # II.25.3.3
        out += low(0x424A5342, 4) + low(1, 2) + low(1, 2) + bytes(4) + low(20, 4) + b"WindowsRuntime 1.4".ljust(20, b"\0") + bytes(2) + low(5, 2)
        at = self.heads
        for name, size in zip(self.names(), [self.tables, self.texts, 4, 16, self.blobs]):
            out += low(at, 4) + low(size, 4) + name.encode().ljust(up(len(name) + 1, 4), b"\0")
            at += size
        heaps = (1 if self.texts >= 1 << 16 else 0) + (4 if self.blobs >= 1 << 16 else 0)
        valid = sum(1 << NUMBERS[t] for t in self.present)
        out += bytes(4) + bytes([2, 0, heaps, 1]) + low(valid, 8) + low(0x000016003301FA00, 8)
        return out + b"".join(low(len(self.rows[t]), 4) for t in self.present)

    def raw_cell(self, table, row, column):
        value = self.rows[table][row - 1][column]
        kind = COLUMNS[table][column]
        width = self.width(kind)
        if isinstance(kind, int):
            return low(value, kind)
        if kind == "guid":
            return low(value[0], width)
        if kind in CODED:
            bits, tags = CODED[kind]
            return low(value[1] << bits | tags[value[0]], width)
        if kind in ("text", "blob"):
            raise ValueError("where an entry of a heap stands is free")
        return low(value[1], width)

    def bytes_at(self, at, length):
        """The bytes of a place: of what stands before the rows, or of whole cells of one row."""
        head = self.head()
        if at + length <= len(head):
            return head[at : at + length]
        for table in self.present:
            past = at - self.stream - self.starts[table]
            if 0 <= past < self.sizes[table] * len(self.rows[table]):
                row = past // self.sizes[table] + 1
                found = b""
                for column in range(len(COLUMNS[table])):
                    begin, width = self.offset(table, row, column)
                    if at <= begin and begin + width <= at + length:
                        found += self.raw_cell(table, row, column)
                if len(found) != length:
                    raise ValueError("a place that isn't one of whole cells")
                return found
        raise ValueError("no such place")

    def places(self):
        found = ["624:%d" % (len(self.head()) - 624)]
        for table, first, last in [
            ("TypeDef", 3, 5), ("MethodDef", 0, 2), ("Param", 0, 1), ("MemberRef", 0, 0), ("Constant", 0, 2), ("CustomAttribute", 0, 1),
            ("PropertyMap", 0, 1), ("Property", 0, 0), ("MethodSemantics", 0, 2), ("AssemblyRef", 0, 4),
        ]:
            if table in self.present:
                begin, _ = self.offset(table, len(self.rows[table]), first)
                end, width = self.offset(table, len(self.rows[table]), last)
                found.append("%d:%d" % (begin, end + width - begin))
        return " ".join(found)


def spelled(cell, kind):
    if kind == "guid":
        return "{%d}" % cell[0]
    if isinstance(cell, str):
        return "'%s'" % cell
    if isinstance(cell, bytes):
        return "[%s]" % runs(cell)
    if isinstance(cell, tuple):
        return "%s:%d" % cell
    return "%d" % cell


def runs(data):
    """As case_text spells bytes: more than eight equal ones are counted."""
    out, at = "", 0
    while at < len(data):
        end = at
        while end < len(data) and data[end] == data[at]:
            end += 1
        out += "[%d*%02x]" % (end - at, data[at]) if end - at > 8 else "%02x" % data[at] * (end - at)
        at = end
    return out


def answer(image, places):
    out = str(image.length)
    for table in image.present:
        rows = image.rows[table]
        out += " %s %d " % (table, len(rows))
        for n in (len(rows) - len(rows) // 2, len(rows)):
            out += " ".join(map(spelled, rows[n - 1], COLUMNS[table])) + "|"
    for place in places.split():
        at, length = map(int, place.split(":"))
        out += " " + runs(image.bytes_at(at, length))
    return out


def image_of(kind, numbers):
    return Image(KINDS[kind](*map(int, numbers)))


if __name__ == "__main__":
    if len(sys.argv) == 4:
        image = image_of(sys.argv[1], sys.argv[2:])
        print("%s %s %s;%s" % (*sys.argv[1:], image.places()))
        print("#Strings %d, #Blob %d" % (image.texts, image.blobs), {t: len(image.rows[t]) for t in image.present}, file=sys.stderr)
    else:
        for line in sys.stdin:
            kind, _, case = line.rstrip("\n").partition(" ")
            if kind in KINDS:
                numbers, _, places = case.partition(";")
                print(answer(image_of(kind, numbers.split()), places))
