#!/usr/bin/env python3
"""Finds what docs/DEFINITIONS.md lacks: definitions that a clause of a public function cites, and names that it gives a wrong file.

    bench/definitions.py        from any folder; ends with 0 where nothing is missing

A public clause is an `ensures` or `requires` of a function that a library's root hands out by `pub use`, of a method of such a type or trait, or of an impl of a
trait for such a type. A definition that it cites is a
name of crates/NAME/specs of this repository that the file imports by `ghost use`, but for the values of a file `Examples`. A table of the document names definitions in its first column, each in
backticks, and the file, or files, where they stand in its second; `, ..` behind a path takes the crate's or folder's further files by their last names alone.
"""
import os
import re
import sys

TOP = os.path.dirname(os.path.dirname(os.path.abspath(__file__)))
GHOST = re.compile(r"ghost use Rattle\.(\w+)\.specs\.([\w.]+?)(?:\.\{([^}]*)\})?(?: as \w+)?;")
WORD = re.compile(r"[^\W\d][\w-]*")
USED = re.compile(r"^pub use [\w:]*?(?:::)?(?:\{([^}]*)\}|(\w+));", re.M)


def text_of(path):
    with open(path, encoding="utf-8") as it:
        return it.read()


def sources():
    for at, folders, files in os.walk(f"{TOP}/crates"):
        folders[:] = sorted(it for it in folders if it not in ("out", "specs", "proofs", "must-fail", "data"))
        for name in sorted(files):
            if name.endswith(".rt") and "/src" in at:
                yield f"{at}/{name}"


def imported(text):
    """The names of this repository's definitions that a file of source imports, each with its crate and file."""
    found = {}
    for crate, path, names in GHOST.findall(text):
        if not os.path.isdir(f"{TOP}/crates/{crate}/specs") or path.startswith("declared") or path == "Examples":
            continue
        for name in filter(None, (it.strip() for it in names.split(","))):
            found[name.split(" as ")[-1]] = (name.split(" as ")[0], f"{crate}/specs/{path.replace('.', '/')}")
    return found


def handed_out(path):
    """The names that the root of a file's library hands out; a program hands out none."""
    root = f"{path[:path.index('/src/')]}/src/lib.rt"
    if not os.path.isfile(root):
        return set()
    return {it.strip() for many, one in USED.findall(text_of(root)) for it in (many or one).split(",")}


def subject(line):
    """The names of the type and of the trait that a line's block is of, or None where it begins no block of methods."""
    if not re.match(r"(impl\b|(pub )?trait )", line):
        return None
    return set(WORD.findall(re.sub(r"^impl<[^>]*>", "", line)))


def clauses(text, names):
    """The clauses of those functions of a file that are among these names, and of the methods of such types and traits."""
    block, lines, at = set(), text.split("\n"), 0
    while at < len(lines):
        line = lines[at]
        block = set() if line.startswith("}") else subject(line) or block
        head = re.match(r"(\s*)(pub )?(const )?fn (\w+)", line)
        is_public = head and (head[4] in names if not head[1] else bool(block & names) and (head[2] or {"for", "trait"} & block))
        if not is_public:
            at += 1
            continue
        held, deep = [], 0
        while at < len(lines):
            line = lines[at]
            if deep > 0 or re.match(r"\s*(ensures|requires)\b", line):
                held.append(line)
                deep += line.count("{") - line.count("}")
                if deep == 0 and line.rstrip().endswith(";"):
                    break
            elif line.rstrip().endswith((";", "{")):
                break
            at += 1
        yield "\n".join(held)
        at += 1


def documented():
    """The names in the first columns of the document's tables, each with the files of its row."""
    found = {}
    for line in text_of(f"{TOP}/docs/DEFINITIONS.md").split("\n"):
        cells = [it.strip() for it in line.split("|")]
        if not line.startswith("|") or len(cells) < 4 or cells[1] in ("What", "---"):
            continue
        for name in (it for it in re.findall(r"`([^`]+)`", cells[1]) if ".." not in it):
            found.setdefault(name, []).append(re.sub(r"\]\([^)]*\)|\[", "", cells[2]))
    return found


def stands(name, where):
    """Whether one of the files that a row gives declares the name."""
    first, *more = [it.strip(" `") for it in where.split(",")]
    paths = [first] + [it if "/specs" in it else f"{os.path.dirname(first)}/{it}" for it in more]
    for path in paths:
        path = f"{TOP}/crates/{path}"
        files = [f"{path}.antt"] if os.path.isfile(f"{path}.antt") else []
        if os.path.isdir(path):
            files += [f"{at}/{it}" for at, _, names in os.walk(path) for it in names if it.endswith(".antt")]
        for it in files:
            if re.search(rf"(?<![\w-]){re.escape(name)}(?![\w-])", text_of(it)):
                return True
    return False


def is_declared(name, where):
    """Whether the file declares the name, and not as a constructor of a type."""
    path = f"{TOP}/crates/{where}.antt"
    return os.path.isfile(path) and bool(re.search(rf"^\s*(?:\w+ )?pub (?:\w+ )?{re.escape(name)}(?![\w-])", text_of(path), re.M))


def main():
    known, lacking = documented(), {}
    for path in sources():
        text = text_of(path)
        names = imported(text)
        for clause in clauses(text, handed_out(path)):
            for word in WORD.findall(clause):
                if word in names and names[word][0] not in known and is_declared(*names[word]):
                    lacking.setdefault(names[word], os.path.relpath(path, f"{TOP}/crates"))
    for (name, where), path in sorted(lacking.items(), key=lambda it: (it[0][1], it[0][0])):
        print(f"lacks {name} ({where}), which {path} cites")
    lost = [(name, where) for name, rows in sorted(known.items()) for where in rows if not stands(name, where)]
    for name, where in lost:
        print(f"{name} doesn't stand in {where}")
    print(f"{len(known)} names, {len(lacking)} lacking, {len(lost)} in a wrong file")
    return 1 if lacking or lost else 0


if __name__ == "__main__":
    sys.exit(main())
