#!/usr/bin/env python3
"""Counts the definitions that the headline reaches: those that the clauses of `scfs` (crates/scfs_top/src/call.rt) name, those that
these name, and so on, through the `use` lines of the files of specs/. Prints how many definitions, files and lines these are, and with
the word `files` the lines of each file. Types that the code declares (specs.declared) and the kit's definitions are not followed. A
name is followed wherever it stands, also where a variable has it. Run it from any folder."""
import re
import sys
from pathlib import Path

CRATES = Path(__file__).resolve().parent.parent / "crates"
USE = re.compile(r"use Rattle\.(scfs_\w+)\.specs\.([\w.]+?)(?:\.\{([^}]*)\}|\s+as\s+(\w+))")
HEAD = re.compile(r"(?:(?:abbrev|unfoldable|pub)\s+)*(?:(?:record|data)\s+)?([A-Za-z_]\w*)")
CASE = re.compile(r"\s+([A-Z]\w*) :")
WORD = re.compile(r"(?:[A-Za-z_]\w*\.)*[A-Za-z_]\w*")


def imports(text):
    """What the `use` lines bring: names with their files and their names there, and modules with their files."""
    names, modules = {}, {}
    for crate, path, inside, alias in USE.findall(text):
        module = path.split(".")[0]
        if module == "declared":
            continue
        file = CRATES / crate / "specs" / f"{module}.antt"
        if alias:
            modules[alias] = file
        for item in filter(None, (item.strip() for item in inside.split(","))):
            name, _, other = item.partition(" as ")
            names[other or name] = (file, name)
    return names, modules


def definitions(text):
    """The lines of each definition, by its name and by the names of a data type's cases."""
    found, block = {}, []
    for line in text.splitlines():
        if not line.strip() or line.lstrip().startswith("--") or line.startswith(("use ", "pub mod ", "mod ")):
            continue
        if HEAD.match(line):
            block = found.setdefault(HEAD.match(line).group(1), [])
        elif CASE.match(line):
            found.setdefault(CASE.match(line).group(1), block)
        block.append(line)
    return found


def main():
    call = (CRATES / "scfs_top" / "src" / "call.rt").read_text()
    names, _ = imports(call)
    clauses = re.search(r"pub fn scfs<.*?\n\{", call, re.S).group(0)
    waiting = [names[word] for word in WORD.findall(clauses) if word in names]
    files, reached, lines = {}, set(), {}
    while waiting:
        file, name = waiting.pop()
        if file not in files:
            text = file.read_text()
            files[file] = (definitions(text), *imports(text))
        found, names, modules = files[file]
        if name not in found or id(found[name]) in reached:
            continue
        block = found[name]
        reached.add(id(block))
        lines[file] = lines.get(file, 0) + len(block)
        for word in WORD.findall("\n".join(block)):
            first, _, rest = word.partition(".")
            if rest and first in modules:
                waiting.append((modules[first], rest.split(".")[0]))
            elif first in found:
                waiting.append((file, first))
            elif first in names:
                waiting.append(names[first])
    print(f"{len(reached)} definitions, {len(lines)} files, {sum(lines.values())} lines without blank lines, comments and imports")
    if "files" in sys.argv[1:]:
        for file in sorted(lines):
            print(f"{lines[file]:5} {file.relative_to(CRATES)}")


main()
