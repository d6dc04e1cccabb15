#!/usr/bin/env python3
"""Checks that docs/definitions.md and docs/proved.md name what is there.

    scripts/definitions.py PROGRAM

Each definition has to stand in the file of specs/ that is named beside it, each name that the contract of `run` cites has to be among
them, each crate that is proved has to be in docs/proved.md, and what that names in a crate has to stand in its source or specs.
The program isn't run.
"""
import glob
import os
import re

from harness import TOP, Difference, tried


def text_of(path):
    with open(path, encoding="utf-8") as file:
        return file.read()


def rows_of(page):
    """The cells of each row of the tables of a page, without their heads."""
    for line in text_of(os.path.join(TOP, "docs", page)).splitlines():
        cells = [cell.strip() for cell in re.split(r"(?<!\\)\|", line)[1:-1]]
        if cells and not set(cells[0]) <= set("-") | {""} or cells[:1] == [""]:
            yield cells


def names_in(cell):
    """The first word of each piece of code in a cell, without what qualifies it."""
    return [code.split()[0].split("::")[-1] for code in re.findall(r"`([^`]+)`", cell)]


def spec_texts(place):
    """The texts of the files that a cell names: `crate/specs/File, File, crate/specs`, or `crate, crate: specs/File`. A folder stands for all its files."""
    crates, of_each, name = place.partition(": specs/")
    if of_each:
        files = [(crate.strip(), name) for crate in crates.split(",")]
    else:
        crate, files = "", []
        for piece in place.split(", "):
            if "/specs" in piece:
                crate, _, piece = piece.partition("/specs")
            files.append((crate, piece.strip("/") or "*"))
    return [text_of(path) for crate, name in files for path in glob.glob(os.path.join(TOP, "crates", crate, "specs", f"{name}.antt"))]


def is_declared(name, texts):
    declaration = re.compile(rf"^\s*(?:abbrev |pub |record |data |let )*{re.escape(name)}(?=[\s:({{]|$)", re.M)
    return any(declaration.search(text) for text in texts)


def check_definitions(crates):
    known, count = set(), 0
    for cells in rows_of("definitions.md"):
        if len(cells) < 3 or not cells[0].startswith(("`", "tables")):
            continue
        names, texts = names_in(cells[0]), spec_texts(cells[2])
        if not texts:
            raise Difference(f"docs/definitions.md: there is no file {cells[2]}")
        for name in names:
            # Variants, types of the code and what a crate declares in Rust stand in src/.
            if not is_declared(name, texts) and not is_in_code(name, crates, cells[2]):
                raise Difference(f"docs/definitions.md: {name} doesn't stand in {cells[2]}")
            known.add(name)
            count += 1
    program = text_of(os.path.join(TOP, "crates", "foz_tool", "src", "program.rt"))
    cited = [name.strip() for line in re.findall(r"^ghost use Rattle\.foz\w*\.specs\.\w+\.\{(.*)\};", program, re.M) for name in line.split(",")]
    for name in cited:
        if name not in known:
            raise Difference(f"docs/definitions.md lacks {name}, which the contract of run cites")
    return count


def is_in_code(name, crates, place):
    return any(re.search(rf"\b(?:struct|enum|trait|fn|type) {re.escape(name)}\b", crates.get(crate, "")) for crate in re.findall(r"\w+", place))


def check_proved(crates):
    """Each crate has its row, and what the row names stands in the crate."""
    named, count, owner = set(), 0, []
    for cells in rows_of("proved.md"):
        owner = [crate for crate in re.findall(r"\w+", cells[0]) if crate in crates] or (owner if not cells[0] else [])
        named.update(owner)
        if not owner:
            continue
        for name in names_in(cells[1]) + [law for piece in re.findall(r"laws? ((?:`\w+`(?:, | and )?)+)", cells[2]) for law in names_in(piece)]:
            if not any(re.search(rf"\b{re.escape(name)}\b", crates[crate]) for crate in owner):
                raise Difference(f"docs/proved.md: {name} doesn't stand in {', '.join(owner)}")
            count += 1
    # What has no code of its own, or only hands the outside to foz_tool, has no row.
    missing = set(crates) - named - {"foz", "foz_runs", "capture_tests", "crew_tests"}
    if missing:
        raise Difference(f"docs/proved.md lacks {', '.join(sorted(missing))}")
    return count


def work(trial, words):
    crates = {}
    for folder in glob.glob(os.path.join(TOP, "crates", "*", "src")):
        files = glob.glob(os.path.join(folder, "**", "*.rt"), recursive=True) + glob.glob(os.path.join(folder, "..", "specs", "*.antt"))
        crates[os.path.basename(os.path.dirname(folder))] = "\n".join(text_of(path) for path in files)
    definitions, contracts = check_definitions(crates), check_proved(crates)
    return f"{definitions} definitions and {contracts} contracts of the documents stand where they are said to"


def main():
    tried(work, rounds=1, seed=1)


if __name__ == "__main__":
    main()
