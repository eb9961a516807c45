#!/usr/bin/env python3
"""Compares docs/GLOSSARY.md with the definitions that a reader must believe.

Each public name of these definitions stands in an entry of the glossary, as `crate/specs/File.name` or among the names of
`crate/specs/File.{name, name}`. The script lists the names that no entry has, and the entries' names and types, as
`crate::Type`, that no file has. It also lists the law functions of the crates of laws that docs/DEFINITIONS.md doesn't
name. It ends with status 1 where there is one of these.
"""
import pathlib
import re
import sys

TOP = pathlib.Path(__file__).resolve().parent.parent
CRATES = ["boki_model", "boki_machine", "exactly_once", "run_with"]
# Crates whose public functions have empty bodies, and laws as their contracts.
LAWS = """books_alone exactly_once flow_once judge_agrees legal_logs log_folds machine_laws run_with script_ranges
    step_laws store_laws switch_laws transfer_laws""".split()
# What the proof of exactly_once goes by, and no reader needs to believe, stands in this folder of its specs.
INVARIANT = "Induction"

DECLARED = re.compile(r"^(?:pub (?:abbrev|record|data)|abbrev pub) ([^\s:({]+)", re.MULTILINE)
TYPE = re.compile(r"`(\w+)::(\w+)`")
LAW = re.compile(r"^pub fn (\w+)", re.MULTILINE)
LISTED = re.compile(r"`(\w+)/specs/([\w/]+)\.(?:\{([^}]+)\}|([^\s`{}]+))`")


def declared(everything):
    """The public names of the files, or of those that a reader must believe: (crate, file, name)."""
    found = set()
    for crate in CRATES:
        specs = TOP / "crates" / crate / "specs"
        for path in specs.glob("**/*.antt"):
            file = path.relative_to(specs).with_suffix("").as_posix()
            if everything or not file.startswith(INVARIANT):
                found |= {(crate, file, name) for name in DECLARED.findall(path.read_text())}
    return found


def listed(glossary):
    """The names that the glossary's entries have."""
    found = set()
    for crate, file, names, name in LISTED.findall(glossary):
        if crate in CRATES:
            found |= {(crate, file, each.strip()) for each in (names or name).split(",")}
    return found


def unknown_types(glossary):
    """The types of the glossary's entries that their crates don't have: (crate, name)."""
    found = set()
    for crate, name in set(TYPE.findall(glossary)):
        declaration = re.compile(rf"\b(?:struct|enum|trait|type|fn) {name}\b")
        files = (TOP / "crates" / crate / "src").glob("**/*.rt")
        if not any(declaration.search(path.read_text()) for path in files):
            found.add((crate, name))
    return found


def unnamed_laws(definitions):
    """The law functions that the text doesn't name: (crate, name)."""
    named = set(re.findall(r"`(\w+)`", definitions))
    files = [(crate, path) for crate in LAWS for path in (TOP / "crates" / crate / "src").glob("**/*.rt")]
    return {(crate, law) for crate, path in files for law in LAW.findall(path.read_text()) if law not in named}


def main():
    glossary = (TOP / "docs" / "GLOSSARY.md").read_text()
    names, entries, unknown = declared(False), listed(glossary), unknown_types(glossary)
    without_entry, without_file = names - entries, entries - declared(True)
    for text, missing in [("in no entry", without_entry), ("in no file", without_file)]:
        for crate, file, name in sorted(missing):
            print(f"{crate}/specs/{file}.{name}: {text}")
    for crate, name in sorted(unknown):
        print(f"{crate}::{name}: in no file")
    unnamed = unnamed_laws((TOP / "docs" / "DEFINITIONS.md").read_text())
    for crate, law in sorted(unnamed):
        print(f"{crate}::{law}: not in docs/DEFINITIONS.md")
    print(f"{len(names & entries)} of {len(names)} names are in the glossary")
    sys.exit(bool(without_entry or without_file or unknown or unnamed))


main()
