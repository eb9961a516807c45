#!/usr/bin/env python3
"""Tells what a reader must believe for the central theorem: the definitions that its statement rests on.

Begins at `ExactlyOnce` and follows each name to its definition in the specs/ of the crates, and to the Rust types and constants
that these speak of. For each file it prints the lines of the definitions that are needed (no imports, comments, blank lines or lone brackets).

    tools/believed.py            prints the table and the sums
    tools/believed.py --mark     writes MARK as the first line of each spec file that has some, and takes it from all others
    tools/believed.py --check    ends with status 1 where a file is marked wrongly, or the definitions pass 1,500 lines
"""
import collections
import pathlib
import re
import sys

TOP = pathlib.Path(__file__).resolve().parent.parent
STATEMENT = "ExactlyOnce"
MARK = "-- The statement of the central theorem rests on this file."
LIMIT = 1500
BRACKETS = ("}", "]", ")", "{")
WORD = re.compile(r"[A-Za-zℕ_][\w'\-]*(?:\.[A-Za-z_][\w'\-]*)*")
USE = re.compile(r"(?:pub )?use (Rattle\.[\w.+\-]+?)(?:\.\{([^}]*)\}| as (\w+))?$")
FIRST = re.compile(r"(?:abbrev )?(?:unfoldable )?(?:pub )?(data |record )?([^\s:({]+)")
INNER = re.compile(r"\s+(?:pub )?([A-Za-z_][\w']*) :")


class Module:
    """A spec file: what it imports, and the lines of each of its definitions."""

    def __init__(self, path):
        self.path, self.names, self.aliases = path, {}, {}
        self.lines, self.owner = collections.defaultdict(list), {}
        current = data = None
        for line in path.read_text().split("\n"):
            use = USE.match(line)
            if use:
                self.imports(*use.groups())
            elif not line.strip() or line.startswith(("--", "mod ", "pub mod ")):
                continue
            elif line[0] in " }":
                if line.strip() not in BRACKETS:
                    self.lines[current].append(line)
                inner = INNER.match(line)
                if inner and data:
                    self.owner[inner.group(1)] = current
            else:
                kind, current = FIRST.match(line).groups()
                if current not in self.owner:
                    data = kind == "data "
                self.owner[current] = current
                self.lines[current].append(line)

    def imports(self, where, names, alias):
        for name in (names or "").split(","):
            if name.strip():
                old, _, new = name.strip().partition(" as ")
                self.names[new or old] = (where, old)
        if names is None:
            self.aliases[alias or where.rsplit(".", 1)[-1]] = where

    def words(self, name):
        """What the definition may name: (module, name) of another file, or (None, name) of this one."""
        for text in WORD.findall("\n".join(re.sub(r"--.*", "", line) for line in self.lines[name])):
            head, *rest = text.split(".")
            if head in self.aliases and rest:
                yield self.aliases[head], rest[0]
            for word in (head, head.split("-")[0]):
                if word in self.owner:
                    yield None, word
                elif word in self.names:
                    yield self.names[word]


class Rests:
    """The definitions and types that a statement rests on."""

    def __init__(self):
        self.modules, self.needed, self.types = {}, collections.defaultdict(set), set()

    def module(self, where):
        if where not in self.modules:
            _, crate, part, *rest = where.split(".")
            path = TOP.joinpath("crates", crate, part, *rest).with_suffix(".antt")
            self.modules[where] = Module(path) if part == "specs" and path.is_file() else None
        return self.modules[where]

    def follow(self, where, name):
        waiting = [(where, name)]
        while waiting:
            where, name = waiting.pop()
            if ".specs.declared." in where:
                path, _, inner = where.partition(".The")
                self.types.add((path, name) if inner == "Constants" else tuple(path.rsplit(".", 1)))
                continue
            module = self.module(where)
            if module is None:
                continue
            if name not in module.owner:
                waiting += [module.names[name]] if name in module.names else []
                continue
            name = module.owner[name]
            if name not in self.needed[where]:
                self.needed[where].add(name)
                waiting += [(at or where, word) for at, word in module.words(name)]

    def definitions(self):
        """Each file with the number of lines that are needed of it, and of all its definitions."""
        for where, names in sorted(self.needed.items()):
            lines = self.modules[where].lines
            yield self.modules[where].path, sum(len(lines[n]) for n in names), sum(map(len, lines.values()))

    def types_of_crates(self):
        """Each Rust file with the number of lines of the types and constants that are needed."""
        counts = collections.Counter()
        for where, name in self.types:
            _, crate, _, _, *module = where.split(".")
            path = TOP.joinpath("crates", crate, "src", *module).with_suffix(".rt")
            if path.is_file():
                counts[path] += lines_of(path.read_text(), name)
        return sorted(counts.items())


def lines_of(text, name):
    found = re.search(rf"(?m)^pub (?:struct|enum|const) {name}\b.*?(?:^\}}|;$)", text, re.S)
    lines = found.group().split("\n") if found else []
    return sum(1 for line in lines if line.strip() and not line.strip().startswith("//"))


def statement():
    [path] = [p for p in TOP.glob("crates/exactly_once/specs/**/*.antt") if f"abbrev pub {STATEMENT} :" in p.read_text()]
    return "Rattle." + ".".join(path.relative_to(TOP / "crates").with_suffix("").parts)


def marked(path):
    return path.read_text().startswith(MARK)


def main():
    rests = Rests()
    rests.follow(statement(), STATEMENT)
    files = list(rests.definitions())
    needed = {path for path, _, _ in files}
    others = [p for p in TOP.glob("crates/*/specs/**/*.antt") if "out" not in p.parts and p not in needed]
    wrong = [p for p in needed if not marked(p)] + [p for p in others if marked(p)]
    if "--mark" in sys.argv:
        for path in wrong:
            text = path.read_text()
            path.write_text(text.removeprefix(MARK + "\n") if marked(path) else f"{MARK}\n{text}")
        return 0
    for path, lines, whole in files:
        print(f"{lines:5} of {whole:3}  {path.relative_to(TOP)}")
    sum_of_lines = sum(lines for _, lines, _ in files)
    print(f"{sum_of_lines:5} lines of definitions")
    types = rests.types_of_crates()
    for path, lines in types:
        print(f"{lines:5}         {path.relative_to(TOP)}")
    print(f"{sum(lines for _, lines in types):5} lines of types and constants")
    if "--check" in sys.argv:
        for path in wrong:
            print(f"{path.relative_to(TOP)}: {'marked, and not needed' if marked(path) else 'needed, and not marked'}")
        return int(bool(wrong) or sum_of_lines > LIMIT)
    return 0


if __name__ == "__main__":
    sys.exit(main())
