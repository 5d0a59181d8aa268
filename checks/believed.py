#!/usr/bin/env python3
"""Compares the table of docs/reading.md with the files on which the contract of `zsim` rests.

From the words of that contract each name is followed to its definition, and from there the names of the definition: in
specs/ by the `use` lines of its file, and to a type, a trait or a constant of src/ by its module. What is reached is
what a reader has to believe. A name of the kit ends the way. Bodies of functions are not looked at, nor proofs.

Status 0 says that the table has the files that are reached and no others, that each definition in its files of specs/
is reached, that a row, from the fifth on, uses no later one, and that the numbers of lines and the names of the kit are
right. Names are told apart by their spelling: a variable that is spelled as an import counts as a use of it.
"""

import re
import sys
from pathlib import Path

TOP = Path(__file__).resolve().parent.parent
CRATES = TOP / "crates"
READING = TOP / "docs/reading.md"

# The contract of the public call, and the number of a status, with which the program ends.
STARTS = [("zsim/src/top.rt", "zsim"), ("zsim/specs/ErrorLine.antt", "status_number")]

# So many rows go from the top down.
TOP_DOWN = 4

WORD = re.compile(r"[A-Za-z_][\w']*(?:\.[A-Za-z_][\w']*)*")
KEYWORDS = {"abbrev", "unfoldable", "pub", "record", "data"}
ITEM = re.compile(r"(?:pub(?:\(\w+\))? )?(struct|enum|trait|type|const|fn) (\w+)|impl(?:<.*>)? Model for (\w+)")


class Fault(Exception):
    """What keeps the script from following a name."""


class Source:
    """A file of specs/ or src/: its definitions by name, and what the names mean that it imports."""

    def __init__(self, name):
        self.name = name
        self.crate = name.split("/")[0]
        self.lines = (CRATES / name).read_text(encoding="utf-8").splitlines()
        self.texts = {}
        # the numbers of a definition's first and last line
        self.spans = {}
        # a name of specs/ to its module and its name there; the short name of a module; a name of src/ to its path
        self.names = {}
        self.modules = {}
        self.paths = {}
        if name.endswith(".antt"):
            self.read_specs()
        else:
            self.read_src()

    def define(self, name, text, first, last):
        if not WORD.fullmatch(name) or re.search(r"\b(crate|super)::", text):
            raise Fault(f"{self.name}:{first}: a name that cannot be followed")
        self.texts[name] = self.texts.get(name, "") + "\n" + text
        self.spans[name] = (self.spans.get(name, (first,))[0], last)

    def use_specs(self, tree):
        """Takes in `A.B.{c, d as e}`, `A.B as f` or `A.B`."""
        if not re.fullmatch(r"[\w.]+(\.\{.*\}| as \w+)?", tree):
            raise Fault(f"{self.name}: the import of {tree} cannot be read")
        module, braced, names = tree.partition(".{")
        if not braced:
            module, _, short = tree.partition(" as ")
            self.modules[short or module.rpartition(".")[2]] = module
        for name in filter(None, re.split(r",\s*", names.rstrip("}"))):
            name, _, short = name.partition(" as ")
            self.names[short or name] = (module, name)

    def use_src(self, tree, path=""):
        """Takes in `a::b::{C, d::{E}}` or `a::B`."""
        head, braced, _ = tree.partition("{")
        if braced:
            for inner in re.findall(r"(?:[^,{}]|\{[^}]*\})+", tree[len(head) + 1 : tree.rindex("}")]):
                self.use_src(inner.strip(), path + head)
        elif tree:
            path, _, name = (path + tree).rpartition("::")
            name, _, short = name.partition(" as ")
            self.paths[short or name] = (path, name)

    def read_specs(self):
        """Reads a file of specs/. A definition in a block `module _ (..) where` has its head too."""
        head, name, texts, spans = "", None, {}, {}
        for number, line in enumerate(self.lines, 1):
            code = line.split("--")[0].rstrip()
            words = code.split()
            if not words:
                continue
            if re.match(r"(pub )?use ", code):
                self.use_specs(code.split("use ", 1)[1])
                continue
            if code.startswith("module _"):
                head, name = code, None
                continue
            indent = len(code) - len(code.lstrip())
            first = next((word for word in words if word not in KEYWORDS), "")
            is_other = first != name and words[0][0] not in ")]}"
            if indent == 0 and is_other:
                head = ""
            if indent == (2 if head else 0) and is_other:
                name = first
                texts[name] = [head]
                spans[name] = (number, number)
            if name in (None, "module"):
                raise Fault(f"{self.name}:{number}: a line of no definition")
            texts[name].append(code)
            spans[name] = (spans[name][0], number)
            # a constructor stands for its type
            case = re.match(r" +(?:pub )?([\w']+) :", code)
            if case and "data" in texts[name][1].split()[:3]:
                self.names[case.group(1)] = (f"Rattle.{self.crate}.specs.{Path(self.name).stem}", name)
        for name, lines in texts.items():
            self.define(name, "\n".join(lines), *spans[name])

    def read_src(self):
        """Reads a file of src/: types, each with its `impl Model`, traits, constants, and contracts of functions."""
        number = 0
        while number < len(self.lines):
            last = number
            line = self.lines[number]
            item = ITEM.match(line)
            if line.startswith("ghost use "):
                self.use_specs(line[len("ghost use ") :].rstrip(";"))
            elif re.match(r"(pub )?use ", line):
                while not self.lines[last].endswith(";"):
                    last += 1
                self.use_src(" ".join(self.lines[number : last + 1]).split("use ", 1)[1].rstrip(";"))
            elif item:
                while not self.is_last(item.group(1), number, last):
                    last += 1
                self.read_item(item, number, last)
            number = last + 1

    def is_last(self, kind, first, last):
        """Whether an item that begins at a line ends at another."""
        line = self.lines[last]
        if kind in ("const", "type"):
            return line.endswith(";")
        return line.startswith("}") or (first == last and line.endswith((";", "}")))

    def read_item(self, item, first, last):
        lines = [line.split("//")[0].rstrip() for line in self.lines[first : last + 1]]
        if item.group(1) == "fn":
            # of a function the contract alone, without the names of its clauses
            lines = [re.sub(r"(ensures|requires) \w+ \{", r"\1 {", line) for line in lines[: lines.index("{")]]
            last = first + len(lines) - 1
        for line in lines:
            if line.startswith("    ghost use "):
                self.use_specs(line.strip()[len("ghost use ") :].rstrip(";"))
        text = "\n".join(line for line in lines if "ghost use " not in line)
        self.define(item.group(2) or item.group(3), text, first + 1, last + 1)


class Repository:
    """The files that were read, and the crates of the kit that were named."""

    def __init__(self):
        self.sources = {}
        self.kit = set()

    def source(self, file):
        if file not in self.sources:
            if not (CRATES / file).is_file():
                raise Fault(f"{file} is not there")
            self.sources[file] = Source(file)
        return self.sources[file]

    def in_src(self, path, name, crate):
        """The definition of a name of Rust, or None where it is of the kit."""
        first, *rest = path.split("::")
        crate = crate if first == "crate" else first
        if not (CRATES / crate).is_dir():
            return None
        files = [f"{crate}/src/{'/'.join(rest)}.rt"] if rest else [f"{crate}/src/lib.rt"]
        for file in files:
            source = self.source(file)
            if name in source.texts:
                return file, name
            if name in source.paths:
                # a path of `pub use` begins at a module of the crate, or at another crate
                path, name = source.paths[name]
                inside = (CRATES / crate / "src" / f"{path.split('::')[0]}.rt").is_file()
                return self.in_src(f"crate::{path}" if inside else path, name, crate)
        raise Fault(f"{crate} has no {path}::{name}")

    def in_specs(self, module, name):
        """The definition of a name of a module of specs/, or None where it is of the kit."""
        parts = module.split(".")
        if parts[0] != "Rattle":
            return None
        if not (CRATES / parts[1]).is_dir():
            self.kit.add(parts[1])
            return None
        if parts[3] not in ("declared", "contracts"):
            source = self.source(f"{parts[1]}/specs/{'/'.join(parts[3:])}.antt")
            if name in source.texts:
                return source.name, name
            return self.meaning(source, name)
        # what the compiler makes of a type or of the constants of a module, which can lie in another
        for length in range(len(parts) - 1, 4, -1):
            file = f"{parts[1]}/src/{'/'.join(parts[4:length])}.rt"
            if (CRATES / file).is_file():
                return file, name if parts[length] == "TheConstants" else parts[length]
        raise Fault(f"no file for {module}")

    def meaning(self, source, word):
        """The definition that a word names in a file, or None where it names none of the repository."""
        first, *rest = word.split(".")
        if first in source.texts:
            found = source.name, first
        elif first in source.modules and rest:
            found = self.in_specs(source.modules[first], rest[0])
        elif first in source.names:
            found = self.in_specs(*source.names[first])
        elif first in source.paths:
            found = self.in_src(*source.paths[first], source.crate)
        else:
            return None
        if found and found[1] not in self.source(found[0]).texts:
            raise Fault(f"{source.name}: {word} names nothing in {found[0]}")
        return found

    def reached(self):
        """Each definition that is reached, and those that it uses."""
        uses, left = {}, list(STARTS)
        while left:
            file, name = at = left.pop()
            if at not in uses:
                source = self.source(file)
                if name not in source.texts:
                    raise Fault(f"{file} has no {name}")
                found = (self.meaning(source, word) for word in WORD.findall(source.texts[name]))
                uses[at] = {use for use in found if use and use != at}
                left += uses[at]
        return uses


class Table:
    """The table: its rows of files, and of each file the row, the number of lines and the last item to be read."""

    def __init__(self, text):
        lines = text.split("| Read | For | Lines |\n", 1)[1].split("\n\n", 1)[0].splitlines()[1:]
        self.rows = [self.read_row(line) for line in lines]
        self.row_of = {file: number for number, row in enumerate(self.rows) for file, _, _ in row}

    @staticmethod
    def read_row(line):
        """The files of a row, each with what is said of it and its number of lines. A name without a folder is in that
        of the one before it, and one without a crate in its crate."""
        read, _, numbers = (cell.strip() for cell in line.strip("|").rsplit("|", 2))
        files, folder = [], ""
        for name, said in re.findall(r"`([\w/]+\.(?:rt|antt))`((?:(?!`[\w/]+\.(?:rt|antt)`).)*)", read):
            if "/" not in name:
                name = f"{folder}/{name}"
            elif name.count("/") == 1:
                name = f"{folder.split('/')[0]}/{name}"
            folder = name.rpartition("/")[0]
            files.append((name, said))
        numbers = numbers.split(", ")
        if len(files) != len(numbers):
            raise Fault(f"the row of {files[0][0]} has {len(files)} files and {len(numbers)} numbers of lines")
        return [(file, said, number) for (file, said), number in zip(files, numbers)]


def lines_to_read(source, said):
    """How many lines of a file are to be read, as the table says it: all, a contract, or those as far as an item."""
    contract = re.search(r"the contract of `(\w+)`", said)
    as_far_as = re.search(r"as far as `(\w+)`", said)
    count = len(source.lines)
    if contract:
        first, last = source.spans[contract.group(1)]
        return f"{last - first + 1} of {count}", last
    if as_far_as:
        last = source.spans[as_far_as.group(1)][1]
        return f"{last} of {count}", last
    return str(count), count


def faults(repository, text):
    """What is wrong with the table and the text around it."""
    uses = repository.reached()
    files = {file for file, _ in uses}
    table = Table(text)
    for file in sorted(files - set(table.row_of)):
        names = sorted(name for where, name in uses if where == file)
        yield f"{file} is not in the table: the theorem uses its {', '.join(names)}"
    for file in sorted(set(table.row_of) - files):
        yield f"{file} is in the table, and the theorem does not use it"
    for file, said, number in (entry for row in table.rows for entry in row if entry[0] in files):
        source = repository.source(file)
        right, last = lines_to_read(source, said)
        if number != right:
            yield f"{file} has {right} lines, and not {number}"
        for name in sorted(source.texts):
            if (file, name) in uses and source.spans[name][1] > last:
                yield f"{file}: {name} is past what is to be read"
            if (file, name) not in uses and file.endswith(".antt"):
                yield f"{file}: the theorem does not use {name}"
    for (file, name), used in sorted(uses.items()):
        for other, _ in sorted(used):
            if TOP_DOWN <= table.row_of.get(file, 0) < table.row_of.get(other, 0):
                yield f"{file}: {name} uses the later {other}"
    total = sum(len(repository.source(file).lines) for file in files if file.endswith(".antt"))
    if f"about {round(total, -2):,} lines of definitions in `specs/`" not in text:
        yield f"the definitions in specs/ have {total} lines"
    named = set(re.findall(r"`Rattle\.(\w+)\.specs`", text))
    if named != repository.kit:
        yield f"of the kit the theorem uses {sorted(repository.kit)}, and the text names {sorted(named)}"


def main():
    repository = Repository()
    try:
        found = list(faults(repository, READING.read_text(encoding="utf-8")))
    except Fault as fault:
        found = [str(fault)]
    for fault in found:
        print(f"believed: {fault}")
    if not found:
        print(f"believed: the table has the {len({file for file, _ in repository.reached()})} files of the theorem")
    return 1 if found else 0


if __name__ == "__main__":
    sys.exit(main())
