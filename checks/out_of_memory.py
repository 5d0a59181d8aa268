#!/usr/bin/env python3
"""Where the program answers that memory ran out, memory was refused: by the allocator, a file or a sink.

    checks/out_of_memory.py           fails where the code builds that answer for another reason
    checks/out_of_memory.py --all     also writes the places where a refusal is handed on

Out of memory is the one answer without a cause, so a body that gives it in place of any other is proved. So the
sources of the libraries and programs are read here, but for those of the tests. An expression may have the value
NoMemory, AllocError or OutOfMemory only

- where it hands on a refusal that the code names: in the arm of a `match` or the body of an `if` whose pattern,
  guard or test names one of them, or asks the error whether it `is_memory`; in a function or a closure that is
  given one; as `NoMemory::from`;
- where docs/DECISIONS.md lists the place, on a line `crate/src/file.rt: function: why`, one line for each place.

What `?` hands on needs no such expression. That the allocator was asked for too much is not seen here.

It needs no packages. Run it at the top of the repository.
"""

import glob
import re
import sys

DECISIONS = "docs/DECISIONS.md"
WORDS = {"NoMemory", "AllocError", "OutOfMemory"}
GIVEN = WORDS | {"AllocFailed"}  # what a function or a closure can be given

LISTED = re.compile(r"^ {4}(\w+/src/\S+\.rt): (\w+): \S")

TOKEN = re.compile(
    r"""//[^\n]*
    | \#!?\[
    | b?"(?:\\.|[^"\\])*"
    | b?'(?:\\.[^']*|[^'\\])'
    | '\w+
    | \w+
    | ::|=>|==|!=|->|\.\.=?|&&|\|\|
    | \S""",
    re.VERBOSE | re.DOTALL,
)

PAIRS = {"(": ")", "[": "]", "{": "}"}


class Token:
    def __init__(self, text, line):
        self.text = text
        self.line = line


class Group:
    """What stands between two brackets."""

    def __init__(self, bracket, line, is_attribute=False):
        self.text = bracket
        self.line = line
        self.parts = []
        self.is_attribute = is_attribute


def tree(source):
    """Returns the tokens as a tree of groups, without comments, texts and attributes."""
    top = Group("", 0)
    open_groups = [top]
    for match in TOKEN.finditer(source):
        text = match.group()
        line = source.count("\n", 0, match.start()) + 1
        if text.startswith("//"):
            continue
        if text in ("#[", "#!["):
            group = Group("[", line, is_attribute=True)
            open_groups[-1].parts.append(group)
            open_groups.append(group)
        elif text in PAIRS:
            group = Group(text, line)
            open_groups[-1].parts.append(group)
            open_groups.append(group)
        elif text in PAIRS.values():
            if PAIRS.get(open_groups[-1].text) != text:
                raise SystemExit(f"line {line}: {text} closes nothing")
            if open_groups.pop().is_attribute:
                open_groups[-1].parts.pop()
        else:
            open_groups[-1].parts.append(Token(text, line))
    if len(open_groups) > 1:
        raise SystemExit(f"line {open_groups[-1].line}: {open_groups[-1].text} is not closed")
    return top.parts


def flat(parts):
    """Returns the texts of all tokens in these."""
    for part in parts:
        if isinstance(part, Group):
            yield from flat(part.parts)
        else:
            yield part.text


def names(parts, words=WORDS):
    return any(text in words for text in flat(parts))


def names_refusal(parts):
    """Whether a pattern lets nothing but refusals pass."""
    return all(names(part) for part in split(parts, "|"))


def split(parts, text):
    """Splits at each token of this text."""
    pieces = [[]]
    for part in parts:
        if not isinstance(part, Group) and part.text == text:
            pieces.append([])
        else:
            pieces[-1].append(part)
    return pieces


def find(parts, start, *texts):
    """Returns the place of the first of these tokens from a place on, or the end."""
    for place in range(start, len(parts)):
        if parts[place].text in texts:
            return place
    return len(parts)


class Reader:
    """Finds the places of one file."""

    def __init__(self, file):
        self.file = file
        self.built = []  # (function, line)
        self.handed_on = []

    def items(self, parts, owner="-"):
        """Reads items: functions, constants, and what has items in it."""
        place = 0
        while place < len(parts):
            text = parts[place].text
            if text == "ghost":
                place = find(parts, place, ";") + 1
            elif text == "use":
                end = find(parts, place, ";")
                texts = list(flat(parts[place:end]))
                if any(a in WORDS and b == "as" for a, b in zip(texts, texts[1:])):
                    self.built.append(("use", parts[place].line))
                place = end + 1
            elif text == "fn":
                place = self.function(parts, place)
            elif text in ("const", "static") and find(parts, place, "fn") != place + 1:
                end = find(parts, place, ";")
                self.expression(parts[find(parts, place, "=") : end], parts[place + 1].text, False)
                place = end + 1
            elif text in ("impl", "trait", "mod"):
                place = find(parts, place, "{", ";")
                if place < len(parts) and isinstance(parts[place], Group):
                    self.items(parts[place].parts, owner)
                place += 1
            elif text in ("struct", "enum", "union"):
                place = find(parts, place, "{", ";") + 1
            else:
                place += 1

    def function(self, parts, place):
        """Reads a function, and returns the place behind it."""
        name = parts[place + 1].text
        arguments = find(parts, place, "(")
        given = names(parts[arguments].parts, GIVEN)
        place = arguments + 1
        while place < len(parts) and parts[place].text not in ("{", ";"):
            if parts[place].text in ("requires", "ensures", "decreases", "where"):
                if parts[place].text != "where":
                    place = find(parts, place, "{")
            place += 1
        if place < len(parts) and isinstance(parts[place], Group):
            self.expression(parts[place].parts, name, given)
        return place + 1

    def expression(self, parts, name, given):
        """Reads statements and expressions. `given` says whether a refusal is at hand."""
        place = 0
        while place < len(parts):
            place = self.next(parts, place, name, given)

    def next(self, parts, place, name, given):
        """Reads what begins at a place, and returns the place behind it."""
        part = parts[place]
        if isinstance(part, Group):
            self.expression(part.parts, name, given)
            return place + 1
        if part.text == "fn":
            return self.function(parts, place)
        if part.text == "ghost":
            return find(parts, place, ";") + 1
        if part.text == "match":
            return self.arms(parts, place, name, given)
        if part.text in ("if", "while"):
            return self.branch(parts, place, name, given)
        if part.text == "let":
            return self.binding(parts, place, name, given)
        if part.text == "matches" and place + 2 < len(parts) and parts[place + 1].text == "!":
            comma = find(parts[place + 2].parts, 0, ",")
            self.expression(parts[place + 2].parts[:comma], name, given)
            return place + 3
        if part.text == "|" and is_closure(parts, place):
            return self.closure(parts, place, name, given)
        if part.text == "::" and place + 1 < len(parts) and parts[place + 1].text == "<":
            return find(parts, place, ">") + 1
        if part.text in WORDS:
            self.value(parts, place, name, given)
        return place + 1

    def value(self, parts, place, name, given):
        """Notes a word that is a value."""
        before = parts[place - 1].text if place > 0 else ""
        after = [part.text for part in parts[place + 1 : place + 3]]
        is_compared = (
            before in ("==", "!=")
            or after[:1] in (["=="], ["!="])
            or (before == "::" and place > 2 and parts[place - 3].text in ("==", "!="))
        )
        if is_compared:
            return
        if given or after == ["::", "from"]:
            self.handed_on.append((name, parts[place].line))
        else:
            self.built.append((name, parts[place].line))

    def arms(self, parts, place, name, given):
        """Reads a match."""
        block = find(parts, place, "{")
        self.expression(parts[place + 1 : block], name, given)
        arms = parts[block].parts
        at = 0
        while at < len(arms):
            arrow = find(arms, at, "=>")
            pattern = arms[at:arrow]
            guard = find(pattern, 0, "if")
            refused = names_refusal(pattern[:guard]) or is_refusal_test(pattern[guard:])
            body = arrow + 1
            if body < len(arms) and arms[body].text == "{":
                end = body + 1
            else:
                end = find(arms, body, ",")
            self.expression(arms[body:end], name, given or refused)
            at = end + 1 if end < len(arms) and arms[end].text == "," else end
        return block + 1

    def branch(self, parts, place, name, given):
        """Reads an `if` or a `while`, and not its `else`."""
        block = find(parts, place, "{")
        test = parts[place + 1 : block]
        if test and test[0].text == "let":
            equals = find(test, 0, "=")
            refused = names_refusal(test[1:equals])
            self.expression(test[equals:], name, given)
        else:
            refused = is_refusal_test(test)
            self.expression(test, name, given)
        if block < len(parts):
            self.expression(parts[block].parts, name, given or refused)
        return block + 1

    def binding(self, parts, place, name, given):
        """Reads past the pattern and the type of a `let`."""
        return find(parts, place, "=", ";")

    def closure(self, parts, place, name, given):
        """Reads a closure up to the end of its group or to the next comma."""
        bar = find(parts, place + 1, "|")
        end = find(parts, bar, ",")
        self.expression(parts[bar + 1 : end], name, given or names(parts[place:bar], GIVEN))
        return end


def is_closure(parts, place):
    """Whether a bar begins a closure: an operator stands behind an operand."""
    if place == 0:
        return True
    before = parts[place - 1]
    return not isinstance(before, Group) and before.text in (",", "=", "move", "return", "(", "{", ";", "=>")


def is_refusal_test(test):
    """Whether a test is an equality with a refusal, or asks an error whether it is one, and nothing else."""
    texts = list(flat(test))
    if any(text in ("||", "!", "!=") for text in texts):
        return False
    return "is_memory" in texts or ("==" in texts and any(text in WORDS for text in texts))


def listed():
    """Returns the places of the list, with how often each is there."""
    count = {}
    with open(DECISIONS, encoding="utf-8") as file:
        for line in file:
            match = LISTED.match(line)
            if match:
                count[match.groups()] = count.get(match.groups(), 0) + 1
    return count


def main():
    left = listed()
    wrong = 0
    for path in sorted(glob.glob("crates/*/src/**/*.rt", recursive=True)):
        crate = path.split("/")[1]
        if crate.endswith("_tests"):
            continue
        reader = Reader(path)
        with open(path, encoding="utf-8") as file:
            reader.items(tree(file.read()))
        short = path[len("crates/") :]
        for name, line in reader.built:
            if left.get((short, name), 0) > 0:
                left[short, name] -= 1
            else:
                print(f"{path}:{line}: `{name}` answers that memory ran out, and hands on no refusal")
                wrong += 1
        if "--all" in sys.argv[1:]:
            for name, line in reader.handed_on:
                print(f"{path}:{line}: `{name}` hands on a refusal")
    for (path, name), count in left.items():
        if count > 0:
            print(f"{DECISIONS}: crates/{path}: `{name}` has no such place, or fewer than are listed")
            wrong += 1
    print(f"out of memory: {wrong} places without a reason" if wrong else "out of memory: each place has its reason")
    return 1 if wrong else 0


if __name__ == "__main__":
    sys.exit(main())
