#!/usr/bin/env python3
"""Finds what a reader has to know of a contract: each definition of the repository's specs on which
its clauses rest.

    tools/closure.py [FILE:FUNCTION ..]     lists them; with no contract those of docs/HEADLINE.md
    tools/closure.py fill                   writes the definitions' texts into docs/HEADLINE.md;
                                            says with status 1 what lacks an entry

FILE stands below crates (group/src/run.rt), FUNCTION is a name, or TYPE::NAME in a trait or an
impl; behind it may stand #CLAUSE, the name of the only clause to show. A clause's names lead to
definitions by the imports of its file, and so does each definition. What the kit defines isn't
followed. A type that is declared in the code is listed, and not followed further: its fields stand
there.

The first cells of the page's tables have to name each of these types, each type in a field of one,
or in the head of a contract's function, that contracts see as another value, and each word of the
kit that is cited.
"""
import functools
import glob
import itertools
import os
import pathlib
import re
import sys
import textwrap
from collections import namedtuple

from prove import TOP, read

PAGE = "docs/HEADLINE.md"

# Where a definition begins, and what it is called.
BEGINNING = re.compile(
    r"(?:pub |abbrev |unfoldable )*(?:abbrev|unfoldable|record|data)(?: pub)? ([^\s:({]+)")
NAME = re.compile(r"«[^»]*»|[^\W\d][\w?'!×]*")
BINDERS = [re.compile(it) for it in (
    r"[({]\s*([^\W\d][\w' ]*?)\s*:[^:]", r"λ ([\w' ]+)\.", r"\blet (\w+) =")]

# A definition, by the crate and file in which it stands, and its first and last line there. Of what
# stands in the code the lines are left out.
Definition = namedtuple("Definition", "crate file name first last", defaults=(0, 0))


class Trouble(SystemExit):
    """Why there is no closure."""


def without_comments(text):
    return re.sub(r"(^|\s)(--|//).*", r"\1", text)


def imports_of(text, word):
    """By the name that a file uses: the module and the name there, or the module alone for an alias
    of one."""
    found = {}
    line = rf"^\s*(?:pub )?{word}([\w.]+?)(?:\.\{{([^}}]*)\}}| as (\w+))\s*;?\s*$"
    for path, names, alias in re.findall(line, text, re.MULTILINE):
        if alias:
            found[alias] = (path, None)
        for name in filter(None, map(str.strip, names.split(","))):
            there, _, here = name.partition(" as ")
            found[(here or there).strip()] = (path, there.strip())
    return found


class Sources:
    """The specs of a tree, read as they are asked for."""

    def __init__(self, tree):
        self.tree = tree

    def path(self, *parts):
        return os.path.join(self.tree, "crates", *parts)

    @functools.cache
    def spec(self, crate, file):
        """The definitions of a file of specs, by name, its lines, and its imports."""
        text = read(self.path(crate, "specs", f"{file.replace('.', '/')}.antt"))
        defined, name = {}, None
        for at, line in enumerate(text.splitlines(), 1):
            if begins := BEGINNING.match(line):
                name = begins[1]
                defined[name] = Definition(crate, file, name, at, at)
            elif line.startswith(("--", "use ", "pub use ", "pub mod ")):
                name = None
            elif name and line.strip():
                defined[name] = defined[name]._replace(last=at)
        return defined, text.splitlines(), imports_of(text, "use ")

    def text_of(self, definition):
        lines = self.spec(definition.crate, definition.file)[1]
        return "\n".join(lines[definition.first - 1 : definition.last])

    def find(self, module, name):
        """What an imported name is: a definition, a type or constant of the code, or None if it is
        the kit's."""
        parts = module.split(".")
        is_ours = parts[0] == "Rattle" and parts[2:3] == ["specs"]
        if not is_ours or not os.path.isdir(self.path(parts[1])):
            return None
        crate, within = parts[1], parts[3:]
        if within[:1] == ["declared"]:
            type_at = next(at for at, part in enumerate(within) if part[0].isupper())
            of_code = name if within[type_at] == "TheConstants" else within[type_at]
            return Definition(crate, "/".join(within[1:type_at]), of_code)
        defined, _, imports = self.spec(crate, ".".join(within))
        if name in defined:
            return defined[name]
        return self.find(*imports[name]) if name in imports else None

    def cited(self, text, imports, defined):
        """What a text names by these imports, or by the definitions of its own file: each name with
        the definition or type to which it leads, or None if the kit has it."""
        text = without_comments(text)
        bound = {name for form in BINDERS for names in form.findall(text) for name in names.split()}
        text = re.sub(r"\bpub [\w'«»]+ :", " ", text)
        text = re.sub(r"([{;]\s*)[\w'«»]+ = ", r"\1", text)
        for match in NAME.finditer(text):
            name, before = match[0], text[: match.start()]
            if before.endswith("."):
                alias = re.search(r"\w+(?=\.$)", before)
                if alias and imports.get(alias[0], ("", ""))[1] is None:
                    yield f"{alias[0]}.{name}", self.find(imports[alias[0]][0], name)
            elif name in imports and imports[name][1] is not None:
                yield name, self.find(*imports[name])
            elif name in defined and name not in bound:
                yield name, defined[name]

    def head_and_clauses(self, contract):
        """The head of a contract's function, its clauses' texts, and the imports of its file."""
        file, _, function = contract.partition(":")
        text = read(self.path(file))
        function, _, only = function.partition("#")
        owner, _, name = function.rpartition("::")
        of = rf"^(?:pub )?(?:trait|impl)\b[^{{;]*\b{owner}\b" if owner else ""
        start = re.search(of, text, re.MULTILINE)
        start = start and re.compile(rf"\bfn {name}\b").search(text, start.end())
        if not start:
            raise Trouble(f"{file} has no {function}")
        ends = re.compile(r"\brequires\b|\bensures\b|\{|;$", re.MULTILINE)
        at = ends.search(text, start.end()).start()
        head, clauses = text[start.start() : at], []
        while clause := re.compile(r"(?:\s|//.*)*(?:requires|ensures)\b[^{]*\{").match(text, at):
            depth, at = 1, clause.end()
            while depth:
                depth += {"{": 1, "}": -1}.get(text[at], 0)
                at += 1
            if not only or re.search(rf"\b(?:requires|ensures) {only} \{{$", clause[0]):
                clauses.append(text[clause.start() : at].strip())
        if only and not clauses:
            raise Trouble(f"{file} has no clause {only} of {function}")
        return head, clauses, imports_of(text, "ghost use ")

    def closure(self, contracts):
        """The definitions and types on which contracts rest, in the order in which a reader meets
        them, and the kit's words."""
        found, words, waiting = {}, {}, []
        for contract in contracts:
            _, clauses, imports = self.head_and_clauses(contract)
            waiting += self.cited("\n".join(clauses), imports, {})
        while waiting:
            name, definition = waiting.pop(0)
            if definition is None:
                words[name] = None
            elif definition not in found:
                found[definition] = None
                if definition.first:
                    defined, _, imports = self.spec(definition.crate, definition.file)
                    waiting += self.cited(self.text_of(definition), imports, defined)
        return [it for it in found if it.first], [it for it in found if not it.first], list(words)

    def seen_as_others(self, contracts, types):
        """The types in the fields of these types, and in the heads of contracts, that contracts see
        as another value."""
        heads = [self.head_and_clauses(contract)[0] for contract in contracts]
        sources = "\n".join(map(read, glob.glob(self.path("*", "src", "*.rt"))))
        models = set(re.findall(r"\bimpl(?:<[^{;]*?>)? Model for (\w+)", sources))
        for it in types:
            text = read(self.path(it.crate, "src", f"{it.file}.rt"))
            body = re.search(rf"\b(?:struct|enum|const) {it.name}\b.*?(?:^\}}|;$)", text,
                             re.MULTILINE | re.DOTALL)
            heads.append(without_comments(body[0]))
        return sorted(models & set(re.findall(r"\w+", "\n".join(heads))))


def place_of(definition):
    return f"{definition.crate}/specs/{definition.file.replace('.', '/')}.antt"


def counts_of(definitions):
    lines = sum(it.last - it.first + 1 for it in definitions)
    files = len(set(map(place_of, definitions)))
    return f"{len(definitions)} definitions in {files} files, {lines} lines"


# An entry of the page: the names that one paragraph explains, in a line of its own, and the texts
# after it, without the comments of the sources.
TEXT = r"```text\n(?:.*\n)*?```\n"
ENTRY = re.compile(
    rf"^<!-- ((?:\w+\.\w+\.\S+\s+)+)-->\n(?:\*In [^*]*\*\n\n{TEXT})?", re.MULTILINE)
CONTRACT = re.compile(
    rf"^<!-- contract ([\w/.]+:[\w:]+(?:#\w+)?) -->\n(?:{TEXT})?", re.MULTILINE)
COUNTS = re.compile(r"^<!-- counts -->\n(?:.+\n)+", re.MULTILINE)
FIRST_CELL = re.compile(r"^\|([^|]*)\|", re.MULTILINE)


def contracts_of(page):
    return [it[1] for it in CONTRACT.finditer(page)]


# The widest line of the page. A longer one of the sources is broken before one of these words, the
# ones that bind least first.
WIDTH = 100
BINDING = {word: at for at, words in enumerate(
    ("→ then else in", "× ⊎", "≡ ≤", "++ ∷ && || +"), 1) for word in words.split()}


def indent_of(line):
    return len(line) - len(line.lstrip())


def broken(line, following=""):
    """A line of a definition as lines of the page, each broken where the fewest brackets are open,
    as a source could be."""
    if len(line) <= WIDTH:
        return [line]
    first, indent = line.split()[0], indent_of(line)
    # (how many brackets are open at each place)
    open_at = list(itertools.accumulate(
        (before in "({[") - (mark in ")}]") for before, mark in zip(" " + line, line)))
    enough = min(len(line) + indent + 4 - WIDTH, WIDTH // 2)

    def cost(at):
        before, behind = line[:at].split()[-1], line[at:].split()[0]
        binding = BINDING.get(behind, 5)
        is_parameter = line.startswith("pub record") and behind.startswith("(")
        if before == "=" and open_at[at] == 0 or before.endswith(";") or is_parameter:
            binding = 0
        elif before == ":":
            binding = 4 if line.startswith("  pub") else 6
        return at < enough or len(line) < at + 12, open_at[at], binding, -at

    places = range(indent + 1, WIDTH + 1)
    at = min((at for at in places if line[at] == " " and line[:at].strip()), key=cost)
    heads = [first, *(following.split()[:1] if indent_of(following) == indent else ())]
    is_chain = line[at:].split()[0] in heads
    indent = indent if is_chain else max(indent + 4, indent_of(following))
    return [line[:at], *broken(" " * indent + line[at + 1 :])]


def narrow(text):
    lines = text.splitlines()
    return "\n".join(part for line, following in zip(lines, [*lines[1:], ""])
                     for part in broken(line, following))


def key_of(definition):
    return f"{definition.crate}.{definition.file}.{definition.name}"


def filled(page, sources):
    """The page with the texts that the sources have now, and what is wrong with its entries."""
    contracts = contracts_of(page)
    definitions, types, words = sources.closure(contracts)
    by_key = {key_of(it): it for it in definitions}
    named = [key for match in ENTRY.finditer(page) for key in match[1].split()]
    wrong = [f"{key} stands twice" for key in dict.fromkeys(named) if named.count(key) > 1]
    wrong += [f"{key} has no entry" for key in by_key if key not in named]
    wrong += [f"{key} is no longer cited" for key in named if key not in by_key]
    listed = {name for cell in FIRST_CELL.findall(page) for name in re.findall(r"`([^`]*)`", cell)}
    listed_too = [it.name for it in types] + sources.seen_as_others(contracts, types) + words
    wrong += [f"{name} isn't listed" for name in dict.fromkeys(listed_too) if name not in listed]

    def entry(match):
        here = [by_key[key] for key in match[1].split() if key in by_key]
        if not here:
            return match[0]
        texts = "\n\n".join(map(sources.text_of, here))
        places = ", ".join(f"`{it}`" for it in dict.fromkeys(map(place_of, here)))
        keys = "\n     ".join(textwrap.wrap(match[1], WIDTH - 9, break_on_hyphens=False))
        places = textwrap.fill(f"*In {places}*", WIDTH)
        return f"<!-- {keys} -->\n{places}\n\n```text\n{narrow(texts)}\n```\n"

    def contract(match):
        head, clauses, _ = sources.head_and_clauses(match[1])
        first, _, rest = head.rstrip().partition("\n")
        lines = [first, *textwrap.dedent(rest).splitlines()]
        lines += [f"    {line}" for clause in clauses for line in clause.splitlines()]
        text = "\n".join(lines)
        return f"<!-- contract {match[1]} -->\n```text\n{narrow(text)}\n```\n"

    page = CONTRACT.sub(contract, ENTRY.sub(entry, page))
    counts = f"{counts_of(definitions)}, over {len(types)} types and constants of the code."
    if len(contracts) > 1:
        counts += f"\nThe first contract rests on {counts_of(sources.closure(contracts[:1])[0])}."
    return COUNTS.sub(f"<!-- counts -->\n{counts}\n", page), wrong


def main():
    contracts, sources, path = sys.argv[1:], Sources(TOP), os.path.join(TOP, PAGE)
    if contracts == ["fill"]:
        page, wrong = filled(read(path), sources)
        pathlib.Path(path).write_text(page, encoding="utf-8")
        print("\n".join(wrong) or counts_of(sources.closure(contracts_of(page))[0]))
        return bool(wrong)
    definitions, types, _ = sources.closure(contracts or contracts_of(read(path)))
    for it in definitions:
        print(f"crates/{place_of(it)}:{it.first}-{it.last} {it.name}")
    for it in types:
        print(f"crates/{it.crate}/src/{it.file}.rt {it.name}")
    print(f"{counts_of(definitions)}; {len(types)} types and constants of the code")
    return 0


if __name__ == "__main__":
    sys.exit(main())
