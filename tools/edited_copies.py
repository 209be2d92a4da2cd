"""Finds the functions of a crate, in the layout that `rt fmt` gives them, reads its wrong bodies,
and writes these into a copy of its folder, many beside one another: for tools/wrong_bodies.py."""
import collections
import glob
import os
import re
import shutil
from typing import NamedTuple

import prove
from prove import read, write

PARTS = ("src", "specs", "proofs")
# The proof of a function that is taken by its contract.
HOLE = """use Rattle.{crate}.proofs.{path}.Statement.{{statement}}

pub {name}_spec : {{M : Type 1}} → statement M
{name}_spec = ?
"""
# The most edits of one check. A check has some 30 to 45 s of its own; one of 49 copies took 2.2 GB.
MOST = 48


# ---- the functions of a crate

PUB = r"(?:pub(?:\([^)]*\))? )?"
HEAD = re.compile(rf"^(?P<indent> *){PUB}(?:(?:const|unsafe|final) )*fn (?P<name>\w+)")
BLOCK = re.compile(rf"^(?P<indent> *){PUB}(?:unsafe )?(?:impl|trait)\b(?P<rest>.*)")
TYPE = re.compile(rf"^ *{PUB}(?:struct|enum|union|trait) (\w+)", re.MULTILINE)
WORD = re.compile(r"[A-Za-z_]\w*")
# What a text names nothing by.
KEYWORDS = frozenset("let mut ref if else match for in return as _".split())


class Function(NamedTuple):
    """A function with a body: its file, the file of its type, that type, the trait of its impl, and
    its lines, counted from 0: its attributes' first one, that of its head, and the first and last
    of its body."""

    file: str
    home: str
    owner: str
    trait: str
    name: str
    top: int
    head: int
    first: int
    last: int

    def inside(self):
        """The module and type that it stands in, as the prover names them: those of its type, and
        for a method of a trait those of the impl."""
        module = re.sub(r"^src/|/mod\.rt$|\.rt$", "", self.home)
        modules = [] if module in ("lib", "main") else module.split("/")
        return [*modules, self.owner + self.trait] if self.owner else modules

    def path(self, name=None):
        """Its path below the crate as the prover names it, or that of a function beside it."""
        return "::".join([*self.inside(), name or self.name])


def end_of(lines, at, indent):
    """The line with the brace that ends what begins at a line."""
    return next((it for it in range(at, len(lines)) if lines[it] == indent + "}"), at)


def owner_of(rest):
    """The type and the trait of an impl, by what stands behind the word."""
    rest = re.sub(r"\bFrom<(\w+)>", r"From\1", rest)
    while rest != (rest := re.sub(r"<[^<>]*>", "", rest)):
        pass
    parts = re.split(r"\{| where ", rest)[0].split(" for ")
    *trait, owner = ((WORD.findall(it) or [""])[-1] for it in parts)
    return owner, "".join(trait)


def body_of(lines, at, indent):
    """The first and the last line of the body of the function whose head stands at a line; None if
    it has none."""
    for row in range(at, len(lines)):
        line = lines[row]
        is_past = line.strip() and not line.startswith(indent) or line == indent + "}"
        if row > at and (is_past or HEAD.match(line)):
            return None
        if line == indent + "{}" or row == at and line.endswith(" {}"):
            return row, row
        is_head = row == at or line.startswith(indent + ")")
        if line == indent + "{" or line.endswith("{") and is_head:
            last = end_of(lines, row + 1, indent)
            return (row, last) if lines[last] == indent + "}" else None
    return None


def functions_in(texts):
    """The functions of a crate's files, each with the file of its type: the one that declares it,
    its own if that does."""
    homes = collections.defaultdict(list)
    for file, text in texts.items():
        for name in TYPE.findall(text):
            homes[name].append(file)
    for file, text in texts.items():
        lines, of, until = text.split("\n"), ("", ""), -1
        for at, line in enumerate(lines):
            block, head = BLOCK.match(line), HEAD.match(line)
            if block and at > until:
                until = end_of(lines, at, block["indent"])
                of = owner_of(block["rest"])
            body = head and body_of(lines, at, head["indent"])
            if body:
                top = at
                while top > 0 and re.match(r"\s*#\[", lines[top - 1]):
                    top -= 1
                owner, trait = of if at < until else ("", "")
                declared = homes.get(owner, [file])
                home = file if file in declared or trait else declared[0]
                yield Function(file, home, owner, trait, head["name"], top, at, *body)


# ---- its wrong bodies

class Misplaced(Exception):
    """Why an edit can't be tried."""


class Edit(NamedTuple):
    """A wrong body: its text, what it replaces in which file, the function that must fall, and
    whether it is tried in a copy of that."""

    name: str
    text: str
    pairs: tuple
    function: Function
    is_copied: bool


def pairs_of(text):
    """What an edit replaces: files, and in each a text by another."""
    file = old = None
    for word, rest in re.findall(r"^(file|old|new): ?(.*)$", text, re.MULTILINE):
        if word == "new" and not (file and old):
            raise Misplaced("a line 'new:' has no 'file:' and 'old:' before it")
        if word == "new":
            yield file, old, rest
        file = rest.strip() if word == "file" else file
        old = rest if word == "old" else None


def edited(text, pairs, file):
    for of, old, new in pairs:
        if of == file:
            text = text.replace(old, new)
    return text


def names_of(crate):
    paths = sorted(glob.glob(f"{prove.TOP}/crates/{crate}/wrong/*.edit"))
    return [os.path.basename(it).removesuffix(".edit") for it in paths]


class Crate:
    """A crate's sources, its functions, and the edits that can be placed, with what is wrong with
    the others."""

    def __init__(self, name):
        self.name, self.folder = name, f"{prove.TOP}/crates/{name}"
        files = sorted(glob.glob(f"{self.folder}/src/**/*.rt", recursive=True))
        self.texts = {os.path.relpath(it, self.folder): read(it) for it in files}
        self.root = "src/main.rt" if "src/main.rt" in self.texts else "src/lib.rt"
        self.functions = list(functions_in(self.texts))
        self.edits, self.bad = [], {}
        for edit in names_of(name):
            try:
                self.edits.append(self.placed(edit, read(f"{self.folder}/wrong/{edit}.edit")))
            except Misplaced as why:
                self.bad[edit] = str(why)

    def placed(self, name, text):
        """An edit, with the function in whose body it is, or the one that it names."""
        pairs, now, found = tuple(pairs_of(text)), dict(self.texts), set()
        if not pairs:
            raise Misplaced("it has no lines 'old:' and 'new:'")
        for file, old, new in pairs:
            count = now.get(file, "").count(old)
            if count != 1:
                raise Misplaced(f"{old!r} stands {count} times in {file}, and not once")
            found.add(self.around(file, now[file][: now[file].index(old)].count("\n")))
            now[file] = now[file].replace(old, new)
        if now == self.texts:
            raise Misplaced("it changes nothing")
        if named := re.search(r"^# in: (\S+)$", text, re.MULTILINE):
            falls = next((it for it in self.functions if it.path() == named[1]), None)
            if not falls:
                raise Misplaced(f"the crate has no function {named[1]}")
            return Edit(name, text, pairs, falls, False)
        if len(found) > 1 or None in found:
            raise Misplaced("it isn't in the body of one function, and has no line '# in: PATH' of"
                            " the one that must fall")
        return Edit(name, text, pairs, *found, self.can_copy(*found))

    def around(self, file, row):
        return next((it for it in reversed(self.functions)
                     if it.file == file and it.first <= row <= it.last), None)

    def proofs_of(self, function):
        """The folder of a function's proof files, below the crate's."""
        return f"proofs/{function.path().replace('::', '/')}"

    def can_copy(self, function):
        """Whether a function can stand twice: not a method of a trait's impl, nor one whose proof
        is by hand, which may name it in many ways."""
        by_hand = f"{self.folder}/{self.proofs_of(function)}/Proof.antt"
        return not function.trait and not os.path.exists(by_hand)

    def words_of(self, function):
        body = self.texts[function.file].split("\n")[function.first : function.last + 1]
        return set(WORD.findall("\n".join(body)))

    def control(self, edits):
        """The function whose unedited copy is proved beside these edits, too: a short one, with
        proof files if there is such; None if there is none. One of those that have edited copies;
        beside an edit in its place, one that calls no function of the crate, and names nothing of
        what is edited."""
        chosen = {it.function for it in edits if it.is_copied}
        if not chosen:
            named = {it.name for it in self.functions}
            for _, old, new in (pair for it in edits for pair in it.pairs):
                named.update(set(WORD.findall(f"{old} {new}")) - KEYWORDS)
            # (A law, whose body is empty, may have a long proof.)
            chosen = {it for it in self.functions if self.can_copy(it) and it.first < it.last
                      and not named & self.words_of(it)}
        proofs = {it: os.path.isdir(f"{self.folder}/{self.proofs_of(it)}") for it in chosen}
        return min(chosen, key=lambda it: (not proofs[it], it.last - it.first, it.path()),
                   default=None)


def rounds_of(edits):
    """The edits of each check that these need: many in copies, or one in its place."""
    copied = [it for it in edits if it.is_copied]
    count = -(-len(copied) // MOST)
    return [*(copied[at::count] for at in range(count)),
            *([it] for it in edits if not it.is_copied)]


class Room:
    """A copy of a crate's folder with the edits of a round, and with holes for the proofs of all
    functions that aren't edited. It has the path of the function that must fall, by its edit, and
    that of the unedited copy."""

    def __init__(self, crate, edits, control, folder):
        self.crate, self.folder, self.behind = crate, folder, collections.defaultdict(list)
        for part in PARTS:
            if os.path.isdir(f"{crate.folder}/{part}"):
                shutil.copytree(f"{crate.folder}/{part}", f"{folder}/{part}")
        placed = [pair for it in edits if not it.is_copied for pair in it.pairs]
        self.texts = {file: edited(text, placed, file) for file, text in crate.texts.items()}
        self.control = self.copy(control, (), f"{control.name}_right")
        self.falls = {}
        for at, it in enumerate(edits):
            self.falls[it.name] = (self.copy(it.function, it.pairs, f"{it.function.name}_wrong{at}")
                                   if it.is_copied else it.function.path())
        for file, text in self.texts.items():
            lines = enumerate(text.split("\n"))
            write(f"{folder}/{file}", "\n".join(
                it for at, line in lines for it in [line, *self.behind.get((file, at), [])]))
        self.asked = {self.control, *self.falls.values()}
        self.write_holes()

    def copy(self, function, pairs, name):
        """Notes a copy of a function to be written behind it, with its attributes and contract, and
        writes its proof files. Gives the copy's path."""
        lines = edited(self.texts[function.file], pairs, function.file).split("\n")
        body, head = lines[function.top : function.last + 1], function.head - function.top
        body[head] = re.sub(rf"\bfn {function.name}\b", f"fn {name}", body[head])
        self.behind[function.file, function.last] += ["", *body]
        module, to = (f".{'.'.join([*function.inside(), it])}." for it in (function.name, name))
        proofs = f"{self.folder}/proofs/{'/'.join([*function.inside(), name])}"
        for path in glob.glob(f"{self.crate.folder}/{self.crate.proofs_of(function)}/*.antt"):
            write(f"{proofs}/{os.path.basename(path)}", read(path).replace(module, to))
        return function.path(name)

    def write_holes(self):
        for it in self.crate.functions:
            # (The prover names an impl of From by its whole argument, which the file may not say.)
            if it.path() not in self.asked and not it.trait.startswith("From"):
                folder = f"{self.folder}/{self.crate.proofs_of(it)}"
                shutil.rmtree(folder, ignore_errors=True)
                path = it.path().replace("::", ".")
                hole = HOLE.format(crate=self.crate.name, path=path, name=it.name)
                write(f"{folder}/Proof.antt", hole)
