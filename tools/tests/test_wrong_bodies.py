"""Tests of tools/wrong_bodies.py over a small crate: which edits it passes, which it fails, and
what it keeps; and of their table, docs/EDITS.md, which says what the edits say, and names a promise
for each. Each of a few checks takes some seconds.
"""
import os
import re
import types

import edited_copies
import edits
import prove
import pytest
import wrong_bodies
from prove import write
from served import TOP, read

SOURCE = """#![tactic(auto)]

ghost use Rattle.std.specs.Prelude.{◌≡◌, ◌≤◌};

pub const MOST: usize = 8;

pub trait Sized {
    fn size(&self) -> usize
        ensures { result ≤ 8 };
}

pub struct Square {
    side: usize,
}

impl Sized for Square {
    fn size(&self) -> usize {
        if self.side < 8 { self.side } else { 8 }
    }
}

pub fn size_of(square: &Square) -> usize
    ensures { result ≤ 8 }
{
    square.size()
}

/// The least of two.
pub fn least(a: usize, b: usize) -> usize
    ensures first { result ≤ a }
    ensures second { result ≤ b }
{
    if a < b { a } else { b }
}

pub fn least_of_three(a: usize, b: usize, c: usize) -> usize
    ensures first { result ≤ a }
    ensures third { result ≤ c }
{
    least(least(a, b), c)
}

pub fn most() -> usize
    ensures { result ≡ 8 }
{
    MOST
}

pub fn same(a: usize) -> usize
    ensures { result ≡ a }
{
    let b = a;
    b
}
"""
ANSWERS = """use Rattle.std.proofs.Common.{refl}
use Rattle.low.proofs.same.Goals as goal

pub returns : goal.returns
returns c = refl
"""


def edit_of(*pairs, head=""):
    """The text of an edit of the crate's root that replaces these."""
    lines = "".join(f"old: {old}\nnew: {new}\n" for old, new in pairs)
    return f"{head}file: src/lib.rt\n{lines}"


LEAST, MOST = "if a < b { a } else { b }", ("MOST: usize = 8", "MOST: usize = 9")
EDITS = {
    "greatest": edit_of((LEAST, "if a < b { b } else { a }")),
    "other": edit_of(("least(least(a, b), c)", "least(c, least(c, b))")),
    "of_trait": edit_of(("if self.side < 8 { self.side } else { 8 }",
                         "if self.side < 8 { self.side } else { 9 }")),
    "constant": edit_of(MOST, head="# in: most\n"),
    "value": edit_of(("let b = a;", "let b = a / 2;")),
}
HARMLESS = edit_of((LEAST, "if b < a { b } else { a }"))
RENAMED = edit_of(("let b = a;", "let b = if a < 9 { a } else { 8 };"))
NO_CODE = edit_of((LEAST, "if a < b { a } else { nothing }"))
# Edits that can't be placed, with a word of what is said of each.
BAD = {
    "absent": (edit_of(("if b < a", "if a < b")), "stands 0 times"),
    "twice": (edit_of(("a: usize", "b: usize")), "and not once"),
    "empty": (edit_of(), "no lines 'old:' and 'new:'"),
    "same": (edit_of(("let b = a;", "let b = a;")), "changes nothing"),
    "outside": (edit_of(MOST), "isn't in the body of one function"),
    "unknown": (edit_of(MOST, head="# in: other::most\n"), "no function other::most"),
}
# By names runs: the edits, files beside them, how many edits pass, and how what is said of each
# other one begins.
RUNS = {
    "a right body and a lost name": (
        {"greatest": EDITS["greatest"], "harmless": HARMLESS, "renamed": RENAMED}, {}, 1,
        {"harmless": "NOT REFUSED: ", "renamed": "refused by a lost name: `returns`"}),
    "a control that isn't proved": (
        {"value": EDITS["value"], "greatest": EDITS["greatest"]},
        {"crates/low/proofs/same/Answers.antt": ANSWERS.replace("= refl", "= tt")}, 0,
        dict.fromkeys(("value", "greatest"), "NOT TRIED: the control same_right isn't proved")),
    "what doesn't compile is found by halves": (
        {"value": EDITS["value"], "no_code": NO_CODE}, {}, 1, {"no_code": "BAD EDIT: .*nothing"}),
    "a crate below that isn't built": (
        {"value": EDITS["value"]}, {"crates.txt": "below:\nlow: below\n"}, 0,
        {"value": "NOT TRIED: low stands on below, and not all of these are built"}),
    "a program": (
        {"greatest": EDITS["greatest"].replace("lib.rt", "main.rt")},
        {"crates/low/src/lib.rt": None, "crates/low/src/main.rt": f"{SOURCE}\nfn main() {{}}\n"},
        1, {}),
    "edits that can't be placed": (
        {name: text for name, (text, _) in BAD.items()}, {}, 0,
        {name: f"BAD EDIT: .*{why}" for name, (_, why) in BAD.items()}),
}


@pytest.fixture
def low(tmp_path, monkeypatch):
    """The folder of the small crate, in a repository of its own."""
    monkeypatch.setattr(prove, "TOP", str(tmp_path))
    monkeypatch.setattr(wrong_bodies, "KEPT", str(tmp_path / "kept"))
    monkeypatch.setattr(wrong_bodies, "LOGS", str(tmp_path / "logs"))
    (tmp_path / "crates.txt").write_text("low:\n")
    folder = tmp_path / "crates" / "low"
    write(folder / "src" / "lib.rt", SOURCE)
    write(folder / "proofs" / "same" / "Answers.antt", ANSWERS)
    return folder


def plant(low, edits):
    for name, text in edits.items():
        write(low / "wrong" / f"{name}.edit", text)


def run(capsys, *words):
    """A run's status, its count, and what it says of edits, by their names."""
    status = wrong_bodies.main([*words])
    said = capsys.readouterr().out.splitlines()
    edits_of = (line.strip().removeprefix("low/") for line in said if line.startswith("  "))
    return status, said[-1], dict(line.split(": ", 1) for line in edits_of)


def test_wrong_bodies_are_refused_beside_those_that_they_call_and_once(low, capsys, monkeypatch):
    plant(low, EDITS)
    assert run(capsys) == (0, "5 passed, 0 failed", {})
    # (what passed isn't tried again)
    again = lambda room: pytest.fail(f"{room.falls} are tried again")
    monkeypatch.setattr(wrong_bodies, "checked", again)
    assert run(capsys) == (0, "5 passed, 0 failed", {})
    assert run(capsys, "low/other") == (0, "1 passed, 0 failed", {"other": "refused"})


@pytest.mark.parametrize("edits, files, passed, others", RUNS.values(), ids=RUNS)
def test_what_passes_is_counted_and_what_fails_is_said(
        low, capsys, tmp_path, edits, files, passed, others):
    plant(low, edits)
    for path, text in files.items():
        if text:
            write(tmp_path / path, text)
        else:
            (tmp_path / path).unlink()
    status, count, said = run(capsys)
    assert (status, count) == (bool(others), f"{passed} passed, {len(others)} failed")
    assert said.keys() == others.keys()
    assert all(re.match(others[name], it) for name, it in said.items()), said


def test_as_many_checks_run_as_there_are_processors_and_memory_for(monkeypatch):
    for processors, gigabytes, count in ((4, 16.0, 4), (4, 8.0, 2), (4, 1.0, 1), (1, 8.0, 1)):
        monkeypatch.setattr(prove, "processors", lambda: processors)
        monkeypatch.setattr(prove, "free_gigabytes", lambda: gigabytes)
        assert wrong_bodies.workers() == count


def test_an_edit_in_its_place_has_a_check_of_its_own(low):
    caller = edit_of(("square.size()", "square.size() / 2"))
    plant(low, {"caller": caller, **{it: EDITS[it] for it in ("greatest", "of_trait", "constant")}})
    rounds = edited_copies.rounds_of(edited_copies.Crate("low").edits)
    names = [[it.name for it in edits] for edits in rounds]
    assert names == [["caller", "greatest"], ["constant"], ["of_trait"]]


LOST = "./proofs/f/A.antt:1:2: error: `r`: has no field `a`\n"
OTHERS = "it calls `low::g`, `low::h`, which are not proved"


@pytest.mark.parametrize("said, verdict", [
    ("fn low::f: not proved", "refused"),
    ("fn low::f: not proved; it stands on `x`, which antt refuses; it calls `low::g`, which is not"
     " proved", "refused"),
    ("fn low::f: no proof: expected answers in ./proofs/f/Answers.antt; `search` did not prove"
     " `returns`", "refused"),
    ("fn low::f: no proof: it calls `low::g`, which is not proved", "NOT REFUSED"),
    (f"fn low::f: not proved; {OTHERS}", "NOT REFUSED"),
    ("fn low::f: depends on a hole in `x`", "NOT REFUSED"),
    ("fn low::f: some words of another kit", "NOT REFUSED"),
    ("fn low::g: not proved", "NOT TRIED"),
    ("./proofs/f/Answers.antt:1:2: error: `r`: record `R` (nearest: .b)\n  has no field `a`\n"
     "fn low::f: not proved", "refused by a lost name"),
    (f"{LOST}fn low::f: not proved; {OTHERS}", "refused by a lost name"),
    (f"{LOST}fn low::f: no proof: it calls `low::g`, which is not proved",
     "refused by a lost name"),
    (f"{LOST}fn low::f: depends on a hole in `x`", "NOT REFUSED"),
    (f"{LOST}./proofs/f/A.antt:3:2: error: `s`: the types differ\nfn low::f: not proved",
     "refused"),
])
def test_what_a_check_says_is_read(low, said, verdict):
    assert wrong_bodies.Said(said, 1, 0).verdict(edited_copies.Crate("low"), "f").word == verdict


@pytest.fixture
def kept(low, tmp_path):
    """An edit that is kept, in a crate above another."""
    (tmp_path / "crates.txt").write_text("below:\nlow: below\n")
    write(low.parent / "below" / "src" / "lib.rt", "")
    write(low.parent / "below" / "out" / "rlib" / "below.rlib" / "format", "made once")
    plant(low, {"value": EDITS["value"]})
    edit = edited_copies.Crate("low").edits[0]
    wrong_bodies.Kept("low").keep([edit])
    assert wrong_bodies.Kept("low").has(edit)
    return edit


@pytest.mark.parametrize("path", [
    "low/src/lib.rt", "low/specs/Lib.antt", "low/proofs/same/Answers.antt", "below/src/lib.rt",
    "below/out/rlib/below.rlib/format"])
def test_nothing_is_kept_past_a_change_of_what_the_check_reads(low, kept, path):
    write(low.parent / path, "changed")
    assert not wrong_bodies.Kept("low").has(kept)


def test_nothing_is_kept_past_a_change_of_the_edit_or_of_the_tools(low, kept, monkeypatch):
    assert not wrong_bodies.Kept("low").has(kept._replace(text=kept.text + "# more\n"))
    monkeypatch.setattr(wrong_bodies, "sum_of_tools", lambda: "others")
    assert not wrong_bodies.Kept("low").has(kept)


def test_what_changed_during_its_check_is_not_kept(low, kept):
    again = kept._replace(name="again")
    at = wrong_bodies.Kept("low")
    write(low / "src" / "lib.rt", SOURCE + "\n")
    at.keep([again])
    assert not at.has(again) and not wrong_bodies.Kept("low").has(again)


def test_the_sum_of_the_tools_has_each_that_decides():
    sources = [edited_copies.read(f"{TOP}/tools/{it}.py") for it in wrong_bodies.TOOLS]
    imported = re.findall(r"^import (\w+)$", "\n".join(sources), re.MULTILINE)
    of_tools = {word for word in imported if os.path.exists(f"{TOP}/tools/{word}.py")}
    assert of_tools <= set(wrong_bodies.TOOLS)


def test_each_edit_of_the_repository_can_be_placed():
    crates = [edited_copies.Crate(it) for it in prove.read_crates()]
    assert edits.unplaced(crates) == []
    assert sum(len(it.edits) for it in crates) > 200
    assert all(it.control(some) for it in crates for some in edited_copies.rounds_of(it.edits))


def test_functions_are_found_with_their_paths():
    texts = {"src/lib.rt": SOURCE, "src/part/mod.rt": "fn f() {}\n"}
    found = {it.path(): it for it in edited_copies.functions_in(texts)}
    assert set(found) == {"SquareSized::size", "size_of", "least", "least_of_three", "most", "same",
                          "part::f"}
    body = SOURCE.split("\n")[found["least"].first : found["least"].last + 1]
    assert body == ["{", f"    {LEAST}", "}"]


# ---- the table

def test_the_page_says_what_the_edits_say():
    found, pages = list(edits.edits()), [read(f"{TOP}/docs/{it}.md") for it in ("EDITS", "PROOFS")]
    assert len(found) > 100
    assert edits.amiss(found, *pages) == []


def test_what_is_amiss_is_said():
    found = [("low", "first", ("Part::call", "it does nothing")), ("low", "second", None),
             ("top", "third", ("run", "it runs twice"))]
    assert edits.amiss(found, "", "`call` and `Part` run") == [
        "low/second doesn't begin with '# CALL: WRONG BODY'",
        "top/third: docs/PROOFS.md has no run",
        "docs/EDITS.md isn't what the edits say: tools/edits.py write",
    ]


def test_an_edit_that_cannot_be_placed_is_said():
    crates = [types.SimpleNamespace(name="low", bad={"first": "it changes nothing"})]
    assert edits.unplaced(crates) == ["low/first: it changes nothing"]


def test_an_edits_first_line_is_read(tmp_path):
    rest = "file: src/a.rt\nold: b\nnew: c\n"
    for name, head in (("first", "# Part::call: it says `no`: twice\n"), ("second", "")):
        write(tmp_path / "crates" / "low" / "wrong" / f"{name}.edit", head + rest)
    says = "Part::call", "it says `no`: twice"
    assert list(edits.edits(tmp_path)) == [("low", "first", says), ("low", "second", None)]
