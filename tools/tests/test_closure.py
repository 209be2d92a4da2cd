"""Tests of what `tools/closure.py` finds, over a small tree that is written here, and that
docs/HEADLINE.md has what its contracts rest on. They take a second.
"""
import re

import closure
import pytest
from prove import read, write
from served import TOP

FILES = {
    "low/specs/Sizes.antt": """-- Sizes.
use Rattle.std.specs.Prelude.{ℕ}

-- how large
-- a thing is
pub record Size : Type 0 where
  pub width : ℕ

abbrev pub unused : ℕ
unused = 1

unfoldable pub limit : ℕ
limit = 8
""",
    "low/specs/Kinds.antt": """use Rattle.std.specs.Prelude.{ℕ, Bool, true, false}
use Rattle.low.specs.declared.parts.shape.Shape.{Shape}
use Rattle.low.specs.declared.parts.shape.Shape.TheVariants as is
use Rattle.low.specs.Sizes as sizes

-- whether it is round, and not unused
abbrev pub is_round : Shape → Bool
is_round is.Round = true

is_round (is.Square limit) = false
-- the most
abbrev pub most : ℕ
most = sizes.limit

abbrev pub shadowed : ℕ
shadowed = 2

abbrev pub IsSmall : ℕ → Type 0
IsSmall n = (shadowed : ℕ) × (n ≤ shadowed) × (n ≤ most)
""",
    "high/src/call.rt": """ghost use Rattle.std.specs.Prelude.{◌≡◌};
ghost use Rattle.low.specs.Kinds.{is_round, IsSmall};
ghost use Rattle.low.specs.Sizes.{Size as Sized};

pub fn other(n: u64)
    requires { IsSmall n }
{
}

pub trait Thing {
    fn call(&mut self, n: [u8; 4]) -> u64
        requires small { IsSmall n } // and never is_round
        ensures size { (s : Sized) → (record { is_round = n }) ≡ s.IsSmall };
}

impl Thing for Other {
    fn call(&mut self) {
        is_round
    }
}

fn last(text: &Text<u8>)
    ensures { is_round result }
{
}
""",
}


@pytest.fixture
def tree(tmp_path):
    for name, text in FILES.items():
        write(tmp_path / "crates" / name, text)
    return str(tmp_path)


# By contracts the definitions to which each leads, their count, the types of the code and the kit's
# words.
CLOSURES = {
    "call.rt:Thing::call": (
        ["low.Kinds.IsSmall", "low.Sizes.Size", "low.Kinds.most", "low.Sizes.limit"],
        "4 definitions in 2 files, 8 lines", [], ["ℕ"]),
    "call.rt:Thing::call#small": (
        ["low.Kinds.IsSmall", "low.Kinds.most", "low.Sizes.limit"],
        "3 definitions in 2 files, 6 lines", [], ["ℕ"]),
    "call.rt:Thing::call#size": (
        ["low.Sizes.Size"], "1 definitions in 1 files, 2 lines", [], ["ℕ"]),
    "call.rt:last": (
        ["low.Kinds.is_round"], "1 definitions in 1 files, 4 lines",
        [("low", "parts/shape", "Shape")], ["Bool", "true", "false"]),
}


@pytest.mark.parametrize("contract", CLOSURES)
def test_a_contract_leads_to_what_its_clauses_name_and_what_that_rests_on(tree, contract):
    found, types, words = closure.Sources(tree).closure([f"high/src/{contract}"])
    types = [(it.crate, it.file, it.name) for it in types]
    keys, count = list(map(closure.key_of, found)), closure.counts_of(found)
    assert (keys, count, types, words) == CLOSURES[contract]


@pytest.mark.parametrize("contract, lacks", [
    ("Thing::call#none", "clause none of Thing::call"), ("Thing::none", "Thing::none")])
def test_a_function_or_a_clause_that_isnt_there_is_said(tree, contract, lacks):
    with pytest.raises(closure.Trouble, match=f"high/src/call.rt has no {lacks}"):
        closure.Sources(tree).closure([f"high/src/call.rt:{contract}"])


def test_a_type_that_contracts_see_as_another_value_is_found_in_fields_and_heads(tree):
    seen = ("impl Model for Sides", "impl<T: Drop> Model for Text<T>", "impl Model for Unseen")
    write(f"{tree}/crates/low/src/seen.rt", "".join(f"{it} {{\n}}\n" for it in seen))
    shape = "/// (no Unseen)\npub enum Shape {\n    Round,\n    Square(Sides),\n}\n"
    shape += "struct Other(Unseen);\n"
    write(f"{tree}/crates/low/src/parts/shape.rt", shape)
    sources, contracts = closure.Sources(tree), ["high/src/call.rt:last"]
    assert sources.seen_as_others(contracts, sources.closure(contracts)[1]) == ["Sides", "Text"]


FILLED = """# Page
<!-- contract high/src/call.rt:other -->
```text
fn other(n: u64)
    requires { IsSmall n }
```
It is small.
<!-- low.Kinds.IsSmall low.Kinds.most -->
*In `low/specs/Kinds.antt`*

```text
abbrev pub IsSmall : ℕ → Type 0
IsSmall n = (shadowed : ℕ) × (n ≤ shadowed) × (n ≤ most)

abbrev pub most : ℕ
most = sizes.limit
```
<!-- low.Sizes.unused -->
<!-- counts -->
3 definitions in 2 files, 6 lines, over 0 types and constants of the code.

| Word | Meaning |
|---|---|
| `N`, `ℕ` | a number |
"""
# Before it is filled the page lacks the texts, and has another count.
PAGE = re.sub(r"(\*In .*\n\n)?```text\n[^`]*```\n", "", FILLED)
PAGE = re.sub(r"(?<=<!-- counts -->\n).*", "none yet", PAGE)


def test_the_page_has_the_texts_and_says_what_has_no_entry(tree):
    page, wrong = closure.filled(PAGE, closure.Sources(tree))
    assert page == FILLED
    assert wrong == ["low.Sizes.limit has no entry", "low.Sizes.unused is no longer cited"]
    assert closure.filled(page, closure.Sources(tree)) == (page, wrong)
    unlisted = page.replace("`ℕ`", "ℕ")
    assert closure.filled(unlisted, closure.Sources(tree)) == (unlisted, [*wrong, "ℕ isn't listed"])


def test_the_headlines_page_has_what_its_contracts_rest_on():
    page = read(f"{TOP}/{closure.PAGE}")
    assert len(closure.contracts_of(page)) == 8
    now, wrong = closure.filled(page, closure.Sources(TOP))
    assert wrong == []
    assert now == page
