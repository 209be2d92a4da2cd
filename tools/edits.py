#!/usr/bin/env python3
"""Makes docs/EDITS.md from the wrong bodies of crates/NAME/wrong: which the prover refuses, and by
whose contract.

    tools/edits.py write    writes the page's tables; says with status 1 where an edit is amiss

The first line of an edit is '# CALL: WRONG BODY': the call whose contract it turns, as
docs/PROOFS.md names it, and what the body does. tools/wrong_bodies.py doesn't read that line.
"""
import pathlib
import re
import sys

import edited_copies
import prove
from prove import TOP, read


def edits(tree=TOP):
    """Each edit: its crate and name, with the call and the wrong body that its first line says, or
    None."""
    for path in sorted(pathlib.Path(tree).glob("crates/*/wrong/*.edit")):
        says = re.match(r"# ([\w:]+): (\S.*)\n", read(path))
        yield path.parts[-3], path.stem, says and says.groups()


def page_of(found, page):
    """The page with a table for each crate behind its head."""
    tables = {}
    for crate, name, says in sorted(found, key=lambda it: (it[0], it[2] or ("", ""), it[1])):
        call, body = says or ("", "")
        tables.setdefault(crate, []).append(f"| `{call}` | {body} | `{name}` |\n")
    columns = "| Contract | Wrong body | Edit |\n|---|---|---|\n"
    texts = (f"## `{crate}`\n\n{columns}{''.join(rows)}" for crate, rows in tables.items())
    return "\n".join([page.partition("\n## `")[0], *texts])


def amiss(found, page, proofs):
    """What is wrong with these edits and this page, beside the page of promises, which may leave a
    call's type out."""
    named = set(re.findall(r"\w+", " ".join(re.findall(r"`[^`]*`", proofs))))
    wrong = [f"{crate}/{name} doesn't begin with '# CALL: WRONG BODY'"
             for crate, name, says in found if not says]
    wrong += [f"{crate}/{name}: docs/PROOFS.md has no {says[0]}" for crate, name, says in found
              if says and says[0].rpartition(":")[2] not in named]
    return wrong + ([] if page == page_of(found, page)
                    else ["docs/EDITS.md isn't what the edits say: tools/edits.py write"])


def unplaced(crates):
    return [f"{crate.name}/{edit}: {why}" for crate in crates for edit, why in crate.bad.items()]


def main():
    found, path = list(edits()), f"{TOP}/docs/EDITS.md"
    if sys.argv[1:] != ["write"]:
        sys.exit(__doc__)
    prove.write(path, page_of(found, read(path)))
    wrong = amiss(found, read(path), read(f"{TOP}/docs/PROOFS.md"))
    wrong += unplaced(edited_copies.Crate(it) for it in prove.read_crates())
    print("\n".join(wrong) or f"{len(found)} edits")
    return bool(wrong)


if __name__ == "__main__":
    sys.exit(main())
