"""Tests of the documents: each link leads to a file and a heading there, no line but a table's is
wider than 100 columns, and what PROOFS and ARCHITECTURE quote stands in the crates. They take a
second.
"""
import glob
import os
import re
import shutil
import subprocess

import prove
import pytest
import served
from served import TOP, read

PAGES = sorted(glob.glob(f"{TOP}/*.md") + glob.glob(f"{TOP}/docs/*.md"))
FILES = [it for it in glob.glob(f"{TOP}/*/**", recursive=True) if "/out/" not in it]


def prose(page):
    return re.sub(r"^ *```.*?^ *```", "", read(page), flags=re.DOTALL | re.MULTILINE)


def anchors(page):
    """As a browser names the headings of a page."""
    headings = re.findall(r"^#+ (.*)", prose(page), re.MULTILINE)
    return {re.sub(r"[^\w -]", "", it.lower()).replace(" ", "-") for it in headings}


@pytest.mark.parametrize("page", PAGES, ids=os.path.basename)
def test_each_link_leads_to_a_file_and_a_heading(page):
    for link in re.findall(r"\]\(([^)\s]+)\)", re.sub(r"`[^`]*`", "", prose(page))):
        name, _, heading = link.partition("#")
        file = os.path.join(os.path.dirname(page), name) if name else page
        assert os.path.exists(file), link
        assert not heading or heading in anchors(file), link


@pytest.mark.parametrize("page", PAGES, ids=os.path.basename)
def test_no_line_but_a_tables_is_wider_than_100_columns(page):
    wide = [line for line in read(page).splitlines() if len(line) > 100]
    assert [line for line in wide if not line.lstrip().startswith("|")] == []


@pytest.mark.parametrize("page", ["PROOFS", "ARCHITECTURE"])
def test_what_is_quoted_stands_in_the_crates(page):
    sources = [it for it in FILES if re.search(r"/crates/\w+/(src|specs)/.*\.", it)]
    known = re.findall(r"\w+", " ".join([*map(read, [*sources, f"{TOP}/crates.txt"]), *FILES]))
    quoted = re.findall(r"\w\w+", " ".join(re.findall(r"`[^`]*`", prose(f"{TOP}/docs/{page}.md"))))
    assert set(quoted) - set(known) == set()


def test_the_newest_version_of_the_changelog_is_that_of_the_sources():
    newest = re.search(r"^## (\S+)$", read(f"{TOP}/CHANGELOG.md"), re.MULTILINE)[1]
    assert newest == served.version()


def test_the_trusted_crates_are_those_that_no_crate_of_the_repository_is():
    lines = prove.read_lines()
    stood_on = set().union(*lines.values()) - set(lines)
    page = prose(f"{TOP}/docs/PROOFS.md").replace("\n", " ")
    said = re.search(r"and its crates (.*?)\. ", page)[1]
    listed = re.findall(r"`(\w+)`", said)
    assert sorted(listed) == sorted(stood_on)


@pytest.mark.skipif(not shutil.which("rt"), reason="the kit isn't there")
def test_as_many_functions_in_c_are_trusted_as_the_kit_declares():
    said = prose(f"{TOP}/docs/PROOFS.md").replace("\n ", "")
    kit = os.path.dirname(subprocess.check_output(["rt", "doc"], text=True).strip())
    for name in ("os", "libc"):
        sources = "".join(map(read, glob.glob(f"{kit}/rattle/{name}/src/**/*.rt", recursive=True)))
        code = re.sub(r"//.*", "", sources)
        declared = re.findall(r'extern "C" {.*?^}', code, re.DOTALL | re.MULTILINE)
        count = len(re.findall(r"\bfn \w", "".join(declared)))
        assert count > 0 and f"{count} of `{name}`" in said, count
