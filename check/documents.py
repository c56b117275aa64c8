#!/usr/bin/env python3
"""Checks what the documents say of the sources, and one another.

Usage: check/documents.py           checks
       check/documents.py --types   prints docs/TYPES.md as the sources make it
       check/documents.py --causes  writes the files of crates/cause_texts that docs/FORMATS.md makes

Each link between the documents leads to a file, and to a heading of it. Each row of docs/DEFINITIONS.md names files of crates that are
there and have what the row names. docs/TYPES.md is what the sources make. The table of crates in docs/ARCHITECTURE.md has each crate of
crates.txt once, and where that page says that a function calls another, its body names it. Each crate and each file that the tables of
CONTRIBUTING.md name is there. The tables of causes in docs/FORMATS.md have each cause that the tools' sources write in messages, with an example and what
to do, and the files of crates/cause_texts that are made of that page are what it makes. The last line is 'N passed, M failed'.
"""
import pathlib
import re
import sys

from modules import cause_sources, causes

TOP = pathlib.Path(__file__).resolve().parent.parent
TESTS = ("base_tests", "format_tests", "fabric_tests", "vlog_tests")
# crates that write messages, and a cause in a literal of theirs
SPEAKERS = re.compile(r"\w+_tools?|tool_inputs|design_answers")
SPOKEN = re.compile(r'"(?:: )?([A-Z][a-z][A-Za-z]*)(?: expected \w+| net)? ?"')
# a call in docs/ARCHITECTURE.md, as `run_icepack` calls `run_tool`
CALL = re.compile(r"`(?:\w+::)?(\w+)`(?: of `\w+`)? (?:calls|asks) `(?:\w+::)?(\w+)`")
TYPE = re.compile(r"(?:\s*(?:pub(?:\(\w+\))? )?(struct|enum|trait)|(?:pub(?:\(\w+\))? )?(type)) (\w+)")


def crates():
    rows = (line.split(":")[0] for line in (TOP / "crates.txt").read_text().splitlines() if line and line[0] != "#")
    return list(rows)


def pages():
    return [TOP / "README.md", TOP / "CONTRIBUTING.md", TOP / "check/README.md", TOP / "bench/README.md", *sorted((TOP / "docs").glob("*.md"))]


def anchor_of(heading):
    return re.sub(r"[^\w\- ]", "", heading.strip().lower()).replace(" ", "-")


def anchors_in(page):
    return {anchor_of(match.group(1)) for match in re.finditer(r"^#+ (.*)$", page.read_text(), re.M)}


def broken_links():
    for page in pages():
        for match in re.finditer(r"\]\(([^)#\s]*)(?:#([^)\s]+))?\)", page.read_text()):
            file, anchor = match.groups()
            if "://" in file:
                continue
            target = (page.parent / file) if file else page
            if not target.exists():
                yield "%s: no file %s" % (page.relative_to(TOP), file)
            elif anchor and target.suffix == ".md" and anchor not in anchors_in(target):
                yield "%s: no heading %s in %s" % (page.relative_to(TOP), anchor, target.relative_to(TOP))


def wrong_definitions():
    page = TOP / "docs/DEFINITIONS.md"
    for number, line in enumerate(page.read_text().splitlines(), 1):
        cells = line.split(" | ")
        files = re.findall(r"`([\w/]+\.antt)`", cells[1]) if len(cells) > 3 else []
        if not files:
            continue
        texts = ""
        for file in files:
            path = TOP / "crates" / file
            if path.exists():
                texts += path.read_text()
            else:
                yield "docs/DEFINITIONS.md:%d: no file crates/%s" % (number, file)
        for name in re.findall(r"`([\w.\-]+)`", cells[0].split(":")[0]):
            if not re.search(r"(?<![\w-])%s(?![\w-])" % re.escape(name.split(".")[-1]), texts):
                yield "docs/DEFINITIONS.md:%d: no %s in %s" % (number, name, ", ".join(files))


def first_sentence(lines):
    text = " ".join(lines)
    end = re.search(r"\.(?= [A-Z`]|$)", text)
    return text[:end.start()] if end else text.rstrip(".")


def types_in(crate):
    source = TOP / "crates" / crate / "src"
    for file in sorted(source.rglob("*.rt")):
        if "tests" in file.relative_to(source).parts:
            continue
        lines = file.read_text().splitlines()
        for at, line in enumerate(lines):
            match = TYPE.match(line)
            if not match:
                continue
            before, said = at - 1, []
            while before >= 0 and re.match(r"\s*(//|#\[)", lines[before]):
                if "//" in lines[before]:
                    said.insert(0, lines[before].strip().lstrip("/").strip())
                before -= 1
            if "" in said:
                said = said[:said.index("")]
            yield match.group(3), match.group(1) or match.group(2), crate, file.relative_to(source).as_posix(), first_sentence(said)


def types_page():
    rows = sorted((row for crate in crates() if crate not in TESTS for row in types_in(crate)), key=lambda row: (row[0].lower(), row[2]))
    head = ("# Types", "", "Where each type, each trait and each other name of a type (`type`) stands, and what it is. `check/documents.py --types` makes this page of",
            "the sources; crates with tests alone are left out.", "", "| type | | crate, file | what it is |", "|---|---|---|---|")
    return "\n".join([*head, *("| `%s` | %s | `%s`, `%s` | %s |" % (name, kind, crate, file, said) for name, kind, crate, file, said in rows), ""])


def wrong_types():
    page = TOP / "docs/TYPES.md"
    if not page.exists() or page.read_text() != types_page():
        yield "docs/TYPES.md isn't what the sources make: check/documents.py --types >docs/TYPES.md"


def wrong_crates():
    listed = re.findall(r"^\| `(\w+)` \|", (TOP / "docs/ARCHITECTURE.md").read_text().split("## The crates")[1].split("\n## ")[0], re.M)
    for crate in crates():
        if crate not in TESTS and listed.count(crate) != 1:
            yield "docs/ARCHITECTURE.md: the table of crates has %s %d times" % (crate, listed.count(crate))
    for name in listed:
        if name not in crates():
            yield "docs/ARCHITECTURE.md: the table of crates has %s, which isn't one" % name


def bodies_of(name):
    """The text of each function of this name: from its head to the next line that ends an item at its depth."""
    for crate in crates():
        for file in sorted((TOP / "crates" / crate / "src").rglob("*.rt")):
            yield from (match.group(2) for match in re.finditer(r"^( *)(?:pub(?:\(\w+\))? )?fn %s\b(.*?)^\1}" % name, file.read_text(), re.M | re.S))


def wrong_calls():
    text = re.sub(r"\s+", " ", (TOP / "docs/ARCHITECTURE.md").read_text())
    for caller, callee in CALL.findall(text):
        if not any(re.search(r"\b%s\b" % callee, re.sub(r"//.*", "", body)) for body in bodies_of(caller)):
            yield "docs/ARCHITECTURE.md: no function %s names %s" % (caller, callee)


def wrong_places():
    """Crates and files that the tables of CONTRIBUTING.md name and that aren't there."""
    text = (TOP / "CONTRIBUTING.md").read_text().split("## Where things go")[1]
    for row in re.findall(r"^\|.*\|$", text, re.M):
        for name in re.findall(r"`([a-z]\w*)`", row):
            if "_" in name and name not in crates() and not bodies_named(name):
                yield "CONTRIBUTING.md: no crate %s" % name
        first = re.findall(r"`(\w+)`", row.split("|")[1])
        for file in re.findall(r"`((?:\w+/)?(?:src|specs)/[\w/]+\.(?:rt|antt))`", row):
            if not any((TOP / "crates" / home / file).exists() for home in (*first, ".")):
                yield "CONTRIBUTING.md: no file %s" % file


def bodies_named(name):
    """Whether the sources or the definitions have this word."""
    files = (file for crate in crates() for part in ("src", "specs") for file in (TOP / "crates" / crate / part).rglob("*.*t*"))
    return any(re.search(r"\b%s\b" % name, file.read_text()) for file in files)


def spoken_causes():
    files = [file for crate in crates() if SPEAKERS.fullmatch(crate) for file in (TOP / "crates" / crate / "src").rglob("*.rt")]
    return {word for file in files for word in SPOKEN.findall(file.read_text())}


def wrong_causes():
    told = causes.read()
    yield from ("docs/FORMATS.md: %s" % fault for fault in causes.faults(told, spoken_causes()))
    yield from ("%s: check/modules/cause_sources.py has no group for the chapter that has it first" % word for word in cause_sources.lacking(told))
    for name, text in cause_sources.files(told).items():
        page = TOP / name
        if not page.exists() or page.read_text() != text:
            yield "%s isn't what docs/FORMATS.md makes: check/documents.py --causes" % name


def write_causes():
    for name, text in cause_sources.files(causes.read()).items():
        (TOP / name).write_text(text)


def main():
    does = {"--types": lambda: sys.stdout.write(types_page()), "--causes": write_causes}
    if len(sys.argv) == 2 and sys.argv[1] in does:
        does[sys.argv[1]]()
        return 0
    if sys.argv[1:]:
        print(__doc__)
        return 2
    checks = (broken_links, wrong_definitions, wrong_types, wrong_crates, wrong_calls, wrong_places, wrong_causes)
    failures = [list(check()) for check in checks]
    for told in failures:
        print("\n".join(told), end="\n" if told else "")
    failed = sum(1 for told in failures if told)
    print("%d passed, %d failed" % (len(checks) - failed, failed))
    return 1 if failed else 0


if __name__ == "__main__":
    sys.exit(main())
