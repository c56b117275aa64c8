"""The causes that docs/FORMATS.md tells of, as plain text: for each its word, where it comes, what it means, an example, and what to do.

A comment says where causes come, and their table follows it. Each row is a cause. Its cells are found by the heads of their columns:

    <!-- causes: in a text (.asc) -->

    | cause | when | what to do |
    |---|---|---|
    | `Kind expected KIND` | another kind of tile stands there | correct X and Y |

- The word of a cause is the first one in its cell that begins with a capital letter and goes on with a small one, as `Kind`. If there is none
  it is the first word. Rows of one word are one entry, to which a cell `as above` adds nothing.
- A column `offset` says what the offset in the message is, and a column `told by` which tools tell the cause.
- What is too long for a cell is an item of a list: '- `Loop`: more of what it means', or '- `Loop`, what to do: more of that'. Items below such
  an item begin with '  - '.
- Examples are commands that check/run runs: the lines of a block with the note 'check: each' (modules/transcripts.py says what that is), and the
  last command of a block after a paragraph that ends with 'For `Loop`, what it is an example of:'. The example of an entry is the first whose
  message has the word; those with a paragraph come before the others.

All of that stands between the comment and the next such comment or heading.
"""
import dataclasses
import itertools
import re
import shlex
import textwrap

from modules import transcripts
from modules.programs import TOP

PAGE = TOP / "docs/FORMATS.md"
WIDTH = 80
INDENT = "    "
BEGIN = re.compile(r"<!-- causes: (.*) -->$")
WORD = re.compile(r"\b[A-Z][a-z]\w*")
ITEM = re.compile(r"- `(\w+)`(, what to do)?: (.*)")
LEAD = re.compile(r"(?:.*\. )?For `(\w+)`, (.*):$")
AGAIN = "as above"


@dataclasses.dataclass
class Example:
    """An example: what it is of, or nothing; the lines of the input, or the command; and the message."""
    lead: str
    given: list
    message: str

    def has(self, word):
        """Whether the message has the word."""
        return re.search(r"[ :]%s(?!\w)" % word, self.message) is not None


@dataclasses.dataclass
class Cause:
    """A cause in one place, and the chapter of the page where it stands. The forms are those of its message, none if that is the word alone. Of
    what to do, the texts after the first one are items of a list."""
    word: str
    chapter: str
    where: str
    forms: list
    meaning: str
    example: Example
    to_do: list

    def lacking(self):
        """What isn't there."""
        parts = {"meaning": self.meaning, "example": self.example, "word of what to do": self.to_do}
        return [name for name, part in parts.items() if not part]

    def text(self):
        """What `icestorm --explain` prints of it."""
        forms = ["  Message: " + form for form in self.forms] if len(self.forms) < 2 else ["  Messages:", *(INDENT + form for form in self.forms)]
        lead = "Example, %s:" % self.example.lead if self.example.lead else "Example:"
        first, *items = self.to_do
        parts = ["%s, %s:" % (self.word, self.where), *forms, filled(self.meaning, "  "), filled(lead, "  "),
                 *(INDENT + line for line in [*self.example.given, self.example.message]), "  What to do:", filled(first, INDENT),
                 *(filled(item, INDENT + "- ") for item in items)]
        return "\n".join(parts) + "\n"


def filled(text, start):
    """A paragraph of at most 80 columns: its first line has the start before it, and the others as many blanks."""
    return textwrap.fill(text, WIDTH, initial_indent=start, subsequent_indent=" " * len(start), break_long_words=False, break_on_hyphens=False)


# ---- the page

def plain(text):
    """A text without links, and without the marks of code and of bold words."""
    text = re.sub(r"\[([^\]]*)\]\([^)]*\)", r"\1", text)
    return re.sub(r"`|\*\*", "", text).replace("\\|", "|").strip()


def sentence(text):
    """A text as a sentence. Code at its start stays as it is."""
    told = plain(text)
    first = told[:1] if text.startswith("`") else told[:1].upper()
    return first + told[1:] + ("" if told.endswith((".", ":")) else ".")


def sections(lines):
    """For each table of causes: the chapter, where these come, and the numbered lines up to the next such table or heading."""
    found, chapter, current = [], None, None
    for number, line in enumerate(lines, 1):
        begun = BEGIN.match(line)
        if begun:
            current = []
            found.append((chapter, begun.group(1), current))
        elif line.startswith("#"):
            chapter = line[3:] if line.startswith("## ") else chapter
            current = None
        elif current is not None:
            current.append((number, line))
    return found


def rows_of(lines):
    """The rows of the table that comes first, each as its cells by the heads of their columns."""
    table = itertools.takewhile(lambda line: line.startswith("|"), (line for _, line in lines if line))
    heads, _, *rows = [[cell.strip() for cell in re.split(r"(?<!\\)\|", line)[1:-1]] for line in table]
    return [dict(zip(heads, row)) for row in rows]


def items_of(lines):
    """The items that tell more of a cause: its word, whether that is what to do, and the texts of the item and of those below it."""
    found, is_open = [], False
    for _, line in lines:
        item = ITEM.match(line)
        is_open = bool(item) or is_open and line.startswith("  ")
        if item:
            found.append((item.group(1), item.group(2) is not None, [item.group(3)]))
        elif is_open and line.startswith("  - "):
            found[-1][2].append(line[4:])
        elif is_open:
            found[-1][2][-1] += " " + line.strip()
    return found


# ---- examples

def typed(command):
    """A command as it is typed in a checkout, where its files are too: the installed icestorm gives options of its own."""
    return "$ " + command.strip()


def given(pattern, words):
    """What the lines of an example are, or nothing, and the lines, for the words of a line below a note. Text that goes to a file, or to the
    program, stands line by line with its numbers."""
    if pattern.startswith("printf ..."):
        text, = shlex.split(words)
        rows = re.sub(r"\\n$", "", text).split("\\n")
        return "", [("%d | %s" % row).rstrip() for row in enumerate(rows, 1)]
    if pattern.startswith("./bytes ..."):
        return "bytes in hexadecimal", shlex.split(words)
    return "", [typed(pattern.replace("...", words))]


def examples_by_notes(lines):
    """The lines of blocks that have a note."""
    pattern, is_begun = None, False
    for _, line in lines:
        note = transcripts.NOTE.match(line)
        if note:
            pattern, is_begun = note.group(2) if note.group(1) == "each" else None, False
        elif pattern and line.startswith(INDENT):
            is_begun = True
            words, _, message = transcripts.EACH.match(line[len(INDENT):]).groups()
            yield Example(*given(pattern, words), message)
        elif is_begun:
            pattern = None


def examples_by_paragraphs(lines, commands):
    """The last commands of blocks after a paragraph that says of which cause they are an example, if they are one."""
    parts = [list(part) for is_empty, part in itertools.groupby(lines, lambda line: not line[1]) if not is_empty]
    for before, block in zip(parts, parts[1:]):
        lead = LEAD.match(" ".join(line for _, line in before))
        numbers = [number for number, line in block if line.startswith(INDENT)]
        of_block = [command for command in commands if command.line in numbers]
        if lead and of_block and of_block[-1].prints:
            last = of_block[-1]
            example = Example(plain(lead.group(2)), [typed(last.text), *last.prints[:-1]], last.prints[-1])
            yield from [example] * example.has(lead.group(1))


# ---- causes

def read(page=PAGE):
    """The causes of the page, in its order."""
    text = page.read_text()
    commands, _ = transcripts.read(text)
    return [cause for chapter, where, lines in sections(text.splitlines()) for cause in causes_in(chapter, where, lines, commands)]


def causes_in(chapter, where, lines, commands):
    """The causes of a table, with what stands below it."""
    examples, items, grouped = [*examples_by_paragraphs(lines, commands), *examples_by_notes(lines)], items_of(lines), {}
    for row in rows_of(lines):
        word = WORD.search(row["cause"]) or re.search(r"\w+", row["cause"])
        grouped.setdefault(word.group(), []).append(row)
    return [cause_of(word, chapter, where, rows, [item[1:] for item in items if item[0] == word], examples) for word, rows in grouped.items()]


def cause_of(word, chapter, where, rows, items, examples):
    """A cause, of its rows in a table, of what lists say of it, and of all examples there."""
    forms = [form for cell in told(rows, "cause") for form in re.findall(r"`(.*?)`", cell)]
    where += "".join(" (%s)" % plain(tools) for tools in told(rows, "told by"))
    meaning = [sentence("; or ".join(told(rows, "when"))), *("The offset is %s." % plain(offset) for offset in told(rows, "offset")[:1])]
    meaning += [sentence(text) for is_to_do, texts in items for text in texts if not is_to_do]
    firsts = [sentence(text) for text in [*told(rows, "what to do"), *(texts[0] for is_to_do, texts in items if is_to_do)]]
    rest = [sentence(text) for is_to_do, texts in items if is_to_do for text in texts[1:]]
    example = next((example for example in examples if example.has(word)), None)
    return Cause(word, chapter, where, [] if forms == [word] else forms, " ".join(meaning), example, [" ".join(firsts), *rest] if firsts else [])


def told(rows, column):
    """What the rows have in a column, each text once."""
    return list(dict.fromkeys(row[column] for row in rows if row.get(column) and row[column] != AGAIN))


def faults(causes, words):
    """What is wrong with the causes, given the words of those that the sources write."""
    for cause in causes:
        name = "%s, %s" % (cause.word, cause.where)
        yield from ("%s: there is no %s" % (name, part) for part in cause.lacking())
        if not cause.lacking():
            yield from ("%s: a line with more than %d columns, or with a byte that isn't ASCII: %s" % (name, WIDTH, line)
                        for line in cause.text().splitlines() if len(line) > WIDTH or not line.isascii())
    have = {cause.word for cause in causes}
    yield from ("%s: a message of the sources has this cause, and no table does" % word for word in sorted(words - have))
    yield from ("%s: a table has this cause, and no message of the sources does" % word for word in sorted(have - words) if WORD.match(word))

