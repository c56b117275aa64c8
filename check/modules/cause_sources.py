"""The files of crates/cause_texts that docs/FORMATS.md makes: the text of each cause, and for groups of causes a function and a definition that
find a text by its word.

A group has the causes of some chapters of the page. A word that several chapters have is in the group of the first one. A group has at most about
twelve words, so that its function is proved without help. src/causes.rt and specs/Explained.antt, which try one group after another, are written
by hand: a new group needs a line in both.
"""
import re

FOLDER = "crates/cause_texts"
GROUPS = {
    "texts": ("The text",),
    "bitstreams": ("The bitstream",),
    "boot_files": ("Boot files", "Memory words"),
    "databases": ("Layout files", "The chip database"),
    "modules": ("The Verilog subset",),
    "designs": ("Explained text", "Differences", "Pin files", "Designs that aren't taken"),
}
MADE = "check/documents.py --causes makes this file of docs/FORMATS.md."

TEXTS = """\
// What each cause means, with an example, and what to do about it. %s
//
// A text says where its cause comes, what it means and what to do, in lines of at most 80 columns. A word with several meanings has them in the
// order of docs/FORMATS.md, with an empty line between.

%s
/// The words of all causes, a line each.
pub const WORDS: &str = "\\
%s";
"""
TEXT = """\
pub const %s: &str = "\\
%s";
"""
FUNCTIONS = """\
// What causes mean, by their words, in groups. %s
ghost use Rattle.std.specs.Prelude.{◌≡◌, option_map};
ghost use Rattle.cause_texts.specs.About.{%s};

use crate::texts;

%s"""
FUNCTION = """\
/// What a cause about %(about)s means.
#[tactic(auto, unfolding(crate::specs::About::%(name)s))]
pub fn %(name)s(word: &str) -> Option<&'static str>
    ensures { option_map (λ text. text.now) result ≡ %(name)s word.now }
{
    match word {
%(arms)s        _ => None,
    }
}
"""
ARM = """\
        "%s" => Some(texts::%s),
"""
DEFINITIONS = """\
-- What causes mean, by their words, in groups. %s
use Rattle.std.specs.Prelude.{ℕ, List, bytes_eq, codes, if◌then◌else◌, Option, None, Some}
use Rattle.cause_texts.specs.declared.texts.TheConstants as texts

%s"""
DEFINITION = """\
-- what a cause about %(about)s means
unfoldable pub %(name)s : List ℕ → Option (List ℕ)
%(name)s word =
    %(cases)sNone
"""
CASE = """\
if bytes_eq word (codes "%s") then Some texts.%s.now
    else """


def files(causes):
    """The files, by their paths below the top of the repository."""
    return {FOLDER + "/src/texts.rt": texts(causes), FOLDER + "/src/about.rt": functions(causes), FOLDER + "/specs/About.antt": definitions(causes)}


def texts(causes):
    """The texts of all causes, and their words."""
    of_words = {word: [cause.text() for cause in causes if cause.word == word] for word in words(causes)}
    constants = [TEXT % (constant(word), escaped("\n".join(of_word))) for word, of_word in of_words.items()]
    return TEXTS % (MADE, "\n".join(constants), "".join(word + "\n" for word in of_words))


def functions(causes):
    """A function for each group."""
    names = ", ".join(sorted(name_of(group) for group in GROUPS))
    return FUNCTIONS % (MADE, names, "\n".join(FUNCTION % parts(group, causes) for group in GROUPS))


def definitions(causes):
    """The definition of each function."""
    return DEFINITIONS % (MADE, "\n".join(DEFINITION % parts(group, causes) for group in GROUPS))


def parts(group, causes):
    """What the function and the definition of a group are made of."""
    pairs = [(word, constant(word)) for word in words(causes) if group_of(word, causes) == group]
    return {"name": name_of(group), "about": about(GROUPS[group]), "arms": "".join(ARM % pair for pair in pairs),
            "cases": "".join(CASE % pair for pair in pairs)}


def about(chapters):
    """What some chapters are about, in words."""
    *firsts, last = [chapter[0].lower() + chapter[1:] for chapter in chapters]
    return " or ".join([", ".join(firsts), last] if firsts else [last])


def name_of(group):
    """The name of the function and of the definition of a group."""
    return "about_" + group


def words(causes):
    """The words of the causes, in order."""
    return sorted({cause.word for cause in causes}, key=lambda word: (word.lower(), word))


def group_of(word, causes):
    """The group of a word, by the chapter that has it first; none if that chapter has no group."""
    first = next(cause.chapter for cause in causes if cause.word == word)
    return next((group for group, chapters in GROUPS.items() if first in chapters), None)


def lacking(causes):
    """The words that have no group."""
    return [word for word in words(causes) if group_of(word, causes) is None]


def constant(word):
    """The name of the constant with a word's text."""
    return re.sub(r"(?<=[a-z])(?=[A-Z])", "_", word).upper()


def escaped(text):
    """A text as it stands in a literal."""
    return text.replace("\\", "\\\\").replace('"', '\\"')
