"""The definitions of the folders specs/ that contracts cite, and the laws, with what the comments above them say, and
the index of both."""
import collections
import os
import re

import repository

PAGE = "out/INDEX.md"
HEAD = """# Index of definitions

The [laws](#laws), and then the definitions that contracts cite, by crate. `make index` writes this page from the
sources. A file `Body` of `web_request` is `crates/web_request/specs/Body.antt`. Next to each name is the first sentence
of the comment above it. [DEFINITIONS](../docs/DEFINITIONS.md) says how to read a contract.
"""
LAWS = """## Laws

Functions without a result. The contract of a law is what it proves, for other proofs to cite. The sentence here is the
first of its comment; its premises are in its contract.

| Law | Says |
|---|---|
"""

# Where a contract of a crate names definitions of a file.
CITED = re.compile(r"ghost use Rattle\.(?P<crate>\w+)\.specs\.(?P<file>\w+)\.\{(?P<names>[^}]*)\}")
# The line that a public definition begins with. A field of a record has neither word before nor behind `pub`.
BEGINS = re.compile(r"(?P<indent> *)(?P<how>abbrev |unfoldable )?pub (?P<kind>record |data )?(?P<name>[^\s:({]+)")

# A law, with the comment above it.
LAW = re.compile(r"(?P<comment>(?:^///.*\n)+)^pub fn (?P<name>\w+_laws?)\b", re.M)

# A definition: its name, the file without its ending, and the first sentence of its comment, empty where it has none.
Definition = collections.namedtuple("Definition", "name file says")


def lines_of(path):
    with open(path, encoding="utf-8") as opened:
        return opened.read().splitlines()


def cited():
    """The names that `ghost use` takes from specs into sources, as pairs of crate, file and name."""
    found = set()
    for crate in repository.crates():
        for path in repository.sources(crate, ["src"], (".rt",)):
            for use in CITED.finditer("\n".join(lines_of(path))):
                names = (it.split()[0] for it in use["names"].split(",") if it.split())
                found.update((use["crate"], use["file"], name) for name in names)
    return found


def comment_above(lines, at, indent):
    """The lines of the comment that ends above a line and is set in as that line is, as one text."""
    begin = at
    while begin > 0 and lines[begin - 1].startswith(indent + "--"):
        begin -= 1
    return " ".join(line.strip().lstrip("-").strip() for line in lines[begin:at])


def first_sentence(comment):
    """A comment up to the end of its first sentence, without the stop there."""
    return re.split(r"(?<!\be\.g)(?<!\bi\.e)\.\s+(?=[A-Z])", comment, maxsplit=1)[0].rstrip(".")


def public(path):
    """Each public definition of a file, in its order."""
    lines, name = lines_of(path), os.path.basename(path).removesuffix(".antt")
    for at, line in enumerate(lines):
        begins = BEGINS.match(line)
        if begins and (not begins["indent"] or begins["how"] or begins["kind"]):
            yield Definition(begins["name"], name, first_sentence(comment_above(lines, at, begins["indent"])))


def by_crate():
    """Each crate with those of its definitions that contracts cite."""
    wanted = cited()
    for crate in repository.crates():
        paths = [it for it in repository.sources(crate, ["specs"], (".antt",)) if not it.endswith("/Lib.antt")]
        found = [it for path in paths for it in public(path) if (crate, it.file, it.name) in wanted]
        if found:
            yield crate, found


def laws():
    """Each public law, as a pair of its path and the first sentence of its comment."""
    for crate in repository.crates():
        for path in repository.sources(crate, ["src"], (".rt",)):
            for law in LAW.finditer("\n".join(lines_of(path))):
                comment = " ".join(line.strip("/ ") for line in law["comment"].splitlines())
                yield f"{crate}::{law['name']}", first_sentence(comment)


def cell(text):
    return text.replace("|", "\\|")


def index():
    """The text of the page."""
    found = [HEAD, LAWS + "".join(f"| `{name}` | {cell(says)} |\n" for name, says in laws())]
    for crate, those in by_crate():
        rows = [f"| `{it.name}` | {it.file} | {cell(it.says)} |" for it in those]
        found.append("\n".join([f"## {crate}", "", "| Name | File | Says |", "|---|---|---|", *rows]) + "\n")
    return "\n".join(found)
