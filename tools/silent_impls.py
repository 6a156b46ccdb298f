"""Which impls of a crate promise nothing: they keep a trait's default that allows all, or say that themselves."""
import os
import re

import repository

MEMBER = re.compile(r"(?P<docs>(?:^    ///.*\n)+)^    ghost (?P<name>\w+): \{[^;]*?\} = \{ λ[^;]*⊤ \};", re.M)
TRAIT = re.compile(r"^pub trait (?P<name>\w+).*?^\}$", re.M | re.S)
IMPL = re.compile(r"^impl\b(?P<head>[^{]*?)\bfor (?P<type>[^{]*?)\{\n(?P<body>.*?)^\}$", re.M | re.S)
TRAIT_OF = re.compile(r"(\w+)(?:<[^<>]*(?:<[^<>]*>[^<>]*)*>)?\s*$")
ALLOWS_ALL = re.compile(r"^    ghost (\w+) = \{ λ[\w ]+\. ⊤ \};", re.M)
# These say what a call asks, or when it allocates nothing, so `⊤` there is no silence.
ASKED = ("ready", "usable", "leaves", "needs_no_memory")
SAYS = "promises nothing"


def texts(crate):
    """The crate's sources, by their paths from the top."""
    for path in repository.sources(crate, ("src",), (".rt",)):
        yield os.path.relpath(path, repository.TOP), repository.text_of(path)


def defaults():
    """The members of each trait whose default promises nothing, by the trait's name."""
    found = {}
    for crate in repository.crates():
        for _, text in texts(crate):
            for trait in TRAIT.finditer(text):
                members = [it["name"] for it in MEMBER.finditer(trait[0])
                           if SAYS in re.sub(r"\s+///\s+", " ", it["docs"])]
                if members:
                    found[trait["name"]] = members
    return found


def silent(crate):
    """A line for each impl of the crate that promises nothing, with its place, its type and the members."""
    kept = defaults()
    for path, text in texts(crate):
        for impl in IMPL.finditer(text):
            trait = TRAIT_OF.search(impl["head"].strip())
            stated = set(re.findall(r"^    ghost (\w+) =", impl["body"], re.M))
            members = [it for it in kept.get(trait[1] if trait else "", []) if it not in stated]
            members += [it for it in ALLOWS_ALL.findall(impl["body"]) if it not in ASKED]
            if members:
                line = text.count("\n", 0, impl.start()) + 1
                name = impl["type"].split(" where")[0].strip()
                yield f"{path}:{line}: {trait[1]} for {name} {SAYS} ({', '.join(members)})"
