"""What a crate gives to those above it, by the `pub use` and `pub mod` lines of its lib.rt."""
import os
import re

import repository

USE = re.compile(r"^pub use (?P<path>[\w:]+?(?: as \w+)?)(?:::\{(?P<names>[^}]*)\})?;", re.M)
MODULE = re.compile(r"^(?P<how>pub )?mod (?P<name>\w+);", re.M)


def root(crate):
    """The text of a library's lib.rt, or None where the crate is none."""
    return repository.text_of(f"crates/{crate}/src/lib.rt")


def used(text):
    """Each name of a `pub use`, with the module or the crate that it is taken from."""
    for use in USE.finditer(text):
        names = [use["path"]] if use["names"] is None else use["names"].split(",")
        for name in names:
            if name.strip():
                yield re.split(r"::| as ", use["path"])[0], re.split(r"::| as ", name.strip())[-1]


def own(crate):
    """The items of its own that a library exports by name."""
    text = root(crate) or ""
    modules = {it["name"] for it in MODULE.finditer(text)}
    return {name for source, name in used(text) if source in modules}


def every(crate):
    """The items that a library exports by name, those of other crates too, its public modules, and the words in these."""
    text = root(crate) or ""
    found = {name for _, name in used(text)}
    for module in MODULE.finditer(text):
        if module["how"]:
            found.add(module["name"])
            path = os.path.join(repository.TOP, "crates", crate, "src", module["name"])
            below = (path + ".rt", path + os.sep)
            for source in [it for it in repository.sources(crate, ["src"], (".rt",)) if it.startswith(below)]:
                with open(source, encoding="utf-8") as opened:
                    found.update(re.findall(r"\w+", opened.read()))
    return found
