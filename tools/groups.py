"""The groups of tests that are run and not proved, and how they become modules of one crate.

A group is a folder of tests/, or the folder tests/ of a crate, by the crate's name. Each of its files is a module, which
sees the others by `crate::`. The tests of a crate stand among its own modules, and see these so too. One with a file
`main.rs` is a program, which reads its file `stdin` and has to write its file `stdout`. A library whose name begins with
`test_` is a group as well, though it is proved, and `pages` are the examples that stand in pages alone.

The files of tests/shared are helpers: one that a group names, as `crate::compare`, becomes a module of this group."""
import hashlib
import os
import re
import shutil
import sys

import pages
import repository
import toolchain

PAGES = "pages"
SHARED = "shared"
# What compiles tests.
TOOLS = [f"tools/{it}" for it in ("groups.py", "pages.py", "repository.py", "toolchain.py", "try-tests")]
# An attribute of the root of a crate, or its page.
OF_ROOT = ("#![", "//!")


def folders():
    """The folder of each group whose tests stand in files `.rs`, and that of the helpers."""
    top = os.path.join(repository.TOP, "tests")
    named = sorted(os.listdir(top)) if os.path.isdir(top) else []
    found = {it: os.path.join(top, it) for it in named if os.path.isdir(os.path.join(top, it))}
    for crate in repository.crates():
        folder = os.path.join(repository.TOP, "crates", crate, "tests")
        if os.path.isdir(folder):
            found[crate] = folder
    return found


def files(folder):
    """The paths of the tests in the folder of a group, sorted."""
    return [os.path.join(folder, it) for it in sorted(os.listdir(folder)) if it.endswith(".rs")]


def files_of(group):
    """The paths of the tests of a group, and of the helpers that these name and that are no test of its own."""
    own = files(folders()[group])
    named = {name for path in own for name in re.findall(r"\bcrate::(\w+)", text_of(path))} - set(map(module, own))
    helpers = files(folders()[SHARED]) if SHARED in folders() else []
    return own + [path for path in helpers if module(path) in named]


def all_files():
    return [path for folder in folders().values() for path in files(folder)]


def proved_crates():
    """The libraries that are there for their tests."""
    return [it for it in repository.crates() if it.startswith("test_") and it not in toolchain.program_crates()]


def names():
    return [*(it for it in folders() if it != SHARED), *proved_crates(), PAGES]


def is_program(name):
    return name in folders() and os.path.isfile(os.path.join(folders()[name], "main.rs"))


def stands_apart(name):
    """Whether a group cannot be a part of another crate: a program, and the tests of a crate whose specs name its own
    modules."""
    is_own = name in repository.crates() and name not in proved_crates()
    return is_program(name) or is_own and bool(repository.sources(name, ["specs"]))


def text_of(path):
    with open(path, encoding="utf-8") as opened:
        return opened.read()


def module(path):
    """The name of the module that a test is."""
    return os.path.basename(path).removesuffix(".rs")


def source_modules(crate):
    """The modules at the root of a crate's sources."""
    folder = os.path.join(repository.TOP, "crates", crate, "src")
    names = os.listdir(folder) if crate in repository.crates() else []
    return {it.removesuffix(".rt") for it in names} - {"lib", "main"}


def test_modules(group):
    """The module that each test of a group becomes, by the path of its file: it has the file's name, with `_tests` after
    it where a module of the crate's sources has that name."""
    taken = source_modules(group)
    found = {path: module(path) + "_tests" * (module(path) in taken) for path in files_of(group)}
    names = [*taken, *found.values()]
    for path, name in found.items():
        if names.count(name) > 1:
            sys.exit(f"{os.path.relpath(path, repository.TOP)}: there is a module {name} already: rename this file")
    return found


def declaration(name):
    return f"#[cfg(test)]\nmod {name};\n"


def without_root(text):
    return "".join(line for line in text.splitlines(True) if not line.startswith(OF_ROOT))


def crate_modules(crate):
    """The sources of a crate as modules below one that has its name."""
    top = os.path.join(repository.TOP, "crates", crate, "src")
    modules = {}
    for path in repository.sources(crate, ["src"], (".rt",)):
        inside = os.path.relpath(path, top)
        is_root = inside in ("lib.rt", "main.rt")
        text = text_of(path)
        modules[f"{crate}.rt" if is_root else f"{crate}/{inside}"] = without_root(text) if is_root else text
    return modules


def page_modules():
    """The examples of each page as a module."""
    modules = {f"{PAGES}.rt": ""}
    for page in pages.documents():
        source, _ = pages.example(page)
        if source:
            name = re.sub(r"\W", "_", os.path.basename(page).removesuffix(".md").lower())
            modules[f"{PAGES}.rt"] += f"mod {name};\n"
            modules[f"{PAGES}/{name}.rt"] = source
    return modules


def modules_of(name):
    """The texts of a group's modules, by their paths below the `src` of the crate that they become a part of."""
    if name == PAGES:
        return page_modules()
    found = {f"{name}.rt": ""} if name not in repository.crates() else {}
    if name in repository.crates():
        found.update(crate_modules(name))
    for path, test in test_modules(name).items() if name in folders() else []:
        found[f"{name}.rt"] += declaration(test)
        found[f"{name}/{test}.rt"] = text_of(path)
    return {path: re.sub(r"\bcrate::", f"crate::{name}::", text) for path, text in found.items()}


def digest(name):
    """One text that changes where a test of a group changes, or what it is compiled with."""
    texts = modules_of(name)
    whole = hashlib.sha256("".join(f"{path} {len(text)}\n{text}" for path, text in sorted(texts.items())).encode())
    for path in (os.path.join(folders()[name], it) for it in ("stdin", "stdout") if is_program(name)):
        whole.update(repository.file_digest(path).encode())
    below = [it for it in libraries_in(texts.values()) if it in repository.crates()]
    below += [name] if name in repository.crates() else []
    for part in (*(repository.digest(it, ["src"]) for it in below), *map(repository.file_digest, TOOLS), toolchain.version()):
        whole.update(f"{part}\n".encode())
    return whole.hexdigest()


def bytes_below(group_names):
    """The bytes of the libraries that these groups stand on."""
    texts = [text for name in group_names for text in modules_of(name).values()]
    ours = [it for it in libraries_in(texts) if it in repository.crates()]
    return sum(os.path.getsize(path) for it in ours for path in repository.sources(it, ["src"], (".rt",)))


def cost(group_names):
    """About what it costs to compile these groups: a byte of a test is also turned into code, most of a library is not."""
    modules = [text for name in group_names for text in modules_of(name).values()]
    return bytes_below(group_names) + 3 * sum(map(len, modules))


def parts(are_two):
    """All groups in one part, or in two that are compiled beside each other, those on few libraries and the others; and
    each that stands apart."""
    joined = sorted((it for it in names() if not stands_apart(it)), key=lambda it: bytes_below([it]))
    cuts = [(joined[:at], joined[at:]) for at in range(1, len(joined))] if are_two else [(joined,)]
    return [*min(cuts, key=lambda cut: max(map(cost, cut))), *([it] for it in names() if stands_apart(it))]


def write(path, text):
    os.makedirs(os.path.dirname(path), exist_ok=True)
    with open(path, "w", encoding="utf-8") as it:
        it.write(text)


def copy_crates(room):
    """Copies the sources of all crates."""
    left_out = shutil.ignore_patterns("out", "must-fail", "wrong-bodies")
    shutil.copytree(os.path.join(repository.TOP, "crates"), f"{room}/crates", ignore=left_out)


def write_tests(room, name):
    """Writes the tests of a crate among its sources, in a copy of all crates."""
    source = f"{room}/crates/{name}/src"
    root = next(it for it in (f"{source}/main.rt", f"{source}/lib.rt") if os.path.isfile(it))
    for path, test in test_modules(name).items() if name in folders() else []:
        write(f"{source}/{test}.rt", text_of(path))
        write(root, text_of(root) + declaration(test))


def write_list(room, listed):
    """Makes a repository of these crates."""
    write(f"{room}/crates.txt", "".join(f"{name}: {' '.join(below)}\n" for name, below in listed.items()))
    os.mkdir(f"{room}/.git")


def write_program(room, name):
    """Writes a copy of all crates with a group that is a program, and returns the folder of its crate."""
    copy_crates(room)
    sources = {path: text_of(path) for path in files_of(name)}
    for path, text in sources.items():
        write(f"{room}/crates/{name}/src/{module(path)}.rt", text)
    write_list(room, {**repository.listed_crates(), name: libraries_in(sources.values())})
    return f"{room}/crates/{name}"


def libraries_in(texts):
    """The libraries that these sources name, with all that these are listed with."""
    listed = repository.listed_crates()
    known = set(listed).union(*listed.values()) - {*proved_crates(), *toolchain.program_crates()}
    named = {it for text in texts for it in re.findall(r"\b([a-z]\w*)(?:::|\.specs\b)", text)} & known
    return sorted(named.union(*(listed[it] for it in named if it in listed)))
