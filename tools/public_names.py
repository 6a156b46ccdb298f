"""The public names of the libraries, with the crate and the first sentence of the comment of each."""
import collections
import os
import re

import definitions
import exports
import repository

PAGE = "docs/API.md"
FACADE = "web"
HEAD = """# Public names

Every name that a library exports, in alphabetical order. `make index` writes this page from the sources; do not edit
it.

The fourth column is for an application that depends on [`web`](../crates/web/README.md) alone: `web::Path` is the name
there, and a dash says that `web` does not export it. `crates/NAME/README.md` shows how a crate's names are used.

`web` also exports these of Rattle's kit, which are not in the table: `Bytes`, `Method`, `StatusCode`, `Uri`, `Version`,
the module `httpdate`, and as `web::header` the crate `http_header`, which has `HeaderMap`, `HeaderName`, `HeaderValue`
and the names of fields, such as `CONTENT_TYPE`.

| Name | Kind | Crate | In `web` | What it is |
|---|---|---|---|---|
"""

# The line that a public item begins with, and the lines of its comment and of its attributes.
ITEM = re.compile(
    r"^pub (?:const )?(?:unsafe )?(?P<kind>struct|enum|trait|fn|type|const|static|macro) (?P<name>\w+)", re.M)
COMMENT = re.compile(r"^///(?: (?P<text>.*)|)$")
MOD_COMMENT = re.compile(r"\A(?://! ?.*\n)+")

# A public name: the name, what kind of item it is, its crate with its public module, and the first sentence.
PublicName = collections.namedtuple("PublicName", "name kind crate says")


def libraries():
    """The libraries that an application may name, but for those of the command, of the demo and of tests."""
    return [it for it in repository.crates()
            if it.startswith("web") and exports.root(it) is not None and it != "web_cli"]


def comment_above(lines, at):
    """The text of the comment that ends above a line, past the attributes between."""
    found = []
    for line in reversed(lines[:at]):
        comment = COMMENT.match(line)
        if comment:
            found.append(comment["text"] or "")
        elif found or not line.startswith(("#[", "    ", "]", ")]")):
            break
    return " ".join(reversed(found)).split("  ")[0].strip()


def items(text):
    """The kind and the first sentence of each public item of a source, by its name."""
    lines, found = text.splitlines(), {}
    for at, line in enumerate(lines):
        item = ITEM.match(line)
        if item:
            found.setdefault(item["name"], (item["kind"], definitions.first_sentence(comment_above(lines, at))))
    return found


def source(crate, module):
    """The text of a module, by its path, or of the folder that it stands in."""
    path = f"crates/{crate}/src/" + module.replace("::", "/")
    return repository.text_of(path + ".rt") or repository.text_of(path + "/mod.rt") or ""


def kind_of(kind, name):
    return "law" if kind == "fn" and re.search(r"_laws?$", name) else "function" if kind == "fn" else kind


def exported(crate, text, prefix=""):
    """Each name that a `pub use` of a module takes from another of its crate."""
    modules = {it["name"] for it in exports.MODULE.finditer(text)}
    for use in exports.USE.finditer(text):
        path = re.split(r" as ", use["path"])[0]
        if path.split("::")[0] not in modules:
            continue
        names = [path.rpartition("::")[2]] if use["names"] is None else use["names"].split(",")
        module = path.rpartition("::")[0] if use["names"] is None else path
        found = items(source(crate, prefix + module))
        for name in filter(None, (re.split(r" as ", it.strip())[0] for it in names)):
            if name in found:
                yield name, *found[name]


def public_modules(crate, text):
    """Each public module with its text."""
    for module in exports.MODULE.finditer(text):
        if module["how"]:
            yield module["name"], source(crate, module["name"])


def names():
    """Each public name of each library, sorted by the name."""
    found = []
    for crate in libraries():
        text = exports.root(crate)
        found += [PublicName(name, kind_of(kind, name), crate, says) for name, kind, says in exported(crate, text)]
        for name, (kind, says) in items(text).items():
            found.append(PublicName(name, kind_of(kind, name), crate, says))
        for module, inside in public_modules(crate, text):
            for name, (kind, says) in items(inside).items():
                found.append(PublicName(name, kind_of(kind, name), f"{crate}::{module}", says))
    return sorted(set(found), key=lambda it: (it.name.lower(), it.name, it.crate))


def facade():
    """The names that the crate of applications exports by themselves, and those of whole crates, by crate."""
    alone, whole = {}, {}
    for use in exports.USE.finditer(exports.root(FACADE)):
        crate, _, alias = use["path"].partition(" as ")
        if use["names"] is None and "::" not in crate:
            whole[crate] = alias or crate
        else:
            listed = [crate.rpartition("::")[2]] if use["names"] is None else use["names"].split(",")
            alone.update(((crate.split("::")[0], name.strip()), name.strip()) for name in listed if name.strip())
    return alone, whole


def in_facade(it, alone, whole):
    """The path of a name in the crate of applications, or a dash."""
    crate, _, module = it.crate.partition("::")
    if it.crate == FACADE or (crate, it.name) in alone:
        return f"`{FACADE}::{it.name}`"
    if crate in whole:
        return f"`{'::'.join(filter(None, (FACADE, whole[crate], module, it.name)))}`"
    return "-"


def page():
    """The text of the page."""
    alone, whole = facade()
    rows = [f"| `{it.name}` | {it.kind} | `{it.crate}` | {in_facade(it, alone, whole)} | {definitions.cell(it.says)} |\n"
            for it in names()]
    return HEAD + "".join(rows)
