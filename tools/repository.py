"""What the tools of this folder know of the repository: its crates, their sources, and where programs lie."""
import hashlib
import os
import shutil

TOP = os.path.dirname(os.path.dirname(os.path.abspath(__file__)))
PROGRAM = "rothveng"


def text_of(path):
    """The text of a file of the repository, or None where there is no such file."""
    path = os.path.join(TOP, path)
    if not os.path.exists(path):
        return None
    with open(path, encoding="utf-8") as opened:
        return opened.read()


def write(path, text):
    """Writes a file of the repository."""
    path = os.path.join(TOP, path)
    os.makedirs(os.path.dirname(path), exist_ok=True)
    with open(path, "w", encoding="utf-8") as opened:
        opened.write(text)


def proved(crate):
    """Where a program of this crate lies that is proved. The file beside it, with `.sources` after its name, names the
    sources that it was built from, by their digest."""
    return os.path.join(TOP, "crates", crate, "out", crate)


def unproved(crate, kind):
    """Where a program of this crate lies that is built without proof, with its `.sources` beside it. The kinds are
    `quick`, `optimised`, and `failing`, an optimised one some of whose calls may be made to fail."""
    return os.path.join(TOP, "out", "unproved", kind, crate)


def listed_crates():
    """The crates of crates.txt in its order, each with all libraries that it uses."""
    listed = {}
    with open(os.path.join(TOP, "crates.txt"), encoding="utf-8") as lines:
        for line in lines:
            name, colon, uses = line.partition("#")[0].partition(":")
            if colon:
                listed[name.split()[0]] = uses.split()
    return listed


def crates():
    """The crates of crates.txt in its order, each with the libraries that it uses, without the kit's."""
    listed = listed_crates()
    return {name: [it for it in uses if it in listed] for name, uses in listed.items()}


def below(name):
    """The crate and all that it stands on, lowest first."""
    listed, found = crates(), []

    def visit(it):
        if it not in found:
            for use in listed[it]:
                visit(use)
            found.append(it)

    visit(name)
    return found


def sources(name, parts=("src", "specs", "proofs"), ends=(".rt", ".antt")):
    """The paths of a crate's sources, sorted."""
    found = []
    for part in parts:
        for folder, _, files in os.walk(os.path.join(TOP, "crates", name, part)):
            found += [os.path.join(folder, it) for it in files if it.endswith(ends)]
    return sorted(found)


def digest(crate=PROGRAM, parts=("src", "specs", "proofs")):
    """One text that changes where a source of a program changes, or a library that one of its crates uses, or the
    toolchain's folder."""
    whole = hashlib.sha256(os.path.realpath(shutil.which("rt") or "").encode())
    names, listed = below(crate), listed_crates()
    whole.update("".join(f"{name}: {' '.join(listed[name])}\n" for name in names).encode())
    for path in [it for name in names for it in sources(name, parts)]:
        with open(path, "rb") as opened:
            content = opened.read()
        whole.update(f"{os.path.relpath(path, TOP)} {len(content)}\n".encode() + content)
    return whole.hexdigest()


def file_digest(path):
    with open(os.path.join(TOP, path), "rb") as opened:
        return hashlib.sha256(opened.read()).hexdigest()


def sum_of_texts(texts):
    return hashlib.sha256("".join(f"{it}\n" for it in texts).encode()).hexdigest()


def is_noted(path, wanted):
    """Whether the file beside this one names these sources."""
    try:
        with open(path + ".sources", encoding="utf-8") as opened:
            return opened.read().strip() == wanted
    except OSError:
        return False


def is_built_from(program, wanted):
    """Whether the program is there, and the file beside it names these sources."""
    return os.access(program, os.X_OK) and is_noted(program, wanted)


def note_built_from(program, wanted):
    with open(program + ".sources", "w", encoding="utf-8") as it:
        it.write(wanted + "\n")
