"""Which toolchain is there, and a copy of its folder, made of links, in which some of its programs are others.

`rt` finds the programs that it starts beside itself. So a copy of it starts what stands in the copy."""
import os
import shutil
import subprocess

import repository

# The part of `rt try` that looks for reserved names, and nothing else: as long as a build, and no use to one.
NO_SEARCH = {"bin/rattle": "#!/bin/sh\nexit 0\n"}


# The file that names the kit which the repository was last proved with.
KIT = os.path.join(repository.TOP, "KIT")


def version():
    """What `rt version` says, or None where there is no `rt`."""
    try:
        return subprocess.run(["rt", "version"], stdout=subprocess.PIPE, text=True, check=True).stdout.strip()
    except (OSError, subprocess.CalledProcessError):
        return None


def other_kit():
    """A line that says so where the kit is another than the one of the file KIT, or None."""
    if not os.path.isfile(KIT):
        return None
    with open(KIT, encoding="utf-8") as it:
        wanted = it.read().strip()
    found = version()
    if found is None or found == wanted:
        return None
    return f"note: this kit is {found}; the repository was last proved with {wanted} (file KIT)"


def folder():
    """The folder of the toolchain that is on the path, or None."""
    command = shutil.which("rt")
    return command and os.path.dirname(os.path.dirname(os.path.realpath(command)))


def link_all(original, copy, but):
    """Makes a folder of links to what another holds, without some of it."""
    os.makedirs(copy)
    for name in os.listdir(original):
        if name not in but:
            os.symlink(os.path.realpath(os.path.join(original, name)), os.path.join(copy, name))


def copied(original, room, programs):
    """Copies the toolchain into a room, with these programs, texts by their paths, in place of its own.
    Returns the path of its `rt`."""
    copy = os.path.join(room, "kit")
    link_all(original, copy, ["bin", "toolchain"])
    link_all(f"{original}/bin", f"{copy}/bin", ["rt", "rtlib.py", *names_in(programs, "bin")])
    link_all(f"{original}/toolchain", f"{copy}/toolchain", ["bin"])
    link_all(f"{original}/toolchain/bin", f"{copy}/toolchain/bin", names_in(programs, "toolchain/bin"))
    # These two are no links, since `rt` goes by where it really lies.
    for name in ("rt", "rtlib.py"):
        shutil.copy(f"{original}/bin/{name}", f"{copy}/bin/{name}")
    for path, text in programs.items():
        with open(f"{copy}/{path}", "w", encoding="utf-8") as it:
            it.write(text)
        os.chmod(f"{copy}/{path}", 0o755)
    return f"{copy}/bin/rt"


def names_in(programs, place):
    return [os.path.basename(it) for it in programs if os.path.dirname(it) == place]


def program_crates():
    """The crates that are programs."""
    return [it for it in repository.crates() if os.path.isfile(os.path.join(repository.TOP, "crates", it, "src", "main.rt"))]
