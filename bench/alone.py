"""Programs that measure one part of the library by itself. Each is a file that the build names `main.rt`, and none of
the crates of `crates.txt`: it is built without proof, in a copy of the crates that it needs."""
import dataclasses
import importlib.machinery
import importlib.util
import os
import re
import resource
import shutil
import subprocess
import sys

TOP = os.path.dirname(os.path.dirname(os.path.abspath(__file__)))
TARGET = os.path.join(TOP, "bench", "target")

sys.path.insert(0, os.path.join(TOP, "tools"))
import repository  # noqa: E402


@dataclasses.dataclass(frozen=True)
class Program:
    """A program of the library: its name, its file, and the libraries that it uses."""

    name: str
    source: str
    uses: str


def module_of(path):
    """A script of Python without an ending, as a module."""
    loader = importlib.machinery.SourceFileLoader(os.path.basename(path).replace("-", "_"), path)
    module = importlib.util.module_from_spec(importlib.util.spec_from_loader(loader.name, loader))
    loader.exec_module(module)
    return module


def used_crates(program):
    """The crates of the repository that a program needs."""
    ours = repository.crates()
    found = []
    for name in program.uses.split():
        if name in ours:
            found += [it for it in repository.below(name) if it not in found]
    return found


def copy_crates(program, room):
    """A copy of the crates that are measured, with one more, which is the program."""
    used = used_crates(program)
    for name in used:
        for part in ("src", "specs", "proofs"):
            source, copy = os.path.join(TOP, "crates", name, part), os.path.join(room, "crates", name, part)
            shutil.rmtree(copy, ignore_errors=True)
            if os.path.isdir(source):
                shutil.copytree(source, copy)
    copy = os.path.join(room, "crates", program.name, "src")
    shutil.rmtree(copy, ignore_errors=True)
    os.makedirs(copy)
    shutil.copy(program.source, os.path.join(copy, "main.rt"))
    with open(os.path.join(TOP, "crates.txt"), encoding="utf-8") as lines:
        kept = [line for line in lines if line.partition(":")[0] in used]
    with open(os.path.join(room, "crates.txt"), "w", encoding="utf-8") as listed:
        listed.writelines(kept + [f"{program.name}: {program.uses}\n"])


def build(program):
    """Builds a program of the library without proof, and returns its path."""
    room = os.path.join(TOP, "out", program.name)
    copy_crates(program, room)
    builder = module_of(os.path.join(TOP, "tools", "build-unproved"))
    top, repository.TOP = repository.TOP, room
    out = os.path.join(room, program.name)
    status = builder.main([program.name, out])
    repository.TOP = top
    return out if status == 0 else sys.exit(status)


def instructions(words, few, many):
    """The instructions of one run of a program's loop: the difference of two runs, divided."""
    counts = []
    for count in (few, many):
        done = subprocess.run(["valgrind", "--tool=callgrind", "--callgrind-out-file=/dev/null", *words(count)],
                              stdout=subprocess.DEVNULL, stderr=subprocess.PIPE, text=True, check=True)
        counts.append(int(re.search(r"Collected : (\d+)", done.stderr)[1]))
    return (counts[1] - counts[0]) / (many - few)


def nanoseconds(words, few, many):
    """The processor time of one run of a program's loop."""
    seconds = []
    for count in (few, many):
        before = resource.getrusage(resource.RUSAGE_CHILDREN)
        subprocess.run(words(count), stdout=subprocess.DEVNULL, check=True)
        after = resource.getrusage(resource.RUSAGE_CHILDREN)
        seconds.append(after.ru_utime + after.ru_stime - before.ru_utime - before.ru_stime)
    return (seconds[1] - seconds[0]) * 1e9 / (many - few)


def columns(ours, *others):
    return "%8.0f" % ours + "".join(" %8.0f %6.2f" % (theirs, ours / theirs) for theirs in others)
