"""Programs that are made without proof from the code that `rt try` compiles.

`rt try` runs a program with checks and keeps nothing. In a copy of the toolchain's folder, made of links, its compiler is
one that leaves the code in a room. Of that code this module makes a program: with the checks, as `rt try` has it, or
without them and with the hints on inlining, as a proved build has it."""
import contextlib
import glob
import os
import re
import shutil
import subprocess
import sys

import groups
import repository
import toolchain

TARGET = "x86_64-unknown-linux-gnu"
CPU = "x86-64-v2"
WITH_CHECKS = "-fsanitize=address"
QUICK = ["-O0"]
OPTIMISED = ["-O3", "-Xclang", "-fmerge-functions", "-mllvm", "-mergefunc-use-aliases"]
COMPILER = """#!/bin/sh
for word; do
    if [ "$word" = {checks} ]; then
        cp module.bc {room}/ && printf '%s\\n' "$@" > {room}/flags
        exit 1
    fi
done
exec {compiler} "$@"
"""
# Functions that `rt try` adds, and the byte that it fills new variables with. Most are calls of no value; one asks
# whether a function that is called by its address is one that may stand there.
ADDED = r'@"rattle-(?:llvm-checks|try)::'
ADDED_FUNCTION = re.compile(f"define internal [a-z0-9]+ {ADDED}")
ADDED_CALL = re.compile(rf"  (?:%\w+ = )?call [a-z0-9]+ {ADDED}")
FAILING = os.path.join(repository.TOP, "tools", "failing.c")
FAILING_FLAGS = ["-std=c11", "-Wall", "-Werror", "-ffreestanding", "-fPIC", "-O2", "-c"]
# Hints on inlining: the sources' words and the code's, and where they stand.
HINTS = {"inline": "inlinehint", "inline(always)": "alwaysinline", "inline(never)": "noinline", "cold": "cold"}
HINT = re.compile(r"\s*#\[(%s)\]$" % "|".join(re.escape(it) for it in HINTS))
OWNER = re.compile(r"(?:pub(?:\(.*?\))? )?(?:unsafe )?(?:trait|impl)(?:<.*?>)? "
                   r"(?:(?:\w+::)*(\w+)[^{]* for )?(?:\w+::)*(\w+)")
FUNCTION = re.compile(r"\s*(?:pub(?:\(.*?\))? )?(?:const )?(?:unsafe )?fn (\w+)")
DEFINITION = re.compile(r'define [^@]*@"((?:\w+::)+\w+)')
# What a compiler leaves of a program.
CODE = ("module.bc", "flags")
# Where the code of tests begins, and how that of a program does.
ENTRY = re.compile(r"^define i32 @main\(\) .*?^}$", re.M | re.S)
CALLED = re.compile(r'call i32 @"([^"]+)"\(\)')
START = """define i32 @main() #0 {{
start:
  %r0 = call i64 @__sysv_signal(i32 13, i64 1)
  call void @"core::rt::grant"()
  %r1 = call i32 @"{crate}::main+run"()
  ret i32 %r1
}}"""
# The tests if there is an argument, as `rt try` gives one, and otherwise the program.
START_OF_BOTH = """define i32 @main(i32 %count) #0 {{
start:
  %r0 = call i64 @__sysv_signal(i32 13, i64 1)
  %r1 = icmp slt i32 %count, 2
  br i1 %r1, label %program, label %tests

program:
  call void @"core::rt::grant"()
  %r2 = call i32 @"{crate}::main+run"()
  ret i32 %r2

tests:
  %r3 = call i32 @"{tests}"()
  ret i32 %r3
}}"""
# A compiler in Python, which is this module's `compile_both`.
COMPILER_OF_BOTH = """#!{python}
import sys
sys.dont_write_bytecode = True
sys.path.insert(0, {tools!r})
import unproved
sys.exit(unproved.compile_both({kit!r}, {room!r}, {crate!r}, sys.argv[1:]))
"""
FILL = re.compile(r"  call void @llvm\.memset\.p0\.i64\(ptr (%\w+), i8 -86, ")


class Unknown(Exception):
    """This toolchain works otherwise than is known here."""


def compiler_that_keeps(kit, room):
    """The text of a compiler that leaves the code of a program in `room` and stops where it is to add checks."""
    return COMPILER.format(checks=WITH_CHECKS, room=room, compiler=f"{kit}/toolchain/bin/clang")


def compiler_of_both(kit, room, crate):
    """The text of a compiler that leaves the code of tests in `room`, one of which is the program's `main`, and compiles
    it so that it is the program, too, which is left there as `both.o`."""
    return COMPILER_OF_BOTH.format(python=sys.executable, tools=os.path.dirname(os.path.abspath(__file__)), kit=kit,
                                   room=room, crate=crate)


def compile_both(kit, room, crate, words):
    """What the compiler of both does where it is called with these words. Returns the status."""
    clang, status = f"{kit}/toolchain/bin/clang", 1
    if WITH_CHECKS in words:
        shutil.copy("module.bc", f"{room}/module.bc")
        with open(f"{room}/flags", "w", encoding="utf-8") as it:
            it.write("".join(f"{word}\n" for word in words))
        with contextlib.suppress(Unknown, OSError):
            text = code_that_starts(kit, room, crate, START_OF_BOTH)
            with open(f"{room}/both.ll", "w", encoding="utf-8") as it:
                it.write(text)
            given = [f"{room}/both.ll" if word == "module.bc" else word for word in words]
            status = subprocess.run([clang, *given], stderr=subprocess.DEVNULL, check=False).returncode
        if status == 0:
            shutil.copy("module.o", f"{room}/both.o")
            return 0
    return subprocess.run([clang, *words], check=False).returncode


def hints_in(path, crate):
    """For each function of a source: its crate, its type with the trait or its module, its name, and its hints."""
    place = os.path.splitext(os.path.basename(path))[0]
    module = owner = crate if place in ("lib", "main") else place
    hints = []
    with open(path, encoding="utf-8") as source:
        for line in source:
            begun, hint, function = OWNER.match(line), HINT.match(line), FUNCTION.match(line)
            if begun:
                owner = begun[2] + (begun[1] or "")
            elif line.startswith("}"):
                owner = module
            elif hint:
                hints.append(HINTS[hint[1]])
            elif function:
                yield (crate, owner, function[1]), " ".join(hints)
            if not (hint or line.lstrip().startswith(("#[", "//"))):
                hints = []


def hints_of(kit):
    """The hints of functions, by crate, by type with the trait or by module, and by name, where these say which."""
    found = {}
    for top in (f"{kit}/rattle", os.path.join(repository.TOP, "crates")):
        for path in glob.iglob(f"{top}/*/src/**/*.rt", recursive=True):
            for function, hints in hints_in(path, os.path.relpath(path, top).split(os.sep)[0]):
                found.setdefault(function, set()).add(hints)
    return {function: hints.pop() for function, hints in found.items() if len(hints) == 1 and "" not in hints}


def hinted(line, hints):
    """The first line of a function's code, with the function's hints."""
    named = DEFINITION.match(line)
    path = named[1].split("::") if named else []
    words = hints.get((path[0], path[-2], path[-1])) if len(path) > 1 else None
    return line.replace(" #0 {", f" {words} #0 {{") if words else line


def without_checks(lines, hints):
    """The lines of a module without what `rt try` adds, and with hints."""
    inside, before = False, ""
    for line in lines:
        filled = FILL.match(line)
        if inside or ADDED_FUNCTION.match(line):
            inside = not line.startswith("}")
        elif ADDED_CALL.match(line):
            pass
        elif filled and before.startswith(f"  {filled[1]} = alloca "):
            pass
        elif re.search(ADDED, line):
            raise Unknown(f"a check of another form: {line.strip()}")
        elif line.startswith("attributes #"):
            line = line.replace("sanitize_address", "nounwind").replace(' "frame-pointer"="all"', "")
            yield re.sub(r'"target-cpu"="[^"]*"', f'"target-cpu"="{CPU}"', line)
        else:
            yield hinted(line, hints) if line.startswith("define ") else line
        before = line


def call(words, folder):
    done = subprocess.run(words, cwd=folder, stdout=subprocess.PIPE, stderr=subprocess.STDOUT, errors="replace")
    if done.returncode != 0:
        raise Unknown(f"{os.path.basename(words[0])}: {done.stdout.strip()[-1000:]}")


def keep_code(kit, room, crate):
    """Leaves the program's code in `room`, as text too. Returns what the compiler says where the sources do not compile."""
    if take_kept(room, crate):
        start_at(kit, room, crate)
        return None
    programs = {**toolchain.NO_SEARCH, "toolchain/bin/clang": compiler_that_keeps(kit, room)}
    words = [toolchain.copied(kit, room, programs), "try"]
    is_test = groups.is_program(crate)
    folder = groups.write_program(f"{room}/copy", crate) if is_test else os.path.join(repository.TOP, "crates", crate)
    tried = subprocess.run(words, cwd=folder, stdin=subprocess.DEVNULL, stdout=subprocess.PIPE, stderr=subprocess.STDOUT,
                           errors="replace")
    if os.path.exists(f"{room}/flags"):
        read_code(kit, room)
        return None
    if tried.returncode == 1:
        return tried.stdout
    raise Unknown(f"rt try ended with status {tried.returncode}: {tried.stdout.strip()[-1000:]}")


def kept_code(crate):
    """Where the code of a program lies that `tools/try` compiled with its tests, with its `.sources` beside it."""
    return os.path.join(repository.TOP, "out", "tried", crate, "code")


def keep(room, crate, sources):
    """Keeps the code that was left in `room`, which was compiled from these sources."""
    kept = kept_code(crate)
    shutil.rmtree(kept, ignore_errors=True)
    os.makedirs(kept)
    for name in CODE:
        shutil.copy(f"{room}/{name}", f"{kept}/{name}")
    repository.note_built_from(kept, sources)


def take_kept(room, crate):
    """Copies the code of a program to `room` where it was kept of the same sources, and says whether it was."""
    kept = kept_code(crate)
    if crate not in repository.crates() or not repository.is_built_from(kept, repository.digest(crate, ["src"])):
        return False
    for name in CODE:
        shutil.copy(f"{kept}/{name}", f"{room}/{name}")
    return True


def flags_in(room):
    with open(f"{room}/flags", encoding="utf-8") as it:
        return [word for word in it.read().splitlines() if word not in ("-O0", WITH_CHECKS)]


def read_code(kit, room):
    """Writes the code that was left in `room` as text, `checked.ll`."""
    call([f"{kit}/toolchain/bin/clang", f"--target={TARGET}", "-S", "-emit-llvm", "-Xclang", "-disable-llvm-passes",
          "-x", "ir", "module.bc", "-o", "checked.ll"], room)


def code_that_starts(kit, room, crate, start):
    """The code of tests that was left in `room`, one of which is the crate's `main`, with another start."""
    read_code(kit, room)
    with open(f"{room}/checked.ll", encoding="utf-8") as it:
        text = it.read()
    entries = ENTRY.findall(text)
    called = CALLED.findall(entries[0]) if len(entries) == 1 else []
    if len(called) != 1 or f'define internal noundef i32 @"{crate}::main+run"' not in text:
        raise Unknown(f"the code of the tests of {crate} has no start of the program")
    return ENTRY.sub(lambda _: start.format(crate=crate, tests=called[0]), text)


def start_at(kit, room, crate):
    """Writes the code of tests, one of which is the crate's `main`, as text that starts as the program does."""
    text = code_that_starts(kit, room, crate, START)
    with open(f"{room}/checked.ll", "w", encoding="utf-8") as it:
        it.write(text)


def link(kit, room, flags, code, libraries):
    """Compiles `code` with these flags and links it. The program is `program` in `room`."""
    clang = f"{kit}/toolchain/bin/clang"
    call([clang, *[code if word == "module.bc" else word for word in flags_in(room)], *flags], room)
    link_object(kit, room, libraries)


def link_object(kit, room, libraries):
    call([f"{kit}/bin/rattle-link", "--target", TARGET, "--toolchain", f"{kit}/toolchain", "-o", "program", "module.o",
          *libraries, f"{kit}/c/libos_c.a", f"{kit}/c/liblibc_c.a"], room)


def link_plain(kit, room, kind):
    """Makes the program of `checked.ll` without checks."""
    with open(f"{room}/checked.ll", encoding="utf-8") as checked, open(f"{room}/plain.ll", "w", encoding="utf-8") as plain:
        plain.writelines(without_checks(checked, hints_of(kit)))
    if kind == "failing":
        call([f"{kit}/toolchain/bin/clang", f"--target={TARGET}", *FAILING_FLAGS, FAILING, "-o", "failing.o"], room)
    link(kit, room, QUICK if kind == "quick" else OPTIMISED, "plain.ll", ["failing.o"] * (kind == "failing"))


def link_checked(kit, room, crate):
    """Makes the program with the checks of `rt try`, of `both.o` if it is there."""
    if os.path.exists(f"{room}/both.o"):
        os.replace(f"{room}/both.o", f"{room}/module.o")
        link_object(kit, room, [f"{kit}/c/asan.a"])
    else:
        start_at(kit, room, crate)
        link(kit, room, [*QUICK, WITH_CHECKS], "checked.ll", [f"{kit}/c/asan.a"])


def move_program(room, out):
    """Moves the program that was linked in `room` to `out`, whole."""
    os.makedirs(os.path.dirname(out), exist_ok=True)
    shutil.move(f"{room}/program", f"{out}.new")
    os.replace(f"{out}.new", out)
