"""What the prover says of a function that it refuses, in the order in which it helps: counterexamples first."""
import re

# Lines that say what went well, how much was read, or what was chosen.
PLAIN = re.compile(r"(checked|statements|library|crate|logic|by-macro:) .*|.*: proved|so far: .*|rt: (rt |chose ).*")
# Lines that begin a reason: a place or a goal of the crate's own files, a function without proof, or what stopped the run.
REASON = re.compile(r"note: (\./)?(src|specs|proofs)/.*|note: `.*` (of (\./)?(src|specs|proofs)/|is in ).*"
                    r"|(\./)?(src|specs|proofs)/.*: (error|note).*|error.*|fn \S+: (not proved|no proof|could not tell).*"
                    r"|rattle: .*|rt: .* (not|cannot) .*")
VALUES = "the known facts allow"
GOAL = "must prove"
PLACE = re.compile(r"(?:^|\s|\()(?:\./)?(src/[\w/]+\.rt):(\d+):(\d+)")
FUNCTION = re.compile(r"^fn \w+::(\S+): (?:not proved|no proof|could not tell)", re.M)


def reasons(text):
    """Each reason of a run's output, as its lines: the first, and the help and what is set in below it."""
    found, is_open = [], False
    for line in text.splitlines():
        if REASON.fullmatch(line) and not PLAIN.fullmatch(line):
            found.append([line])
            is_open = True
        elif is_open and (line.startswith((" ", "\t", "help: ")) or not line):
            found[-1] += [line] if line else []
        else:
            is_open = False
    return found


def rank(reason):
    """What helps most comes first: values at which it is false, then a place, then a goal, then the rest."""
    text = "\n".join(reason)
    return 0 if VALUES in text else 1 if PLACE.search(reason[0]) else 2 if GOAL in text else 3


def ordered(text):
    """The lines of all reasons, those that help most first."""
    return [line for reason in sorted(reasons(text), key=rank) for line in reason]


def end_of(text, most):
    """The last lines of an output that has no reason, without what went well."""
    return [line for line in text.splitlines() if line and not PLAIN.fullmatch(line)][-most:]


def functions(text):
    """The functions that a run refused, by the names that --only takes."""
    return list(dict.fromkeys(FUNCTION.findall(text)))
