"""What the site takes for a request and for a connection, for tools/try-site --figures."""
import contextlib
import os
import re
import shutil
import socket
import subprocess
import tempfile

import repository

PLAIN = os.path.join(repository.TOP, "bench", "target", "release", "plain")
TARGET = "/items/7"
REQUEST = f"GET {TARGET} HTTP/1.1\r\nHost: 127.0.0.1\r\n\r\n".encode()
# How long a load lasts, and over how many connections.
SECONDS = 3
CONNECTIONS = 4
# Requests of one connection whose processor time is measured.
MANY = 50_000
ROUNDS = 5
# Connections that are open side by side, to measure their memory.
SIDE_BY_SIDE = 32


def has_load():
    return shutil.which("wrk") is not None


def load(port, seconds):
    """Requests a second, and what failed: other statuses, and connections that broke."""
    words = ["wrk", "-t", "1", "-c", str(CONNECTIONS), "-d", str(seconds), f"http://127.0.0.1:{port}{TARGET}"]
    told = subprocess.run(words, check=True, stdout=subprocess.PIPE, text=True).stdout
    faults = re.findall(r"(?m)^ *(Non-2xx .*|Socket errors: .*)$", told)
    return float(re.search(r"Requests/sec: *([\d.]+)", told)[1]), "; ".join(faults)


def processor_time(words):
    """Microseconds a request of many that stand in one input."""
    with tempfile.TemporaryFile() as requests, open(os.devnull, "wb") as replies:
        requests.write(REQUEST * MANY)
        requests.seek(0)
        program = subprocess.Popen(words, stdin=requests, stdout=replies)
        _, program.returncode, usage = os.wait4(program.pid, 0)
        return (usage.ru_utime + usage.ru_stime) / MANY * 1e6


def processes():
    """Each process with its parent."""
    for name in filter(str.isdigit, os.listdir("/proc")):
        with contextlib.suppress(OSError), open(f"/proc/{name}/stat", encoding="latin-1") as it:
            yield name, it.read().rsplit(")", 1)[1].split()[1]


def kilobytes(process):
    """What a process has of memory for itself, with its part of what it shares."""
    with open(f"/proc/{process}/smaps_rollup", encoding="ascii") as it:
        return int(re.search(r"(?m)^Pss: *(\d+) kB", it.read())[1])


def memory(path, port):
    """Kilobytes of the program a connection, and of what runs it, each with an answered request."""
    with contextlib.ExitStack() as stack:
        for _ in range(SIDE_BY_SIDE):
            it = stack.enter_context(socket.create_connection(("127.0.0.1", port), timeout=15))
            it.sendall(REQUEST)
            it.recv(4096)
        # The descendants of this process: what listens has a child for each connection, and that the program.
        parents, own = dict(processes()), {str(os.getpid())}
        for _ in range(3):
            own |= {process for process, parent in parents.items() if parent in own}
        is_program = {it: os.path.realpath(f"/proc/{it}/exe") == os.path.realpath(path) for it in own}
        programs = [it for it, yes in is_program.items() if yes]
        runners = {parents[it] for it in programs} - {str(os.getpid())}
        return [round(sum(map(kilobytes, found)) / SIDE_BY_SIDE) for found in (programs, runners)]


def measure(path, listener):
    """Prints the figures of the program, and of the one in plain Rust where that was built. They are measured in turn, and
    the best of the rounds counts, since what else the machine does takes from both."""
    sides = {"site": [path]}
    if os.access(PLAIN, os.X_OK):
        sides["plain"] = [PLAIN, "site"]
    times, rates = {name: [] for name in sides}, {name: [] for name in sides}
    with contextlib.ExitStack() as stack:
        ports = {name: stack.enter_context(listener(" ".join(words))) for name, words in sides.items()}
        for name in list(sides) * ROUNDS:
            times[name].append(processor_time(sides[name]))
            if has_load():
                rates[name].append(load(ports[name], SECONDS))
        for name, words in sides.items():
            own, runner = memory(words[0], ports[name])
            print(f"{name}: {min(times[name]):.2f} microseconds of processor time a request, {own} kB a connection, and "
                  f"{runner} kB of what runs it")
            for rate, faults in sorted(rates[name])[-1:]:
                print(f"{name}: {rate:,.0f} requests a second{faults and f' ({faults})'}, the most of {len(rates[name])} "
                      f"rounds of {SECONDS} seconds over {CONNECTIONS} connections")
    return 0
