"""What the fronts of the site take, beside servers of other languages, for tools/try-deploy --figures."""
import contextlib
import os
import re
import shutil
import socket
import subprocess
import time

import repository
import site_figures

SERVERS = os.path.join(repository.TOP, "bench", "servers")
REQUEST = site_figures.REQUEST
ROUNDS = 3
# Requests whose processor time is measured, over connections that are kept, and how many of these.
REQUESTS, KEPT = 8_000, 16
# Connections whose memory is measured.
OPEN = 32
# How long a load lasts, its connections at once of one request each, and those of one that is more than a pool has.
SECONDS, SINGLE, MANY = 3, 8, 256


def go_server(folder):
    """The server in Go, built in this folder, or None where there is no Go."""
    if shutil.which("go") is None:
        return None
    program = os.path.join(folder, "item")
    words = ["go", "build", "-o", program, os.path.join(SERVERS, "item.go")]
    subprocess.run(words, check=True, env={**os.environ, "GO111MODULE": "off", "GOCACHE": os.path.join(folder, "cache")})
    return program


@contextlib.contextmanager
def servers(go):
    """The port and the process of each server that is there, by its name."""
    ports, words = {}, {}
    for name in ("Go", "node"):
        with socket.create_server(("127.0.0.1", 0)) as it:
            ports[name] = it.getsockname()[1]
    if go:
        words["Go"] = [go, "tcp", f"127.0.0.1:{ports['Go']}"]
    if shutil.which("node"):
        words["node"] = ["node", os.path.join(SERVERS, "item.js"), str(ports["node"])]
    with contextlib.ExitStack() as stack:
        found = {}
        for name, its in words.items():
            program = stack.enter_context(subprocess.Popen(its, stdin=subprocess.DEVNULL))
            stack.callback(program.terminate)
            found[name] = ports[name], [program.pid]
        time.sleep(1)
        yield found


# What processes use.

def with_children(roots):
    """These processes, and all that they started."""
    parents, found = dict(site_figures.processes()), set(map(str, roots))
    while True:
        more = {it for it, parent in parents.items() if parent in found} - found
        if not more:
            return found
        found |= more


def processor_seconds(roots):
    total = 0
    for process in with_children(roots):
        with contextlib.suppress(OSError):
            for thread in os.listdir(f"/proc/{process}/task"):
                with open(f"/proc/{process}/task/{thread}/schedstat", encoding="ascii") as it:
                    total += int(it.read().split()[0])
    return total / 1e9


def kilobytes(roots):
    total = 0
    for process in with_children(roots):
        with contextlib.suppress(OSError):
            total += site_figures.kilobytes(process)
    return total


# Connections.

def reply_length(connection):
    """Sends a request, and returns how many bytes its reply has."""
    connection.sendall(REQUEST)
    found = b""
    while b"\r\n\r\n" not in found:
        found += connection.recv(65536)
    head, _, body = found.partition(b"\r\n\r\n")
    length = int(re.search(rb"(?i)content-length: *(\d+)", head)[1])
    while len(body) < length:
        body += connection.recv(65536)
    return len(head) + 4 + length


def connections(port, count, stack):
    return [stack.enter_context(socket.create_connection(("127.0.0.1", port), timeout=30)) for _ in range(count)]


def microseconds(port, roots):
    """Processor time a request."""
    with contextlib.ExitStack() as stack:
        kept = connections(port, KEPT, stack)
        lengths = [reply_length(it) for it in kept]
        before = processor_seconds(roots)
        for _ in range(REQUESTS // KEPT):
            for it in kept:
                it.sendall(REQUEST)
            for it, length in zip(kept, lengths):
                it.recv(length, socket.MSG_WAITALL)
        return (processor_seconds(roots) - before) / (REQUESTS // KEPT * KEPT) * 1e6


def memory(port, roots):
    """Kilobytes of a connection that is idle after a reply. A pool has the process that answers it before."""
    with socket.create_connection(("127.0.0.1", port), timeout=30) as it:
        reply_length(it)
    time.sleep(0.5)
    before = kilobytes(roots)
    with contextlib.ExitStack() as stack:
        for it in connections(port, OPEN, stack):
            reply_length(it)
        return (kilobytes(roots) - before) / OPEN


def load(port, count, *words):
    """Requests a second by wrk, the time within which 99 of 100 were answered, and what failed."""
    words = ["wrk", "-t", "1", "-c", str(count), "-d", str(SECONDS), "--timeout", "10", "--latency", *words]
    words.append(f"http://127.0.0.1:{port}{site_figures.TARGET}")
    told = subprocess.run(words, check=True, stdout=subprocess.PIPE, text=True).stdout
    faults = re.findall(r"(?m)^ *(Non-2xx .*|Socket errors: .*)$", told)
    return float(re.search(r"Requests/sec: *([\d.]+)", told)[1]), re.search(r"99% *(\S+)", told)[1], "; ".join(faults)


def measure(fronts, straight, go):
    """Prints a row for each front and server, which are measured in turn: the best of the rounds, since what else the machine
    does takes from all. Those that are straight have a process for each connection, and no load of many."""
    with servers(go) as others:
        subjects = fronts | others
        sizes = {name: memory(*it) for name, it in subjects.items()}
        times, singles, many = ({name: [] for name in subjects} for _ in range(3))
        for name in list(subjects) * ROUNDS:
            port, roots = subjects[name]
            times[name].append(microseconds(port, roots))
            singles[name].append(load(port, SINGLE, "-H", "Connection: close"))
            if name not in straight:
                many[name].append(load(port, MANY))
    for name in subjects:
        print(f"{name}: {min(times[name]):.0f} microseconds a request (at most {max(times[name]):.0f}), {sizes[name]:.1f} kB "
              "a connection")
        for what, found in (f"{SINGLE} at once of one request each", singles), (f"{MANY} that are kept", many):
            for rate, most, faults in sorted(found[name])[-1:]:
                print(f"{name}, {what}: {rate:,.0f} a second, 99 of 100 within {most}{faults and f' ({faults})'}", flush=True)
    return 0
