"""What the program that serves a folder takes for a request, beside other servers, for tools/try-files --figures.

All servers run side by side, and one client asks each of them in turn, over one kept connection of 127.0.0.1. Processor
time is that of the server's processes, by the system's own account (schedstat), and the median of the rounds; memory is
the most that one of them had."""
import contextlib
import os
import re
import shutil
import socket
import statistics
import subprocess
import sys
import tempfile
import time

import served_folder

# Requests of a round for 1 kB, for 100 kB and for 100 MB, and how many rounds there are.
SMALL, MIDDLE, LARGE, ROUNDS = 1_500, 500, 2, 7
LARGE_SIZE = 100_000_000
SECONDS = 20
TARGETS = {"1 kB": ("/1k.txt", SMALL), "100 kB": ("/100k.js", MIDDLE), "100 MB": ("/large.bin", LARGE)}
NGINX = """worker_processes 1; daemon off; master_process off; pid {room}/nginx.pid; error_log {room}/nginx.log;
events {{ worker_connections 64; }}
http {{ include /etc/nginx/mime.types; access_log off; sendfile on; keepalive_requests 1000000;
client_body_temp_path {room}/a; proxy_temp_path {room}/b; fastcgi_temp_path {room}/c; uwsgi_temp_path {room}/d;
scgi_temp_path {room}/e; server {{ listen 127.0.0.1:{port}; root {top}; }} }}
"""
GO = """package main

import ("net/http"; "os")

func main() { http.ListenAndServe("127.0.0.1:" + os.Args[1], http.FileServer(http.Dir(os.Args[2]))) }
"""
PYTHON = """import http.server, sys, functools
class Handler(http.server.SimpleHTTPRequestHandler):
    protocol_version = "HTTP/1.1"
    def log_message(self, *_): pass
http.server.ThreadingHTTPServer(("127.0.0.1", int(sys.argv[1])), functools.partial(Handler, directory=sys.argv[2])).serve_forever()
"""


def free_port():
    with socket.create_server(("127.0.0.1", 0)) as it:
        return it.getsockname()[1]


def written(room, name, text):
    path = os.path.join(room, name)
    with open(path, "w", encoding="utf-8") as it:
        it.write(text)
    return path


def go_program(room):
    source = written(room, "files.go", GO)
    out = os.path.join(room, "files-go")
    environment = {**os.environ, "GOCACHE": os.path.join(room, "go"), "GOFLAGS": "-mod=mod"}
    subprocess.run(["go", "build", "-o", out, source], check=True, env=environment, stdout=subprocess.DEVNULL)
    return out


def servers(program, top, room):
    """The servers that are there: a name, and the words that serve the folder on a port."""
    if shutil.which("socat"):
        def ours(*words):
            return lambda port: ["socat", "-b", "65536", f"TCP-LISTEN:{port},bind=127.0.0.1,reuseaddr,fork,nodelay",
                                 "EXEC:" + " ".join([program, top, *words])]
        yield "example_files", ours()
        yield "example_files --follow-links", ours("--follow-links")
    if shutil.which("nginx"):
        yield "nginx", lambda port: ["nginx", "-p", room, "-c", written(
            room, "nginx.conf", NGINX.format(room=room, port=port, top=top))]
    if shutil.which("go"):
        out = go_program(room)
        yield "Go net/http", lambda port: [out, str(port), top]
    yield "Python http.server", lambda port: [sys.executable, written(room, "files.py", PYTHON), str(port), top]


def tree(top):
    """A process and those below it."""
    children = {}
    for name in filter(str.isdigit, os.listdir("/proc")):
        with contextlib.suppress(OSError), open(f"/proc/{name}/stat", encoding="latin-1") as it:
            children.setdefault(int(it.read().rsplit(")", 1)[1].split()[1]), []).append(int(name))
    found = [top]
    for process in found:
        found += children.get(process, [])
    return found


def name_of(process):
    with open(f"/proc/{process}/comm", encoding="latin-1") as it:
        return it.read().strip()


def processor_time(process):
    """Microseconds of all threads of a process."""
    total = 0
    for task in os.listdir(f"/proc/{process}/task"):
        with open(f"/proc/{process}/task/{task}/schedstat", encoding="ascii") as it:
            total += int(it.read().split()[0])
    return total / 1000


def times(top):
    """Microseconds of the processes of a server, socat's apart."""
    found = {"server": 0, "socat": 0}
    for process in tree(top):
        with contextlib.suppress(OSError):
            found["socat" if name_of(process) == "socat" else "server"] += processor_time(process)
    return found


def most_memory(top):
    """The most memory that the largest process of a server had, socat's apart, in kB."""
    most = 0
    for process in tree(top):
        with contextlib.suppress(OSError), open(f"/proc/{process}/status", encoding="ascii") as it:
            if name_of(process) != "socat":
                most = max(most, int(re.search(r"VmHWM:\s*(\d+) kB", it.read())[1]))
    return most


def connect(port):
    end = time.monotonic() + SECONDS
    while True:
        try:
            client = socket.create_connection(("127.0.0.1", port), timeout=SECONDS)
            client.setsockopt(socket.IPPROTO_TCP, socket.TCP_NODELAY, 1)
            return client
        except OSError:
            if time.monotonic() > end:
                raise
            time.sleep(0.05)


def fetch(client, target, buffer):
    """Asks for a target once, and reads the reply."""
    client.sendall(f"GET {target} HTTP/1.1\r\nHost: localhost\r\n\r\n".encode())
    data = b""
    while b"\r\n\r\n" not in data:
        data += client.recv(65536)
    head, _, body = data.partition(b"\r\n\r\n")
    left = int(re.search(rb"(?i)content-length: *(\d+)", head)[1]) - len(body)
    while left > 0:
        left -= client.recv_into(buffer)


def started(stack, words, port):
    """A server that was started, and a connection to it."""
    process = stack.enter_context(subprocess.Popen(words, stdin=subprocess.DEVNULL, stdout=subprocess.DEVNULL,
                                                   stderr=subprocess.DEVNULL))
    stack.callback(process.terminate)
    return process, stack.enter_context(connect(port))


def round_of(process, client, target, count, buffer):
    """Microseconds of processor a request: the server's and socat's."""
    fetch(client, target, buffer)
    before = times(process.pid)
    for _ in range(count):
        fetch(client, target, buffer)
    after = times(process.pid)
    return [(after[key] - before[key]) / count for key in ("server", "socat")]


def measured(stack, program, top, room):
    """Of each server by its name: the medians of its rounds for each target, and its memory in kB."""
    running = {}
    for name, words_for in servers(program, top, room):
        port = free_port()
        running[name] = started(stack, words_for(port), port)
    buffer = bytearray(1 << 20)
    rounds = {(name, it): [] for name in running for it in TARGETS}
    for _ in range(ROUNDS):
        for it, (target, count) in TARGETS.items():
            for name, (process, client) in running.items():
                rounds[name, it].append(round_of(process, client, target, count, buffer))
    for name, (process, _) in running.items():
        cells = [[statistics.median(parts) for parts in zip(*rounds[name, it])] for it in TARGETS]
        yield name, cells, most_memory(process.pid)


def system_calls(program, top, words, fields=""):
    """System calls a request of 1 kB, of many in one input."""
    count = 1_000
    with tempfile.TemporaryFile() as requests, tempfile.NamedTemporaryFile() as told:
        requests.write(f"GET /1k.txt HTTP/1.1\r\nHost: h\r\n{fields}\r\n".encode() * count)
        totals = []
        for wanted in (count // 2, count):
            requests.seek(0)
            data = requests.read().split(b"\r\n\r\n")[:wanted]
            given = b"\r\n\r\n".join([*data, b""])
            subprocess.run(["strace", "-c", "-o", told.name, program, top, *words, "--no-date"], input=given,
                           stdout=subprocess.DEVNULL, check=True)
            with open(told.name, encoding="ascii") as it:
                totals.append(int(re.search(r"(\d+)\s+(?:\d+\s+)?total", it.read())[1]))
    return (totals[1] - totals[0]) / (count // 2)


def print_figures(program, top, room):
    served_folder.large(top, "large.bin", LARGE_SIZE)
    print(f"{'':30}" + "".join(f"{name:>22}" for name in TARGETS) + f"{'memory':>12}")
    with contextlib.ExitStack() as stack:
        for name, cells, memory in measured(stack, program, top, room):
            shown = [f"{server:.1f}" + (f" + {socat:.1f}" if socat else "") for server, socat in cells]
            print(f"{name:30}" + "".join(f"{cell:>22}" for cell in shown) + f"{memory:>9} kB", flush=True)
    print(f"microseconds of processor a request, socat's after a plus, medians of {ROUNDS} rounds in turn; the most memory of a process")
    if shutil.which("strace"):
        for words in ([], ["--follow-links"]):
            calls = system_calls(program, top, words)
            coded = system_calls(program, top, words, "Accept-Encoding: gzip\r\n")
            print(f"system calls a request of 1 kB{''.join(f' {it}' for it in words)}: {calls:.2f}; with Accept-Encoding {coded:.2f}")
