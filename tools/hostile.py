"""The site before many clients, slow ones, and such as mean no good, for tools/try-site --hostile."""
import contextlib
import os
import re
import socket
import subprocess
import threading
import time

import site_figures

SECONDS = 60
GET = b"GET /items/7 HTTP/1.1\r\nHost: a\r\n\r\n"
DOCUMENT = b"GET /files/guide.txt HTTP/1.1\r\nHost: a\r\n\r\n"
# What clients send that read nothing, and how much the processes may have together.
UNREAD_CLIENTS, UNREAD_BYTES, UNREAD_KILOBYTES = 8, 32_768, 16_384
SLOW_CLIENTS = 100
CONNECTIONS = 10_000
MESSAGES, FIRST_MESSAGES, MORE_KILOBYTES = 100_000, 10_000, 256
# After so many bytes of a connection its next reply is the last.
LAST_BYTE = 1_073_741_824
# The most that one message may cost a process, in kilobytes.
MESSAGE_KILOBYTES = 12_288


def connected(port):
    return socket.create_connection(("127.0.0.1", port), timeout=SECONDS)


def programs(path):
    """The processes of the program that were started from here."""
    parents, own = dict(site_figures.processes()), {str(os.getpid())}
    for _ in range(3):
        own |= {process for process, parent in parents.items() if parent in own}
    return [it for it in own if os.path.realpath(f"/proc/{it}/exe") == os.path.realpath(path)]


def reply_of(connection):
    """The status of a reply, and whether it closes."""
    data = b""
    while b"\r\n\r\n" not in data:
        piece = connection.recv(65_536)
        if not piece:
            return None, True
        data += piece
    head = data[:data.index(b"\r\n\r\n") + 2]
    return int(head.split()[1]), re.search(rb"(?im)^connection: *close\r?$", head) is not None


def unread(path, port):
    """Clients that send requests and read no reply: kilobytes that the processes have together."""
    with contextlib.ExitStack() as stack:
        for _ in range(UNREAD_CLIENTS):
            it = stack.enter_context(connected(port))
            it.setblocking(False)
            with contextlib.suppress(BlockingIOError):
                it.sendall(DOCUMENT * (UNREAD_BYTES // len(DOCUMENT)))
        time.sleep(1)
        return sum(map(site_figures.kilobytes, programs(path)))


def send_slowly(connection, until):
    with contextlib.suppress(OSError):
        for place in range(len(GET) - 1):
            connection.sendall(GET[place:place + 1])
            if until.wait(0.2):
                break


def slow(port):
    """Seconds that a client waits for its reply while many send a byte now and then."""
    until = threading.Event()
    with contextlib.ExitStack() as stack:
        for _ in range(SLOW_CLIENTS):
            it = stack.enter_context(connected(port))
            threading.Thread(target=send_slowly, args=(it, until), daemon=True).start()
        began = time.monotonic()
        with connected(port) as it:
            it.sendall(GET)
            status, _ = reply_of(it)
        until.set()
        return status, time.monotonic() - began


def in_turn(port):
    """How many of many connections, one after the other, had no reply."""
    lost = 0
    for _ in range(CONNECTIONS):
        try:
            with connected(port) as it:
                it.sendall(GET)
                lost += reply_of(it)[0] != 200
        except OSError:
            lost += 1
    return lost


def resident(process):
    with open(f"/proc/{process}/status", encoding="ascii") as it:
        return int(re.search(r"(?m)^VmRSS:\s*(\d+) kB", it.read())[1])


def drain(stream, count, found):
    while found[0] < count:
        piece = os.read(stream, 1_048_576)
        if not piece:
            return
        found[0] += piece.count(b"HTTP/1.1 200 OK\r\n")


def one_process(path):
    """Kilobytes and descriptors of one process past the first messages, and past all."""
    with subprocess.Popen([path], stdin=subprocess.PIPE, stdout=subprocess.PIPE) as it:
        seen, found = [], [0]
        for count in (FIRST_MESSAGES, MESSAGES - FIRST_MESSAGES):
            reader = threading.Thread(target=drain, args=(it.stdout.fileno(), found[0] + count, found), daemon=True)
            reader.start()
            for _ in range(count // 100):
                it.stdin.write(GET * 100)
            it.stdin.flush()
            reader.join(SECONDS)
            seen.append((found[0], resident(it.pid), len(os.listdir(f"/proc/{it.pid}/fd"))))
        it.stdin.close()
        return seen


def until_last(path, most):
    """How many messages with a long body one process answers before it closes, how many replies say so, and its status."""
    message = head("POST /visits HTTP/1.1", "Host: a", f"Content-Length: {most}", body=bytes(most))
    with subprocess.Popen([path], stdin=subprocess.PIPE, stdout=subprocess.PIPE) as it:
        sender = threading.Thread(target=feed, args=(it.stdin, message, LAST_BYTE // len(message) + 10), daemon=True)
        sender.start()
        data = it.stdout.read()
        sender.join()
        with contextlib.suppress(OSError):
            it.stdin.close()
        status = it.wait()
    closing = len(re.findall(rb"(?m)^connection: close\r$", data))
    return data.count(b"HTTP/1.1 405 "), -(-LAST_BYTE // len(message)), closing, status


# Requests that another server reads otherwise, or that are none, with the status that they get and whether it closes.

def head(line, *fields, body=b""):
    return b"\r\n".join([line.encode(), *[it.encode("latin-1") for it in fields], b"", b""]) + body


TABLE = [
    (head("GET /items/7 HTTP/1.1", "Host: a"), 200, False),
    (head("GET /items/7 HTTP/1.1", "Host: a", "Connection: close"), 200, True),
    (head("GET /items/7 HTTP/1.0"), 200, True),
    (head("GET /items/7 HTTP/1.1", "Host : a"), 400, True),
    (head("GET /items/7 HTTP/1.1", " Host: a"), 400, True),
    (head("GET /items/7 HTTP/1.1", "Host: a", " folded"), 400, True),
    (head("GET  /items/7 HTTP/1.1", "Host: a"), 400, True),
    (head("GET /items/7 HTTP/1.1 ", "Host: a"), 400, True),
    (head("GET /items/7", "Host: a"), 400, True),
    (head("GET /items/7 HTTP/0.9", "Host: a"), 505, True),
    (head("GET /items/7 HTTP/1.2", "Host: a"), 505, True),
    (head("GET /items/7 HTTP/1.1"), 400, True),
    (head("GET /items/7 HTTP/1.1", "Host: a", "Host: a"), 400, True),
    (head("GET /items/7#x HTTP/1.1", "Host: a"), 400, True),
    (head("GET /items/7#/../8 HTTP/1.1", "Host: a"), 400, True),
    (head("GET http://a/items/7 HTTP/1.1", "Host: a"), 400, True),
    (head("GET items/7 HTTP/1.1", "Host: a"), 400, True),
    (head('GET /items/7?f="a" HTTP/1.1', "Host: a"), 200, False),
    (head("GET * HTTP/1.1", "Host: a"), 400, True),
    (head("OPTIONS * HTTP/1.1", "Host: a"), 204, False),
    (head("CONNECT a:443 HTTP/1.1", "Host: a"), 400, True),
    (head("GET /items/%37 HTTP/1.1", "Host: a"), 200, False),
    (head(f"GET /{'a' * 9_000} HTTP/1.1", "Host: a"), 414, True),
    (head("GET /items/7 HTTP/1.1", "Host: a", f"X: {'a' * 9_000}"), 431, True),
    (head("GET /items/7 HTTP/1.1", "Host: a", *[f"x{it}: a" for it in range(99)]), 200, False),
    (head("GET /items/7 HTTP/1.1", "Host: a", *[f"x{it}: a" for it in range(100)]), 431, True),
    (head("G(T /items/7 HTTP/1.1", "Host: a"), 400, True),
    (head("GET /items/7\x00 HTTP/1.1", "Host: a"), 400, True),
    (head("GET /items/7 HTTP/1.1", "Host: a", "X: a\x00b"), 400, True),
    (head("POST /items HTTP/1.1", "Host: a", "Content-Length: 2", "Content-Length: 2", body=b"{}"), 400, True),
    (head("POST /items HTTP/1.1", "Host: a", "Content-Length: 2", "Content-Length: 3", body=b"{}"), 400, True),
    (head("POST /items HTTP/1.1", "Host: a", "Content-Length: +2", body=b"{}"), 400, True),
    (head("POST /items HTTP/1.1", "Host: a", "Content-Length: -1"), 400, True),
    (head("POST /items HTTP/1.1", "Host: a", "Content-Length: 2, 2", body=b"{}"), 400, True),
    (head("POST /items HTTP/1.1", "Host: a", "Content-Length: 0x2", body=b"{}"), 400, True),
    (head("POST /items HTTP/1.1", "Host: a", "Content-Length: 99999999999999999999"), 400, True),
    (head("POST /items HTTP/1.1", "Host: a", "Content-Length: 2000000"), 413, True),
    (head("POST /items HTTP/1.1", "Host: a", "Content-Length: 2", "Transfer-Encoding: chunked", body=b"0\r\n\r\n"), 400, True),
    (head("POST /items HTTP/1.1", "Host: a", "Transfer-Encoding: chunked, chunked", body=b"0\r\n\r\n"), 501, True),
    (head("POST /items HTTP/1.1", "Host: a", "Transfer-Encoding: xchunked", body=b"0\r\n\r\n"), 501, True),
    (head("POST /items HTTP/1.1", "Host: a", "Transfer-Encoding: gzip, chunked", body=b"0\r\n\r\n"), 501, True),
    (head("POST /items HTTP/1.1", "Host: a", "Transfer-Encoding: chunked", body=b"-1\r\n\r\n"), 400, True),
    (head("POST /items HTTP/1.1", "Host: a", "Transfer-Encoding: chunked", body=b"2\r\n{}0\r\n\r\n"), 400, True),
    (head("POST /items HTTP/1.1", "Host: a", "Transfer-Encoding: chunked", body=b"2\n{}\r\n0\r\n\r\n"), 400, True),
    (head("POST /items HTTP/1.1", "Host: a", "Transfer-Encoding: chunked", body=b"fffffffff\r\n"), 400, True),
    (head("POST /items HTTP/1.1", "Host: a", "Transfer-Encoding: chunked", body=b"100001\r\n"), 413, True),
    (b"PRI * HTTP/2.0\r\n\r\nSM\r\n\r\n", 505, True),
    (b"\x16\x03\x01\x00\xa5\x01\x00\x00\xa1\x03\x03\r\n\r\n", 400, True),
]


def wrong_replies(port):
    """The rows of the table whose reply is another one."""
    found = []
    for sent, status, closes in TABLE:
        with connected(port) as it:
            it.sendall(sent)
            with contextlib.suppress(OSError):
                it.shutdown(socket.SHUT_WR)
            told = reply_of(it)
            if told != (status, closes):
                found.append(f"{sent[:80]!r}: {told}, wanted {(status, closes)}")
    return found


# Bodies that need much memory for their length.

def nested(length):
    """Objects of one member, nested as deep as is taken, again and again."""
    item = b'{"":' * 100 + b"0" + b"}" * 100
    return b"[" + b",".join([item] * max((length - 2) // (len(item) + 1), 1)) + b"]"


def in_chunks(content, extension):
    """Each byte as a chunk with an extension of this length."""
    return b"".join(b"1;" + b"a" * extension + b"\r\n%c\r\n" % it for it in content) + b"0\r\n\r\n"


def shapes(most, most_json):
    json = "Content-Type: application/json"
    text = b"[" + b"0," * (most // 2 - 2) + b"0]"
    fields = [f"a{it}: b" for it in range(60)]
    for length in (most_json, most):
        deep = nested(length)
        yield "JSON, nested objects", head("POST /items HTTP/1.1", "Host: a", json, f"Content-Length: {len(deep)}", body=deep)
    chunks = in_chunks(nested(most_json), 26)
    yield "the same in chunks of one byte", head("POST /items HTTP/1.1", "Host: a", json, "Transfer-Encoding: chunked", body=chunks)
    yield "JSON, numbers", head("POST /items HTTP/1.1", "Host: a", json, f"Content-Length: {len(text)}", body=text)
    yield "chunks of one byte", head("POST /items HTTP/1.1", "Host: a", json, "Transfer-Encoding: chunked", body=in_chunks(b"x" * most, 250))
    yield "a body that is not read", head("POST /visits HTTP/1.1", "Host: a", f"Content-Length: {most}", body=b"a" * most)
    yield "many fields", head("GET /visits HTTP/1.1", "Host: a", *fields)
    yield "many cookies", head("GET /visits HTTP/1.1", "Host: a", "Cookie: " + "a=;" * 2_000)


def feed(stream, data, count=1):
    with contextlib.suppress(OSError):
        for _ in range(count):
            stream.write(data)
        stream.flush()


def most_kilobytes(path, data):
    """The status that one message gets, and the most that the process had, in kilobytes."""
    with subprocess.Popen([path], stdin=subprocess.PIPE, stdout=subprocess.PIPE) as it:
        sender = threading.Thread(target=feed, args=(it.stdin, data), daemon=True)
        sender.start()
        status = int(it.stdout.readline().split()[1])
        with open(f"/proc/{it.pid}/status", encoding="ascii") as of:
            most = int(re.search(r"(?m)^VmHWM:\s*(\d+) kB", of.read())[1])
        it.kill()
        sender.join()
        with contextlib.suppress(OSError):
            it.stdin.close()
        return status, most


def measure(path, listener, most_body, most_json):
    """Prints what was seen, and how many of the bounds hold."""
    passed = []

    def seen(text, holds):
        print(text if holds else f"FAILED: {text}", flush=True)
        passed.append(holds)

    with listener(path) as port:
        wrong = wrong_replies(port)
        seen(f"{len(TABLE)} hostile requests, {len(wrong)} with another reply" + "".join(f"\n  {it}" for it in wrong), not wrong)
        kilobytes = unread(path, port)
        seen(f"{UNREAD_CLIENTS} clients that send {UNREAD_BYTES} bytes and read nothing: {kilobytes} kB in all",
             kilobytes <= UNREAD_KILOBYTES)
        status, seconds = slow(port)
        seen(f"beside {SLOW_CLIENTS} clients that send a byte now and then: {status} within {seconds:.3f} seconds",
             status == 200 and seconds < 1)
        lost = in_turn(port)
        seen(f"{CONNECTIONS} connections in turn, {lost} without their reply", lost == 0)
    (_, before, files), (replied, behind, more_files) = one_process(path)
    seen(f"{replied} messages through one process: {before} kB and {files} files past the first {FIRST_MESSAGES}, {behind} kB and "
         f"{more_files} files past all", replied == MESSAGES and behind <= before + MORE_KILOBYTES and files == more_files)
    replied, most, closing, status = until_last(path, most_body)
    seen(f"{replied} messages with long bodies before a process closes, {closing} of whose replies say so: status {status}",
         replied in (most - 1, most) and closing == 1 and status == 0)
    for name, data in shapes(most_body, most_json):
        status, most = most_kilobytes(path, data)
        seen(f"{name}, {len(data)} bytes: {status}, at most {most} kB", most <= MESSAGE_KILOBYTES)
    print(f"{passed.count(True)} passed, {passed.count(False)} failed")
    return int(not all(passed))
