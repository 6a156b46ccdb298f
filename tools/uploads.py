"""Uploads that a server refuses while they come, by each client that is there: none may lose the reply."""
import http.client
import os
import shutil
import subprocess

import browser
import repository

CLIENTS = os.path.join(repository.TOP, "bench", "servers")
SECONDS = 60
REFUSED = 413
# The sizes of the uploads of a client, in bytes.
SIZES = (1_100_000, 2_000_000, 5_000_000, 20_000_000)


def ran(words, **how):
    """The statuses that a client writes, one a line. A line that is none stands for a reply that was lost."""
    done = subprocess.run(words, stdin=subprocess.DEVNULL, stdout=subprocess.PIPE, stderr=subprocess.DEVNULL, text=True,
                          timeout=SECONDS, check=False, **how)
    return [int(line) if line.isdigit() else line for line in done.stdout.split("\n") if line]


def by_curl(front, sizes, room):
    found = []
    for size in sizes:
        path = os.path.join(room, "upload")
        with open(path, "wb") as it:
            it.truncate(size)
        words = ["curl", "-q", "-sS", "--noproxy", "*", "--max-time", "30", "-o", os.path.join(room, "page"), "-w", "%{http_code}\n"]
        for more in ([], ["-H", "Expect:"]):
            found += ran([*words, *more, "-F", f"file=@{path}", f"{front}/upload"])
    return found


def by_python(front, sizes, _):
    """It sends the whole body before it reads, and reads the reply where sending broke off."""
    found = []
    for size in sizes:
        connection = http.client.HTTPConnection(front.removeprefix("http://"), timeout=SECONDS)
        try:
            connection.request("POST", "/upload", body=bytes(size))
            found.append(connection.getresponse().status)
        except OSError as why:
            found.append(type(why).__name__)
        finally:
            connection.close()
    return found


def by_node(front, sizes, _):
    return ran(["node", os.path.join(CLIENTS, "upload.js"), front, *map(str, sizes)])


def by_go(front, sizes, room):
    program = os.path.join(room, "upload-by-go")
    if not os.path.exists(program):
        words = ["go", "build", "-o", program, os.path.join(CLIENTS, "upload.go")]
        subprocess.run(words, check=True, env={**os.environ, "GO111MODULE": "off", "GOCACHE": os.path.join(room, "cache")})
    return ran([program, front, *map(str, sizes)])


def by_browser(front, sizes, room):
    """From a text, since the site's pages may send nothing by a script."""
    found = []
    with browser.Browser(os.path.join(room, "profile-of-uploads")) as it:
        it.go(front + "/visits")
        for size in sizes:
            script = (f"window.told = undefined; fetch('/upload', {{method: 'POST', body: new Uint8Array({size})}})"
                      ".then(reply => { window.told = reply.status }, why => { window.told = String(why) })")
            it.value(script)
            it.wait_for("window.told !== undefined")
            found.append(it.value("window.told"))
    return found


# Each client with the program that it needs.
CALLS = {"curl": (by_curl, lambda: shutil.which("curl")), "Python": (by_python, lambda: True),
         "node": (by_node, lambda: shutil.which("node")), "Go": (by_go, lambda: shutil.which("go")),
         "the browser": (by_browser, browser.path)}


def lacking():
    """The clients that are not there."""
    return [name for name, (_, is_there) in CALLS.items() if not is_there()]


def statuses(front, rounds, room):
    """What each client that is there got, for so many rounds of uploads, in a folder that they may write to."""
    return {name: call(front, SIZES * rounds, room) for name, (call, is_there) in CALLS.items() if is_there()}
