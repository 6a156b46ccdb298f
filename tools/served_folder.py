"""The folder that tools/try-files has served: files of every kind, and links to every place."""
import os
import socket

DIGITS = b"0123456789"
# The first of January 2100.
FAR = 4_102_444_800
FILES = {
    "1k.txt": DIGITS * 100,
    "index.html": b"<h1>root</h1>\n",
    "sub/a b.txt": b"space\n",
    "sub/ü.txt": b"umlaut\n",
    "sub/deep/end.txt": b"end\n",
    "x<b>&\"y/in.txt": b"markup\n",
    "a+b.txt": b"plus\n",
    "a%2fb.txt": b"percent\n",
    "q?x.txt": b"question\n",
    "q\"uote.bin": b"quote\n",
    "line\nbreak.txt": b"line\n",
    "javascript:alert(1)": b"script\n",
    "empty.txt": b"",
    "noext": b"plain\n",
    "BIG.TXT": b"big\n",
    "two..dots.html": b"dots\n",
    "...": b"dots\n",
    "dot.svg": b"<svg xmlns=\"http://www.w3.org/2000/svg\"/>\n",
    "pack.zip": b"PK",
    ".secret": b"hidden\n",
    ".git/config": b"config\n",
    "100k.js": b"// a line of text.\n" * 5263 + b"//\n",
    "100k.js.gz": b"g" * 203,
    "100k.js.br": b"b" * 102,
    "folded.txt": b"plain\n",
    "folded.txt.gz/in.txt": b"in\n",
    "linked.txt": b"plain\n",
    "zipped/index.html": b"index\n",
    "zipped/index.html.gz": b"index in gzip\n",
    "alone.txt.gz": b"alone\n",
    "dirindex/index.html/in.txt": b"in\n",
    "old.txt": b"old\n",
    "far.txt": b"far\n",
}
LINKS = {
    "link.txt": "1k.txt",
    "passwd": "/etc/passwd",
    "out": "/etc",
    "up": "..",
    "way": "sub",
    "dangling": "nowhere",
    "loop": "loop",
    "pipelink": "pipe",
    "linked.txt.gz": "1k.txt",
    "linkindex/index.html": "../index.html",
}


def make(room):
    """Makes the folder in a room, and beside it what no request may get. Returns its path."""
    top = os.path.join(os.path.realpath(room), "served")
    for name, content in FILES.items():
        path = os.path.join(top, name)
        os.makedirs(os.path.dirname(path), exist_ok=True)
        with open(path, "wb") as it:
            it.write(content)
    with open(os.fsencode(top) + b"/lat\xe9.txt", "wb") as it:
        it.write(b"latin\n")
    with open(os.path.join(room, "secret.txt"), "wb") as it:
        it.write(b"secret\n")
    os.makedirs(os.path.join(top, "empty"))
    os.makedirs(os.path.join(top, "linkindex"))
    for name, target in LINKS.items():
        os.symlink(target, os.path.join(top, name))
    os.mkfifo(os.path.join(top, "pipe"))
    with socket.socket(socket.AF_UNIX) as it:
        it.bind(os.path.join(top, "socket"))
    os.utime(os.path.join(top, "old.txt"), (-86_400, -86_400))
    os.utime(os.path.join(top, "far.txt"), (FAR, FAR))
    return top


def tag(top, name):
    """The tag of a file."""
    facts = os.stat(os.path.join(top, name))
    seconds, nanos = divmod(facts.st_mtime_ns, 1_000_000_000)
    return f'"{facts.st_ino:x}:{facts.st_size:x}:{seconds:x}:{nanos:x}"'


def large(top, name, size):
    """Makes a file of so many bytes, and returns its path."""
    path = os.path.join(top, name)
    with open(path, "wb") as it:
        for _ in range(size // 1_000_000):
            it.write(DIGITS * 100_000)
    return path
