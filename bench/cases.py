"""The scripts that the programs are compared by."""
import dataclasses
import json
import random
import typing

LETTERS = "abcdefghijklmnopqrstuvwxyz"
JSON_TYPE, FORM_TYPE = "header content-type application/json", "header content-type application/x-www-form-urlencoded"
LANGUAGES, CODINGS = "de-DE,de;q=0.8,en-US;q=0.5,en;q=0.3", "gzip, deflate, br, zstd"
BOUNDARY = "----WebKitFormBoundary7MA4YWxkTrZu0gW"
PARTS = f"exchange POST /parts\nheader content-type multipart/form-data; boundary={BOUNDARY}\n"
ACCEPT = ("text/html,application/xhtml+xml,application/xml;q=0.9,image/avif,image/webp,image/png,image/svg+xml,"
          "*/*;q=0.8")
HEADERS = """host example.com:8080
user-agent Mozilla/5.0 (X11; Linux x86_64; rv:128.0) Gecko/20100101 Firefox/128.0
accept text/html,application/xhtml+xml,application/xml;q=0.9,*/*;q=0.8
accept-language en-US,en;q=0.5
accept-encoding gzip, deflate, br
content-type application/octet-stream
content-length 5
referer https://example.com/a/page
x-request-id 0123456789abcdef
cookie session=0123456789abcdef; theme=dark
"""


def plan_lines(entries, a_line):
    for at in range(0, len(entries), a_line):
        yield "plan " + " ".join(map(str, entries[at : at + a_line])) + "\n"


def planned(exchanges, entries, a_line=1000):
    return exchanges + "".join(plan_lines(entries, a_line))


def small(count):
    """Exchanges with small bodies: a piece or three, most with a stall, one in fifty with a fault."""
    choose = random.Random(count)
    lines, polls = [], []
    for number in range(count):
        lines.append("exchange POST /bytes\n")
        polls.append(number)
        for _ in range(choose.randint(1, 3)):
            if choose.random() < 0.8:
                lines.append("text " + "abcdefghij klmnopqrs"[: choose.randint(1, 20)] * choose.randint(1, 3) + "\n")
            else:
                lines.append("piece " + choose.randbytes(choose.randint(1, 20)).hex() + "\n")
            if choose.random() < 0.4:
                lines.append("stall\n")
                polls.append(number)
        if number % 50 == 7:
            lines.append("fault\n")
    choose.shuffle(polls)
    return planned("".join(lines), polls)


def waiting(count):
    """Exchanges that are all begun before the first is answered, in one order by chance and then in another."""
    choose = random.Random(count)
    first, second = list(range(count)), list(range(count))
    choose.shuffle(first)
    choose.shuffle(second)
    return planned("exchange POST /bytes\ntext hello \nstall\ntext world\n" * count, first + second)


def drawn(count, segments=("bytes", "json", "form")):
    """The script of `generate 1 COUNT`: bodies of two pieces and up to two stalls. Or one of these segments alone."""
    fronts = {"bytes": ("", "v", ""), "json": (JSON_TYPE + "\n", '{"name":"x","n":', "}"),
              "form": (FORM_TYPE + "\n", "name=x&n=", "")}
    lines, state = [], 1
    for _ in range(count):
        state = (state * 6364136223846793005 + 1442695040888963407) % 2**64
        draw = state >> 33
        segment = segments[draw % len(segments)]
        head, front, end = fronts[segment]
        lines.append(f"exchange POST /{segment}\n{head}text {front}\n" + "stall\n" * (draw // 3 % 3) +
                     f"text {draw // 9 % 1000}{end}\n")
    return planned("".join(lines), list(range(count)) * 2, a_line=1)


def pieces_of(size, piece):
    """The lines of a body of `size` bytes in pieces of `piece` bytes."""
    last = size % piece
    return ("text " + "x" * piece + "\n") * (size // piece) + ("text " + "x" * last + "\n" if last else "")


def bodies(count, size, piece):
    """Bodies of `size` bytes in pieces of `piece` bytes."""
    return planned(("exchange POST /bytes\n" + pieces_of(size, piece)) * count, list(range(count)))


def one_body(size, piece):
    """A body of `size` bytes, which a layer allows."""
    return f"exchange POST /bytes\nlayer payload={size}\n" + pieces_of(size, piece) + "plan 0\n"


def single_bytes(count, is_polled):
    """A body of `count` pieces of one byte, which is read or only waits."""
    return "exchange POST /bytes\n" + "text x\n" * count + ("plan 0\n" if is_polled else "")


def refused(size, piece):
    """A body of `size` bytes that is refused at its last byte, for a layer allows one byte less."""
    return f"exchange POST /bytes\nlayer payload={size - 1}\n" + pieces_of(size, piece) + "plan 0\n"


def several_refused(count, size, piece, together):
    """Bodies that each stall before the piece that they are refused for: each is refused before the next begins, or all
    have come but for that piece before the first is refused."""
    one = f"exchange POST /bytes\nlayer payload={size}\n" + pieces_of(size, piece) + "stall\ntext x\n"
    plan = list(range(count)) * 2 if together else [number for number in range(count) for _ in range(2)]
    return planned(one * count, plan)


def with_headers(count):
    """Exchanges with ten headers and one short piece."""
    lines = "".join("header %s\n" % header for header in HEADERS.splitlines())
    return planned(("exchange POST /bytes\n" + lines + "text hello\n") * count, list(range(count)))


def many_headers(count, headers):
    """Exchanges with so many headers, each of its own name."""
    lines = "".join(f"header x-header-{number} value {number}\n" for number in range(headers))
    return planned(("exchange POST /bytes\n" + lines + "text hello\n") * count, list(range(count)))


def layered(count):
    """Exchanges whose texts are read under three layers: the nearest configuration has a limit and a media type."""
    one = ("exchange POST /text\nheader content-type text/plain; charset=utf-8\nlayer shared-payload=9\n"
           "layer payload=1000 mime=text/plain;charset=utf-8\nlayer shared-payload=8\ntext hello \nstall\ntext world\n")
    return planned(one * count, [number for number in range(count) for _ in range(2)])


def each(count, *lines):
    """Exchanges of these lines, each of which may have `{number}` and `{text}`, polled once in their order."""
    choose = random.Random(count)
    script = []
    for number in range(count):
        text = "".join(choose.choices(LETTERS, k=8))
        script += [line.format(number=number, text=text) + "\n" for line in lines]
    return planned("".join(script), list(range(count)))


def small_json(count):
    """Items in JSON of 40 bytes."""
    return each(count, "exchange POST /json", JSON_TYPE, 'text {{"name":"{text} ab","n":1{number:012}}}')


def record(choose, number):
    """One of many members of a list: a number, a text with an escape, a list, a word and an object."""
    words = ["".join(choose.choices(LETTERS, k=choose.randint(2, 9))) for _ in range(8)]
    return json.dumps({"id": number, "title": " ".join(words[:4]) + ' "x"', "tags": words[4:7], "done": number % 2 == 0,
                       "owner": {"name": words[7], "age": choose.randint(1, 99)}, "next": None}, separators=(",", ":"))


def long_json(count, size, piece=8000):
    """Items in JSON of about `size` bytes, nearly all of them in members that are no part of the item."""
    choose = random.Random(size)
    records, length = [], 0
    while length < size:
        records.append(record(choose, len(records)))
        length += len(records[-1]) + 1
    body = '{"name":"ab","records":[' + ",".join(records) + '],"n":7}'
    pieces = [body[at : at + piece] for at in range(0, len(body), piece)]
    one = "exchange POST /json\n" + JSON_TYPE + "\n" + "".join("text %s\n" % it for it in pieces)
    return planned(one * count, list(range(count)))


def forms(count, path):
    """Forms of two pairs."""
    return each(count, "exchange POST " + path, FORM_TYPE, "text name={text}+%41b&n={number}")


def paths(count):
    """Paths with two parameters."""
    return each(count, "exchange GET /path/{text}/{number}", "param name {text}%2Fab", "param n {number}")


def queries(count):
    """Queries with two pairs."""
    return each(count, "exchange GET /query?name={text}+%41b&n={number}")


def accepts(count):
    """The Accept of a browser, whose media types are ranked."""
    return each(count, "exchange GET /header", "header accept " + ACCEPT)


def cookies(count):
    """Ten cookies in one header, two of them percent-encoded."""
    pairs = "; ".join(["session={text}0123456789", "theme=dark", "lang=en%2DUS"] + ["c%d={number}" % it for it in range(6)])
    return each(count, "exchange GET /cookies", "header cookie " + pairs + "; last=%41bc")


def forwarded(count):
    """Requests behind proxies, with three headers that say so."""
    return each(count, "exchange GET /who", "peer 10.0.0.1:443", "header host {text}.example",
                "header forwarded for=\"[2001:db8::1]:4711\";by=203.0.113.43;proto=https, for=192.0.2.{number}",
                "header x-forwarded-host {text}.example.com, b", "header x-forwarded-for 192.0.2.60, 10.0.0.1")


def lines(size, a_line):
    """A body of `size` bytes in lines of `a_line` bytes, each in two pieces."""
    one = "text " + "abcdefghij klmnopqrs" * (a_line // 20 + 1)
    line = one[: 5 + a_line - 1] + "\npiece 0a\n"
    return "exchange POST /lines\n" + line * (size // a_line) + "plan 0\n"


def documents(count, *headers):
    """A document, by these headers."""
    return each(count, "exchange GET /doc/a", *headers)


def variants(count):
    """One of four variants, by the three headers of a browser."""
    return each(count, "exchange GET /variant", "header accept " + ACCEPT, "header accept-language " + LANGUAGES,
                "header accept-encoding " + CODINGS)


def form_data(parts):
    """The bytes of a form of these parts: their parameters and their contents."""
    head = "--%s\r\nContent-Disposition: form-data; %s\r\n\r\n"
    front = b"".join((head % (BOUNDARY, said)).encode() + content + b"\r\n" for said, content in parts)
    return front + f"--{BOUNDARY}--\r\n".encode()


def cut(body, piece):
    """The lines of a body in pieces of `piece` bytes."""
    return "".join(f"piece {body[at : at + piece].hex()}\n" for at in range(0, len(body), piece))


def long_form(parts, size, piece):
    """A form of so many files of `size` random bytes, in pieces of `piece` bytes."""
    choose = random.Random(size)
    files = [(f'name="file"; filename="{number}.bin"', choose.randbytes(size)) for number in range(parts)]
    return PARTS + cut(form_data(files), piece) + "plan 0\n"


def small_forms(count):
    """Forms of three fields, each in one piece."""
    choose = random.Random(count)
    one = lambda: "".join(choose.choices(LETTERS, k=8)).encode()
    made = [form_data([('name="user"', one()), ('name="note"', one() * 4), ('name="n"', b"%d" % number)])
            for number in range(count)]
    return planned("".join(PARTS + cut(form, len(form)) for form in made), list(range(count)))

def long_plan(entries, exchanges=1000):
    """A few exchanges with three stalls, and a plan that mostly names those that are answered."""
    choose = random.Random(entries)
    one = "exchange POST /bytes\ntext ab\nstall\nstall\ntext cd\nstall\n"
    return planned(one * exchanges, [choose.randrange(exchanges) for _ in range(entries)])


def shortest(size):
    """As many exchanges of the shortest line as fit into `size` bytes. No entry of a plan names them."""
    line = "exchange A *\n"
    return line * (size // len(line))


def message(start, body="", headers=()):
    """A message of HTTP/1.1."""
    return "\r\n".join([f"{start} HTTP/1.1", *headers, "", body])


def gets(count):
    """A connection with small messages, one after the other."""
    return message("GET /query?name=a&n=7", headers=["host: example.com"]) * count


def browser_gets(count):
    """The same with the headers of a browser."""
    headers = [line.replace(" ", ": ", 1) for line in HEADERS.splitlines() if not line.startswith("content-")]
    return message("GET /query?name=a&n=7", headers=headers) * count


def posts(count, size):
    """A connection with bodies of a length."""
    return message("POST /bytes", LETTERS[:25] * (size // 25), ["host: example.com", f"content-length: {size}"]) * count


def chunked_posts(count, size, chunk):
    """A connection with bodies in chunks."""
    piece = LETTERS[:25] * (chunk // 25) or LETTERS[:chunk]
    body = f"{chunk:x}\r\n{piece}\r\n" * (size // chunk) + "0\r\n\r\n"
    return message("POST /bytes", body, ["host: example.com", "transfer-encoding: chunked"]) * count


@dataclasses.dataclass(frozen=True)
class Case:
    """A script with its name, the words that the programs are run with, and whether they are run under valgrind. Cases of
    one family differ in the count of exchanges alone. A command that makes a script of its own reads an empty one."""

    name: str
    script: typing.Callable[[], str]
    words: tuple = ("serve", "--pool=0")
    valgrind: bool = True
    family: str = ""
    exchanges: int = 0


def connection(name, script):
    """A connection of HTTP/1.1."""
    return Case(name, script, ("http1", "--pool=128"))


def load(*words):
    """A command that makes a script of its own."""
    return Case(" ".join(words), lambda: "", words=words)


def family(name, script, counts, pool):
    """Cases that differ in their count."""
    kept = f", pool {pool}" if pool else ""
    return [Case(f"{count:,} {name}{kept}", lambda count=count: script(count), ("serve", f"--pool={pool}"),
                 family=name + kept, exchanges=count) for count in counts]


def both_pools(name, script):
    """A case whose records are not kept, and one in which 128 are."""
    return [Case(name, script), Case(name + ", pool 128", script, ("serve", "--pool=128"))]


def bytes_alone(count):
    return drawn(count, ("bytes",))


NOT_POLLED, POLLED = "262,144 single bytes, not polled", "262,144 single bytes"
ONE_BY_ONE, TOGETHER = "5 of 2 MB refused, one by one", "5 of 2 MB refused, together"

CASES = [
    *family("small", small, (1000, 10000, 50000), 0),
    *family("small", small, (1000, 10000, 50000), 128),
    *family("that wait", waiting, (1000, 50000), 0),
    *family("that wait", waiting, (1000, 50000), 128),
    *family("mixed", drawn, (1000, 10000, 50000), 0),
    *family("mixed", drawn, (10000,), 128),
    *family("bytes of 2 pieces", bytes_alone, (1000, 10000, 50000), 0),
    *family("bytes of 2 pieces", bytes_alone, (10000,), 128),
    *both_pools("10,000 with ten headers", lambda: with_headers(10000)),
    Case("50 with 1,000 headers", lambda: many_headers(50, 1000)),
    *both_pools("10,000 texts under layers", lambda: layered(10000)),
    Case("40 bodies, lines of 8 kB", lambda: bodies(40, 250000, 8000)),
    Case("40 bodies, lines of 64 bytes", lambda: bodies(40, 250000, 64)),
    Case("10 MB, lines of 8 kB", lambda: one_body(10000000, 8000)),
    Case("10 MB, lines of 64 bytes", lambda: one_body(10000000, 64)),
    Case("10 MB refused at its end", lambda: refused(10000000, 64)),
    Case(ONE_BY_ONE, lambda: several_refused(5, 2000000, 64, together=False)),
    Case(TOGETHER, lambda: several_refused(5, 2000000, 64, together=True)),
    Case(NOT_POLLED, lambda: single_bytes(262144, is_polled=False)),
    Case(POLLED, lambda: single_bytes(262144, is_polled=True)),
    *both_pools("10,000 JSON items of 40 bytes", lambda: small_json(10000)),
    Case("100 JSON items of 100 kB", lambda: long_json(100, 100000)),
    *both_pools("10,000 forms", lambda: forms(10000, "/form")),
    Case("10,000 paths", lambda: paths(10000)),
    Case("10,000 queries", lambda: queries(10000)),
    Case("10,000 Either, a form", lambda: forms(10000, "/either")),
    Case("10,000 Accept of a browser", lambda: accepts(10000)),
    Case("10,000 with ten cookies", lambda: cookies(10000)),
    Case("10,000 behind proxies", lambda: forwarded(10000)),
    Case("10 MB in lines of 80 bytes", lambda: lines(10000000, 80)),
    Case("10,000 documents", lambda: documents(10000)),
    Case("10,000 not modified", lambda: documents(10000, 'header if-none-match "v0", "v1"',
                                                  "header if-modified-since Tue, 14 Nov 2023 22:13:20 GMT")),
    Case("10,000 ranges of a document", lambda: documents(10000, "header range bytes=2-4", 'header if-range "v1"')),
    Case("10,000 of four variants", lambda: variants(10000)),
    Case("1 MB of parts, 64 kB a piece", lambda: long_form(16, 65536, 65536)),
    Case("1 MB of parts, 64 bytes a piece", lambda: long_form(16, 65536, 64)),
    Case("1,000 forms of three parts", lambda: small_forms(1000)),
    connection("20,000 messages without a body", lambda: gets(20000)),
    connection("10,000 messages of a browser", lambda: browser_gets(10000)),
    connection("10,000 bodies of 1 kB", lambda: posts(10000, 1000)),
    connection("100 bodies of 64 kB in chunks of 8 kB", lambda: chunked_posts(100, 64000, 8000)),
    connection("100 bodies of 64 kB in chunks of 50 bytes", lambda: chunked_posts(100, 64000, 50)),
    connection("10 bodies of 64 kB in single bytes", lambda: chunked_posts(10, 64000, 1)),
    Case("plan of 2,000,000 entries", lambda: long_plan(2000000)),
    load("generate", "1", "50000"),
    load("replay", "1", "50000"),
    Case("16 MiB of 'exchange A *'", lambda: shortest(16 << 20), valgrind=False),
]
