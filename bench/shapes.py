"""Texts of any size for each reader of texts from outside, each of one shape."""
import dataclasses
import typing

FORM = "header content-type application/x-www-form-urlencoded\n"
JSON = "header content-type application/json\n"
LIMITS = "layer payload=16777216 json=16777216 form=16777216\nparam limit 16777216\n"
# The most headers that an exchange may have, and somewhat less than the bytes that a target may have.
MOST_HEADERS, MOST_TARGET = 1_024, 65_000
# The program of typed headers reads a value from its command line, of which one word is no longer than this.
MOST_WORD = 131_000


@dataclasses.dataclass(frozen=True)
class Shape:
    """A text that a reader reads. `text` makes one of about so many bytes, `most` at most. `header` is the typed header
    that reads it, and empty where the text is a script."""

    reader: str
    name: str
    text: typing.Callable[[int], str]
    header: str = ""
    most: int = 8_000_000


def times(one, size):
    """As many of this text as fit, one at least, with `{}` for a number of six digits."""
    count = max(1, size // len(one.format("123456")))
    return "".join(one.format(f"{number:06}") for number in range(count))


def joined(one, size, between):
    """The same with a text between."""
    return times(one + between, size)[: -len(between)]


def rising_headers(size, name, value):
    """Header lines of one name: one for 128 bytes, so that the longest text of three has no more than there may be."""
    return f"header {name} {value}\n" * min(MOST_HEADERS, size // 128)


def exchange(lines, target="/bytes"):
    """One exchange that is polled once."""
    return f"exchange POST {target}\n{lines}plan 0\n"


def script(name, text):
    return Shape("script", name, text)


def targeted(reader, name, target):
    """A text within the target of an exchange."""
    return Shape(reader, name, lambda size: exchange("", target(size)), most=MOST_TARGET)


def served(reader, name, text, target, lines=""):
    """A text within one exchange of this target."""
    return Shape(reader, name, lambda size: exchange(lines + text(size), target))


def typed(name, text, header):
    return Shape(header, name, text, header, MOST_WORD)


def body(reader, name, text, target, lines=""):
    """A text that is a body of one piece."""
    return served(reader, name, lambda size: f"text {text(size)}\n", target, lines + LIMITS)


def pieces(reader, name, text, target, lines="", size_of=1):
    """A text that is a body of pieces of so many bytes."""
    def cut(size):
        whole = text(size)
        return "".join(f"text {whole[at : at + size_of]}\n" for at in range(0, len(whole), size_of))
    return served(reader, name, cut, target, lines + LIMITS)


def hexadecimal(text):
    return "piece " + text.encode().hex() + "\n"


def list_of(one, size):
    """An item with a list of this value."""
    return '{"name":"x","n":1,"l":[' + joined(one, size, ",") + "]}"


def objects(size):
    """Members of other names, each with an object."""
    return '{{"name":"x","n":1,{}}}'.format(joined('"k{}":{{"a":[true,null],"b":"c"}}', size, ",").replace("{{", "{"))


SHAPES = [
    script("exchanges", lambda size: times("exchange POST /bytes\ntext hello\n", size)),
    script("comments and empty lines", lambda size: times("# {}\n\n", size)),
    script("pieces as text", lambda size: exchange(times("text {}\n", size))),
    script("pieces in hexadecimal digits", lambda size: exchange(times("piece 00{}\n", size))),
    script("one long piece of digits", lambda size: exchange("piece " + times("00{}", size) + "\n")),
    script("stalls", lambda size: "exchange POST /bytes\n" + times("stall\n", size)),
    script("headers of many names", lambda size: exchange("".join(
        f"header x-name-{number} value\n" for number in range(min(MOST_HEADERS, size // 128))))),
    script("headers of one name", lambda size: exchange(rising_headers(size, "x-name", "value"))),
    script("parameters", lambda size: exchange(times("param p{} v\n", size))),
    script("layers", lambda size: exchange(times("layer payload=100000 json=5 number={}\n", size))),
    script("settings of one layer", lambda size: exchange("layer " + joined("json=1{}", size, " ") + "\n")),
    script("a plan of one line", lambda size: exchange("") + "plan " + joined("1{}", size, " ") + "\n"),
    script("plans of many lines", lambda size: exchange("") + times("plan 1{}\n", size)),
    targeted("target", "segments", lambda size: "/bytes/" + times("a{}/", size)),
    served("Accept", "items", lambda size: "header accept " + joined("a/b{}", size, ", ") + "\n", "/header"),
    served("Accept", "shortest items", lambda size: "header accept " + joined("a/b", size, ",") + "\n", "/header"),
    served("Accept", "items of one type, with qualities",
           lambda size: "header accept " + joined("a/b;q=0.5", size, ",") + "\n", "/header"),
    served("Accept", "parameters of one item",
           lambda size: "header accept a/b" + times(";p{}=1", size) + "\n", "/header"),
    served("Accept", "one quoted value with escapes",
           lambda size: 'header accept a/b;p="' + times('\\"{}', size) + '"\n', "/header"),
    served("Accept", "many lines", lambda size: rising_headers(size, "accept", "a/b, c/d;q=0.5"), "/header"),
    served("Cookie", "cookies", lambda size: "header cookie " + joined("c{}=v", size, "; ") + "\n", "/cookies"),
    served("Cookie", "shortest cookies", lambda size: "header cookie " + times("c=;", size) + "\n", "/cookies"),
    served("Cookie", "one value in percent signs",
           lambda size: "header cookie c=" + times("%41{}", size) + "\n", "/cookies"),
    served("Cookie", "what is no cookie", lambda size: "header cookie " + times(";x ", size) + "\n", "/cookies"),
    served("Forwarded", "elements",
           lambda size: "header forwarded " + joined("for=192.0.2.1;by=b{}", size, ", ") + "\n", "/who"),
    served("Forwarded", "pairs of one element",
           lambda size: "header forwarded " + joined("x{}=y", size, ";") + "\n", "/who"),
    served("Forwarded", "many lines", lambda size: rising_headers(size, "forwarded", "by=a;proto=x"), "/who"),
    served("X-Forwarded-For", "addresses",
           lambda size: "header x-forwarded-for " + joined("192.0.2.1", size, ", ") + "\n", "/who"),
    served("Content-Type", "parameters of a body's type",
           lambda size: "header content-type text/plain" + times("; p{}=1", size) + "\ntext a\n", "/text"),
    body("JSON", "members", lambda size: '{"name":"x","n":1,' + joined('"k{}":0', size, ",") + "}", "/json", JSON),
    body("JSON", "members of one name", lambda size: '{"n":1,' + joined('"name":"{}"', size, ",") + "}", "/json", JSON),
    body("JSON", "members with objects", objects, "/json", JSON),
    body("JSON", "a list of numbers", lambda size: list_of("1{}", size), "/json", JSON),
    body("JSON", "a list of empty lists", lambda size: list_of("[]", size), "/json", JSON),
    body("JSON", "a list of lists of a number", lambda size: list_of("[0]", size), "/json", JSON),
    body("JSON", "a list of objects of a member", lambda size: list_of('{{"":0}}', size), "/json", JSON),
    body("JSON", "one text with escapes", lambda size: '{"n":1,"name":"' + times("\\n{}", size) + '"}', "/json", JSON),
    body("JSON", "blanks", lambda size: '{"name":"x","n":' + " " * size + "1}", "/json", JSON),
    pieces("JSON", "pieces of one byte", lambda size: list_of("1{}", size), "/json", JSON),
    body("form", "pairs", lambda size: "name=x&n=1" + times("&k{}=v", size), "/form", FORM),
    body("form", "pairs of one name", lambda size: "name=x&n=1" + times("&k=v", size), "/form", FORM),
    body("form", "shortest pairs", lambda size: "name=x&n=1" + times("&k", size), "/form", FORM),
    body("form", "shortest pairs, decoded", lambda size: "name=x&n=1" + times("&+", size), "/form", FORM),
    body("form", "shortest pairs in percent signs", lambda size: "name=x&n=1" + times("&%41", size), "/form", FORM),
    body("form", "pairs without name and value", lambda size: "name=x&n=1" + times("&=", size), "/form", FORM),
    body("form", "one value in percent signs", lambda size: "n=1&name=" + times("%41{}", size), "/form", FORM),
    pieces("form", "pieces of one byte", lambda size: "n=1&name=" + times("a{}", size), "/form", FORM),
    body("JSON or form", "pairs", lambda size: "name=x&n=1" + times("&k{}=v", size), "/either", FORM),
    served("lines", "short lines in one piece", lambda size: hexadecimal(times("{}\n", size)), "/lines", LIMITS),
    served("lines", "short lines in pieces of their own",
           lambda size: times("text {}\npiece 0a\n", size), "/lines", LIMITS),
    pieces("lines", "one line in pieces of one byte", lambda size: times("{}", size), "/lines"),
    pieces("body", "pieces of one byte", lambda size: times("{}", size), "/bytes"),
    pieces("text", "pieces of 64 bytes", lambda size: times("{}", size), "/text", size_of=64),
    targeted("query", "pairs", lambda size: "/query?name=x&n=1" + times("&k{}=v", size)),
    targeted("query", "pairs of one name", lambda size: "/query?name=x&n=1" + times("&k=v", size)),
    targeted("query", "shortest pairs", lambda size: "/query?name=x&n=1" + times("&k", size)),
    targeted("query", "shortest pairs, decoded", lambda size: "/query?name=x&n=1" + times("&+", size)),
    targeted("query", "shortest pairs in percent signs", lambda size: "/query?name=x&n=1" + times("&%41", size)),
    targeted("query", "pairs without name and value", lambda size: "/query?name=x&n=1" + times("&=", size)),
    targeted("query", "one value in percent signs", lambda size: "/query?n=1&name=" + times("%41{}", size)),
    Shape("path", "one value in percent signs",
          lambda size: exchange("param n 1\nparam name " + times("%41{}", size) + "\n", "/path")),
    Shape("path", "parameters",
          lambda size: exchange("param n 1\nparam name x\n" + times("param k{} v\n", size), "/path")),
    typed("ranges", lambda size: "bytes=" + joined("1{}-", size, ","), "range"),
    typed("parameters", lambda size: "attachment" + times("; p{}=v", size), "content-disposition"),
    typed("one quoted value with escapes",
          lambda size: 'attachment; filename="' + times('\\"{}', size) + '"', "content-disposition"),
    typed("one extended value",
          lambda size: "attachment; filename*=UTF-8''" + times("%41{}", size), "content-disposition"),
    typed("tags", lambda size: joined('W/"{}"', size, ", "), "if-none-match"),
    typed("directives", lambda size: joined("x{}=1", size, ", "), "cache-control"),
    typed("codings, negotiated", lambda size: joined("c{};q=0.5", size, ", "), "accept-encoding"),
    typed("parameters", lambda size: "text/html" + times("; p{}=1", size), "content-type"),
]
