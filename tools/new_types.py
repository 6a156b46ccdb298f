"""Types of a crate's `types.txt` (see tools/new-type): how they are read from it, and the code and the specs of each."""
import re
from dataclasses import dataclass

COLUMNS = 100
UNSIGNED = {"u8": 8, "u16": 16, "u32": 32, "u64": 64, "usize": 64}
SIGNED = {"i8": 8, "i16": 16, "i32": 32, "i64": 64, "isize": 64}
# Of each type of std: what reads and writes it as JSON, the proof that it holds no float, and what does so in a form.
SCALARS = {
    "Text": ("text_of", "data_of_text", "text_no_float", "text_field", "texts_of_text"),
    "bool": ("bool_of", "data_of_bool", "bool_no_float", "bool_field", "texts_of_bool"),
    **{it: (f"{it}_of", "data_of_unsigned", "unsigned_no_float", f"{it}_field", "texts_of_unsigned") for it in UNSIGNED},
    **{it: (f"{it}_of", "data_of_signed", "signed_no_float", f"{it}_field", "texts_of_signed") for it in SIGNED},
}
OF_OPTION = ("option_of", "data_of_option", "option_no_float", "option_field", "texts_of_option")
OF_ITEMS = ("list_of", "data_of_list", "list_no_float", "", "texts_of_list")
READ, WRITTEN, NO_FLOAT, FIELD, TEXTS = range(5)
WITHOUT_FUNCTION = {
    "String": "a String has no reader that is a function, since contracts see how much room it has: use Text",
    "Vec": "a Vec has no reader that is a function, since contracts see how much room it has: use Items",
    "f32": "JSON with a float is refused: use a whole number",
    "f64": "JSON with a float is refused: use a whole number",
    "char": "there is no reader of a char: use Text len <= 4",
}
# Words that neither a field of Rust nor a name of the specs may be.
RESERVED = set(
    "abbrev absurd alloc as async await break const continue crate data do dyn else enum extern false fn for forall if "
    "impl in let loop match mod module move mut open pairs pub record ref return self static struct super then trait "
    "true type unsafe use value where while with yield d x known codes pos negsuc length refl put object in_object and_then "
    "required member_or required_field field_or all_fields deny_unknown".split()
)
# Names that the written code or its specs have already.
TAKEN = set(
    "Bool Data Err Fail Global Items List NoMemory None Ok Option Pair ReadData ReadFault ReadField ReadPairs Result Self Some "
    "String Text Value Vec WriteData WriteFault WriteField WritePairs".split()
)


class Refused(Exception):
    """What `types.txt` says cannot be written, and why."""


@dataclass
class Field:
    name: str
    member: str
    kind: str
    low: int | None
    high: int | None
    default: str | None
    doc: list


@dataclass
class Type:
    name: str
    fields: list
    names: list
    deny: bool
    doc: list
    is_flat: bool = False
    below: tuple = ()

    @property
    def module(self):
        return snake(self.name)


def snake(name):
    return re.sub(r"(?<!^)(?=[A-Z])", "_", name).lower()


def camel(name):
    return "".join(part[:1].upper() + part[1:] for part in re.split(r"[-_ ]", name))


def inner(kind):
    """`Option<T>` as `Option` and `T`; another type as nothing and itself."""
    found = re.fullmatch(r"(Option|Items)<(.*)>", kind)
    return found.groups() if found else ("", kind)


def innermost(kind):
    while inner(kind)[0]:
        kind = inner(kind)[1]
    return kind


# --- reading


def split(text):
    """The parts between commas, but for those in angles, brackets and quotes."""
    parts, depth, is_quoted = [""], 0, False
    for at, c in enumerate(text):
        is_quoted ^= c == '"'
        if not is_quoted and not (c == "<" and text[at + 1 : at + 2] == "="):
            depth += (c in "<[") - (c in ">]")
        if c == "," and depth == 0 and not is_quoted:
            parts.append("")
        else:
            parts[-1] += c
    return [part for part in parts if part.strip()]


def documented(text):
    """The lines of documentation of an entry, and the rest of it."""
    doc, rest = [], []
    for line in map(str.strip, text.splitlines()):
        if line.startswith("///"):
            doc.append(line)
        elif line:
            rest.append(line)
    return doc, " ".join(rest)


FIELD_FORM = re.compile(
    r'(?P<name>[a-z]\w*)(?: as "(?P<member>[^"\\]+)")? ?: ?(?P<kind>\w+(?:<[\w<>]+>)?)'
    r"(?: in (?P<low>-?\d+) ?\.\.= ?(?P<high>-?\d+)| len <= (?P<len>\d+))?(?: = (?P<default>.+))?"
)


def range_of(kind):
    if kind in UNSIGNED:
        return 0, 2 ** UNSIGNED[kind] - 1
    return -(2 ** (SIGNED[kind] - 1)), 2 ** (SIGNED[kind] - 1) - 1


def parsed_field(owner, text, known):
    doc, line = documented(text)
    found = FIELD_FORM.fullmatch(re.sub(r"\s+", " ", line).strip())
    if not found:
        raise Refused(f"{owner}: `{line}` is no field")
    name, kind = found["name"], found["kind"]
    where = f"{owner}.{name}"
    if name in RESERVED:
        raise Refused(f"{where}: `{name}` is a word of the language or of its specs: name the field otherwise, "
                      f'and the member by `as "{name}"`')
    outermost, last = kind.partition("<")[0], innermost(kind)
    for one in (outermost, last.partition("<")[0]):
        if one in WITHOUT_FUNCTION:
            raise Refused(f"{where}: {WITHOUT_FUNCTION[one]}")
    if last not in SCALARS and last not in known:
        raise Refused(f"{where}: there is no type {last} above")
    if kind.startswith("Option<Option<"):
        raise Refused(f"{where}: null would be None of either Option: use one")
    field = Field(name, found["member"] or name, kind, None, None, found["default"], doc)
    bounded(where, field, found)
    checked_default(where, field)
    return field


def bounded(where, field, found):
    if found["len"] is not None:
        if field.kind != "Text" and inner(field.kind)[0] != "Items":
            raise Refused(f"{where}: len bounds a Text or Items, and not a {field.kind}")
        field.high = int(found["len"])
    if found["low"] is not None:
        if field.kind not in UNSIGNED and field.kind not in SIGNED:
            raise Refused(f"{where}: in bounds a whole number, and not a {field.kind}")
        field.low, field.high = int(found["low"]), int(found["high"])
        least, most = range_of(field.kind)
        if not least <= field.low <= field.high <= most:
            raise Refused(f"{where}: {field.low}..={field.high} are no bounds of a {field.kind}")


def checked_default(where, field):
    outer, _ = inner(field.kind)
    said = field.default
    if said is None:
        field.default = "None" if outer == "Option" else None
        return
    is_number = field.kind in UNSIGNED or field.kind in SIGNED
    fits = (
        said == "None" if outer == "Option"
        else said == "[]" if outer == "Items"
        else re.fullmatch(r'"[^"\\]*"', said) if field.kind == "Text"
        else said in ("true", "false") if field.kind == "bool"
        else is_number and re.fullmatch(r"-?\d+", said)
    )
    if not fits:
        raise Refused(f"{where}: {said} is no default of a {field.kind}")
    if is_number:
        low, high = range_of(field.kind) if field.low is None else (field.low, field.high)
        if not low <= int(said) <= high:
            raise Refused(f"{where}: the default {said} is out of bounds")
    elif field.kind == "Text" and field.high is not None and len(said.encode()) - 2 > field.high:
        raise Refused(f"{where}: the default {said} is out of bounds")


ENTRY = re.compile(r"(?P<deny>deny )?(?P<name>[A-Z]\w*) ?(?:\{(?P<body>[^}]*)\}|= ?(?P<names>\"[^\n]*))")


def parsed(text):
    """The types that a text lists."""
    text = "\n".join(line for line in text.splitlines() if not re.match(r"\s*//(?!/)", line)) + "\n"
    types, at = {}, 0
    for found in ENTRY.finditer(text):
        doc, rest = documented(text[at : found.start()])
        if rest:
            raise Refused(f"`{rest}` is no type")
        at = found.end()
        name = found["name"]
        if name in types or name in TAKEN:
            raise Refused(f"{name}: there is such a type")
        types[name] = parsed_type(name, found, doc, types)
    if text[at:].strip():
        raise Refused(f"`{text[at:].strip()}` is no type")
    return list(types.values())


def parsed_type(name, found, doc, known):
    if found["names"]:
        names = [part.strip() for part in found["names"].split("|")]
        for one in names:
            if not re.fullmatch(r'"[A-Za-z][\w -]*"', one):
                raise Refused(f"{name}: {one} is no name: letters, digits, blanks, `-` and `_` in quotes")
        names = [one.strip('"') for one in names]
        for one in map(camel, names):
            if one in TAKEN or one == name:
                raise Refused(f"{name}: the variant {one} has a name that stands for something else")
        if len(set(map(camel, names))) < len(names):
            raise Refused(f"{name}: two names give one variant")
        return Type(name, [], names, False, doc, True)
    fields = [parsed_field(name, part, known) for part in split(found["body"])]
    if not fields:
        raise Refused(f"{name}: a type has a field at least")
    for what in ("name", "member"):
        said = [getattr(field, what) for field in fields]
        if len(set(said)) < len(said):
            raise Refused(f"{name}: a {what} comes twice")
    flat = all(is_flat(field.kind, known) for field in fields)
    below = sorted({innermost(field.kind) for field in fields} & set(known))
    return Type(name, fields, [], bool(found["deny"]), doc, flat, tuple(below))


def is_flat(kind, known):
    """Whether a form may have this field."""
    outer, of = inner(kind)
    if inner(of)[0]:
        return False
    last = of if outer else kind
    return bool(known[last].names) if last in known else bool(SCALARS[last][FIELD])


# --- what both parts say


def term(kind, part):
    """The function of the specs that reads or writes a type."""
    outer, of = inner(kind)
    if outer:
        name = (OF_OPTION if outer == "Option" else OF_ITEMS)[part]
        if part == NO_FLOAT:
            return f"({name} {term(of, WRITTEN)} {term(of, part)})"
        return f"({name} {term(of, part)})"
    if kind in SCALARS:
        return SCALARS[kind][part]
    low = snake(kind)
    return (f"{low}_of", f"data_of_{low}", f"{low}_no_float", f"{low}_field", f"texts_of_{low}")[part]


def applied(kind, part, argument):
    """That function of an argument."""
    name = term(kind, part)
    return f"{name[1:-1] if name.startswith('(') else name} {argument}"


def names_of(types, part):
    """The names of the specs of std's types that these kinds use."""
    found = set()
    for kind in types:
        while inner(kind)[0]:
            outer, of = inner(kind)
            found.add((OF_OPTION if outer == "Option" else OF_ITEMS)[part])
            kind = of
        if kind in SCALARS:
            found.add(SCALARS[kind][part])
    return sorted(found - {""})


# The readers that take what stands for a missing member or field.
WITH_DEFAULT = ("member_or", "field_or")


def member_reader(field):
    """What reads a member of an object."""
    return "required" if field.default is None else "member_or"


def pairs_reader(field):
    """What reads a field of a form, or all fields of a name."""
    if inner(field.kind)[0] == "Items":
        return "all_fields"
    return "required_field" if field.default is None else "field_or"


def is_bounded(field):
    return field.high is not None


def bound_text(field):
    if field.low is not None:
        return f"{field.member}: not in {field.low}..={field.high}"
    unit = "bytes" if field.kind == "Text" else "items"
    return f"{field.member}: more than {field.high} {unit}"


def default(field):
    """A default in the code, and in the specs."""
    said, outer = field.default, inner(field.kind)[0]
    if outer == "Option":
        return "None", "None"
    if outer == "Items":
        return "Items::of(Vec::new(alloc))", "[]"
    if field.kind == "Text":
        return ("Text::of", ["alloc", said], "?"), f"(codes {said})"
    if field.kind in SIGNED:
        return said, f"(negsuc {-int(said) - 1})" if said.startswith("-") else f"(pos {said})"
    return said, said


def written(crate, one):
    """The source of a type, and its specs."""
    import new_types_code
    import new_types_specs

    return new_types_code.source(crate, one), new_types_specs.source(crate, one)
