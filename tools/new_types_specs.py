"""The specs of the types that tools/new-type writes."""
import re

import new_types
from new_types import COLUMNS, FIELD, NO_FLOAT, TEXTS, READ, WRITTEN, applied, camel, inner, is_bounded, snake, term
from new_types_code import none_of, spec_bound


def used(path, names):
    """Lines `use`, each of at most 100 columns."""
    names, lines = list(dict.fromkeys(names)), []
    while names:
        taken = [names.pop(0)]
        while names and len(f"use {path}.{{{', '.join(taken + names[:1])}}}") <= COLUMNS:
            taken.append(names.pop(0))
        lines.append(f"use {path}.{{{', '.join(taken)}}}")
    return lines


def chain(steps, last, indent="    "):
    """Tests in order, as a term."""
    lines = []
    for value, name in steps:
        lines.append(f"{indent}and_then ({value}) (λ {name}.")
        if len(lines[-1]) > COLUMNS:
            parts = value.replace(" ∷ ", f"\n{indent}∷ ").split("\n")
            lines[-1:] = [f"{indent}and_then", f"{indent}({parts[0]}", *parts[1:], f"{indent}(λ {name}."]
            lines[-2] += ")"
    return lines + with_parentheses(last, len(steps), indent)


def with_parentheses(lines, count, indent):
    lines = [indent + line for line in lines]
    lines[-1] += ")" * count
    return lines


def record(one):
    """The value of the fields that were read."""
    parts = [f"{field.name} = {field.name}" for field in one.fields]
    line = f"Ok (record {{ {'; '.join(parts)} }})"
    if len(line) + 4 + len(parts) + 2 <= COLUMNS:
        return [line]
    return ["Ok (record {", *(f"  {part};" for part in parts), "})"]


def in_bounds(one, field, value):
    return f"and_then ({value}) {spec_bound(one, field)}" if is_bounded(field) else value


def read_steps(one, read_from, reader, part):
    """How each field is read, with its name."""
    for field in one.fields:
        by = reader(field)
        kind = inner(field.kind)[1] if by == "all_fields" else field.kind
        otherwise = f"{new_types.default(field)[1]} " if by in new_types.WITH_DEFAULT else ""
        value = f'{by} {term(kind, part)} (codes "{field.member}") {otherwise}{read_from}'
        yield in_bounds(one, field, value), field.name


def bound(one, field):
    """What is read where a value is in its bounds."""
    kind, name = field.kind, spec_bound(one, field)
    if field.low is not None:
        said = "ℤ" if kind in new_types.SIGNED else "ℕ"
        least, most = new_types.range_of(kind)
        if said == "ℕ":
            tests = [f"nat_lt x {field.low}"] * (field.low > least) + [f"nat_lt {field.high} x"] * (field.high < most)
        else:
            tests = [f"int_lt x {signed(field.low)}"] * (field.low > least)
            tests += [f"int_lt {signed(field.high)} x"] * (field.high < most)
        test = " || ".join(tests) or "false"
    else:
        said = "List ℕ" if kind == "Text" else f"List {value_type(inner(kind)[1])}"
        test = f"nat_lt {field.high} (length x)"
    refusal = f'Err (record {{ text = codes "{new_types.bound_text(field)}" }})'
    return ["", f"abbrev pub {name} : {said} → Result {said if ' ' not in said else f'({said})'} ReadFault",
            f"{name} x =", f"    if {test}", f"    then {refusal}", "    else Ok x"]


def signed(number):
    return f"(negsuc {-number - 1})" if number < 0 else f"(pos {number})"


def value_type(kind):
    """What a contract sees of a type, in parentheses where it has an argument."""
    outer, of = inner(kind)
    if outer:
        return f"({'Option' if outer == 'Option' else 'List'} {value_type(of)})"
    if kind == "Text":
        return "(List ℕ)"
    if kind == "bool":
        return "Bool"
    return "ℕ" if kind in new_types.UNSIGNED else "ℤ" if kind in new_types.SIGNED else kind


def written_members(one):
    """The members of an object, each put before those above it."""
    lines = []
    for field in reversed(one.fields):
        lines.append(f'(put (codes "{field.member}") ({applied(field.kind, WRITTEN, f"x.{field.name}")})')
    lines[-1] += " no_members" + ")" * len(one.fields)
    return [f"    object {lines[0]}", *(f"    {line}" for line in lines[1:])]


def struct_specs(crate, one):
    low, name = one.module, one.name
    lines = []
    for field in one.fields:
        if is_bounded(field):
            lines += bound(one, field)
    steps = list(read_steps(one, "d", new_types.member_reader, READ))
    if one.deny:
        known = " ∷ ".join(f'codes "{field.member}"' for field in one.fields)
        steps.insert(0, (f"deny_unknown ({known} ∷ []) d", "known"))
    body = chain(steps, record(one))
    body[-1] += ")"
    lines += ["", f"abbrev pub {low}_of : Data → Result {name} ReadFault", f"{low}_of d =",
              "    in_object d (", *body]
    lines += ["", f"abbrev pub data_of_{low} : {name} → Data", f"data_of_{low} x =", *written_members(one)]
    lines += law(one)
    if one.is_flat:
        steps = list(read_steps(one, "pairs", new_types.pairs_reader, FIELD))
        lines += ["", f"abbrev pub {low}_of_pairs : List Pair → Result {name} ReadFault",
                  f"{low}_of_pairs pairs =", *chain(steps, record(one))]
        written = [f'named_pairs (codes "{field.member}") ({applied(field.kind, TEXTS, f"x.{field.name}")})'
                   for field in one.fields]
        opened = "(" * (len(written) - 1)
        lines += ["", f"abbrev pub pairs_of_{low} : {name} → List Pair", f"pairs_of_{low} x =",
                  f"    {opened}[] ++ {written[0]}{')' if opened else ''}"]
        for at, one_more in enumerate(written[1:], 2):
            lines.append(f"    ++ {one_more}{')' if at < len(written) else ''}")
    return lines


def law(one):
    """The proof that what is written holds no float: of each member, with those that are put before it."""
    low = one.module
    lines = ["", f"pub {low}_no_float : (x : {one.name}) → has_float (data_of_{low} x) ≡ false", f"{low}_no_float x ="]
    members, laws = "no_members", []
    for at, field in enumerate(one.fields, 1):
        put = f'(codes "{field.member}") ({applied(field.kind, WRITTEN, f"x.{field.name}")}) {members}'
        laws.append([f"put_no_float {put}", f"({applied(field.kind, NO_FLOAT, f'x.{field.name}')})"])
        if at < len(one.fields):
            members = f"members-{at}"
            lines.append(f"    let {members} = put {put} in")
    laws.reverse()
    for at, (first, second) in enumerate(laws):
        lines += [f"    {'(' * (at > 0)}{first}", f"    {second}"]
    lines[-1] += " refl" + ")" * (len(laws) - 1)
    return lines


def enum_specs(crate, one):
    low, name = one.module, one.name
    lines = ["", f"abbrev pub name_of_{low} : {name} → List ℕ"]
    lines += [f'name_of_{low} {camel(said)} = codes "{said}"' for said in one.names]
    lines += ["", f"abbrev pub {low}_field : List ℕ → Result {name} ReadFault", f"{low}_field t ="]
    for at, said in enumerate(one.names):
        lines.append(f'    {"else " * (at > 0)}if bytes_eq t (codes "{said}") then Ok {camel(said)}')
    lines += [f'    else Err (record {{ text = codes "{none_of(one)}" }})', "",
              f"abbrev pub {low}_of : Data → Result {name} ReadFault",
              f'{low}_of d = or_refuse (record {{ text = codes "no text" }}) (as_str d) {low}_field', "",
              f"abbrev pub data_of_{low} : {name} → Data", f"data_of_{low} x = string (name_of_{low} x)", "",
              f"pub {low}_no_float : (x : {name}) → has_float (data_of_{low} x) ≡ false", f"{low}_no_float x = refl", "",
              f"abbrev pub texts_of_{low} : {name} → List (List ℕ)", f"texts_of_{low} x = name_of_{low} x ∷ []"]
    return lines


PRELUDE = (
    "◌≡◌ ◌++◌ ◌||◌ ◌∷◌ ℕ ℤ pos negsuc List [] length Bool true false Option None Result Ok Err codes refl nat_lt int_lt "
    "bytes_eq if◌then◌else◌"
).split()


def stands_in(name, text):
    """Whether a text uses a name, or an operator with its places."""
    parts = [part for part in name.split("◌") if part]
    return all(re.search(rf"(?<![\w-]){re.escape(part)}(?![\w-])" if part[0].isalnum() else re.escape(part), text)
               for part in parts)


def is_of_number(name):
    return name.partition("_")[0] in {**new_types.UNSIGNED, **new_types.SIGNED}


def imported(crate, one):
    """What the specs of a type may use: each file with names in it."""
    kinds = [field.kind for field in one.fields]
    declared = f"Rattle.{crate}.specs.declared.{one.module}.{one.name}"
    yield "Rattle.std.specs.Prelude", PRELUDE
    yield "Rattle.serde_json.specs.Data", ["Data", "string", "object", "put", "no_members"]
    yield "Rattle.serde_json.specs.Find", ["as_str"]
    yield "Rattle.serde_json.specs.Written", ["has_float"]
    yield "Rattle.web_texts.specs.Pairs", ["Pair"]
    yield "Rattle.web_codec.specs.Answers", ["and_then", "or_refuse"]
    readers = ["in_object", "deny_unknown", "required", "member_or", *new_types.names_of(kinds, READ)]
    yield "Rattle.web_codec.specs.DataReaders", [name for name in readers if not is_of_number(name)]
    writers = [*new_types.names_of(kinds, WRITTEN), *new_types.names_of(kinds, NO_FLOAT), "put_no_float"]
    yield "Rattle.web_codec.specs.DataWriters", writers
    fields = ["required_field", "field_or", "all_fields", *new_types.names_of(kinds, FIELD)]
    yield "Rattle.web_codec.specs.FieldReaders", [name for name in fields if not is_of_number(name)]
    yield "Rattle.web_codec.specs.FieldWriters", ["named_pairs", *new_types.names_of(kinds, TEXTS)]
    numbers = [*new_types.names_of(kinds, READ), *new_types.names_of(kinds, FIELD)]
    yield "Rattle.web_codec.specs.WholeNumbers", [name for name in numbers if is_of_number(name)]
    yield "Rattle.web_codec.specs.declared.faults.ReadFault", ["ReadFault"]
    yield declared, [one.name]
    yield f"{declared}.TheVariants", [camel(name) for name in one.names]
    for other in one.below:
        low = snake(other)
        names = [other, f"{low}_of", f"data_of_{low}", f"{low}_no_float", f"{low}_field", f"texts_of_{low}"]
        yield f"Rattle.{crate}.specs.declared.{low}.{other}", names[:1]
        yield f"Rattle.{crate}.specs.{other}", names[1:]


def source(crate, one):
    said = "\n".join(enum_specs(crate, one) if one.names else struct_specs(crate, one)) + "\n"
    lines = [f"-- What `{one.name}` is read from, and written as. Written by tools/new-type."]
    for path, names in imported(crate, one):
        lines += used(path, [name for name in names if stands_in(name, said)])
    return "\n".join(lines) + "\n" + said
