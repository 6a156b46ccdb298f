"""The code of the types that tools/new-type writes, laid out as `rt fmt` lays it out."""
import new_types
from new_types import COLUMNS, camel, is_bounded, snake

# The most columns of arguments, of a chain of calls, and of a list, that `rt fmt` leaves in a line, and those of an item
# of a list of which several stand in a line.
MOST_INSIDE = 60
SHORT_ITEM = 10


def used(path, names, indent=""):
    """A line `use`, or several where it has more than 100 columns."""
    names = sorted(set(names), key=lambda name: (name[0].islower(), name))
    if len(names) == 1:
        return f"{indent}use {path}::{names[0]};"
    line = f"{indent}use {path}::{{{', '.join(names)}}};"
    if len(line) <= COLUMNS:
        return line
    lines = [f"{indent}   "]
    for name in names:
        if len(lines[-1]) + len(name) + 2 >= COLUMNS:
            lines.append(f"{indent}   ")
        lines[-1] += f" {name},"
    return "\n".join([f"{indent}use {path}::{{", *lines, f"{indent}}};"])


def call(indent, before, name, arguments, after, most=MOST_INSIDE):
    """A call in a line, or with a line for each argument. An argument may be a call: its name, its arguments and what
    follows it."""
    line = flat((f"{before}{name}", arguments, after))
    if len(indent + line) <= COLUMNS and len(", ".join(map(flat, arguments))) <= most:
        return [indent + line]
    lines = [f"{indent}{before}{name}("]
    for argument in arguments:
        if isinstance(argument, str):
            lines.append(f"{indent}    {argument},")
        else:
            lines += call(indent + "    ", "", argument[0], argument[1], argument[2] + ",")
    return [*lines, f"{indent}){after}"]


def flat(expression):
    """A name, or a call, in a line."""
    if isinstance(expression, str):
        return expression
    name, arguments, after = expression
    return f"{name}({', '.join(map(flat, arguments))}){after}"


def signature(indent, name, parameters, kind, after):
    """The head of a function that reads a type."""
    return call(indent, "fn ", name, parameters, f" -> Result<{kind}, Fail<ReadFault>>{after}", COLUMNS)


def documentation(doc, otherwise, indent=""):
    return [indent + line for line in doc or [f"/// {otherwise}"]]


def structure(one):
    lines = documentation(one.doc, f"`{one.name}`, as `types.txt` lists it.")
    lines += ["#[derive(Debug, Drop)]", f"pub struct {one.name} {{"]
    for field in one.fields:
        lines += documentation(field.doc, f"The member `{field.member}`.", "    ")
        lines.append(f"    pub {field.name}: {field.kind},")
    return [*lines, "}", ""]


def bound(crate, one, field):
    """A function that refuses what is out of the bounds of a field."""
    name, kind = f"bounded_{field.name}", field.kind
    if field.low is not None:
        least, most = new_types.range_of(kind)
        tests = [f"{field.name} < {field.low}"] * (field.low > least) + [f"{field.name} > {field.high}"] * (field.high < most)
        test = " || ".join(tests) or "false"
    else:
        borrowed = "as_str" if kind == "Text" else "as_slice"
        test = f"{field.name}.{borrowed}().len() > {field.high}"
    lines = [f"/// Refuses a `{field.member}` that is out of its bounds."]
    head = signature("", name, ["alloc: Global", f"{field.name}: {kind}"], kind, "")
    lines += [*head, f"    ensures {{ Answers (λ x. x ≡ {spec_bound(one, field)} {field.name}) result }}", "{",
              f"    if {test} {{"]
    lines += call("        ", "return Err(", "ReadFault::refusal", ["alloc", f'"{new_types.bound_text(field)}"'], ");")
    return [*lines, "    }", f"    Ok({field.name})", "}", ""]


def spec_bound(one, field):
    return f"bounded_{one.module}_{field.name}"


def field_lines(field, name, arguments):
    """A field that a call reads, inside its bounds."""
    if is_bounded(field):
        name, arguments = f"bounded_{field.name}", ["alloc", (name, arguments, "?")]
    return call(" " * 12, f"{field.name}: ", name, arguments, "?,")


def implementation(crate, one, trait, cited, ghosts, prelude=()):
    """The front of an `impl`: what it cites of the type's specs, and of std's, and what each ghost of the trait is."""
    lines = [f"impl {trait} for {one.name} {{"]
    if prelude:
        lines.append(f"    ghost use Rattle.std.specs.Prelude.{{{', '.join(prelude)}}};")
    lines += [f"    ghost use Rattle.{crate}.specs.{one.name}.{{{', '.join(cited)}}};", ""]
    for name, said in ghosts:
        lines += [f"    ghost {name} = {{ {said} }};", ""]
    return lines


def read_fields(one, read_from, reader):
    """A value whose fields are read, each by its reader, and the end of the `impl`."""
    lines = [f"        Ok({one.name} {{"]
    for field in one.fields:
        name, arguments = reader(field), ["alloc", read_from, f'"{field.member}"']
        if name in new_types.WITH_DEFAULT:
            arguments.append(new_types.default(field)[0])
        lines += field_lines(field, name, arguments)
    return [*lines, "        })", "    }", "}", ""]


def read_data(crate, one):
    low = one.module
    lines = [*implementation(crate, one, "ReadData", [f"{low}_of"], [("read", f"{low}_of")]),
             *signature("    ", "read_data", ["alloc: Global", "value: &Value"], one.name, " {")]
    if one.names:
        return [*lines, "        let Some(name) = value.as_str() else {",
                '            return Err(ReadFault::refusal(alloc, "no text"));', "        };",
                f"        named_{low}(alloc, name)", "    }", "}", ""]
    lines.append("        object(alloc, value)?;")
    if one.deny:
        lines += denied([f'"{field.member}"' for field in one.fields])
    return lines + read_fields(one, "value", new_types.member_reader)


def denied(members):
    """The test for unknown members."""
    said = ", ".join(members)
    if len(said) <= MOST_INSIDE:
        return call(" " * 8, "", "deny_unknown", ["alloc", "value", f"&[{said}]"], "?;")
    lines = [" " * 15]
    for member in members:
        is_full = len(lines[-1]) + len(member) + 2 > COLUMNS
        if lines[-1].strip() and (is_full or any(len(one) > SHORT_ITEM for one in members)):
            lines.append(" " * 15)
        lines[-1] += f" {member},"
    before = ["        deny_unknown(", "            alloc,", "            value,", "            &["]
    return [*before, *lines, "            ],", "        )?;"]


def write_data(crate, one):
    low = one.module
    ghosts = [("written", f"data_of_{low}"), ("no_float", f"{low}_no_float")]
    lines = [*implementation(crate, one, "WriteData", [said for _, said in ghosts], ghosts),
             "    fn write_data(&self, alloc: Global) -> Result<Value, NoMemory> {"]
    if one.names:
        return [*lines, "        Ok(Value::from(String::from_str(alloc, self.as_str())?))", "    }", "}", ""]
    lines.append("        Ok(json!(in alloc; {")
    lines += [f'            "{field.member}": self.{field.name}.write_data(alloc)?,' for field in one.fields]
    return [*lines, "        })?)", "    }", "}", ""]


def read_pairs(crate, one):
    low = one.module
    ghosts = [("reads_pairs", f"λ pairs x. x ≡ {low}_of_pairs pairs")]
    return [*implementation(crate, one, "ReadPairs", [f"{low}_of_pairs"], ghosts, ["◌≡◌"]),
            *signature("    ", "read_pairs", ["alloc: Global", "pairs: &[Pair]"], one.name, " {"),
            *read_fields(one, "pairs", new_types.pairs_reader)]


def write_pairs(crate, one):
    low = one.module
    ghosts = [("writes_pairs", f"λ x y. y ≡ Ok (pairs_of_{low} x)")]
    lines = [*implementation(crate, one, "WritePairs", [f"pairs_of_{low}"], ghosts, ["◌≡◌", "Ok"]),
             "    fn write_pairs(&self, alloc: Global) -> Result<Vec<Pair>, Fail<WriteFault>> {",
             "        let mut pairs = Vec::new(alloc);"]
    for field in one.fields:
        chain = f'.write_field(alloc, "{field.member}", &mut pairs)?'
        whole = f"self.{field.name}{chain}"
        is_short = len(whole) <= MOST_INSIDE
        lines += [f"        {whole};"] if is_short else [f"        self.{field.name}", f"            {chain};"]
    return [*lines, "        Ok(pairs)", "    }", "}", ""]


def enumeration(crate, one):
    low = one.module
    lines = documentation(one.doc, f"`{one.name}`, as `types.txt` lists it.")
    lines += ["#[derive(Clone, Copy, Debug, PartialEq, Eq)]", f"pub enum {one.name} {{"]
    for name in one.names:
        lines += [f"    /// `{name}`.", f"    {camel(name)},"]
    lines += ["}", "", f"impl {one.name} {{", "    /// The name that stands for it.",
              "    pub fn as_str(&self) -> &'static str",
              f"        ensures {{ result.now ≡ name_of_{low} self.now }}", "    {", "        match self {"]
    lines += [f'            {one.name}::{camel(name)} => "{name}",' for name in one.names]
    lines += ["        }", "    }", "}", "", "/// The one of a name.",
              *signature("", f"named_{low}", ["alloc: Global", "name: &str"], one.name, ""),
              f"    ensures {{ Answers (λ x. x ≡ {low}_field name.now) result }}", "{"]
    for name in one.names:
        lines += [f'    if name == "{name}" {{', f"        return Ok({one.name}::{camel(name)});", "    }"]
    lines += [f'    Err(ReadFault::refusal(alloc, "{none_of(one)}"))', "}", ""]
    return lines


def none_of(one):
    return "none of " + ", ".join(one.names)


def fields_of_names(crate, one):
    low = one.module
    return [*implementation(crate, one, "ReadField", [f"{low}_field"], [("field", f"{low}_field")]),
            *signature("    ", "read_field", ["alloc: Global", "text: &str"], one.name, " {"),
            f"        named_{low}(alloc, text)", "    }", "}", "",
            *only_name(crate, one),
            *implementation(crate, one, "WriteField", [f"texts_of_{low}"], [("texts", f"texts_of_{low}")]),
            *write_field_head(), "        pairs.push(Pair::new(alloc, name, self.as_str())?)?;", "        Ok(())",
            "    }", "}", ""]


def only_name(crate, one):
    """The reader of a path with this one parameter."""
    low = one.module
    ghosts = [("reads_pairs", f"λ pairs x. x ≡ only_field {low}_field pairs")]
    lines = implementation(crate, one, "ReadPairs", [f"{low}_field"], ghosts, ["◌≡◌"])
    place = next(place for place, line in enumerate(lines) if f"{low}_field}}" in line)
    lines.insert(place, "    ghost use Rattle.web_codec.specs.FieldReaders.{only_field};")
    return [*lines, *signature("    ", "read_pairs", ["alloc: Global", "pairs: &[Pair]"], one.name, " {"),
            "        only_field(alloc, pairs)", "    }", "}", ""]


def write_field_head():
    return ["    fn write_field(", "        &self,", "        alloc: Global,", "        name: &str,",
            "        pairs: &mut Vec<Pair>,", "    ) -> Result<(), NoMemory> {"]


def imports(crate, one):
    kinds = " ".join(field.kind for field in one.fields)
    codec = ["ReadData", "ReadFault", "WriteData"]
    texts = ["Fail", "NoMemory"]
    if one.names:
        codec += ["ReadField", "ReadPairs", "WriteField", "only_field"]
        texts.append("Pair")
    else:
        codec += ["object"] + ["deny_unknown"] * one.deny
        codec += map(new_types.member_reader, one.fields)
        texts += [name for name in ("Items", "Text") if name in kinds]
    if one.fields and one.is_flat:
        codec += ["ReadPairs", "WriteFault", "WriteField", "WritePairs", *map(new_types.pairs_reader, one.fields)]
        texts.append("Pair")
    lines = [f"use crate::{snake(name)}::{name};" for name in one.below]
    lines.append(used("serde_json", ["Value"] if one.names else ["Value", "json"]))
    lines += ["use std::alloc::Global;", used("web_codec", codec), used("web_texts", texts), ""]
    return lines


def ghosts(crate, one):
    """What the contracts of the functions cite."""
    if one.names:
        names, said = [f"{one.module}_field", f"name_of_{one.module}"], True
    else:
        names = [spec_bound(one, field) for field in one.fields if is_bounded(field)]
        said = bool(names)
    if not said:
        return [""]
    return ["ghost use Rattle.std.specs.Prelude.{◌≡◌};",
            "ghost use Rattle.web_codec.specs.Answers.{Answers};",
            *wrapped_ghost(f"Rattle.{crate}.specs.{one.name}", sorted(names)), ""]


def wrapped_ghost(path, names):
    line = f"ghost use {path}.{{{', '.join(names)}}};"
    if len(line) <= COLUMNS:
        return [line]
    return [f"ghost use {path}.{{{name}}};" for name in names]


def source(crate, one):
    lines = [f"//! `{one.name}`, as `types.txt` lists it. Written by tools/new-type.", *ghosts(crate, one),
             *imports(crate, one)]
    if one.names:
        lines += enumeration(crate, one) + read_data(crate, one) + write_data(crate, one) + fields_of_names(crate, one)
    else:
        lines += structure(one)
        for field in one.fields:
            if is_bounded(field):
                lines += bound(crate, one, field)
        lines += read_data(crate, one) + write_data(crate, one)
        if one.is_flat:
            lines += read_pairs(crate, one) + write_pairs(crate, one)
    return "\n".join(lines).rstrip("\n") + "\n"
