#!/usr/bin/env python3
"""Works out from the Rattle sources what include/phengaryl.h and include/phengaryl.rs have to declare.

    python3 include/check.py DIRECTORY

Writes check.c and check.rs to DIRECTORY: a C and a Rust compiler that take them say that layouts, types and numbers agree. What a
compiler cannot tell, a declaration that one side has and the other lacks, is compared here. include/check.sh does all of it.
"""
import os
import re
import sys
from pathlib import Path

ROOT = Path(__file__).resolve().parent.parent

# Size, which is also the alignment, and name in C.
NUMBERS = {
    "u8": (1, "uint8_t"),
    "u16": (2, "uint16_t"),
    "u32": (4, "uint32_t"),
    "i32": (4, "int32_t"),
    "usize": (8, "size_t"),
    "bool": (1, "bool"),
}

# The sizes of the header that a constant of the sources has, too: its crate and its name there.
LONGEST = {
    "LONGEST_TEXT": ("text", "LONGEST"),
    "LONGEST_ROW": ("rowtext", "LONGEST_ROW"),
    "LONGEST_RADIO": ("radio", "LONGEST_RECORD"),
}


def fail(message):
    sys.exit("include/check.py: " + message)


def no_comments(text):
    return re.sub(r"//[^\n]*|/\*.*?\*/", "", text, flags=re.S)


def source(path):
    return no_comments((ROOT / path).read_text(encoding="utf-8"))


def snake(name):
    return re.sub(r"(?<!^)(?=[A-Z])", "_", name).lower()


def compare(what, ours, theirs, where):
    """Fails where the names of the sources and those of a declaration are not the same."""
    for name in ours:
        if name not in theirs:
            fail(f"{what} {name} is in the sources and not in {where}")
    for name in theirs:
        if name not in ours:
            fail(f"{what} {name} is in {where} and not in the sources")


# ---- The sources

def pairs(text, pattern):
    """The two groups of a pattern for each part of a list with commas; every part has to fit."""
    found = []
    for part in filter(None, (" ".join(p.split()) for p in text.split(","))):
        m = re.fullmatch(pattern, part)
        if not m:
            fail(f"`{part}` is not understood")
        found.append((m[1], m[2]))
    return found


def source_structs():
    """The structs marked #[repr(C)]: name to fields."""
    found = {}
    for path in sorted((ROOT / "crates").glob("*/src/*.rt")):
        text = source(path)
        for m in re.finditer(r"#\[repr\(C\)\]\s*(?:#\[[^\]]*\]\s*)*pub struct (\w+)\s*\{(.*?)\}", text, re.S):
            if m[1] in found:
                fail(f"two structs {m[1]} are marked #[repr(C)]")
            sized = re.sub(r"; ([A-Z]\w*)\]", lambda n: f"; {source_constants(path)[n[1]]}]", m[2])
            found[m[1]] = pairs(sized, r"pub (\w+): (.+)")
    return found


def source_functions():
    """The exported functions: name to the types of the parameters and of the answer."""
    found = {}
    text = source("crates/phengaryl/src/lib.rt")
    for m in re.finditer(r'#\[unsafe\(no_mangle\)\]\s*pub extern "C" fn (\w+)\s*\((.*?)\)\s*->\s*(\w+)', text, re.S):
        found[m[1]] = ([kind for _, kind in pairs(m[2], r"(\w+): (.+)")], m[3])
    marks = text.count("#[unsafe(no_mangle)]")
    if marks != len(found):
        fail(f"crates/phengaryl/src/lib.rt marks {marks} functions with #[unsafe(no_mangle)], of which {len(found)} are understood")
    return found


def source_constants(path):
    return {m[1]: int(m[2]) for m in re.finditer(r"pub const (\w+): \w+ = (\d+);", source(path))}


def source_variants(path):
    """The cases of an enum with their numbers, spelled as constants: NotLater is NOT_LATER, Line1Or2 is LINE_1_OR_2."""
    spelled = lambda name: re.sub(r"(?<!^)(?=[A-Z])|(?<=[a-z])(?=\d)", "_", name).upper()
    return {spelled(m[1]): int(m[2]) for m in re.finditer(r"^    (\w+) = (\d+),$", source(path), re.M)}


def element(kind):
    """The element type and length of an array type, else None."""
    m = re.fullmatch(r"\[(\w+); (\d+)\]", kind)
    return (m[1], int(m[2])) if m else None


def base(kind):
    """What a parameter or field is made of: a number or a struct."""
    kind = re.sub(r"^&(mut )?", "", kind)
    return re.sub(r"^\[(\w+).*\]$", r"\1", kind)


def reached(structs, functions):
    """Every struct that a caller hands over or gets, its parts included."""
    todo = [base(t) for parameters, answer in functions.values() for t in parameters + [answer]]
    found = []
    while todo:
        name = todo.pop()
        if name in NUMBERS or name in found:
            continue
        if name not in structs:
            fail(f"an exported function reaches {name}, which is no struct marked #[repr(C)]")
        found.append(name)
        todo += [base(kind) for _, kind in structs[name]]
    return found


# ---- Layout, by the rules of C on x86-64

def up(offset, alignment):
    return -(-offset // alignment) * alignment


class Layout:
    def __init__(self, structs):
        self.structs = structs

    def size_and_alignment(self, kind):
        if kind in NUMBERS:
            return NUMBERS[kind][0], NUMBERS[kind][0]
        if element(kind):
            inner, count = element(kind)
            size, alignment = self.size_and_alignment(inner)
            return size * count, alignment
        if kind not in self.structs:
            fail(f"the type {kind} is not understood")
        end, widest = 0, 1
        for _, offset, size, alignment in self.places(kind):
            end, widest = offset + size, max(widest, alignment)
        return up(end, widest), widest

    def places(self, struct):
        """Name, offset, size and alignment of each field."""
        end = 0
        for name, kind in self.structs[struct]:
            size, alignment = self.size_and_alignment(kind)
            offset = up(end, alignment)
            end = offset + size
            yield name, offset, size, alignment


# ---- C

def c_name(kind):
    return NUMBERS[kind][1] if kind in NUMBERS else "phengaryl_" + snake(kind)


def c_field_pointer(kind):
    """The type of a pointer to a field."""
    if element(kind):
        inner, count = element(kind)
        return f"{c_name(inner)} (*)[{count}]"
    return c_name(kind) + " *"


def c_parameter(kind):
    if not kind.startswith("&"):
        return c_name(kind)
    pointer = ("" if kind.startswith("&mut ") else "const ") + c_name(base(kind)) + " *"
    is_slice = re.fullmatch(r"&(mut )?\[\w+\]", kind)
    return pointer + ", size_t" if is_slice else pointer


def c_assert(condition, message):
    return f'_Static_assert({condition}, "{message}");'


def c_has_type(expression, kind, message):
    return c_assert(f"_Generic({expression}, {kind}: 1, default: 0)", message)


def c_struct(struct, layout):
    name = c_name(struct)
    size, _ = layout.size_and_alignment(struct)
    yield c_assert(f"sizeof({name}) == {size}", f"{name} has {size} bytes in the library")
    for (field, kind), (_, offset, _, _) in zip(layout.structs[struct], layout.places(struct)):
        yield c_assert(f"offsetof({name}, {field}) == {offset}", f"{name}.{field} is at {offset} in the library")
        pointer = c_field_pointer(kind)
        yield c_has_type(f"&(({name} *)0)->{field}", pointer, f"{name}.{field} is {kind} in the library")


def c_function(name, parameters, answer):
    kind = f"{c_name(answer)} (*)({', '.join(map(c_parameter, parameters)) or 'void'})"
    return c_has_type("&" + name, kind, f"{name} is {kind} in the library")


def c_constant(name, number):
    return c_assert(f"{name} == {number}", f"{name} is {number} in the library")


def header_structs(header):
    """Name to field names, in order."""
    found = {}
    for m in re.finditer(r"typedef struct (\w+) \{(.*?)\} (\w+);", header, re.S):
        if m[1] != m[3]:
            fail(f"the header calls one struct {m[1]} and {m[3]}")
        found[m[1]] = re.findall(r"(\w+)(?:\[\d+\])?;", m[2])
    return found


def header_functions(header):
    declarations = re.sub(r"^#.*$", "", header, flags=re.M)
    return re.findall(r"\b(phengaryl_\w+)\(", declarations)


def header_enum(header, name):
    body = re.search(r"enum %s \{(.*?)\};" % name, header, re.S)
    if not body:
        fail(f"the header has no enum {name}")
    return {m[1]: int(m[2]) for m in re.finditer(r"(\w+) = (\d+)", body[1])}


def header_longest(header):
    return {m[1]: int(m[2]) for m in re.finditer(r"#define PHENGARYL_(LONGEST_\w+) (\d+)", header)}


# ---- Rust

def rust_name(kind):
    if element(kind):
        inner, count = element(kind)
        return f"[{rust_name(inner)}; {count}]"
    return kind if kind in NUMBERS else "phengaryl::" + kind


def rust_parameters(kind):
    if not kind.startswith("&"):
        return [rust_name(kind)]
    pointer = ("*mut " if kind.startswith("&mut ") else "*const ") + rust_name(base(kind))
    return [pointer, "usize"] if re.fullmatch(r"&(mut )?\[\w+\]", kind) else [pointer]


def rust_assert(condition, message):
    return f'const _: () = assert!({condition}, "{message}");'


def rust_struct(struct, layout):
    """Offsets and size; and taken apart into its fields, a struct must have just these, of just these types."""
    name = rust_name(struct)
    size, _ = layout.size_and_alignment(struct)
    yield rust_assert(f"std::mem::size_of::<{name}>() == {size}", f"{struct} has {size} bytes in the library")
    for field, offset, _, _ in layout.places(struct):
        yield rust_assert(f"std::mem::offset_of!({name}, {field}) == {offset}", f"{struct}.{field} is at {offset} in the library")
    fields = layout.structs[struct]
    yield f"fn {snake(struct)}(it: {name}) {{"
    yield f"    let {name} {{ {', '.join(f for f, _ in fields)} }} = it;"
    for field, kind in fields:
        yield f"    let _: {rust_name(kind)} = {field};"
    yield "}"


def rust_function(name, parameters, answer):
    kinds = [k for p in parameters for k in rust_parameters(p)]
    return f"    fn {name}({', '.join(f'_: {k}' for k in kinds)}) -> {rust_name(answer)};"


def rust_module(module, constants):
    for name, number in constants.items():
        yield rust_assert(f"phengaryl::{module}::{name} == {number}", f"{module}::{name} is {number} in the library")


def rust_module_names(rust, module):
    body = re.search(r"pub mod %s \{(.*?)\n\}" % module, rust, re.S)
    if not body:
        fail(f"include/phengaryl.rs has no module {module}")
    return re.findall(r"pub const (\w+): u8", body[1])


# ---- All of it

class Sources:
    """What the library has, by the names of the sources."""

    def __init__(self):
        self.structs = source_structs()
        self.functions = source_functions()
        self.refusals = {"TAKEN": 0, **source_variants("crates/text/src/refusal.rt")}
        # C and Rust spell ON out.
        self.descriptions = {n.replace("_ON_", "_ON_TOP_OF_"): v for n, v in source_constants("crates/surface/src/description.rt").items()}
        self.longest = {n: source_constants(f"crates/{crate}/src/lib.rt")[name] for n, (crate, name) in LONGEST.items()}
        self.layout = Layout(self.structs)
        told = reached(self.structs, self.functions)
        for name in self.structs:
            if name not in told:
                fail(f"{name} is marked #[repr(C)] and no exported function reaches it")

    def constants(self):
        return {**self.refusals, **self.descriptions, **self.longest}

    def counts(self):
        fields = sum(map(len, self.structs.values()))
        return (f"{len(self.structs)} structs with {fields} fields, {len(self.functions)} functions, {len(self.refusals)} refusals, "
                f"{len(self.descriptions)} descriptions, {len(self.longest)} sizes")


def compare_names_with_header(sources, header):
    declared = header_structs(header)
    compare("struct", [c_name(s) for s in sources.structs], declared, "the header")
    for struct, fields in sources.structs.items():
        compare(f"{c_name(struct)}: field", [f for f, _ in fields], declared[c_name(struct)], "the header")
    compare("function", sources.functions, header_functions(header), "the header")
    compare("refusal", ["PHENGARYL_" + n for n in sources.refusals], header_enum(header, "phengaryl_refusal"), "the header")
    compare("description", ["PHENGARYL_" + n for n in sources.descriptions], header_enum(header, "phengaryl_description"), "the header")


def compare_names_with_rust(sources, rust):
    where = "include/phengaryl.rs"
    compare("struct", sources.structs, re.findall(r"#\[repr\(C\)\]\s*(?:#\[[^\]]*\]\s*)*pub struct (\w+)", rust), where)
    compare("function", sources.functions, re.findall(r"pub fn (phengaryl_\w+)\(", rust), where)
    compare("refusal", sources.refusals, rust_module_names(rust, "refusal"), where)
    compare("description", sources.descriptions, rust_module_names(rust, "description"), where)


def c_check(sources):
    yield "/* Written by include/check.py. */"
    yield '#include "phengaryl.h"'
    for struct in sources.structs:
        yield from c_struct(struct, sources.layout)
    for name, types in sources.functions.items():
        yield c_function(name, *types)
    for name, number in sources.constants().items():
        yield c_constant("PHENGARYL_" + name, number)


def rust_check(sources, header, path):
    yield "// Written by include/check.py."
    yield "#![allow(dead_code)]"
    yield "#![deny(clashing_extern_declarations)]"
    yield f'#[path = "{path}"]'
    yield "mod phengaryl;"
    for struct in sources.structs:
        yield from rust_struct(struct, sources.layout)
    # Each function is declared a second time: the compiler refuses two declarations that differ.
    yield 'extern "C" {'
    for name, types in sources.functions.items():
        yield rust_function(name, *types)
    yield "}"
    yield from rust_module("refusal", sources.refusals)
    yield from rust_module("description", sources.descriptions)
    for name, number in header_longest(header).items():
        yield rust_assert(f"phengaryl::{name} == {number}", f"{name} is {number} in the header")


def main():
    if len(sys.argv) != 2:
        fail("usage: python3 include/check.py DIRECTORY")
    directory = Path(sys.argv[1]).resolve()
    header, rust = source("include/phengaryl.h"), source("include/phengaryl.rs")
    sources = Sources()
    compare_names_with_header(sources, header)
    compare_names_with_rust(sources, rust)

    directory.mkdir(parents=True, exist_ok=True)
    (directory / "check.c").write_text("\n".join(c_check(sources)) + "\n")
    path = os.path.relpath(ROOT / "include/phengaryl.rs", directory)
    (directory / "check.rs").write_text("\n".join(rust_check(sources, header, path)) + "\n")
    print(sources.counts())


main()
