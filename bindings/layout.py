#!/usr/bin/env python3
"""Holds the C header against the Rattle source: structs, their layout, and functions.

  bindings/layout.py FOLDER

Compared are, of each #[repr(C)] struct of the crates that C sees: its fields, in their order, with
names and types; its size and alignment, as the toolchain proves them of the struct as it stands in
the source; and each field's offset, by the rule that repr(C) names. Of each exported function: its
parameters and its result. The header's numbers are those of its assertions, which the C compiler
holds against its own layout. FOLDER is for files that may be thrown away."""

import os
import re
import subprocess
import sys

ROOT = os.path.dirname(os.path.dirname(os.path.abspath(__file__)))
HEADER = os.path.join(ROOT, "bindings", "c", "rawdhusaq.h")
CRATES = ["frame", "command", "state", "firmware", "firmware_c"]
# A struct's name in C is its own name with a prefix, but for this one.
RENAMED = {"Fields": "RawdhusaqMessage"}
SCALARS = {"u8": ("uint8_t", 1), "i16": ("int16_t", 2), "usize": ("size_t", 8)}


def c_name(struct):
    return RENAMED.get(struct, "Rawdhusaq" + struct)


def fail(message):
    print(f"bindings/layout.py: {message}")
    sys.exit(1)


def same(what, ours, header):
    if ours != header:
        fail(f"{what}: the source has {ours}, the header {header}")


# ---- The Rattle side.


def sources():
    for crate in CRATES:
        folder = os.path.join(ROOT, "crates", crate, "src")
        for name in sorted(os.listdir(folder)):
            with open(os.path.join(folder, name), encoding="utf-8") as file:
                yield file.read()


def rattle_structs():
    """The text and the fields of each #[repr(C)] struct, by its name."""
    structs = {}
    for text in sources():
        text = re.sub(r"//[^\n]*", "", text)
        for found in re.finditer(r"#\[repr\(C\)\]\s*(?:#\[derive\([^)]*\)\]\s*)?"
                                 r"pub struct (\w+) \{([^}]*)\}", text):
            fields = re.findall(r"pub (\w+): ([^,]+?),", found[2])
            if found[1] in structs or not fields:
                fail(f"the struct {found[1]} is there twice, or has no fields that can be read")
            structs[found[1]] = (found[0], fields)
    return structs


def sizes_of(structs, folder):
    """Size and alignment of each struct, which the toolchain proves of the struct's text: a crate
    of the structs alone has nothing else to prove, and takes a second."""
    crate = os.path.join(folder, "layout")
    source = os.path.join(crate, "src")
    generated = os.path.join(folder, "generated")
    os.makedirs(source)
    with open(os.path.join(source, "lib.rt"), "w", encoding="utf-8") as file:
        file.write("\n\n".join(text for text, _ in structs.values()) + "\n")
    for command in (["rt", "check", "layout"], ["rt", "check", "layout", "--generated", generated]):
        ran = subprocess.run(command, cwd=crate, capture_output=True, text=True)
        if ran.returncode != 0:
            fail(f"the toolchain refuses the structs:\n{ran.stdout}{ran.stderr}")
    sizes = {}
    for struct in structs:
        path = os.path.join(generated, "Rattle-layout-proofs", struct, "TheLaws.antt")
        if not os.path.exists(path):
            fail(f"the toolchain gives no laws of the struct {struct}")
        with open(path, encoding="utf-8") as file:
            laws = " ".join(file.read().split())
        # What it proves of how the struct lies comes first, then the structs in it.
        found = re.search(r"given = List\.◌∷◌ \(Laid\.laid_struct (\d+) (\d+) ", laws)
        if found is None:
            fail(f"the toolchain gives no size or no alignment of the struct {struct}")
        sizes[struct] = (int(found[1]), int(found[2]))
    return sizes


def measure(type_, sizes):
    array = re.fullmatch(r"\[(\w+); (\d+)\]", type_)
    if array:
        size, align = measure(array[1], sizes)
        return size * int(array[2]), align
    if type_ in SCALARS:
        return (SCALARS[type_][1],) * 2
    if type_ in sizes:
        return sizes[type_]
    return fail(f"a field of type {type_}, which this script does not know")


def offsets_of(fields, sizes):
    """Each field's offset by C's rule, which repr(C) names; and the size that follows."""
    at, widest, offsets = 0, 1, {}
    for name, type_ in fields:
        size, align = measure(type_, sizes)
        at += -at % align
        offsets[name] = at
        at += size
        widest = max(widest, align)
    return offsets, at + -at % widest


def declared(type_, name):
    """A field in C."""
    array = re.fullmatch(r"\[(\w+); (\d+)\]", type_)
    if array:
        return f"{declared(array[1], name)}[{array[2]}]"
    return f"{SCALARS[type_][0] if type_ in SCALARS else c_name(type_)} {name}"


def parameter(name, type_):
    if type_ == "&mut [u8]":
        return f"uint8_t *{name}, size_t room"
    if type_ == "&[u8]":
        return f"const uint8_t *{name}, size_t count"
    array = re.fullmatch(r"&\[u8; (\d+)\]", type_)
    if array:
        return f"const uint8_t {name}[{array[1]}]"
    lent = re.fullmatch(r"&(mut )?(\w+)", type_)
    if lent:
        return f"{'' if lent[1] else 'const '}{c_name(lent[2])} *{name}"
    return declared(type_, name)


def rattle_functions():
    functions = {}
    for text in sources():
        text = re.sub(r"//[^\n]*", "", text)
        for found in re.finditer(r'pub extern "C" fn (\w+)\(([^)]*)\)(?: -> (\w+))?\s', text):
            pairs = re.findall(r"(\w+): (&?(?:mut )?(?:\w+|\[[^\]]*\]))", found[2])
            result = declared(found[3], "").strip() if found[3] else "void"
            functions[found[1]] = f"{result} {found[1]}({', '.join(parameter(*p) for p in pairs)})"
    return functions


# ---- The header.


def header_text():
    with open(HEADER, encoding="utf-8") as file:
        return re.sub(r"/\*.*?\*/", "", file.read(), flags=re.S)


def header_structs(text):
    return {found[2]: [" ".join(field.split()) for field in found[1].split(";") if field.strip()]
            for found in re.finditer(r"typedef struct \{([^}]*)\} (\w+);", text)}


def header_numbers(text, word, pattern):
    numbers = {}
    for found in re.finditer(word + r"\(" + pattern + r"\) == (\d+)", text):
        if found[1] in numbers:
            fail(f"the header asserts {word} of {found[1]} twice")
        numbers[found[1]] = int(found[2])
    return numbers


def header_functions(text):
    text = text[text.index('extern "C" {'):]
    return {found[2]: " ".join(found[0][:-1].split())
            for found in re.finditer(r"(\w+) (\w+)\([^()]*\);", text)}


# ---- Both.


def main():
    if len(sys.argv) != 2:
        fail("usage: bindings/layout.py FOLDER")
    structs = rattle_structs()
    sizes = sizes_of(structs, sys.argv[1])
    text = header_text()
    typedefs = header_structs(text)
    same("structs", sorted(c_name(struct) for struct in structs), sorted(typedefs))
    size_asserted = header_numbers(text, "sizeof", r"(Rawdhusaq\w+)")
    align_asserted = header_numbers(text, "RawdhusaqAlign", r"(Rawdhusaq\w+)")
    offset_asserted = header_numbers(text, "offsetof", r"(Rawdhusaq\w+, \w+)")
    expected_offsets = {}
    for struct, (_, fields) in structs.items():
        name = c_name(struct)
        same(f"{name}, fields", [declared(type_, field) for field, type_ in fields], typedefs[name])
        same(f"{name}, size and alignment", sizes[struct],
             (size_asserted.get(name), align_asserted.get(name)))
        offsets, size = offsets_of(fields, sizes)
        same(f"{name}, size by C's rule", sizes[struct][0], size)
        expected_offsets.update({f"{name}, {field}": at for field, at in offsets.items()})
    for field, at in expected_offsets.items():
        same(f"{field}, offset", at, offset_asserted.get(field))
    same("number of offsets", len(expected_offsets), len(offset_asserted))
    functions, prototypes = rattle_functions(), header_functions(text)
    same("functions", sorted(functions), sorted(prototypes))
    for name, prototype in functions.items():
        same(name, prototype, prototypes[name])
    print(f"{len(structs)} structs, {len(expected_offsets)} offsets and {len(functions)} functions "
          "are the same in the source and in the header")


main()
