#!/usr/bin/env python3
"""Each header of include/ against the crates that it is for: the same structs and functions, with fields and arguments of the same name, type and place.
C goes by places and contracts by names, so a name that stands elsewhere in the header would mislead whoever reads it. The structs are those of a library
that C can see, and the functions those that the static library over it, crates/NAME_c, exports."""
import pathlib
import re
import sys

ROOT = pathlib.Path(__file__).resolve().parent.parent
# Rattle's types as every header writes them
PLAIN = {"u8": "uint8_t", "u16": "uint16_t", "u32": "uint32_t", "u64": "uint64_t", "usize": "size_t", "bool": "bool", "": "void", "[u8; 16]": "uint8_t[16]", "[u8; 64]": "uint8_t[64]"}
# of each header: the libraries, how many structs and functions it has, its own types as the header writes them, and the start of each lent part, which is a
# struct of the header's own
LIBRARIES = {
    "hiomap": (["board", "ipmiboard"], 6, 9, {
        "Record": "hiomap_record", "Suspended": "hiomap_suspended", "Stepped": "hiomap_stepped", "Work": "hiomap_pending_work", "&mut Record": "hiomap_record *",
        "&mut [u8; 16]": "uint8_t (*)[16]", "&mut [u8]": "hiomap_bytes", "&[u8]": "hiomap_const_bytes", "&[u16]": "hiomap_const_numbers",
        "ListReply": "hiomap_list_reply", "MessageReply": "hiomap_message_reply",
    }, {"hiomap_bytes": "uint8_t *", "hiomap_const_bytes": "const uint8_t *", "hiomap_const_numbers": "const uint16_t *"}),
    # a port is lent as its bytes; the header asserts that it has as many
    "kcs": (["kcsboard"], 1, 6, {
        "Record": "kcs_port", "&mut [u8; 136]": "kcs_port *", "&[u8; 136]": "const kcs_port *", "&[u8]": "kcs_bytes",
    }, {"kcs_bytes": "const uint8_t *"}),
}
# what the headers call a lent or stored record
NAMES = {"held": "record"}


def entries(text, types):
    """(name, type) of each `name: type` of Rattle, as the header would have them."""
    found = re.findall(r"(\w+): ([^,;\[]*(?:\[[^\]]*\])?[^,]*)", text)
    return [(NAMES.get(name, name), types.get(kind.strip(), kind.strip())) for name, kind in found]


def text_of(crates):
    """The source of these crates without its comments and without the crate in a path, as in `board::Record`."""
    sources = [path for crate in crates for path in sorted(ROOT.glob(f"crates/{crate}/src/*.rt"))]
    return re.sub(r"\b(?:[a-z]\w*::)+", "", "\n".join(re.sub(r"//.*", "", path.read_text()) for path in sources))


def of_source(crates, types):
    exports = [crate + "_c" for crate in crates]
    bodies = re.findall(r"#\[repr\(C\)\]\s*(?:#\[[^\]]*\]\s*)*pub struct (\w+) \{(.*?)\}", text_of(crates + exports), re.S)
    structs = {types.get(name, name): entries(body, types) for name, body in bodies}
    calls = re.findall(r'#\[unsafe\(no_mangle\)\]\s*pub extern "C" fn (\w+)\((.*?)\)(?: -> (\w+))?', text_of(exports), re.S)
    return structs, {name: (types.get(result, result), entries(arguments, types)) for name, arguments, result in calls}


def declared(text, defined):
    """(name, type) of a declaration in C."""
    for name, number in defined.items():
        text = text.replace(f"[{name}]", f"[{number}]")
    pointer = re.fullmatch(r"(\w+) \(\*(\w+)\)(\[\w+\])", text)
    if pointer:
        return pointer.group(2), f"{pointer.group(1)} (*){pointer.group(3)}"
    kind, star, name, length = re.fullmatch(r"((?:const )?\w+) (\*?)(\w+)((?:\[\w+\])?)", text).groups()
    return name, kind + (" *" if star else "") + length


def of_header(header):
    said = re.sub(r"/\*.*?\*/", "", (ROOT / f"include/{header}.h").read_text(), flags=re.S)
    defined = dict(re.findall(r"#define (\w+) (\d+)", said))
    structs = {}
    for name, body in re.findall(r"typedef struct (\w+) \{(.*?)\}", said, re.S):
        structs[name] = [declared(" ".join(field.split()), defined) for field in body.split(";") if field.strip()]
    calls = {}
    for result, name, arguments in re.findall(rf"^(\w+) ({header}_\w+)\((.*?)\);", said, re.S | re.M):
        arguments = [" ".join(argument.split()) for argument in arguments.split(",") if argument.strip() != "void"]
        calls[name] = (result, [declared(argument, defined) for argument in arguments])
    return structs, calls


def is_right(header, crates, struct_count, call_count, types, parts):
    structs, calls = of_source(crates, {**PLAIN, **types})
    header_structs, header_calls = of_header(header)
    slices = {name: [("start", start), ("length", "size_t")] for name, start in parts.items()}
    wanted, has = {**structs, **slices, **calls}, {**header_structs, **header_calls}
    faults = [name for name in sorted(wanted.keys() | has.keys()) if wanted.get(name) != has.get(name)]
    for name in faults:
        print(f"header: {name} is {has.get(name)}\n    and in the source {wanted.get(name)}")
    print(f"header: {header}.h, {len(structs)} structs and {len(calls)} functions of {' and '.join(crates)} read, {len(faults)} faults")
    return not faults and len(structs) == struct_count and len(calls) == call_count


results = [is_right(header, *library) for header, library in LIBRARIES.items()]
sys.exit(0 if all(results) else 1)
