#!/usr/bin/env python3
"""Checks the hand-written declarations against the Rattle source: the C header and the Rust crate declare every
exported function and every struct that passes by value, with the same names, types and order, and nothing else; and
bindings/c/symbols.txt lists the same functions. No compiler checks that. The static library `threshlantern_c` must also
have each function of the library `threshlantern`, with the same contract, and call it. Exit status: 0 they agree; 1 they
do not.
"""
import glob
import os
import re
import sys

ROOT = os.path.dirname(os.path.dirname(os.path.abspath(__file__)))

# The structs of the stages that pass through the face, and their C names.
STRUCTS = {
    "Decimator": "tl_decimator",
    "Decimated": "tl_decimator_done",
    "DcRemover": "tl_dc_remover",
    "DcRemoverDone": "tl_dc_remover_done",
    "Agc": "tl_agc",
    "AgcDone": "tl_agc_done",
    "AudioAgc": "tl_audio_agc",
    "AudioAgcDone": "tl_audio_agc_done",
    "FmDemodulator": "tl_fm",
    "FmDone": "tl_fm_done",
    "AmDemodulator": "tl_am",
    "AmDone": "tl_am_done",
    "HilbertDone": "tl_hilbert_done",
    "SsbDemodulator": "tl_ssb",
    "SsbDone": "tl_ssb_done",
    "Nco": "tl_nco",
    "NcoDone": "tl_nco_done",
}
NUMBERS = {
    "u8": "uint8_t",
    "u32": "uint32_t",
    "usize": "size_t",
    "f32": "float",
    "f64": "double",
    "bool": "bool",
}


def read(*path):
    with open(os.path.join(ROOT, *path), encoding="utf-8") as file:
        return file.read()


def sources(crate):
    return sorted(glob.glob(os.path.join(ROOT, "crates", crate, "src", "*.rt")))


FUNCTION = r'(pub extern "C" fn (\w+)\((.*?)\).*?)\n\{(.*?)\n\}'


def contracts(crate):
    """Each function's signature and contract and what its clauses import, by module; and whether it hands its arguments
    on to the function of its name in `threshlantern`."""
    for path in sources(crate):
        module = os.path.basename(path)[: -len(".rt")]
        for line in re.findall(r"^ghost use .*", read(path), re.M):
            yield "%s: %s" % (module, line), True
        for contract, name, given, body in re.findall(FUNCTION, read(path), re.S):
            given = ",".join(p.split(":")[0].strip() for p in given.split(",") if p.strip())
            yield "%s: %s" % (module, plain(contract)), plain(body) == "threshlantern::%s::%s(%s)" % (module, name, given)


def plain(text):
    """One space between words, none inside brackets."""
    text = re.sub(r"\s+", " ", text).strip()
    return re.sub(r"\s*([(),*])\s*", r"\1", text).replace(",)", ")")


def rattle():
    """The exported functions, as (name, [(parameter, type)], type), and the fields of the structs."""
    functions, fields = [], {}
    for path in sources("threshlantern_c"):
        for name, given, back in re.findall(r'pub extern "C" fn (\w+)\((.*?)\) -> (\w+)', read(path), re.S):
            given = [tuple(part.strip() for part in p.split(":")) for p in given.split(",") if p.strip()]
            functions.append((name, given, back))
    for path in glob.glob(os.path.join(ROOT, "crates", "*", "src", "*.rt")):
        for name, body in re.findall(r"#\[repr\(C\)\]\n(?:#\[[^\n]*\n)*pub struct (\w+) \{(.*?)\n\}", read(path), re.S):
            fields[name] = re.findall(r"pub (\w+): (\w+)", body)
    return functions, fields


def in_c(kind):
    return STRUCTS.get(kind) or NUMBERS[kind]


def c_parameter(name, kind):
    part = re.fullmatch(r"&(mut )?\[(\w+)\]", kind)
    if part:
        return "%s%s*%s,size_t %s_len" % ("" if part.group(1) else "const ", in_c(part.group(2)), name, name)
    return "%s %s" % (in_c(kind), name)


def c_wanted(functions, fields):
    for name, given, back in functions:
        yield "%s %s(%s);" % (in_c(back), name, ",".join(c_parameter(*p) for p in given) or "void")
    for struct, short in STRUCTS.items():
        yield "struct %s {%s}" % (short, " ".join("%s %s;" % (in_c(kind), field) for field, kind in fields[struct]))


def c_found():
    text = re.sub(r"/\*.*?\*/", "", read("bindings", "c", "threshlantern.h"), flags=re.S)
    for body, name in re.findall(r"typedef struct \{(.*?)\} (\w+);", text, re.S):
        yield "struct %s {%s}" % (name, plain(body))
    text = re.sub(r"typedef struct \{.*?\} \w+;", "", text, flags=re.S)
    for back, name, given in re.findall(r"^(\w+) (tl_\w+)\(([^;{]*)\);", text, re.M):
        yield plain("%s %s(%s);" % (back, name, given))


def rust_parameter(name, kind):
    part = re.fullmatch(r"&(mut )?\[(\w+)\]", kind)
    if part:
        return "%s: *%s %s,%s_len: usize" % (name, "mut" if part.group(1) else "const", part.group(2), name)
    return "%s: %s" % (name, kind)


def rust_wanted(functions, fields):
    for name, given, back in functions:
        yield plain("pub fn %s(%s) -> %s;" % (name, ",".join(rust_parameter(*p) for p in given), back))
    for struct in STRUCTS:
        yield "struct %s {%s}" % (struct, ",".join("pub %s: %s" % field for field in fields[struct]))


def rust_found():
    text = re.sub(r"//.*", "", read("bindings", "rust", "src", "ffi.rs"))
    for name, body in re.findall(r"#\[repr\(C\)\]\n(?:#\[[^\n]*\n)*pub struct (\w+) \{(.*?)\n\}", text, re.S):
        yield "struct %s {%s}" % (name, plain(body).rstrip(","))
    for declared in re.findall(r"pub fn tl_\w+\([^;]*;", text):
        yield plain(declared)


def compare(what, wanted, found):
    """How many agree. Numbers that only the C face offers need no Rust declaration, as Rust has its own."""
    wanted, found = set(wanted), set(found)
    for line in sorted(wanted - found):
        print("declared.py: %s lacks: %s" % (what, line))
    for line in sorted(found - wanted):
        print("declared.py: %s has, and the source has not: %s" % (what, line))
    return wanted == found


def main():
    functions, fields = rattle()
    stages = [f for f in functions if not is_number(f)]
    symbols = [line.split()[1] for line in read("bindings", "c", "symbols.txt").splitlines() if line.startswith("T ")]
    exports = list(contracts("threshlantern_c"))
    agree = [
        compare("threshlantern_c", [contract for contract, _ in contracts("threshlantern")], [c for c, _ in exports]),
        compare("threshlantern_c, handing on,", [c for c, _ in exports], [c for c, hands_on in exports if hands_on]),
        compare("threshlantern.h", c_wanted(functions, fields), c_found()),
        compare("ffi.rs", rust_wanted(stages, fields), rust_found()),
        compare("symbols.txt", [f[0] for f in functions], symbols),
    ]
    if not all(agree):
        sys.exit(1)
    words = "declared: %d functions and %d structs, in the header and in the crate as in the source"
    print(words % (len(functions), len(STRUCTS)))


def is_number(function):
    """The number work, which the Rust crate does not declare: its users have Rust's own."""
    name, given, back = function
    return all(kind in ("f32", "f64") for _, kind in given) and back in NUMBERS and bool(given)


main()
