#!/usr/bin/env python3
"""Writes a C program that calls every function of bindings/c/threshlantern.h with every choice of its slices empty.

    tests/empty.py > empty.c

An empty slice may have any pointer. The program calls each choice with a pointer to something, with NULL and with an
address that nothing can read, and fails where answer or buffers differ. Functions, slices and the fields of the answers
are taken from the header's declarations, so none is left out; a parameter without a value below stops this script.
"""
import os
import re
import sys

ROOT = os.path.dirname(os.path.dirname(os.path.abspath(__file__)))
PLACES = 128

# What is passed where a slice is not empty, and for what is not a slice. The longest key that fits the name counts.
LENGTHS = {
    "src": 64, "dst": 64, "data": 64, "iq": 64, "input": 64, "output": 64, "i": 64, "q": 48,
    "taps": 25, "history": 24, "tl_hilbert taps": 65, "tl_hilbert history": 64,
    "tl_ssb taps": 65, "q_history": 64, "i_history": 32,
}  # fmt: skip
VALUES = {
    "tl_decimator state": "(tl_decimator){2, 1}",
    "tl_dc_remover state": "(tl_dc_remover){0.1f, 0.2f, 0.5f}",
    "tl_agc state": "(tl_agc){1, 1, 0.5f, 0.5f}",
    "tl_audio_agc state": "(tl_audio_agc){1, 0.5f, 0.5f, 0.5f, 0.01f, 10, 3, 0.5f}",
    "tl_fm state": "(tl_fm){0.1f, 0.5f, 0.2f}",
    "tl_am state": "(tl_am){0.1f, 0.2f, 0.3f, 0.4f}",
    "tl_ssb state": "(tl_ssb){true}",
    "tl_nco state": "(tl_nco){0.1, 0.2, 1, 0}",
    "factor": "2",
    "cutoff": "0.25f",
    "is_usb": "true",
}


def header():
    """The functions, as (answer's type, name, [(type, parameter)]), and the structs' fields."""
    with open(os.path.join(ROOT, "bindings", "c", "threshlantern.h"), encoding="utf-8") as file:
        text = re.sub(r"/\*.*?\*/", "", file.read(), flags=re.S)
    structs = {}
    for body, name in re.findall(r"typedef struct \{(.*?)\} (\w+);", text, re.S):
        structs[name] = re.findall(r"(\w+) (\w+);", body)
    functions = []
    for back, name, given in re.findall(r"^(\w+) (tl_\w+)\(([^;{]*)\);", text, re.M):
        given = [part.strip() for part in given.split(",") if part != "void"]
        given = [re.fullmatch(r"(.*?[ *])(\w+)", part).groups() for part in given]
        functions.append((back, name, [(kind.strip(), parameter) for kind, parameter in given]))
    return functions, structs


def given_for(table, name, parameter):
    for key in sorted(table, key=len, reverse=True):
        if (name + " ").startswith(key.split(" ")[0]) and key.endswith(" " + parameter) or key == parameter:
            return table[key]
    sys.exit("empty.py: %s has a parameter %s for which there is no value here" % (name, parameter))


def fields(structs, kind, path):
    if kind not in structs:
        return [path]
    return [leaf for inner, field in structs[kind] for leaf in fields(structs, inner, path + "." + field)]


def case(structs, back, name, given):
    """The lines that call one function with the slices of `mask` empty, and how many slices it has."""
    words, slices = [], 0
    for kind, parameter in given:
        if kind.endswith("*"):
            words.append("AT(%s, %d)" % (kind, slices))
        elif parameter.endswith("_len") and any(p == parameter[:-4] and k.endswith("*") for k, p in given):
            words.append("LEN(%d, %d)" % (slices, given_for(LENGTHS, name, parameter[:-4])))
            slices += 1
        else:
            words.append(given_for(VALUES, name, parameter))
    leaves = fields(structs, back, "done")
    lines = ["static uint32_t %s_case(unsigned mask, char *at) {" % name]
    lines += ["    %s done = %s(%s);" % (back, name, ", ".join(words)), "    char *to = answer;"]
    lines += ["    PUT(%s);" % leaf for leaf in leaves]
    lines += ["    return %s;" % leaves[0], "}"]
    return lines, slices


def main():
    functions, structs = header()
    print("/* Made by tests/empty.py: every function of the header with every choice of its slices empty. */")
    print('#include <stdio.h>\n#include <string.h>\n#include "threshlantern.h"')
    print("static float room[8][%d];\nstatic char answer[256];" % PLACES)
    print("#define AT(kind, j) ((mask >> (j)) & 1 ? (kind)at : (kind)(void *)room[j])")
    print("#define LEN(j, n) ((mask >> (j)) & 1 ? 0 : (size_t)(n))")
    print("#define PUT(field) memcpy(to, &field, sizeof field), to += sizeof field")
    table = []
    for back, name, given in functions:
        lines, slices = case(structs, back, name, given) if any(kind.endswith("*") for kind, _ in given) else ([], 0)
        if slices:
            print("\n".join(lines))
            table.append('{"%s", %s_case, %d}' % (name, name, slices))
    print("static const struct { const char *name; uint32_t (*call)(unsigned, char *); unsigned slices; } calls[] = {")
    print("    " + ",\n    ".join(table) + "};")
    print(RUN)


RUN = r"""
/* The answer and the buffers after one call on fresh buffers. */
static char kept[sizeof answer], was[sizeof room];
static uint32_t run(unsigned call, unsigned mask, char *at) {
    unsigned j, k;
    memset(answer, 0, sizeof answer);
    for (j = 0; j < 8; j++)
        for (k = 0; k < sizeof room[0] / sizeof(float); k++)
            room[j][k] = (float)(k + j) / 256;
    return calls[call].call(mask, at);
}

int main(void) {
    static char something[64];
    unsigned call, mask, slices = 0, tried = 0, accepted = 0, broken = 0, v;
    for (call = 0; call < sizeof calls / sizeof *calls; call++) {
        slices += calls[call].slices;
        if (run(call, 0, something) != TL_NONE) {
            broken++;
            printf("empty: %s is refused with no slice empty\n", calls[call].name);
        }
        for (mask = 1; mask < 1u << calls[call].slices; mask++) {
            accepted += run(call, mask, something) == TL_NONE;
            memcpy(kept, answer, sizeof answer);
            memcpy(was, room, sizeof room);
            for (v = 0; v < 2; v++) {
                tried++;
                run(call, mask, v == 0 ? NULL : (char *)(uintptr_t)1);
                if (memcmp(kept, answer, sizeof answer) != 0 || memcmp(was, room, sizeof room) != 0) {
                    broken++;
                    printf("empty: %s differs, empty %x, %s\n", calls[call].name, mask, v ? "address 1" : "NULL");
                }
            }
        }
    }
    printf("empty: %u slices of %u calls, in every choice of empty ones: NULL or any pointer gives the same", slices,
           call);
    printf(" (%u tried, %u choices accepted)\n", tried, accepted);
    return broken != 0 || accepted == 0;
}"""

main()
