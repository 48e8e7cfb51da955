#!/usr/bin/env python3
"""Writes the Rust original, patched for the comparison, to target/oracle/original/.

The two files are looked for in ../shared/docs beside the repository, or in the folder that the
environment's ORIGINAL names, as src--src--dsp.rs.txt and src--src--converter.rs.txt or as dsp.rs and
converter.rs. Their text is not part of the repository, and neither is what this writes.

Changed: the library's sine, cosine and arctangent become document 01's steps (the trait `Steps` of
oracle/original.rs has them, for f32 and f64), and the fields of the states become `pub`, for the judge to
set and read. Dropped: both NEON parts, which sum in another order, and the tests. Nothing else changes;
a rule that does not find what it expects ends the run, and so does any call that would be left to the
platform.

Exit status: 0 written; 1 a rule does not hold; 3 the source is not at hand.
"""
import os
import re
import sys

ROOT = os.path.dirname(os.path.dirname(os.path.abspath(__file__)))
FOLDER = os.environ.get("ORIGINAL") or os.path.join(ROOT, "..", "shared", "docs")
TARGET = os.path.join(ROOT, "target", "oracle", "original")

# A call, what stands for it, and how often dsp.rs has it. converter.rs has none.
CALLS = [(".sin()", ".step_sin()", 4), (".cos()", ".step_cos()", 7), (".atan2(", ".step_atan2(", 1)]

# From the line that is given to the first one after it that is; and how many lines these are.
NEON = [
    ('        #[cfg(target_arch = "aarch64")]', "        }", 19),
    ('#[cfg(target_arch = "aarch64")]', "}", 56),
]

# The states whose fields are private in the original. Those of Decimator are not.
FIELDS = {
    "DcRemover": "avg_i avg_q alpha",
    "Agc": "gain target attack decay",
    "AudioAgc": "gain target attack decay min_magnitude hang_time_samples hang_counter envelope",
    "FmDemodulator": "last_phase deemph_alpha deemph_state",
    "HilbertFilter": "taps history extended",
    "SsbDemodulator": "hilbert q_shifted i_history is_usb i_branch q_branch i_extended",
    "AmDemodulator": "dc_alpha dc_mean hp_alpha hp_state",
    "Nco": "phase phase_inc rotator_i rotator_q",
}

# What must not be left in the code: float calls whose last bits IEEE 754 does not fix, or that fuse two
# operations; parts of one machine; parts of the driver.
LEFT = [
    r"(\.|::)\s*(a?(sin|cos|tan)h?|atan2|sin_cos|exp2?|exp_m1|ln|ln_1p|log(2|10)?|pow[fi]|cbrt|hypot|mul_add)\b",
    r"\bsin_cos\b",
    r"(?i)neon",
    r"\bcfg\b|\bunsafe\b|\bextern\b|std::arch|std::simd|intrinsics",
    r"\bcrate::|\bsuper::|\blog::|\btracing\b|println!",
]


class Rule(Exception):
    pass


def expect(true, what):
    if not true:
        raise Rule(what)


def find(name):
    for path in ("src--src--" + name + ".txt", name):
        path = os.path.join(FOLDER, path)
        if os.path.isfile(path):
            return path
    print("the original's source is not at hand; comparison of the stages skipped")
    sys.exit(3)


def without_tests(lines):
    """The tests stand under a heading of three lines, to the end of the file."""
    expect(lines.count("// Tests") == 1, "one heading 'Tests' was expected")
    at = lines.index("// Tests")
    rule = re.compile(r"// =+")
    expect(rule.fullmatch(lines[at - 1]) and rule.fullmatch(lines[at + 1]), "'Tests' is no heading")
    rest = [line for line in lines[at + 2 :] if line]
    expect(not rest or rest[0] == "#[cfg(test)]", "what follows the heading 'Tests' are no tests")
    return lines[: at - 1]


def without(lines, first, last, count):
    expect(lines.count(first) == 1, "one line '%s' was expected" % first)
    start = lines.index(first)
    expect(last in lines[start:], "no line '%s' after '%s'" % (last, first))
    end = lines.index(last, start) + 1
    expect(end - start == count, "%d lines from '%s' on, and not %d" % (end - start, first, count))
    expect("fir_decimate_neon(" in "\n".join(lines[start:end]), "no NEON after '%s'" % first)
    return lines[:start] + lines[end:]


def with_open_fields(lines, struct, names):
    first = "pub struct %s {" % struct
    expect(lines.count(first) == 1, "one '%s' was expected" % first)
    at = lines.index(first) + 1
    found = []
    while lines[at] != "}":
        field = re.match(r"    (\w+): ", lines[at])
        if field:
            found.append(field.group(1))
            lines[at] = "    pub " + lines[at].strip()
        else:
            expect(lines[at].startswith("    ///"), "'%s' in %s is no field" % (lines[at], struct))
        at += 1
    expect(found == names.split(), "the fields of %s are %s" % (struct, " ".join(found)))


def with_steps(text):
    for call, step, count in CALLS:
        expect(text.count(call) == count, "%d calls %s, and not %d" % (text.count(call), call, count))
        text = text.replace(call, step)
    return text


def check(text):
    """Lines that are comments alone do not count."""
    expect("/*" not in text, "a comment that may span lines")
    code = "\n".join(line for line in text.split("\n") if not line.strip().startswith("//"))
    for pattern in LEFT:
        left = re.search(pattern, code)
        expect(not left, "'%s' is left in the code" % (left and left.group(0)))


def converter(lines):
    return "\n".join(without_tests(lines))


def dsp(lines):
    lines = without_tests(lines)
    for first, last, count in NEON:
        lines = without(lines, first, last, count)
    for struct, names in FIELDS.items():
        with_open_fields(lines, struct, names)
    return with_steps("\n".join(lines))


def main():
    made = [("converter.rs", converter, ""), ("dsp.rs", dsp, "use crate::original::Steps;\n")]
    made = [(find(name), name, patch, use) for name, patch, use in made]
    os.makedirs(TARGET, exist_ok=True)
    for path, name, patch, use in made:
        with open(path, encoding="utf-8") as file:
            lines = file.read().split("\n")
        try:
            text = patch(lines)
            check(text)
        except Rule as rule:
            sys.exit("oracle/original.py: %s: %s" % (os.path.basename(path), rule))
        head = "// rtlsdr-next's src/%s (Apache-2.0), changed by oracle/original.py as it says there.\n" % name
        with open(os.path.join(TARGET, name), "w", encoding="utf-8") as file:
            file.write(head + text + use)


main()
