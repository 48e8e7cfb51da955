#!/usr/bin/env python3
"""Checks what bindings/c/threshlantern.h and docs/GUIDE.md say of the stack that each call needs, in two ways.

    tests/stack.py [--all]      --all prints what each function needs

It runs every function of bindings/c/symbols.txt on a small painted stack (tests/stack.c), and it adds up the frames on
every path through the archive's machine code, so that a path that did not run counts too. Either fails where a function
needs more than its line in the header. At the end each line is lowered, which must fail. It needs `make lib`, cc and
objdump, and is for the x86-64 archive that ships. Exit status: 0 all as it should be; 1 not.
"""
import os
import platform
import re
import subprocess
import sys
import tempfile

ROOT = os.path.dirname(os.path.dirname(os.path.abspath(__file__)))
ARCHIVE = os.path.join(ROOT, "build", "libthreshlantern.a")
KIB = 1024
# What memcpy and memset need, with the dynamic linker's work at their first call: 3.2 KiB where there is AVX-512.
C_LIBRARY = 3584


def fail(what):
    sys.exit("stack: " + what)


def read(*path):
    with open(os.path.join(ROOT, *path), encoding="utf-8") as file:
        return file.read()


def table():
    """The header's lines, in KiB: by function, and `other`."""
    head = read("bindings", "c", "threshlantern.h").split("*/")[0]
    lines = re.findall(r"^ \*     (tl_\w+|every other call) +(\d+) KiB$", head, re.M)
    limits = {name if name.startswith("tl_") else "other": int(kib) for name, kib in lines}
    if len(limits) != len(lines) or "other" not in limits:
        fail("the header has no table of stacks, or a line twice")
    if re.findall(r"^\| `?(tl_\w+|every other call)`? \| (\d+) KiB \|$", read("docs", "GUIDE.md"), re.M) != lines:
        fail("the guide's table of stacks is not the header's")
    return limits


def build(work, names):
    with open(os.path.join(work, "calls.inc"), "w", encoding="utf-8") as file:
        file.writelines("CALL(%s)\n" % name for name in names)
    program = os.path.join(work, "stack")
    words = ["cc", "-std=gnu99", "-O2", "-Wall", "-Wextra", "-Werror", "-I" + work, "-I" + os.path.join(ROOT, "build")]
    # Lazy, so that the dynamic linker's work at a first call is in the figures.
    words += [os.path.join(ROOT, "tests", "stack.c"), ARCHIVE, "-pthread", "-Wl,-z,lazy", "-o", program]
    if subprocess.run(words).returncode != 0:
        fail("tests/stack.c does not compile: it must have work for exactly the functions of bindings/c/symbols.txt")
    return program


def run(program, limits):
    """Whether every function kept to its limit, and what was said."""
    given = "".join("%s %d\n" % line for line in limits.items())
    ran = subprocess.run([program, "--all"], input=given, capture_output=True, text=True)
    if ran.returncode not in (0, 1):
        fail("the program ended with %d: %s" % (ran.returncode, ran.stderr))
    return ran.returncode == 0, ran.stdout


def moves(does, what):
    """How far an instruction moves the stack pointer down, or sets %r11 below it, as (bytes, register); else None."""
    by = re.fullmatch(r"\$0x([0-9a-f]+),%(rsp|r11)", what)
    if by and does in ("sub", "add"):
        value = int(by.group(1), 16)
        value -= 1 << 64 if value >> 63 else 0
        return (value if does == "sub" else -value), by.group(2)
    by = re.fullmatch(r"(-?)0x([0-9a-f]+)\(%rsp\),%(rsp|r11)", what)
    if by and does == "lea" and (by.group(3) == "rsp" or by.group(1)):
        return int(by.group(2), 16) * (1 if by.group(1) else -1), by.group(3)
    return None


def frames():
    """Each function's frame in bytes, with all that it ever pushes, and whom it calls."""
    listed = subprocess.run(["objdump", "-dr", ARCHIVE], capture_output=True, text=True, check=True).stdout
    frame, calls, name, jumps, before = {}, {}, None, False, None
    for line in listed.splitlines():
        start = re.match(r"[0-9a-f]+ <(.*)>:$", line)
        if start:
            name, jumps = start.group(1), False
            frame[name], calls[name] = 8, set()  # 8: the return address
            continue
        whom = re.search(r"R_X86_64_(?:PLT32|PC32)\t(?:\.text\.)?(.*?)-0x4$", line)
        if whom and jumps:
            calls[name].add(whom.group(1))
        code = re.search(r"\t([a-z]+) +(.*)$", line)
        if not code:
            continue
        does, what = code.group(1), code.group(2).strip()
        jumps = does in ("call", "jmp")
        if does == "call" and "*" in what:
            fail("%s calls through a pointer" % name)
        moved = moves(does, what)
        if does == "push":
            frame[name] += 8
        elif moved and moved[1] == "rsp":
            frame[name] += max(0, moved[0])
        elif moved and (does == "lea" or before == ("mov", "%rsp,%r11")):
            # A frame of many pages is taken by a loop, a page at a time, down to %r11. Its step counts too.
            frame[name] += moved[0] - 4096
        elif what.endswith(",%rsp") and does != "cmp":
            fail("%s does something else to its stack: %s %s" % (name, does, what))
        before = (does, what)
    return frame, calls


def deepest(name, frame, calls, path=()):
    if name in path:
        fail("%s calls itself" % name)
    if name not in frame:
        return C_LIBRARY if name in ("memcpy", "memset") else fail("who is %s?" % name)
    return frame[name] + max([deepest(callee, frame, calls, path + (name,)) for callee in calls[name]], default=0)


def main():
    machine = platform.machine()
    if machine != "x86_64":
        print("stack: the header's figures are for the x86-64 archive, and this machine is %s: skipped" % machine)
        return
    names = [line.split()[1] for line in read("bindings", "c", "symbols.txt").splitlines() if line.startswith("T ")]
    limits = table()
    frame, calls = frames()
    with tempfile.TemporaryDirectory() as work:
        program = build(work, names)
        kept, said = run(program, limits)
        if "--all" in sys.argv:
            print(said, end="")
        else:
            print("".join(line + "\n" for line in said.splitlines() if not line.endswith(" bytes")), end="")
        for name in names:
            most, limit = deepest(name, frame, calls), limits.get(name, limits["other"]) * KIB
            if "--all" in sys.argv:
                print("stack: %-30s %6d bytes at most, by its code" % (name, most))
            if most > limit:
                kept = False
                said = "stack: %s may need %d bytes by its code, and the header says %d KiB"
                print(said % (name, most, limit // KIB))
        if not kept:
            sys.exit(1)
        # The test can fail: each line that is lowered below the need does.
        for name in limits:
            kept, said = run(program, dict(limits, **{name: 1}))
            if kept or not re.search(r"stack: %s (needs|left) " % (r"\w+" if name == "other" else name), said):
                fail("the line of %s was lowered to 1 KiB, and nothing failed" % name)
    said = "stack: %d functions keep to the header's table, on small threads and by their code; each line, if lowered,"
    print(said % len(names), "fails")


main()
