#!/usr/bin/env python3
"""The library's LLVM module made ready for Arm, and the C that stands before it. Not called today: the toolchain has no
compiler for Arm, and keeps no LLVM module.

usage: here.py MODULE.ll OUT.ll STEPS.c

The module hands structs over as x86-64 does: a large answer is written where the first argument points, a struct of up
to 16 bytes comes in pieces of eight, a larger one in memory. Each function of the header therefore becomes `x_NAME` in
OUT.ll, and STEPS.c has the function NAME that calls it so. Nothing else of the module changes but the lines that name
the machine.
"""
import re
import sys

LAYOUT = 'e-m:e-p270:32:32-p271:32:32-p272:64:64-i8:8:32-i16:16:32-i64:64-i128:128-n32:64-S128-Fn32'

# The pieces of each struct that is handed in; one that goes through memory has none.
PIECES = {
    'tl_decimator': ['size_t', 'size_t'],
    'tl_dc_remover': ['double', 'float'],
    'tl_fm': ['double', 'float'],
    'tl_agc': ['double', 'double'],
    'tl_am': ['double', 'double'],
    'tl_ssb': ['uint8_t'],
    'tl_audio_agc': [],
    'tl_nco': [],
}
# Answers of 16 bytes come back in two registers on both machines.
SMALL = {'tl_hilbert_done', 'tl_ssb_done'}


def step(answer, name, params):
    """The C function that takes the arguments as this machine does and hands them on as x86-64 does."""
    types, words, lines = [], [], []
    large = answer.startswith('tl_') and answer not in SMALL
    if large:
        types.append('void *')
        words.append('&answer')
    for param in [] if params.strip() == 'void' else params.split(','):
        kind, label = re.fullmatch(r'(.*?)(\w+)', ' '.join(param.split())).groups()
        kind = kind.strip()
        if not kind.startswith('tl_'):
            types.append(kind)
            words.append(label)
            continue
        if not PIECES[kind]:
            types.append('void *')
            words.append('&' + label)
        for i, piece in enumerate(PIECES[kind]):
            word = '%s_%d' % (label, i)
            lines.append('%s %s; memcpy(&%s, (char *)&%s + %d, sizeof %s);' % (piece, word, word, label, 8 * i, word))
            types.append(piece)
            words.append(word)
    call = 'x_%s(%s)' % (name, ', '.join(words))
    lines.append('%s answer; %s; return answer;' % (answer, call) if large else 'return %s;' % call)
    return 'extern %s x_%s(%s);\n%s %s(%s) { %s }\n' % (
        'void *' if large else answer, name, ', '.join(types) or 'void', answer, name, params, ' '.join(lines))


def main(module, out, steps):
    header = re.sub(r'/\*.*?\*/', '', open('bindings/c/threshlantern.h').read(), flags=re.S)
    calls = re.findall(r'^(\w+) (tl_\w+)\(([^)]*)\);', header, flags=re.M)
    text = open(module).read()
    missing = [name for _, name, _ in calls if not re.search(r'^define .*@%s\(' % name, text, flags=re.M)]
    if missing:
        sys.exit('here: the module does not have ' + ', '.join(missing))
    for _, name, _ in calls:
        text = re.sub(r'@%s(?=\()' % name, '@x_' + name, text)
    text = re.sub(r'^target datalayout = .*$', 'target datalayout = "%s"' % LAYOUT, text, flags=re.M)
    text = re.sub(r'^target triple = .*$', 'target triple = "aarch64-unknown-linux-gnu"', text, flags=re.M)
    text = text.replace('"target-cpu"="x86-64"', '')
    text = re.sub(r'byval\(\[\d+ x i8\]\) align 8 ', '', text)
    open(out, 'w').write(text)
    with open(steps, 'w') as c:
        c.write('#include "threshlantern.h"\n#include <string.h>\n\n')
        c.write('\n'.join(step(*call) for call in calls))


if __name__ == '__main__':
    if len(sys.argv) != 4:
        sys.exit(__doc__)
    main(*sys.argv[1:])
