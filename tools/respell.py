#!/usr/bin/env python3
"""Brings the repository's own definitions and lemmas to one spelling: `isWithin` becomes `is_within`, `cut-at` `cut_at`.

usage: tools/respell.py        at the top of the repository, once, right after the port's own script
       tools/respell.py --list what it would rename

Types and modules keep their capitals, the functions of src/ and the names that the prover makes keep theirs. Only names
that specs/ and proofs/*.antt declare are touched; they are changed wherever they stand as a whole word, in definitions,
clauses, proofs and the edits that must be refused. It stops where two names would fall together.
"""
import os
import re
import sys

WORD = r"[A-Za-z0-9_'′₀-₉ᵢ-]"
DECLARED = re.compile(r'^\s*(?:(?:abbrev|unfoldable|pub|ruleset) )*(' + WORD + r'+) :(?!=)')
# Names that would meet one of the library's, or one of ours with another meaning.
OTHER = {
    'is-nan': 'is_the_nan',
    'LONGEST-HANG': 'LONGEST_HANG',
    'slow-decay': 'slow_decay_is',
    'every-tap': 'every_tap_case',
    'odd-taps': 'odd_taps_case',
    'next-phase': 'only_next_phase',
    'history-fits': 'only_history_fits',
    'lengths-fit': 'fit_is_true',
    'taps-allowed': 'only_taps_allowed',
    'cutoff-allowed': 'only_cutoff_allowed',
    'mixed-at': 'mixed_get',
    'too_large': 'too_large_case',
    'minus-zero': 'minus_zero_case',
    'marked-cases': 'all_marked_cases',
    'in-unit': 'only_in_unit',
    'not_negative': 'only_not_negative',
    'both-finite': 'only_both_finite',
    'all-finite': 'only_all_finite',
}

# Variables and import names that are spelled alike; they are bound where they stand.
BOUND = {
    'qHistory': 'q_history',
    'iHistory': 'i_history',
    'outQ': 'out_q',
    'avgI': 'avg_i',
    'avgQ': 'avg_q',
    'meanI': 'mean_i',
    'meanQ': 'mean_q',
    'hilbertTapsAllowed': 'hilbert_allowed',
}


def files(*endings):
    for folder, folders, names in os.walk('crates'):
        folders[:] = sorted(name for name in folders if name != 'out')
        for name in sorted(names):
            if name.endswith(endings):
                yield os.path.join(folder, name)


def made_here(path):
    """Whether the file declares names of ours: not one that answers the goals of a function."""
    answers = '/proofs/' in path and path.endswith(('/Proof.antt', '/Answers.antt', '/Invariants.antt'))
    return path.endswith('.antt') and not answers


def snake(name):
    if re.match(r'[A-Z]', name):
        return name.replace('′', "'")
    name = re.sub(r'(?<=[a-z0-9])([A-Z]+)(?=[0-9-]|$)', lambda m: '_' + m.group(1).lower(), name)
    name = re.sub(r'(?<=[a-z0-9])([A-Z])', lambda m: '_' + m.group(1).lower(), name)
    return name.replace('-', '_').replace('′', "'")


def renames():
    declared = {}
    for path in files('.antt'):
        if made_here(path):
            with open(path) as file:
                for line in file:
                    found = DECLARED.match(line)
                    if found:
                        declared.setdefault(found.group(1), path)
    new = {}
    for name in declared:
        other = OTHER.get(name, snake(name))
        if other != name:
            new[name] = other
    back = {}
    for name, other in list(new.items()) + [(name, name) for name in declared if name not in new]:
        if other in back and back[other] != name:
            sys.exit('respell: %s and %s would both be %s' % (back[other], name, other))
        back[other] = name
    return new


def imported(text):
    for found in re.finditer(r'^(?:ghost |pub |open )*use ([\w.◌·+-]+)\.\{([^}]*)\}', text, re.M):
        for item in found.group(2).split(','):
            yield found.group(1), item.split(' as ')[-1].strip()


def main(words):
    new = renames()
    if words == ['--list']:
        for name in sorted(new):
            print(name, new[name])
        return 0
    others = set(new.values())
    clash = False
    for path in files('.antt', '.rt'):
        with open(path) as file:
            for module, item in imported(file.read()):
                if item in others and not re.match(r'Rattle\.(?!std|core)', module):
                    print('respell: %s: %s.%s has the spelling of one of ours' % (path, module, item), file=sys.stderr)
                    clash = True
    if clash:
        return 1
    alone = {name: new.pop(name) for name in list(new) if not re.search(r"[A-Z′-]", name)}
    word = re.compile(r'(?<!' + WORD + r')(' + '|'.join(re.escape(name) for name in sorted(new, key=len, reverse=True)) + r')(?!' + WORD + ')')
    changed = 0
    for path in files('.antt', '.rt', '.edit'):
        with open(path) as file:
            text = before = file.read()
        for name in alone:
            # a name that a function has too: changed where it is declared and cited in a file by itself
            text = re.sub(r'(?m)^(pub )?%s (?=:|=|\w+ )' % name, lambda m: (m.group(1) or '') + alone[name] + ' ', text) if path.endswith('.antt') and made_here(path) else text
        if path.endswith('.antt'):
            after = word.sub(lambda m: new[m.group(1)], text)
            for name in BOUND:
                after = re.sub(r'(?<!%s)%s(?!%s)' % (WORD, name, WORD), BOUND[name], after)
        else:
            # in code a dash is a minus
            after = word.sub(lambda m: m.group(1) if '-' in m.group(1) and path.endswith('.rt') else new[m.group(1)], text)
        if after != before:
            changed += 1
            with open(path, 'w') as out:
                out.write(after)
    print('respell: %d names in %d files' % (len(new) + len(alone), changed))
    return 0


if __name__ == '__main__':
    sys.exit(main(sys.argv[1:]))
