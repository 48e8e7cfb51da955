#!/usr/bin/env python3
# docs/PROMISES.md held to the repository. Fails, and says in a line each what is wrong, unless
# - every file and every name that a table of the page gives exists, the name as a declaration in its file;
# - every public function of every library crate is in a table, and nothing else stands under "Call" and "C name";
# - the contract of each names the definition that the table gives, and asks nothing of the caller;
# - a theorem says of the contract of each that no second answer meets it, with no premise, and the table gives that theorem;
# - each method of a trait has its clauses in the trait, and no body there;
# - what the table gives for demand 1 is stated over the call's own definition.
# `tests/promises.py --plants` plants an error of each kind in a copy and sees each found.
import os
import re
import shutil
import sys
import tempfile

PAGE = 'docs/PROMISES.md'
THEOREMS = 'crates/promises/proofs'


def read(path):
    with open(path, encoding='utf-8') as f:
        return f.read()


def tokens(cell):
    return re.findall(r'`([^`]+)`', cell)


def is_path(token):
    return '/' in token


def located(token):
    return next((p for p in ('crates/' + token, token) if os.path.exists(p)), None)


# ---- the public functions

class Function:
    def __init__(self, name, module, contract, members=''):
        self.name = name          # as a caller writes it: Agc::process, stage::even, <f32 as Real>::finite, tl_convert
        self.module = module      # as a proof of another crate writes it: agc.Agc.process
        self.contract = contract  # from the signature to the body; of an `impl`'s method, from the trait
        self.members = members    # of an `impl`'s method: the ghost members, whose words the trait's clauses use
        self.of_any_type = bool(re.match(r' *pub fn \w+<', contract))


# a type as the checker writes it in the name of an `impl`: F32, Refusal, Tuple2F32F32
def mangled(type_):
    type_ = type_.strip()
    if type_.startswith('('):
        parts = [p for p in type_.strip('()').split(',') if p.strip()]
        return 'Tuple%d%s' % (len(parts), ''.join(map(mangled, parts)))
    head, _, rest = type_.partition('<')
    arguments = re.findall(r'\([^)]*\)|\w+', rest)
    return head[:1].upper() + head[1:] + ''.join(map(mangled, arguments))


# the names of the repository's traits, and the clauses of each method of each; None where the trait gives it a body
def traits():
    named, clauses = set(), {}
    for crate in sorted(os.listdir('crates')):
        for file in sorted(os.listdir('crates/%s/src' % crate)):
            text = re.sub(r'//.*', '', read('crates/%s/src/%s' % (crate, file)))
            named |= set(re.findall(r'^\s*(?:pub(?:\([a-z]+\))? )?trait (\w+)', text, re.M))
            for trait, body in re.findall(r'^pub trait (\w+)[^{]*\{(.*?)^\}', text, re.M | re.S):
                # a clause's braces go, so that a brace that is left opens a body
                for name, words, ended in re.findall(r'\bfn (\w+)([^;{]*)([;{])', bare(body), re.S):
                    clauses[trait, name] = words.replace('~', '') if ended == ';' else None
    return named, clauses


# a trait's body with the braces of its clauses written as `~`
def bare(body):
    return re.sub(r'((?:requires|ensures|ghost)\b[^{;]*)\{([^{}]*)\}', r'\1~\2~', body)


# each `pub fn` of a file and each method of a trait's `impl`, with the `impl` that it stands in and its contract
def declared(text):
    impl = trait = None
    opened_at = 0
    lines = text.split('\n')
    for i, line in enumerate(lines):
        opened = re.match(r'impl(?:<[^>]*>)? (?:(.+) for )?(\w+)', line)
        if opened:
            trait, impl, opened_at = opened.group(1), opened.group(2), i
        elif line.startswith('}'):
            impl = trait = None
        found = re.match(r'( *)%sfn (\w+)' % ('' if trait else r'pub (?:extern "C" )?'), line)
        if found and trait:
            ghosts = [g for g in lines[opened_at:i] if g.startswith('    ghost ')]
            yield found.group(2), impl, trait, '\n'.join(ghosts)
        elif found:
            end = next(j for j in range(i, len(lines)) if lines[j].startswith(found.group(1) + '{'))
            yield found.group(2), impl, None, '\n'.join(lines[i:end])


def public_functions(crate, named, clauses_of):
    src = 'crates/%s/src' % crate
    root = read(src + '/lib.rt')
    modules = set(re.findall(r'^pub mod (\w+);', root, re.M))
    passed_on = set(re.findall(r'^pub use (?:\w+::)*(\w+);', root, re.M))
    for group in re.findall(r'^pub use (?:\w+::)*\{([^}]*)\};', root, re.M):
        passed_on |= set(re.findall(r'\w+', group))
    types = set(re.findall(r'^pub (?:struct|enum) (\w+)', root, re.M))
    inner = set(re.findall(r'^(?:pub\(crate\) )?trait (\w+)', ''.join(read(src + '/' + f) for f in os.listdir(src)), re.M))
    for file in sorted(os.listdir(src)):
        here = file[:-len('.rt')]
        for name, impl, trait, contract in declared(read(src + '/' + file)):
            if trait:
                if trait.partition('<')[0] not in inner:
                    place = crate if here == 'lib' else crate + '.' + here
                    module = '%s.%s%s.%s' % (place, mangled(impl), mangled(trait), name)
                    # a trait of the library has clauses of its own, in the words of the ghost members
                    of = trait.partition('<')[0]
                    clauses = clauses_of.get((of, name)) or '' if of in named else 'ensures' if contract else ''
                    yield Function('<%s as %s>::%s' % (impl, trait, name), module, clauses, contract)
            elif impl in types:
                yield Function(impl + '::' + name, '%s.%s.%s' % (crate, impl, name), contract)
            elif impl is None and name.startswith('tl_'):
                yield Function(name, '%s.%s.%s' % (crate, here, name), contract)
            elif impl is None and (here == 'lib' or name in passed_on):
                yield Function(crate + '::' + name, '%s.%s' % (crate, name), contract)
            elif impl is None and here in modules:
                yield Function('%s::%s::%s' % (crate, here, name), '%s.%s.%s' % (crate, here, name), contract)


def libraries():
    for line in read('crates.txt').split('\n'):
        name = line.split('#')[0].split(':')[0].strip()
        if name and os.path.exists('crates/%s/src/lib.rt' % name):
            yield name


# what a theorem of no second answer says: of a contract as it stands, or, of a function over any type, of that contract
# with all that the type brings. A premise, or an argument of its own choice, would make it say less
PLAIN = r'^pub ([\w-]+) : NoSecond (\S+)\.ended (\S+)\.Reads\.Learnt\n(?! )'
OF_ANY_TYPE = r'^pub ([\w-]+) : \(([\w ]+) : _\) → NoSecond \((\S+)\.ended ([\w ]+)\) \((\S+)\.Reads\.Learnt ([\w ]+)\)\n(?! )'


# each theorem of no second answer: its name, the two names of the contract, and whether it is of any type
def said(text):
    for theorem, ended, learnt in re.findall(PLAIN, text, re.M):
        yield theorem, ended, learnt, False
    for theorem, brought, ended, ended_of, learnt, learnt_of in re.findall(OF_ANY_TYPE, text, re.M):
        brought, ended_of = brought.split(), ended_of.split()
        rest = iter(brought)
        in_order = all(name in rest for name in ended_of)
        heads = {'NoSecond', ended.partition('.')[0], learnt.partition('.')[0]}
        if len(set(brought)) == len(brought) and not heads & set(brought) and learnt_of.split() == brought and in_order:
            yield theorem, ended, learnt, True


# by function, the theorem that no second answer meets its contract, and whether it is of any type
def only_theorems():
    found = {}
    for file in sorted(f for f in os.listdir(THEOREMS) if f.startswith('Only')):
        text = read(THEOREMS + '/' + file)
        use = r'^use Rattle\.(\w+)\.%s((?:\.\w+)?) as ([\w-]+)$'
        proofs = {a: crate + below for crate, below, a in re.findall(use % 'proofs', text, re.M)}
        says = {a: crate + below for crate, below, a in re.findall(use % r'specs\.contracts', text, re.M)}
        for theorem, ended, learnt, of_any in said(text):
            head, _, rest = ended.partition('.')
            of, _, same = learnt.partition('.')
            if rest == same and head in says and says[head] == proofs.get(of):
                found[proofs[of] + '.' + rest, of_any] = theorem
    return found


# ---- the page

def declares(path, name):
    if os.path.isdir(path):
        return False
    word = re.escape(name)
    if path.endswith('.rt'):
        return re.search(r'\b(fn|struct|enum|trait) %s\b' % word, read(path))
    return re.search(r'^\s*(abbrev |unfoldable )?(pub )?(%s :|(record|data) %s\b)' % (word, word), read(path), re.M)


# the rows of all tables: line, header and cells
def rows():
    header = None
    for number, line in enumerate(read(PAGE).split('\n'), 1):
        cells = [c.strip() for c in line.strip().strip('|').split('|')]
        if not line.startswith('|'):
            header = None
        elif header is None:
            header = cells
        elif set(''.join(cells)) != {'-'}:
            yield number, header, cells


# a cell's names, each with the files that may declare it: "`name`, .. in `path`", else the header's, else the last cell's
def names_of(cell, others):
    pending = []
    for piece in re.split(r'(`[^`]+`)', cell):
        token = piece.strip('`')
        if piece.startswith('`') and not is_path(token) and not token.startswith('lib.'):
            pending.append(token)
        elif piece.startswith('`') or ';' in piece:
            yield from ((name, [token] if piece.startswith('`') else others) for name in pending)
            pending = []
    yield from ((name, others) for name in pending)


def row_faults(header, cells):
    if len(cells) != len(header):
        yield 'not as many cells as the header has'
    for title, cell in zip(header, cells):
        for token in filter(is_path, tokens(title + cell)):
            if not located(token):
                yield 'there is no %s' % token
        if title in ('Call', 'C name', 'Contract'):
            continue
        others = [t for t in tokens(title) if is_path(t)] or [t for t in tokens(cells[-1]) if is_path(t)]
        for name, files in names_of(cell, others):
            if not ''.join(files).startswith('lib.') and not any(located(f) and declares(located(f), name) for f in files):
                yield '%s is not declared in %s' % (name, ' or '.join(files) or 'any file')


def names(text, name):
    return re.search(r'(?<![\w-])%s(?![\w-])' % re.escape(name), text)


# what the theorem of this name says, in whichever of the files has it
def statement(theorem, files):
    texts = (re.search(r'^pub %s :(.*?)^%s' % (theorem, theorem), read(located(f)), re.M | re.S) for f in files)
    return next((m.group(1) for m in texts if m), '')


def call_faults(header, cells, functions, theorems, listed):
    column = dict(zip((h.split(':')[0] for h in header), cells))
    given = tokens(column['Call']) + tokens(column['C name'])
    for call in given:
        if call not in functions:
            yield '%s is no public function' % call
        elif call in listed:
            yield '%s is listed twice' % call
        listed.add(call)
    if given[0] not in functions:
        return
    f = functions[given[0]]
    if (f.members or f.contract) not in read(located(tokens(column['Contract'])[0]) or PAGE):
        yield '%s does not stand in the file given' % f.name
    for name, _ in names_of(column['Definition'], []):
        if not names(f.contract.partition('ensures')[2] + f.members, name):
            yield 'the contract of %s does not name %s' % (f.name, name)
        for refuses in tokens(column.get('Demand 1', '')):
            if not names(statement(refuses, [t for t in tokens(header[-1]) if is_path(t)]), name):
                yield '%s does not speak of %s' % (refuses, name)
    if tokens(column['No second answer']) != [theorems.get((f.module, f.of_any_type))]:
        yield 'the theorem of %s is %s' % (f.name, theorems.get((f.module, f.of_any_type)))


def faults(functions):
    theorems = only_theorems()
    listed = set()
    for number, header, cells in rows():
        for text in row_faults(header, cells):
            yield '%s:%d: %s' % (PAGE, number, text)
        if header[0] == 'Call' and len(cells) == len(header):
            for text in call_faults(header, cells, functions, theorems, listed):
                yield '%s:%d: %s' % (PAGE, number, text)
    for name, f in sorted(functions.items()):
        if name not in listed:
            yield '%s: the public function %s is in no table' % (PAGE, name)
        if 'ensures' not in f.contract or 'requires' in f.contract:
            yield '%s has no ensures, or a requires' % name
        if (f.module, f.of_any_type) not in theorems:
            yield '%s: no theorem says that no second answer meets the contract of %s' % (THEOREMS, name)


def checked():
    named, clauses_of = traits()
    functions = {f.name: f for crate in libraries() for f in public_functions(crate, named, clauses_of)}
    bodies = ['%s::%s has a body in its trait, and no row speaks of that' % key for key, clauses in clauses_of.items() if clauses is None]
    return functions, list(faults(functions)) + bodies


# ---- that it can fail: what is planted where, and a word of the fault that must be told

PLANTS = [
    (PAGE, r'\n\| `Nco::reset` .*', '', 'Nco::reset is in no table'),
    (PAGE, '`tl_nco_mix`', '`tl_nco_mixed`', 'tl_nco_mixed is no public function'),
    (PAGE, '`not_untouched`', '`not_touched`', 'not_touched is not declared'),
    (PAGE, 'agc/proofs/Stays.antt', 'agc/proofs/Stay.antt', 'there is no agc/proofs/Stay.antt'),
    (PAGE, '`made_with_factor`', '`made`', 'does not name made'),
    (PAGE, r'\| `agc_new` \|', '| `agc_process` |', 'the theorem of Agc::new'),
    (PAGE, r'`nco_mix` \| `nco_mix`', '`nco_mix` | `nco_reset`', 'nco_reset does not speak of mixed'),
    (PAGE, '`made` in `dc_remover/specs/State.antt`', '`made` in `dc_remover/specs/Step.antt`', 'made is not declared in'),
    ('crates/stage/src/numbers.rt', r'pub fn even\(n: usize\) -> bool', 'pub fn even(n: usize) -> bool\n    requires { n ≡ 0 }', 'stage::even has no ensures, or a requires'),
    ('crates/agc/src/process.rt', 'pub fn process', 'pub fn processed', 'Agc::processed is in no table'),
    (THEOREMS + '/OnlyStages.antt', r'agc-says\.process\.ended agc\.process\.Reads', 'agc-says.process.ended agc.new.Reads', 'the contract of Agc::process'),
    (THEOREMS + '/OnlyC.antt', r'pub tl_agc_new :', 'tl_agc_new :', 'the contract of tl_agc_new'),
    (THEOREMS + '/OnlyC.antt', r'pub tl_agc_new : ', 'pub tl_agc_new : (h : true ≡ false) → ', 'the contract of tl_agc_new'),
    (THEOREMS + '/OnlyStages.antt', r'pub agc_new : NoSecond (\S+) (\S+)\n', r'pub agc_new : (x : _) → NoSecond (\1 x) (\2 x)\n', 'the contract of Agc::new'),
    (THEOREMS + '/OnlyRuns.antt', r'pub run_mono : \(g ', 'pub run_mono : (no : ⊥) (g ', 'the contract of stage::run_mono'),
    (THEOREMS + '/OnlyRuns.antt', r'positive\.ended g real d clone e\)', 'positive.ended g real d clone one)', 'the contract of stage::positive'),
    ('crates/stage/src/runs.rt', r'\n *ensures { answer_of result ≡ answer self x };', ';', 'Feedback<f32, f32>>::step has no ensures'),
    ('crates/number/src/kinds.rt', r'ensures { result ≡ value self };', ';', '<f32 as Real>::wide has no ensures'),
    ('crates/stage/src/runs.rt', r'(fn step\(self, x: X\) -> Option<\(Y, Self\)>\n[^\n]*);', r'\1\n    { None }', 'Feedback::step has a body'),
    ('crates/number/src/kinds.rt', r'fn wide\(self\) -> f64\n[^\n]*;', 'fn wide(self) -> f64 { 0.0 }', 'Real::wide has a body'),
    ('crates/stage/src/runs.rt', r'pub trait Feedback<X, Y>: Copy \{((?:.|\n)*?)\n *ensures { answer_of result ≡ answer self x };', r'pub trait Feedback<X, Y>\nwhere\n    Self: Copy,\n{\1;', 'Feedback<f32, f32>>::step has no ensures'),
    (THEOREMS + '/OnlyC.antt', r'(pub tl_agc_new : .*)\n', r'\1\n  → Unit\n', 'the contract of tl_agc_new'),
]


def plants():
    missed = 0
    work = tempfile.mkdtemp()
    for d in ('docs', 'crates', 'tests'):
        shutil.copytree(d, os.path.join(work, d))
    shutil.copy('crates.txt', work)
    os.chdir(work)
    for path, old, new, word in PLANTS:
        text = read(path)
        with open(path, 'w', encoding='utf-8') as f:
            f.write(re.sub(old, new, text, count=1))
        if not any(word in told for told in checked()[1]):
            missed += 1
            print('promises: planted and not found: ' + word, file=sys.stderr)
        with open(path, 'w', encoding='utf-8') as f:
            f.write(text)
    os.chdir('/')
    shutil.rmtree(work)
    print('promises: %d errors planted, %d missed' % (len(PLANTS), missed))
    return missed


def main():
    os.chdir(os.path.join(os.path.dirname(os.path.abspath(__file__)), '..'))
    if sys.argv[1:] == ['--plants']:
        sys.exit(1 if plants() else 0)
    functions, found = checked()
    for line in found:
        print('promises: ' + line, file=sys.stderr)
    if found:
        sys.exit(1)
    print('promises: %d rows and %d public functions, each with contract, definition and theorem' % (len(list(rows())), len(functions)))


main()
