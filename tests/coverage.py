#!/usr/bin/env python3
"""Every definition, theorem, function, file and must-fail edit that docs/COVERAGE.md names stands where it says, and no public
function lacks an `ensures`."""
import glob
import os
import re
import sys

root = os.path.join(os.path.dirname(os.path.abspath(__file__)), '..')
WORDS = ('pub', 'ensures', 'requires', 'rows', 'end')  # not names of anything in the repository


def text_of(path):
    path = os.path.join(root, path)
    if not os.path.isfile(path):
        return ''
    with open(path, encoding='utf8', errors='replace') as f:
        return f.read()


def defines(text, name):
    return re.search(rf"^ *(abbrev |unfoldable )*(pub )?(data |record )?{re.escape(name)}( [({{].*| )*:", text, re.M)


def declared(name):
    """A function, struct or constant of the code: CRATE::MODULE::NAME, TYPE::NAME or TYPE."""
    first, last = name.split('::')[0], name.split('::')[-1]
    crate = first if os.path.isdir(os.path.join(root, 'crates', first)) else '*'
    files = glob.glob(os.path.join(root, 'crates', crate, 'src/*.rt'))
    return any(re.search(rf'\b(fn|struct|const) {last}\b', text_of(f)) for f in files)


def stands(name, texts):
    """Whether what is named is there; None where it isn't a name. A plain name may stand in any file that its line named before it."""
    at = re.fullmatch(r'(\w+)/(specs|proofs)/((?:Served/)?\w+)((?:\.[\w-]+)*)', name)
    if at:
        texts.append(text_of(f'crates/{at[1]}/{at[2]}/{at[3]}.antt'))
        return texts[-1] and all(defines(texts[-1], part) for part in at[4].split('.')[1:])
    if re.match(r'(crates|tests)/', name):
        texts.append(text_of(name))
        return os.path.exists(os.path.join(root, name))
    if '::' in name or name in ('Refusal', 'Finding', 'Instruction'):
        return declared(name)
    if not re.fullmatch(r'[\w-]+', name) or name in WORDS:
        return None
    edits = glob.glob(os.path.join(root, 'crates/*/must-fail', name + '.edit'))
    crate = os.path.isdir(os.path.join(root, 'crates', name))
    return edits or crate or any(defines(t, name) or f"'{name}'" in t for t in texts)


def bare_functions(text):
    """The public functions of a source that have no ensures. A head ends with the first brace that ends a line."""
    for head in re.finditer(r'^ *pub (?:extern "C" )?fn (\w+)(.*?)\{$', text, re.M | re.S):
        if 'ensures' not in head[2]:
            yield head[1]


stated = 'pub fn stated(a: u8) -> u8\n    ensures { result ≡ a }\n{\n    a\n}\n'
assert list(bare_functions('pub fn bare(a: u8) -> u8 {\n    a\n}\n\n' + stated)) == ['bare']
assert list(bare_functions('pub fn bare(\n    a: u8,\n) -> u8\n    requires { a < 2 }\n{\n    a\n}\n' + stated)) == ['bare']
assert not list(bare_functions(stated))


def unstated():
    """Public functions without an ensures."""
    for path in sorted(glob.glob(os.path.join(root, 'crates/*/src/*.rt'))):
        for name in bare_functions(text_of(path)):
            yield f'{os.path.relpath(path, root)}: {name}'


missing, checked = [], 0
for line in text_of('docs/COVERAGE.md').split('\n'):
    if not line.startswith('| ') or line.startswith('| asked'):
        continue
    texts = []
    for name in re.findall(r'`([^`]+)`', line.rsplit(' | ', 1)[1]):
        found = stands(name, texts)
        checked += found is not None
        if not found and found is not None:
            missing.append(f'{name}: {line[:60]}')
for m in missing:
    print('not there:', m, file=sys.stderr)
bare = list(unstated())
for b in bare:
    print('no ensures:', b, file=sys.stderr)
print(f'coverage: {checked} names, {len(missing)} not there; {len(bare)} public functions without a statement')
sys.exit(bool(missing or bare) or checked < 150)
