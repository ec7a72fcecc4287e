#!/usr/bin/env python3
"""Makes parcels from their sources: FILE.vsa becomes FILE.vsp beside it, and FILE.words too where the source asks for it.

    python3 samples/make.py                          makes all samples
    python3 samples/make.py FILE.vsa ..              makes these
    python3 samples/make.py --check [FILE.vsa ..]    says which files differ from what their sources give, and writes nothing
    python3 samples/make.py --help                   shows this text

Errors are told as FILE:LINE: and a sentence, of each line the first. Where there is one, nothing is written or compared, of no file.
The exit status is 0 where all is well, 1 where a source is wrong, a made file differs or a file can't be read or written, 2 for a wrong call.

A source is a text in UTF-8. It has a line for each instruction, 1 to 2048 of them, and at most one line with the entry set, the
registers that the parcel says are filled before the program starts (without that line, none). A line `words` asks for FILE.words as
well: the words alone, from which ./vsp notes makes a parcel. A line with the version of the parcel, 1 or 2, can stand anywhere (without
it, 1). In version 2 the entry set and the notes can name halves of registers, as r4.low and r4.high.

    version 1
    entry r0 r1
    words
    FADD.f32 r2, r0, u3       | r0 r1

An instruction is its NAME, the destination (where the row has one), the sources, then any clauses, and after the bar the note: the
registers that are said to be filled when the instruction is reached. The note can be empty; the bar is always there. Blanks, tabs and
commas separate. Numbers are decimal. The word's bits are those of paper 01.

    r4        a register, r0 to r63; as a destination all of it, with .low or .high one half
    r4^       a source: the register's last use, after which it counts as empty
    u69       a source: uniform 69 of u0 to u255 (a number that the driver sets); uniforms in one instruction are of the same page of 64
    c5        a source: entry 5 of the table of constants, c0 to c63; from c32 on two entries are a special constant's low and high word,
              c36 and c37 those of value 2, which is warp_id on page 0

The clauses, each given once at most:

    to 3      of BRANCHZ, which needs it: the instruction to branch to; the first is 0
    end       the program ends after this instruction
    m38=1     the modifier whose lowest bit is 38, where the row has it; without the clause it is what the row starts from
              (16-bit swizzles 2, mux 1, all others 0)
    page 1    the page, 0 to 3, where no uniform tells it: constants from c32 on depend on it
    bit 8     bit 8 is 1 too, whether or not the instruction has a use for it

In place of an instruction its word can stand, in 16 hex digits, for one that paper 01 does not have:

    word 00B2C20000030442     | r2 r3 r4

Whatever fits its field is taken, so that there can be samples of what the check refuses: a bit without a use, a reserved constant,
a modifier's illegal value. Text after # is a comment."""
import errno
import os
import re
import sys

here = os.path.dirname(os.path.abspath(__file__))
sys.path.insert(0, os.path.join(here, '..', 'tests'))
from paper01 import ROWS, members_of, parcel, word

USAGE = 'usage: make.py [--check] [FILE.vsa ..], or make.py --help'
MOST = 2048
ROW_OF = {row['name']: k for k, row in enumerate(ROWS)}
OPERAND = re.compile(r'([ruc])([0-9]+)(\^|\..*)?')
MODIFIER = re.compile(r'm([0-9]+)=([0-9]+)')
# Of each kind of operand: the first byte, the highest number, and what it is called.
KINDS = {'r': (0, 63, 'register'), 'u': (128, 255, 'uniform'), 'c': (192, 63, 'constant')}
HALVES = {'.low': 1, '.high': 2, '': 3}
# By version: what can follow a register in an entry set and in a note, each with its letter for a half; and what stands there.
ENDINGS = {1: {'': ''}, 2: {'': '', '.low': 'L', '.high': 'H'}}
NAMED = {1: 'whole registers', 2: 'registers and their halves'}


class Wrong(Exception):
    """What is wrong with a line, as a sentence."""


class Refused(Exception):
    """What is wrong with a file, a line of text for each error."""


# ---- an instruction


def pieces(text):
    return re.findall('[^ ,]+', text)


def number(text, most, what):
    if not re.fullmatch('[0-9]+', text):
        raise Wrong(f'{what} must be a decimal number, and {text!a} is none.')
    digits = text.lstrip('0') or '0'
    if len(digits) > len(str(most)) or int(digits) > most:
        raise Wrong(f'{what} goes from 0 to {most}, and {digits} is more.')
    return int(digits)


def operand(text):
    """An operand's kind, its number, and what follows it."""
    parts = OPERAND.fullmatch(text)
    if parts is None:
        raise Wrong(f'{text!a} is neither a register, uniform or constant (r, u or c and a decimal number) nor a clause.')
    kind, digits, ending = parts.groups('')
    _, most, called = KINDS[kind]
    return kind, number(digits, most, f'The number of a {called}'), ending


def destination(text):
    """The register and the half mask."""
    kind, register, ending = operand(text)
    if kind != 'r':
        raise Wrong(f'The destination must be a register, and {text!a} is none.')
    if ending == '^':
        raise Wrong(f'{text!a} is the destination, and only a source can be a last use.')
    if ending not in HALVES:
        raise Wrong(f'{ending!a} is no half of a register: they are .low and .high.')
    return register, HALVES[ending]


def source(text):
    """The byte, and the page that it needs or None."""
    kind, value, ending = operand(text)
    if ending.startswith('.'):
        raise Wrong(f'{text!a} is a source, and only the destination can be a half.')
    if ending and kind != 'r':
        raise Wrong(f'{text!a} is no register, and only a register has a last use.')
    byte = KINDS[kind][0] + value % 64 + (64 if ending else 0)
    return byte, value // 64 if kind == 'u' else None


def clause(first, others):
    """A clause's name and its digits; `others` gives the pieces after the first."""
    if first == 'end':
        return first, ''
    if first in ('to', 'page'):
        return first, next(others, '')
    if first == 'bit':
        bit = number(next(others, ''), 63, 'The bit')
        return f'bit {bit}', str(bit)
    parts = MODIFIER.fullmatch(first)
    if parts is None:
        raise Wrong(f'{first!a} is no modifier: one is written as m, its lowest bit, = and its value.')
    return 'm' + (parts[1].lstrip('0') or '0'), parts[2]


def separated(text):
    """The operands, and the clauses by name."""
    operands, clauses = [], {}
    rest = iter(pieces(text))
    for piece in rest:
        if piece in ('end', 'to', 'page', 'bit') or '=' in piece:
            name, digits = clause(piece, rest)
            if name in clauses:
                raise Wrong(f'{name} is given twice.')
            clauses[name] = digits
        elif clauses:
            raise Wrong(f'{piece!a} stands behind a clause and is none.')
        else:
            operands.append(piece)
    return operands, clauses


def modifiers(row, clauses):
    """The values by lowest bit."""
    widths = {f'm{low}': width for low, width, _, _ in row['fields']}
    values = {}
    for name in (name for name in clauses if name[0] == 'm'):
        if name not in widths:
            raise Wrong(f'{row["name"]} has no modifier {name}; it has {", ".join(widths) or "none"}.')
        values[int(name[1:])] = number(clauses[name], (1 << widths[name]) - 1, f'{name} of {row["name"]}')
    return values


def offset(row, clauses, index, count):
    """How far it branches, counted from the next instruction."""
    if not row['offset']:
        if 'to' in clauses:
            raise Wrong(f'{row["name"]} does not branch, so `to` says nothing.')
        return 0
    if 'to' not in clauses:
        raise Wrong(f'{row["name"]} needs `to` and the instruction to branch to.')
    return number(clauses['to'], count - 1, 'The instruction to branch to') - (index + 1)


def page(clauses, uniforms):
    """The one page that is asked for; 0 where none is."""
    asked = set(uniforms)
    if 'page' in clauses:
        asked.add(number(clauses['page'], 3, 'The page'))
    if len(asked) > 1:
        raise Wrong(f'The instruction has one page, and pages {" and ".join(map(str, sorted(asked)))} are asked for (uniform 64 begins page 1).')
    return asked.pop() if asked else 0


def plain_word(text):
    """A word that is given by its digits."""
    if not re.fullmatch('[0-9A-Fa-f]{16}', text):
        raise Wrong(f'A word is 16 hex digits, and {text!a} is not.')
    return int(text, 16)


def instruction(text, index, count):
    """The word of instruction `index` of `count`."""
    name, _, rest = text.partition(' ')
    if name == 'word':
        return plain_word(rest.strip(' '))
    if name not in ROW_OF:
        raise Wrong(f'{name!a} is no instruction of paper 01.')
    row = ROWS[ROW_OF[name]]
    operands, clauses = separated(rest)
    for piece in operands:
        operand(piece)
    if len(operands) != row['destination'] + row['sources']:
        raise Wrong(f'{name} has {"one" if row["destination"] else "no"} destination and {row["sources"]} source(s), '
                    f'and the line gives {len(operands)} operand(s).')
    register, mask = destination(operands.pop(0)) if row['destination'] else (0, 0)
    read = [source(piece) for piece in operands]
    made = word(ROW_OF[name], page=page(clauses, [p for _, p in read if p is not None]), flow=15 if 'end' in clauses else 0,
                register=register, mask=mask, sources=[byte for byte, _ in read], fields=modifiers(row, clauses),
                offset=offset(row, clauses, index, count))
    for bit in (int(digits) for name, digits in clauses.items() if name.startswith('bit')):
        made |= 1 << bit
    return made


# ---- a source


def registers(text, version):
    """What an entry line or a note names, as for members_of."""
    found = []
    for piece in pieces(text):
        kind, register, ending = operand(piece)
        if kind != 'r' or ending not in ENDINGS[version]:
            raise Wrong(f'{piece!a} stands where only {NAMED[version]} do.')
        named = f'{register}{ENDINGS[version][ending]}'
        if members_of([named]) & members_of(found):
            raise Wrong(f'r{register}{ending} is named twice.')
        found.append(named)
    return found


def version_in(lines):
    """The version that a line names, 1 where none does."""
    named = [line for _, line in lines if line_kind(line) == 'version']
    return 1 if not named or pieces(named[0])[1:] == ['1'] else 2


def version_line(line, asked):
    """That the version is named; `asked` says whether a line before does so."""
    if asked:
        raise Wrong('A line before this one names the version.')
    named = line[len('version'):].strip(' ')
    if named not in ('1', '2'):
        raise Wrong(f'The version is 1 or 2, and {named!a} is neither.')
    return True


def entry_line(line, version, entries):
    """What is filled before the program starts; `entries` such lines there are with this one."""
    if entries > 1:
        raise Wrong('A line before this one names the registers that are filled before the program starts.')
    return registers(line[len('entry'):], version)


def words_line(line, asked):
    """That the words alone are asked for too; `asked` says whether a line before does so."""
    if asked:
        raise Wrong('A line before this one asks for the words alone.')
    if line != 'words':
        raise Wrong('`words` has its line for itself.')
    return True


def instruction_line(line, version, index, count):
    """The word and the note."""
    if index == MOST:
        raise Wrong(f'This is instruction {MOST + 1}, and a parcel has {MOST} at most.')
    code, bar, note = line.partition('|')
    if not bar:
        raise Wrong('The bar is missing: it stands before the note, even an empty one.')
    return instruction(code.strip(' '), index, count), registers(note, version)


def line_kind(line):
    """What a line is about: the version, the entry set, the words alone, or an instruction."""
    first = line.partition(' ')[0]
    return first if first in ('version', 'entry', 'words') else 'instruction'


def lines_of(text):
    """What the lines say, each with its number; those that say nothing are left out."""
    lines = ((k, line.split('#')[0].rstrip('\r').replace('\t', ' ').strip(' ')) for k, line in enumerate(text.split('\n'), 1))
    return [(k, line) for k, line in lines if line]


def assemble(path, text):
    """The bytes to make, by the ending of the file: the parcel, and the words alone where they are asked for."""
    lines = lines_of(text)
    count, version = sum(line_kind(line) == 'instruction' for _, line in lines), version_in(lines)
    entries, index, entry, named, alone, made, errors = 0, 0, [], False, False, [], []
    for k, line in lines:
        try:
            if line_kind(line) == 'version':
                named = version_line(line, named)
            elif line_kind(line) == 'entry':
                entries += 1
                entry = entry_line(line, version, entries)
            elif line_kind(line) == 'words':
                alone = words_line(line, alone)
            else:
                index += 1
                made.append(instruction_line(line, version, index - 1, count))
        except Wrong as wrong:
            errors.append(f'{path}:{k}: {wrong}')
    if count == 0:
        errors.append(f'{path}:1: There is no instruction in this file.')
    if errors:
        raise Refused('\n'.join(errors))
    words, notes = zip(*made)
    whole = parcel(words, notes, entry, version=version)
    return {'.vsp': whole, '.words': b''.join(w.to_bytes(8, 'little') for w in words)} if alone else {'.vsp': whole}


# ---- files


def loaded(path):
    """The bytes that the source at `path` gives, by ending."""
    try:
        with open(path, 'rb') as f:
            data = f.read()
    except OSError as error:
        raise Refused(f'{path}: The file cannot be read: {error.strerror}.') from None
    try:
        text = data.decode('utf8')
    except UnicodeDecodeError as error:
        raise Refused(f'{path}:{data.count(10, 0, error.start) + 1}: The line is not UTF-8.') from None
    return assemble(path, text)


def all_loaded(paths):
    """The bytes by the path of what is made, and what is wrong with the sources."""
    made, errors = {}, []
    for path in paths:
        try:
            made.update((path[:-len('.vsa')] + ending, data) for ending, data in loaded(path).items())
        except Refused as refused:
            errors.append(str(refused))
    return made, errors


def write_new(path, data):
    """A new file with these bytes, or none."""
    handle = os.open(path, os.O_WRONLY | os.O_CREAT | os.O_EXCL, 0o666)
    try:
        with open(handle, 'wb') as f:
            f.write(data)
    except BaseException:
        os.unlink(path)
        raise


def store(made):
    """Writes all under temporary names, then renames them. Gives what is wrong."""
    waiting = []
    try:
        for path, data in made.items():
            if os.path.isdir(path):
                raise IsADirectoryError(errno.EISDIR, os.strerror(errno.EISDIR))
            temporary = f'{path}.{os.getpid()}.{len(waiting)}'
            write_new(temporary, data)
            waiting.append((temporary, path))
        while waiting:
            temporary, path = waiting[0]
            os.replace(temporary, path)
            del waiting[0]
    except OSError as error:
        return [f'{path}: The file cannot be written: {error.strerror}.']
    finally:
        for temporary, _ in waiting:
            os.unlink(temporary)
    return []


def compared(path, data):
    """Whether the file has these bytes, and a line that says so."""
    try:
        with open(path, 'rb') as f:
            same = f.read() == data
    except OSError as error:
        return False, f'{path}: cannot be read: {error.strerror}'
    return same, f'{path}: ' + ('as its source says' if same else 'differs from its source')


# ---- the call


def samples():
    folder = os.path.relpath(here)
    return [os.path.join(folder, f) for f in sorted(os.listdir(here)) if f.endswith('.vsa')]


def say(lines):
    """To standard output; whether it could be written."""
    try:
        if sys.stdout is None:
            raise OSError
        sys.stdout.reconfigure(errors='backslashreplace')
        sys.stdout.write('\n'.join(lines) + '\n')
        sys.stdout.flush()
        return True
    except OSError:
        complain(['make.py: standard output cannot be written.'])
        # what the buffer still has is dropped without a second complaint
        sys.stdout = None
        return False


def complain(lines):
    print('\n'.join(lines), file=sys.stderr)


def make(paths, only_check):
    """The exit status."""
    made, errors = all_loaded(paths)
    if only_check and not errors:
        results = [compared(path, data) for path, data in made.items()]
        said = say([line for _, line in results])
        return 0 if said and all(same for same, _ in results) else 1
    errors = errors or store(made)
    if errors:
        complain(errors)
    return 1 if errors else 0


def main(arguments):
    options = [a for a in arguments if a.startswith('-')]
    paths = [a for a in arguments if not a.startswith('-')]
    if '-h' in options or '--help' in options:
        return 0 if say([__doc__]) else 1
    wrong = [f'make.py: there is no option {a}' for a in options if a != '--check']
    wrong += [f'make.py: {a} does not end in .vsa' for a in paths if not a.endswith('.vsa')]
    if wrong:
        complain(wrong + [USAGE])
        return 2
    return make(paths or samples(), '--check' in options)


if __name__ == '__main__':
    sys.exit(main(sys.argv[1:]))
