"""What the shell front says about parcels, words, two parcels and runs: which parcels to try it on, and what it must write on standard error.

    front.py parcels FOLDER               writes NAME.vsp, and NAME.out, what the lister must write
    front.py sentences PARCELS FOLDER     for each NAME.vsp in PARCELS writes FOLDER/NAME.err, the sentences

Verdicts, places and entry sets are worked out from the papers (paper01.py)."""
import collections
import os
import struct
import sys
from disassembly import reason, rows_of, text_of
from machine import answer_line, replay
from paper01 import BOTH, FORMATS, R0, check, count_in, difference_text, differences, halved, listing, opening, parcel, parts, registers_in, \
    row_number, verdict_line, version_of, versioned, word

A_END = 0x7891C10000000002  # MOV r1, r2, end
B = 0x7800000000000000  # NOP, end
LOW_WRITE = 0x0091410000000002  # MOV r1.h0, r2
FIVE = parcel([0, 0, 0, 0, B], [[]] * 5, [])
ONE = parcel([B], [[]], [])
FIVE2 = halved([0, 0, 0, 0, B], [[]] * 5, [])
ONE2 = halved([B], [[]], [])


def unreadable(w, make=parcel):
    return make([0, w, B], [[]] * 3, [3])


parcels = {
    # words of paper 01, "Checked examples", and more places of 3, 6 and 7
    'word-2': unreadable(0x0091C10000010002),
    'word-3': unreadable(0x8000000000000000),
    # what the word has at a stray bit, and the lowest of several
    'word-3-source-0': unreadable(0x80),
    'word-3-source-1': unreadable(0x0091C10000008002),
    'word-3-source-2': unreadable(0x0091C10000100002),
    'word-3-source-3': unreadable(0x0091C10001000002),
    'word-3-modifier': unreadable(0x0091C18000000002),
    'word-3-destination': unreadable(1 << 40),
    'word-3-mesa': unreadable(0x0000C00000000000),  # NOP as Mesa writes it
    'word-3-all': unreadable(0x8091C1FFFFF0FF02),
    'word-4': unreadable(0x5891C10000000002),
    'word-5': unreadable(0x0091010000000002),
    'word-6-bit-32': unreadable(0x00F0C00600020100),
    'word-6-bit-8': unreadable(word(row_number('FLUSH.f32'), sources=R0, fields={8: 3})),
    'word-6-bit-37': unreadable(word(row_number('BRANCHZ'), sources=R0, fields={37: 5})),
    'word-7-source-0': unreadable(0x0091C100000000E0),
    'word-7-source-1': unreadable(word(row_number('FADD.f32'), sources=(1, 224))),
    'word-7-source-3': unreadable(word(row_number('CSEL.f32'), sources=(0, 1, 2, 225))),
    'word-7-first': parcel([0x0091C100000000E0], [[]], []),
    # 12: too short, before all else
    'short-1': b'V',
    'short-15': ONE[:15],
    'short-wrong-mark': b'VSQ',
    # 12: the count, before the length
    'count-0': parcel([], [], []),
    'count-0-long': parcel([B], [[]], [], n=0),
    'count-2049': parcel([0] * 2049, [[]] * 2049, []),
    'count-65535': parcel([B], [[]], [], n=65535),
    # 12: the length
    'length-16': ONE[:16],
    'length-31': ONE[:31],
    'length-33': ONE + b'\0',
    'length-95': FIVE[:95],
    'length-97': FIVE + b'\0',
    'length-65536': ONE + bytes(65536 - 32),
    'length-65537': ONE + bytes(65537 - 32),
    'length-100000': FIVE + bytes(100000 - 96),
    # the other opening refusals, and their order
    'mark-first': parcel([B], [[]], [], mark=b'vsp', version=3, zero=1, n=0),
    'version-3': parcel([B], [[]], [], version=3, zero=1, n=0),
    'version-0': versioned(ONE, 0),
    'version-256': parcel([B], [[]], [], version=256),
    'byte-5': parcel([B], [[]], [], zero=255, n=0),
    # entry sets
    'entry-none': ONE,
    'entry-one': parcel([B], [[]], [63]),
    'entry-edges': parcel([B], [[]], [0, 7, 8, 31, 32, 63]),
    'entry-rows': parcel([B], [[]], [0, 1, 2, 4, 5, 7, 60, 61, 62, 63]),
    'entry-all': parcel([B], [[]], range(64)),
    'entry-and-23': parcel([B], [[0, 5]], [0]),
    # version 2: a word, the count before the length, and the length
    'halves-word-3': unreadable(0x0091C10000008002, halved),
    'halves-word-7-first': halved([0x0091C100000000E0], [[]], []),
    'halves-count-0': halved([], [], []),
    'halves-count-0-short': ONE2[:6] + bytes(10),
    'halves-count-2049': halved([0] * 2049, [[]] * 2049, []),
    'halves-length-15': ONE2[:15],
    'halves-length-16': ONE2[:16],
    'halves-length-23': ONE2[:23],
    'halves-length-24': ONE2[:24],
    'halves-length-32': versioned(ONE, 2),
    'halves-length-47': ONE2[:47],
    'halves-length-49': ONE2 + b'\0',
    'halves-length-143': FIVE2[:143],
    'halves-length-65537': ONE2 + bytes(65537 - 48),
    'length-48': versioned(ONE2, 1),
    'halves-version-3': versioned(ONE2, 3),
    'halves-byte-5': halved([B], [[]], [], zero=1),
    # the half that is missing
    'halves-20-low': halved([A_END], [['2H']], [2]),
    'halves-20-high': halved([A_END], [['2L']], [2]),
    'halves-21': halved([0], [[]], []),
    'halves-22-low': halved([0, B], [['1H'], [1]], [1]),
    'halves-22-high': halved([LOW_WRITE, B], [[2], [1, 2]], [2]),
    'halves-23-low': halved([B], [[0, 5]], ['5H', 0]),
    'halves-23-high': halved([B], [['5H']], ['5L']),
    # entry sets of version 2: whole registers, low halves, high halves
    'halves-entry-none': ONE2,
    'halves-entry-whole': halved([B], [[]], [0, 1]),
    'halves-entry-low': halved([B], [[]], ['63L']),
    'halves-entry-high': halved([B], [[]], ['0H']),
    'halves-entry-two': halved([B], [[]], ['3L', '4H']),
    'halves-entry-mixed': halved([B], [[]], [0, 9, '1L', '2L', '3L', '5L', '5H', '4H', '6H', '7H', '8H', '63L']),
    'halves-entry-all': halved([B], [[]], range(64)),
}


def row_names(first, last, half):
    """Three and more registers in a row by the first and the last."""
    if last - first > 1:
        return f'r{first}{half} to r{last}{half}'
    return ', '.join(f'r{r}{half}' for r in range(first, last + 1))


def names(s):
    """What a set of halves has, in order: whole registers, then those of which only the low half is in it, then those with the high half."""
    return ', '.join(row_names(first, last, half) for half, numbers in zip(('', 'L', 'H'), registers_in(s))
                     for first, last, _ in rows_of((r, half) for r in numbers))


def are_filled(s):
    count = sum(map(len, registers_in(s)))
    return f'{names(s) or "no register"} {"is" if count < 2 else "are"} filled'


def claim(s):
    """What is said of the entry set."""
    if s == 0:
        return 'the parcel says that no register is filled before it starts.'
    return f'the parcel says that {are_filled(s)} before it starts. That is its own claim; with --entry you say what the display really fills.'


def size_told(data):
    return 'more than 65536' if len(data) > 65536 else len(data)


def about_size(data):
    n = count_in(data)
    if len(data) < 16:
        return f'the parcel is too short: it has {len(data)} of the 16 bytes of a header'
    header, note, most = FORMATS[version_of(data)]
    if not 1 <= n <= most:
        return f"the parcel's count of instructions is {n}, and it must be from 1 to {most}"
    need = '1 instruction needs' if n == 1 else f'{n} instructions need'
    return f"the parcel's length is wrong: it has {size_told(data)} bytes, and {need} {header + (8 + note) * n}"


def about_word(w, index, number, place):
    return f'the word at index {index}, {w:016X}, is no legal instruction: {reason(w, number, place)}'


def meaning(data, number, place, index, register, half):
    """Of a refusal of a parcel."""
    if number == 12:
        return about_size(data)
    if 2 <= number <= 7:
        return about_word(parts(data)[1][index], index, number, place)
    missing, kind = (f'register {register}', 'register') if version_of(data) == 1 else (f'r{register}{half}', 'half')
    return {
        10: 'this is no parcel: it does not begin with the letters VSP',
        11: f'the parcel has version {version_of(data)}, and this tool reads versions 1 and 2',
        13: f'byte 5 of the parcel is {data[5]}, and it must be 0',
        20: f'instruction {index} reads {missing}, which its note does not name as filled',
        21: f'instruction {index} can go on to a place outside the program',
        22: f'instruction {index} can go on to an instruction whose note names {missing}, '
            f'and by its own note instruction {index} does not leave that {kind} filled',
        23: f'the note of instruction 0 names {missing}, which the parcel does not say is filled before it starts',
    }[number]


def sentences(data):
    lines = []
    if opening(data) is None:
        lines.append(claim(parts(data)[0]))
    verdict = check(data)
    if verdict is not None:
        lines.append(f'refused with {verdict[0]}: {meaning(data, *verdict)}.')
    return ''.join(f'vsp: {line}\n' for line in lines)


def answer(version, data, result):
    """What notes writes on standard error for a version and the words `data`, of which paper01.infer gives `result`."""
    if result[0] == 'notes':
        return f'vsp: the notes took {result[1]} sweep{"" if result[1] == 1 else "s"}.\n'
    _, number, place, index, *_ = result
    if number == 11:
        why = f'--version asks for version {version}, and this tool makes versions 1 and 2'
    elif number == 12:
        why = f'the length of the words in bytes is {size_told(data)}, and it must be 8 for each of 1 to 2048 instructions'
    elif number == 24:
        why = 'no notes at all would be accepted: some way through the program reads a register that is not filled there, ' \
            'or leads out of the program; ways that begin in a part that is never reached count too'
    else:
        why = about_word(int.from_bytes(data[8 * index:8 * index + 8], 'little'), index, number, place)
    hint = 'vsp: this file begins with the letters VSP, as a parcel does; notes takes the words alone.\n' if data[:3] == b'VSP' else ''
    return f'{verdict_line(*result[1:])}\nvsp: refused with {number}: {why}.\n{hint}'


def summary(lines, shared):
    """What diff says of a list of differences between parcels that have `shared` instructions in common."""
    kinds = [(index, what.split()[0]) for index, what, _, _ in lines]
    # of the notes of an instruction both halves can differ
    counts = {kind: len({index for index, what in kinds if what == kind}) for kind in ('version', 'added', 'removed', 'entry', 'note')}
    changed = len({index for index, what in kinds if what not in counts})
    said = ['the versions differ'] if counts['version'] else []

    def instructions(count):
        if any('instruction' in part for part in said):
            return str(count)
        return f'{count} instruction{"" if count == 1 else "s"}'
    if changed:
        common = f'the {instructions(shared)} that both have' if counts['added'] or counts['removed'] else instructions(shared)
        said.append(f'{common} differs' if shared == 1 else f'{changed} of {common} differ{"s" if changed == 1 else ""}')
    for what in ('added', 'removed'):
        if counts[what]:
            said.append(f'{instructions(counts[what])} {what}')
    if counts['entry']:
        said.append('the entry sets differ')
    if counts['note']:
        said.append(f'the note of {instructions(1)} differs' if counts['note'] == 1 else f'the notes of {instructions(counts["note"])} differ')
    return '; '.join(said) or 'nothing differs: the two parcels are the same, byte for byte'


def comparison(first, second, names):
    """What diff does with two parcels in files of these names: the status, what it writes on standard output, and on standard error."""
    kind, *rest = differences(first, second)
    if kind == 'refused':
        which, *verdict = rest
        name, role, data = (names[0], 'approved', first) if which == 'first' else (names[1], 'delivered', second)
        return 2, '', f'vsp: {name}, the {role} parcel, cannot be compared: {verdict_line(*verdict)}\n' \
            f'vsp: refused with {verdict[0]}: {meaning(data, *verdict)}.\n'
    [lines] = rest
    shared = min(len(parts(data)[1]) for data in (first, second))
    return int(bool(lines)), ''.join(difference_text(*line) for line in lines), f'vsp: {summary(lines, shared)}\n'


# ---- replay

# What a run says: the registers that it gives, by number; its uniforms, and which of them it leaves out, in words; its trace; its limit.
Run = collections.namedtuple('Run', 'registers uniforms without trace limit', defaults=({}, [], '', [], 100))


def many(count, thing):
    return f'{count} {thing}{"" if count == 1 else "s"}'


def about_replay(data, run, number, index):
    """Of a refusal that is replay's own."""
    if number == 32:
        return f'the trace has {many(len(run.trace), "number")}, and it must have 64 for each step'
    instruction = f'instruction {index} ({text_of(parts(data)[1][index])})'
    if number == 31:
        count = len(run.uniforms)
        given = 'none' if count == 0 else 'u0 alone' if count == 1 else f'u0 to u{count - 1}'
        return f'{instruction} reads a uniform that the run does not give: it gives {given}'
    return f'{instruction} is none that replay runs: it runs NOP, BRANCHZ, MOV.i32, CLZ.u32, POPCOUNT.i32, BITREV.i32, NOT_OLD.i32, MUX.i32 and ' \
        'FADD.f32, where they have no combine or widen, write whole registers and read no special constant'


def about_answer(data, run, answer):
    """What is said of what came of a run, a line each."""
    kind, *rest = answer
    if kind == 'REFUSED':
        number, place, index, *_ = rest
        why = about_replay(data, run, number, index) if number >= 30 else meaning(data, *rest)
        return [f'refused with {number}: {why}.']
    if kind == 'DIFFERS':
        step, register = rest
        return [f'r{register} is the lowest register that is not as recorded after step {step}'
                + ('; after the steps before it all 64 registers are.' if step else ', the first one.')]
    [ran], recorded = rest, len(run.trace) // 64
    said = [] if kind == 'END' else ['the limit came before the end of the program.']
    if recorded == 0:
        return said + ['the run has no trace, so nothing was compared.']
    if recorded < ran:
        return said + [f'the trace has {many(recorded, "step")}, so from step {recorded} on nothing was compared.']
    if recorded > ran:
        return said + [f'the trace has {many(recorded, "step")}, and the run stopped after {ran}: the rest of the trace was not compared.']
    return said


def not_given(data, run, name):
    """What is said of registers and uniforms that the run does not give, a line each."""
    said, given = [], sum(BOTH << r for r in run.registers)
    lacking = parts(data)[0] & ~given
    if lacking:
        starts = 'it starts' if sum(map(len, registers_in(lacking))) == 1 else 'they start'
        said.append(f'the parcel says that {are_filled(lacking)} before it starts, which {name} does not give: {starts} as 0.')
    if ' ' in run.without:
        said.append(f'{run.without} are not given by {name}, and count as 0.')
    elif run.without:
        said.append(f'{run.without} is not given by {name}, and counts as 0.')
    return said


def reads_back(text, number):
    try:
        return struct.pack('<f', float(text)) == struct.pack('<I', number)
    except OverflowError:
        return False


def single_text(number):
    """The shortest decimal that reads back as these bits, but for some powers of two, of which it is one digit longer."""
    value = struct.unpack('<f', struct.pack('<I', number))[0]
    if value != value:
        return 'nan'
    if value in (float('inf'), float('-inf')):
        return str(value)
    digits, exponent = next(text for text in (f'{value:.{places}e}' for places in range(9)) if reads_back(text, number)).split('e')
    if -5 <= int(exponent) < 10:
        places = max(len(digits.lstrip('-').replace('.', '')) - 1 - int(exponent), 1)
        return f'{float(digits + "e" + exponent):.{places}f}'
    return f'{digits}e{exponent}'


def bits_text(number):
    return f'{number:08X} ({single_text(number)}, {number})'


def step_lines(k, before, after, recorded):
    """What --steps shows of a step; `recorded` is empty where the trace has no such step."""
    front = f'step {k:<4}'
    told = [r for r in range(64) if before[r] != after[r] or recorded and recorded[r] != after[r]]
    lines = []
    for r in told:
        line = bits_text(after[r])
        if recorded:
            line = f'{line:28}  recorded {bits_text(recorded[r])}' + ('  <- differs' if recorded[r] != after[r] else '')
        lines.append(f'{front if r == told[0] else " " * len(front)}  {"r" + str(r):3}  {line}')
    return lines or [f'{front}  no register changed']


def steps_text(run, states):
    before, lines = [run.registers.get(r, 0) for r in range(64)], []
    for k, after in enumerate(states):
        lines += step_lines(k, before, after, run.trace[64 * k:64 * k + 64])
        before = after
    return ''.join(line + '\n' for line in lines)


def replayed(data, run, name):
    """What replay does with a parcel and a run in a file of this name: the status, its standard output, the same with --steps, and standard error."""
    answer, states = replay(data, [run.registers.get(r, 0) for r in range(64)], run.uniforms, run.trace, run.limit)
    said = [] if opening(data) else not_given(data, run, name)
    line = answer_line(answer, states, run.trace) + '\n'
    error = ''.join(f'vsp: {sentence}\n' for sentence in said + about_answer(data, run, answer))
    return 0 if answer[0] in ('END', 'LIMIT') else 1, line, steps_text(run, states) + line, error


def write_replay(folder, name, data, run, file):
    """NAME.status, NAME.out, NAME.steps and NAME.err."""
    status, *texts = replayed(data, run, file)
    write(folder, name + '.status', str(status).encode())
    for ending, text in zip(('.out', '.steps', '.err'), texts):
        write(folder, name + ending, text.encode())


# ---- files


def write(folder, name, data):
    with open(os.path.join(folder, name), 'wb') as f:
        f.write(data)


def write_comparison(folder, name, first, second, names):
    """NAME.status, NAME.out and NAME.err."""
    status, said, error = comparison(first, second, names)
    write(folder, name + '.status', str(status).encode())
    write(folder, name + '.out', said.encode())
    write(folder, name + '.err', error.encode())


if __name__ == '__main__':
    if sys.argv[1] == 'parcels':
        for name, data in parcels.items():
            write(sys.argv[2], name + '.vsp', data)
            write(sys.argv[2], name + '.out', listing(data).encode())
    else:
        for file in sorted(os.listdir(sys.argv[2])):
            if file.endswith('.vsp'):
                with open(os.path.join(sys.argv[2], file), 'rb') as f:
                    write(sys.argv[3], file[:-4] + '.err', sentences(f.read()).encode())
