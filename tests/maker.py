"""Words for the maker, and what must be made of them.

    maker.py FOLDER               writes for each case NAME.words, NAME.options and NAME.entry (the registers as the front takes them), and
                                  NAME.out (the parcel, or nothing) and NAME.err, what the front writes
    maker.py --program PROGRAM    runs the program on all cases, on inputs that the front never makes, and on random words
    maker.py --input              the stored input of the program maker
    maker.py                      what it must write for it

All is worked out from the papers (paper01.py); sweeps, notes and refusals that are plain from the words are asserted as well."""
import itertools
import random
import subprocess
import sys
from front import answer, write
from paper01 import LOW, R0, check, infer, low_and_high, members_of, parcel, parts, row_number, verdict_line, word

ALL = range(64)
A = 0x0091C10000000002  # MOV r1, r2
A_END = 0x7891C10000000002
B = 0x7800000000000000  # NOP, end
NOP = 0
VERSION, LENGTH, NO_NOTES = (11, 0, 0), (12, 0, 0), (24, 0, 0)


def branch(offset, source=0xC0, flow=0):
    return word(row_number('BRANCHZ'), flow=flow, sources=(source,), offset=offset)


def mov(register, source, flow=0, mask=3):
    return word(row_number('MOV.i32'), flow=flow, register=register, mask=mask, sources=(source,))


def but(*registers):
    return [r for r in ALL if r not in registers]


def lows(registers):
    return [f'{r}L' for r in registers]


def highs(registers):
    return [f'{r}H' for r in registers]


approved = [0x00A4C20000008040, 0x00A4C30000008141, 0x009CC40000000082, 0x00A4C20000000342, 0x7891C00000000042]
loop = [mov(1, 2), mov(3, 1), branch(-2, source=3), mov(0, 64 + 3, flow=15)]
# r1 is filled by a write of each half, and read.
twice = [mov(1, 2, mask=1), mov(1, 2, mask=2), mov(0, 1, flow=15)]
# Each arm writes one half of r1.
arms = [branch(2, source=0), mov(1, 0, mask=1), branch(1), mov(1, 0, mask=2)]
# A loop that fills the low half of r3, after which its high half is filled.
halves_loop = [mov(3, 2, mask=1), branch(-2, source=2), mov(3, 64 + 2, mask=2), mov(0, 3, flow=15)]

# Words, or bytes; the entry set; what comes of them: sweeps and notes, or a refusal's number, place and index. The same comes of them in
# version 2, but where `halved` has it.
cases = {
    'one': ([B], [], (1, [[]])),
    'one-entry': ([A_END], [2], (1, [[2]])),
    'all-registers': ([mov(5, 64 + 7), B], ALL, (2, [ALL, but(7)])),
    'edges': ([mov(63, 64 + 0), B], [0, 7, 8, 31, 32, 62], (2, [[0, 7, 8, 31, 32, 62], [7, 8, 31, 32, 62, 63]])),
    'approved': (approved, [0, 1], (5, [[0, 1], [1, 2], [2, 3], [2, 3, 4], [2, 3, 4]])),
    'approved-more': (approved, [0, 1, 9], (5, [[0, 1, 9], [1, 2, 9], [2, 3, 9], [2, 3, 4, 9], [2, 3, 4, 9]])),
    'released-and-written': ([mov(2, 64 + 2), mov(0, 2, flow=15)], [2], (2, [[2], [2]])),
    # two ways to one instruction
    'diamond': ([branch(2, source=0), mov(1, 0), branch(1), mov(2, 0), mov(3, 0, flow=15)], [0], (4, [[0], [0], [0, 1], [0], [0]])),
    'loop': (loop, [2], (4, [[2], [1, 2], [1, 2, 3], [1, 2, 3]])),
    'back-to-0': ([NOP, mov(5, 0xC0), mov(6, 64 + 5), branch(-4), B], [5], (5, [[], [], [5], [6], [6]])),
    'branch-with-end': ([branch(7, flow=15)], [], (1, [[]])),
    'branch-to-itself': ([branch(-1), B], [], (2, [[], []])),
    # parts that no way leads to: all registers, but for what they release themselves
    'unreachable': ([B, NOP, mov(1, 2, flow=15)], [], (1, [[], ALL, ALL])),
    'unreachable-releases': ([B, mov(1, 64 + 2), B], [0], (2, [[0], ALL, but(2)])),
    'unreachable-reads-released': ([B, mov(1, 64 + 2), mov(0, 2, flow=15)], [2], NO_NOTES),
    'unreachable-before-reached': ([branch(2), B, mov(1, 64 + 3), mov(0, 3, flow=15)], [3], NO_NOTES),
    'unreachable-runs-off': ([B, NOP], [], NO_NOTES),
    # out of the program
    'runs-off': ([A], [2], NO_NOTES),
    'target-behind': ([branch(7), B], [], NO_NOTES),
    'target-at-n': ([branch(1), B], [], NO_NOTES),
    'target-before': ([branch(-2), B], [], NO_NOTES),
    'target-far': ([branch(67108863), B], [], NO_NOTES),
    'target-far-before': ([branch(-67108864), B], [], NO_NOTES),
    # a register that is not filled
    'unfilled': (approved[:3] + [0x00A4C20000000542] + approved[4:], [0, 1], NO_NOTES),
    'unfilled-at-0': ([A_END], but(2), NO_NOTES),
    'one-arm': ([branch(2, source=0), mov(1, 0), branch(1), mov(2, 0), mov(3, 1, flow=15)], [0], NO_NOTES),
    'release-on-both-arms': ([branch(1, source=64 + 5), B, mov(0, 5, flow=15)], [5], NO_NOTES),
    'half-write': ([mov(1, 2, mask=1), mov(0, 1, flow=15)], [2], NO_NOTES),
    'two-half-writes': (twice, [2], NO_NOTES),
    'half-write-keeps': ([mov(1, 2, mask=1), mov(0, 1, flow=15)], [1, 2], (2, [[1, 2], [1, 2]])),
    'loop-that-releases': ([mov(1, 2), mov(3, 64 + 1), branch(-2, source=3), B], [2], NO_NOTES),
    # words that do not read, the lowest first, before 24 and after the length
    'word-2': ([NOP, 0x0091C10000010002, B], [3], (2, 0, 1)),
    'word-3': ([NOP, 0x8000000000000000, B], [3], (3, 63, 1)),
    'word-3-two-bits': ([NOP, 0x8091C10000000202, B], [3], (3, 9, 1)),
    'word-4': ([NOP, 0x5891C10000000002, B], [3], (4, 0, 1)),
    'word-5': ([NOP, 0x0091010000000002, B], [3], (5, 0, 1)),
    'word-6-bit-32': ([NOP, 0x00F0C00600020100, B], [3], (6, 32, 1)),
    'word-6-bit-8': ([NOP, word(row_number('FLUSH.f32'), sources=R0, fields={8: 3}), B], [3], (6, 8, 1)),
    'word-7-source-0': ([0x0091C100000000E0], [], (7, 0, 0)),
    'word-7-source-3': ([NOP, word(row_number('CSEL.f32'), sources=(0, 1, 2, 225)), B], [3], (7, 3, 1)),
    'a-parcel': (parcel([B], [[]], []), [], (2, 0, 0)),
    'begins-as-a-parcel': (b'VSP', [], LENGTH),
    'two-words': ([A, 0x0091C100000000E0, 1 << 63], [], (7, 0, 1)),
    'word-at-the-end': ([NOP] * 2047 + [1 << 63], [], (3, 63, 2047)),
    # lengths
    'length-0': (b'', [0], LENGTH),
    'length-1': (b'\0', [0], LENGTH),
    'length-7': (bytes(7), ALL, LENGTH),
    'length-9': (bytes(7) + b'\x80\0', [], LENGTH),
    'length-15': (bytes(7) + b'\x78' + bytes(7), [], LENGTH),
    'length-16385': (bytes(16385), [], LENGTH),
    'length-16392': (bytes(16392), [], LENGTH),
    'length-65536': (bytes(65536), [], LENGTH),
    'length-65537': (bytes(65537), [], LENGTH),
    'length-100000': (bytes(100000), [], LENGTH),
    # the most instructions, and the most sweeps
    'largest': ([NOP] * 2047 + [B], [], (2048, [[]] * 2048)),
    'largest-all': ([NOP] * 2047 + [B], ALL, (1, [ALL] * 2048)),
    'largest-moves': ([mov(i % 64, i * 7 % 64) for i in range(2047)] + [B], ALL, (1, [ALL] * 2048)),
    # the loss of r0 goes round once more than there are instructions: note 0 loses it in sweep 1, the last note in sweep 2048
    'one-sweep-more': ([NOP] * 2047 + [branch(-2048, source=64 + 0)], [0], NO_NOTES),
}

# The same of version 2.
halved = {
    'two-half-writes': (twice, [2], (3, [[2], ['1L', 2], [1, 2]])),
    'high-first': ([twice[1], twice[0], twice[2]], [2], (3, [[2], ['1H', 2], [1, 2]])),
    'the-same-half-twice': ([twice[0], twice[0], twice[2]], [2], NO_NOTES),
    'half-and-entry': ([twice[1], twice[2]], ['1L', 2], (2, [['1L', 2], [1, 2]])),
    'entry-by-halves': ([A_END], ['2L', '2H'], (1, [[2]])),
    'entry-low': ([A_END], ['2L'], NO_NOTES),
    'entry-high': ([A_END], ['2H'], NO_NOTES),
    'entry-kept': ([NOP, B], ['2L', 5, '63H'], (2, [['2L', 5, '63H'], ['2L', 5, '63H']])),
    'release-drops-both': ([mov(1, 64 + 2), B], [2, '3H'], (2, [[2, '3H'], [1, '3H']])),
    'released-and-half-written': ([mov(2, 64 + 2, mask=2), B], [2], (2, [[2], ['2H']])),
    'released-and-read-half': ([mov(2, 64 + 2, mask=2), mov(0, 2, flow=15)], [2], NO_NOTES),
    'arms': (arms + [B], [0], (4, [[0], [0], [0, '1L'], [0], [0]])),
    'arms-and-read': (arms + [mov(3, 1, flow=15)], [0], NO_NOTES),
    'loop-by-halves': (halves_loop, [2, '9H'], (4, [[2, '9H'], [2, '3L', '9H'], [2, '3L', '9H'], [3, '9H']])),
    'loop-by-halves-releases': ([mov(3, 64 + 2, mask=1), branch(-2), B], [2], NO_NOTES),
    'unreachable-halves': ([B, mov(1, 64 + 2, mask=1), B], ['0L'], (2, [['0L'], ALL, but(2)])),
    # the sets of one kind of half change in the sweeps, those of the other do not
    'low-halves-settled': ([NOP] * 4 + [B], lows(ALL), (5, [lows(ALL)] * 5)),
    'high-halves-settled': ([NOP] * 4 + [B], highs(ALL), (5, [highs(ALL)] * 5)),
    'largest-halves': ([mov(i % 64, 0xC0, mask=1 + i % 2) for i in range(128)] + [NOP] * 1919 + [B], [], None),
}

# The version that the front is told; and as above.
VERSIONS = [
    (1, approved, [0, 1], cases['approved'][2]),
    (1, twice, [2], NO_NOTES),
    (0, approved, [0, 1], VERSION),
    (3, approved, [0, 1], VERSION),
    (3, halves_loop, [2, '9H'], VERSION),
    (65537, approved, [0, 1], VERSION),
    ((1 << 32) + 2, approved, [0, 1], VERSION),
    (10 ** 18 - 1, approved, [0, 1], VERSION),
    # before 12, and before a word that does not read
    (3, b'', [], VERSION),
    (3, bytes(9), [], VERSION),
    (3, bytes(16392), [], VERSION),
    (3, bytes(100000), [], VERSION),
    (3, [1 << 63], [], VERSION),
    (0, parcel([B], [[]], []), [], VERSION),
    (2, b'', [], LENGTH),
    (2, bytes(16392), [], LENGTH),
]
# The options of the front, the version, and as above.
every_case = {name: ('', 1, *case) for name, case in cases.items()}
every_case.update((f'halves-{name}', ('--version 2', 2, *case)) for name, case in {**cases, **halved}.items())
every_case.update((f'version-{case[0]}-{k}', (f'--version {case[0]}', *case)) for k, case in enumerate(VERSIONS))


def bytes_of(words):
    return words if isinstance(words, bytes) else b''.join(w.to_bytes(8, 'little') for w in words)


def worked_out(version, words, entry, due):
    """What infer gives, held to what is due."""
    result = infer(version, bytes_of(words), *low_and_high(entry))
    if due is None:
        assert result[0] == 'notes', result
    elif len(due) == 3:
        assert result == ('refused', *due, 64, ''), (result, due)
    else:
        assert result == ('notes', due[0], parcel(words, due[1], entry, version=version)), (result, due)
    return result


def entry_text(entry):
    for whole, row in ((ALL, 'r0-r63'), (lows(ALL), 'r0L-r63L'), (highs(ALL), 'r0H-r63H'), ([], 'none')):
        if entry == whole:
            return row
    return ','.join(f'r{r}' for r in entry)


# ---- small programs


def random_word(draw, registers=2):
    source = draw.choice((0, registers - 1, 64, 63 + registers, 0xC0))
    flow = draw.choice((0, 0, 0, 15))
    return draw.choice((flow << 59, branch(draw.randrange(-4, 4), source, flow),
                        mov(draw.randrange(registers), source, flow, draw.choice((1, 2, 3, 3)))))


def random_words(draw, most, registers):
    words = [random_word(draw, registers) for _ in range(draw.randrange(1, most))]
    words[-1] |= draw.choice((0, 15, 15, 15)) << 59
    return words


def holds_in_small(version, registers, most, sets):
    """For small programs over some registers: 24 exactly where no notes are accepted, and the notes contain all that are."""
    draw = random.Random(version)
    refused = 0
    for _ in range(200):
        words, entry = random_words(draw, most, registers), draw.choice(sets)
        kind, *rest = infer(version, bytes_of(words), *low_and_high(entry))
        every = itertools.product(sets, repeat=len(words))
        accepted = [notes for notes in every if check(parcel(words, notes, entry, version=version)) is None]
        assert (kind == 'notes') == bool(accepted), (words, entry)
        refused += kind == 'refused'
        if kind == 'notes':
            ours = parts(rest[1])[2]
            assert all(members_of(note) & ~largest == 0 for notes in accepted for note, largest in zip(notes, ours)), (words, entry)
    assert 40 < refused < 160, refused


# ---- the program


def input_of(version, low, high, data):
    """The program's input."""
    return b''.join(number.to_bytes(8, 'little') for number in (version, low, high)) + data


def told(data):
    """What the program writes for an input: standard output and standard error."""
    version, low, high = (int.from_bytes(data[i:i + 8], 'little') for i in (0, 8, 16))
    kind, *rest = infer(version, data[24:], low, high) if len(data) >= 24 else ('refused', *LENGTH, 64, '')
    return (rest[1], f'maker: {rest[0]} sweeps\n') if kind == 'notes' else (b'', verdict_line(*rest) + '\n')


def raw_inputs():
    """Inputs that the front never makes."""
    for version in (0, 1, 2, 3, 257, 512, 1 << 32 | 1, 1 << 63, 1 << 63 | 2, (1 << 64) - 1):
        for words in (approved, twice, halves_loop, b'', bytes(9), bytes(16392), [1 << 63]):
            yield input_of(version, 0b111, 0b111, bytes_of(words))
        # too short for what stands before the words
        yield from (input_of(version, 0, 0, b'')[:length] for length in range(24))
    # in version 1 the high entry set plays no part
    for high in (0, 1, 0b11, 0b111, LOW, LOW ^ 0b11):
        yield input_of(1, 0b11, high, bytes_of(approved))
        yield input_of(2, 0b11, high, bytes_of(approved))
    yield input_of(1, 0, LOW, bytes_of(approved))
    yield input_of(2, 0, LOW, bytes_of(approved))


def random_inputs(count):
    draw = random.Random(7)
    sets = (0, 0b11, 0b101, LOW, LOW, LOW)
    for _ in range(count):
        yield input_of(draw.choice((1, 2, 2)), draw.choice(sets), draw.choice(sets), bytes_of(random_words(draw, draw.choice((3, 6, 20)), 3)))


def run(program, data):
    done = subprocess.run([program], input=data, capture_output=True, check=False)
    said, error = told(data)
    assert (done.returncode, done.stdout, done.stderr) == (0, said, error.encode()), (data[:2000].hex(), done.stderr, error)
    return said != b''


def run_all(program):
    count = 0
    for _, version, words, entry, due in every_case.values():
        worked_out(version, words, entry, due)
        run(program, input_of(version, *low_and_high(entry), bytes_of(words)))
        count += 1
    for data in raw_inputs():
        run(program, data)
        count += 1
    made = [run(program, data) for data in random_inputs(300)]
    assert 60 < sum(made) < 240, sum(made)
    print(f'maker: {count + len(made)} inputs, as the papers say')


# ---- the calls


def write_case(folder, name, options, version, words, entry, due):
    result = worked_out(version, words, entry, due)
    write(folder, name + '.words', bytes_of(words))
    write(folder, name + '.options', options.encode())
    write(folder, name + '.entry', entry_text(entry).encode())
    write(folder, name + '.out', result[2] if result[0] == 'notes' else b'')
    write(folder, name + '.err', answer(version, bytes_of(words), result).encode())


def main(arguments):
    if arguments == ['--input']:
        words, entry, _ = halved['loop-by-halves']
        sys.stdout.buffer.write(input_of(2, *low_and_high(entry), bytes_of(words)))
    elif not arguments:
        sys.stdout.buffer.write(worked_out(2, *halved['loop-by-halves'])[2])
    elif arguments[0] == '--program':
        run_all(arguments[1])
    else:
        holds_in_small(1, 2, 4, ([], [0], [1], [0, 1]))
        holds_in_small(2, 1, 5, ([], ['0L'], ['0H'], [0]))
        for name, case in every_case.items():
            write_case(arguments[0], name, *case)


if __name__ == '__main__':
    main(sys.argv[1:])
