"""Parcels for `show`, and what must come of them.

    show.py FOLDER               writes for each parcel NAME.vsp, and NAME.out and NAME.err, what the front writes
    show.py --program PROGRAM    runs the program viewer on all of them, on every field's values, on every opcode, and on random parcels
    show.py --input              the stored input of the program viewer
    show.py                      what it must write for it, where the texts of Mesa's words are Mesa's own

All is worked out from the papers (disassembly.py), and the texts are held to those of Mesa's disassembler (data/mesa-disassembly.tsv); what is
plain from a parcel is asserted as well."""
import os
import random
import subprocess
import sys
import front
from differ import bit_flipped, on_r0, random_word
from disassembly import left_out, registers, shown, text, text_of
from paper01 import FORMATS, LOW, R0, ROWS, halved, infer, members_of, opening, parcel, read, row_number, version_of, versioned, word

ALL = range(64)
A = 0x0091C10000000002  # MOV r1, r2
A_END = 0x7891C10000000002
B = 0x7800000000000000  # NOP, end
NOP = 0
FMA = 0x00B2C20000038242  # FMA.f32 r2, ^r2, u2, r3, which the scope leaves out
ACCEPTED = 'ACCEPTED: whichever way the program goes, it reads no register that is not filled, if the display fills what the parcel says.\n'


def branch(offset, source=0xC0, flow=0):
    return word(row_number('BRANCHZ'), flow=flow, sources=(source,), offset=offset)


def mov(register, source, flow=0, mask=3):
    return word(row_number('MOV.i32'), flow=flow, register=register, mask=mask, sources=(source,))


# ---- texts


def table(name):
    """What a table of Mesa's has by word."""
    with open(os.path.join(os.path.dirname(os.path.abspath(__file__)), 'data', name), encoding='ascii') as f:
        pairs = [line.rstrip('\n').split('\t') for line in f if not line.startswith('#')]
    return {int(w, 16): said for w, said in pairs}


# The texts of its disassembler, and the mnemonics of its assembler's tests.
MESA = table('mesa-disassembly.tsv')
MNEMONICS = table('mesa-assembler-cases.tsv')


def holds_to_mesa():
    """Four words of each row read as that row, and have Mesa's text."""
    rows = [read(w.to_bytes(8, 'little')) for w in MESA]
    assert sorted(rows) == sorted(4 * [('read', k) for k in range(77)])
    for w, said in MESA.items():
        assert text_of(w) == said, (hex(w), said, text_of(w))


def holds_in_records():
    """Records of which no word reads: a question mark stands where there is no name."""
    far = {low: 255 for low in range(64)}
    for record, said in (
        (dict(row=77, flow=15, register=5), '?.end'),
        (dict(row=255, flow=11), '?.?'),
        (dict(row=0, flow=16, page=9), 'NOP.?'),
        (dict(row=row_number('MOV.i32'), page=255, register=255, mask=0, sources=(191,)), 'MOV.i32 r255.?, u16383'),
        (dict(row=row_number('MOV.i32'), page=4, sources=(228,)), 'MOV.i32 r0, ?'),
        (dict(row=row_number('MOV.i32'), page=2, mask=4, sources=(224,)), 'MOV.i32 r0.?, ?'),
        (dict(row=row_number('BRANCHZ'), sources=(3,), fields=far, offset=-2147483648), 'BRANCHZ.?.? r3.?, offset:-2147483648'),
        (dict(row=row_number('FLUSH.f32'), fields=far), 'FLUSH.f32.?.?.? r0, r0.?.?.?'),
        (dict(row=row_number('ICMP_OR.u32'), fields={26: 1, 32: 6, 36: 8}), 'ICMP_OR.u32.gtlt.i1 r0, r0.?, r0.?, r0'),
        (dict(row=row_number('MUX.v2i16'), fields={24: 4, 26: 2, 28: 0, 32: 1}), 'MUX.v2i16 r0, r0.h00, r0, r0.?'),
        (dict(row=row_number('FADD.f32'), fields={26: 3, 28: 2, 36: 1, 37: 2}), 'FADD.f32 r0, r0.h1, r0.neg.?.?'),
    ):
        assert text(**record) == said, (record, said, text(**record))


def holds_in_names():
    """Names that are left out, each by another rule; words that no name fits; and Mesa's mnemonics."""
    for w, name in ((FMA, 'FMA.f32'), (0x006000000007FFFF, 'LOAD'), (0x0076000001000000, 'LD_ATTR or LD_TEX'),
                    (0x01B7000000000000, 'a shift, as LSHIFT_AND.i64'), (0x00A4000000020000, 'FMIN.f32'), (0x00A4000000010000, None),
                    (0x00F8000002000000, 'ICMP_MULTI.s32'), (0x00F8000003020000, None), (0x00F9000002000000, None),
                    (0x01910000000E0000, 'NOT_OLD.i64'), (0x0191000000000000, None), (0x0001000000000000, None)):
        assert read(w.to_bytes(8, 'little'))[:2] == ('refused', 2) and left_out(w) == name, (hex(w), name, left_out(w))
    omitted = [(w, mnemonic) for w, mnemonic in MNEMONICS.items() if read(w.to_bytes(8, 'little'))[:2] == ('refused', 2)]
    assert len(omitted) > 100
    for w, mnemonic in omitted:
        front_part, _, kind = mnemonic.partition('.')
        shift = f'a shift, as LSHIFT_AND.{kind}' if 'SHIFT_' in mnemonic else mnemonic
        assert left_out(w) in (mnemonic, front_part, shift) or mnemonic in left_out(w).split(' or '), (hex(w), mnemonic, left_out(w))


# ---- the stored parcel: Mesa's words, branches, and words that do not read; notes of many shapes

# No set of whole registers is longer than this one, and none of halves than that.
TWOS = [r for r in ALL if r % 3 != 2]
TURNS = [f'{r}{"LH"[r % 2]}' for r in ALL]
SHAPES = [[], [0], [63], ALL, [0, 63], [0, 1], [62, 63], range(63), range(1, 64), range(0, 64, 2), range(1, 64, 2), TWOS, [0, 1, 2, 3, 5], [9, 10, 11, 20]]
UNREADABLE = [FMA, 0x0091C10000010002, 0x00A0C00000000201, 0x00F8C00002020100, 0x00B4C00000030201, 1 << 63, 0x5891C10000000002, 0x0091010000000002,
              0x00F0C00600020100, word(row_number('FLUSH.f32'), sources=R0, fields={8: 3}), 0x0091C100000000E0, word(row_number('CSEL.f32'), sources=(0, 1, 2, 225))]


def note(i):
    return SHAPES[i % 15] if i % 15 < len(SHAPES) else [i // 15 % 64]


def plain(words):
    """A parcel with notes of many shapes."""
    return parcel(words, [note(i) for i in range(len(words))], [0, 1, 2, 3, 5, 63])


def halves(low, high):
    return [f'{r}L' for r in low] + [f'{r}H' for r in high]


def plain2(words):
    """The same of version 2: each shape of the low halves with each of the high ones."""
    return halved(words, [halves(note(i), note(i // 15)) for i in range(len(words))], [0, 1, 2, '3L', '5L', '6L', '7L', '4H', '5H', '8H', '63H'])


def holds_in_sets():
    """Sets of halves: the registers in order, in rows where they have the same halves."""
    for names, said in (
        ([], 'none'), ([2], 'r2'), (['2L'], 'r2L'), (['2H'], 'r2H'), (['2H', '2L'], 'r2'), (ALL, 'r0-r63'), (halves(ALL, []), 'r0L-r63L'),
        (halves([], ALL), 'r0H-r63H'), ([0, 1, 2, 3, 5, '6L', '7L', '8L', '9H'], 'r0-r3,r5,r6L-r8L,r9H'), (['0H', '1L', 2], 'r0H,r1L,r2'),
        (['0L', 1, '2L', '3L', '4H', 5, '6H', '7H'], 'r0L,r1,r2L-r3L,r4H,r5,r6H-r7H'), (['62L', '63L', '62H'], 'r62,r63L'),
    ):
        assert registers(members_of(names)) == said, (names, said, registers(members_of(names)))
    assert len(registers(members_of(TURNS))) == 309 and registers(members_of(TURNS)).startswith('r0L,r1H,') and len(registers(members_of(TWOS))) == 164


stored = plain([*MESA, branch(3 - 309), branch(323 - 310), branch(7 - 311, flow=15), branch(-1 - 312), *UNREADABLE])

# How some of its lines begin.
STORED = """\
parcel version: 1
instructions: 324
filled before the start, by the parcel's own claim: r0-r3,r5,r63
       word              instruction\x20
>0003  7A00000000000000  NOP.end\x20
>0005  041F008FFFFFFFD1  BRANCHZ.conservative 0x3DCCCCCD.lowbits, offset:-1 -> 0005\x20
 0006  781F002FFFFFFF2E  BRANCHZ.conservative.end r46.h0, offset:-1\x20
 0007  041F0068D165D726  BRANCHZ.conservative r38.and, offset:13723095 -> outside\x20
 0308  001F0007FFFECEC0  BRANCHZ 0x0, offset:-306 -> 0003\x20
 0309  001F000000000DC0  BRANCHZ 0x0, offset:13 -> 0323\x20
 0310  781F0007FFFED0C0  BRANCHZ.end 0x0, offset:-304\x20
 0311  001F0007FFFEC7C0  BRANCHZ 0x0, offset:-313 -> outside\x20
 0312  00B2C20000038242  -- 2: no row fits; FMA.f32, left out by the scope\x20
                         ^ is no legal instruction, so the program was not judged
 0313  0091C10000010002  -- 2: no row fits\x20
 0314  00A0C00000000201  -- 2: no row fits; IADD.u32, left out by the scope\x20
 0315  00F8C00002020100  -- 2: no row fits; ICMP_MULTI.s32, left out by the scope\x20
 0316  00B4C00000030201  -- 2: no row fits; a shift, as LSHIFT_AND.i32, left out by the scope\x20
 0317  8000000000000000  -- 3: bit 63 is 1, where NOP has nothing\x20
 0318  5891C10000000002  -- 4: its flow is reserved\x20
 0319  0091010000000002  -- 5: neither half of its destination is written\x20
 0320  00F0C00600020100  -- 6: illegal modifier at bit 32\x20
 0321  0098C00000000300  -- 6: illegal modifier at bit 8\x20
 0322  0091C100000000E0  -- 7: source 0 is a reserved constant\x20
>0323  0154C000E1020100  -- 7: source 3 is a reserved constant\x20
REFUSED with 2: instruction 312 is no legal instruction, so the program was not judged.
"""


def stored_output():
    """What the viewer must write for the stored parcel."""
    said = shown(stored, MESA)
    for start in STORED.splitlines():
        assert sum(line.startswith(start) for line in said.splitlines()) == 1, start
    marked = [line[:5] for line in said.splitlines() if line.startswith('>')]
    assert marked == ['>0003', '>0005', '>0323'], marked
    return said


# ---- parcels


def longest(make, note):
    """The longest lines that there are where all words read, and as many as there can be."""
    w = word(row_number('FCMP_AND.v2f16'), page=1, flow=10, register=63, mask=2, sources=(231, 231, 231),
             fields={26: 3, 28: 3, 30: 3, 32: 7, **{low: 1 for low in range(36, 40)}})
    return make([w] * 2048, [note] * 2048, note)


# The parcel, and what is written; None where that is not plain.
parcels = {
    'example': (parcel([A_END], [[2]], [2]), f"""\
parcel version: 1
instructions: 1
filled before the start, by the parcel's own claim: r2

       word              instruction         note
 0000  7891C10000000002  MOV.i32.end r1, r2  r2

{ACCEPTED}"""),
    'shortest-texts': (parcel([NOP, NOP, B], [ALL, range(1, 63), []], ALL), """\
parcel version: 1
instructions: 3
filled before the start, by the parcel's own claim: r0-r63

       word              instruction  note
 0000  0000000000000000  NOP          r0-r63
 0001  0000000000000000  NOP          r1-r62
 0002  7800000000000000  NOP.end      none

""" + ACCEPTED),
    'refused-20': (parcel([branch(1), mov(5, 64 + 1), mov(1, 1, flow=15)], [[1], [1], []], [1]), """\
parcel version: 1
instructions: 3
filled before the start, by the parcel's own claim: r1

       word              instruction                    note
 0000  001F0000000001C0  BRANCHZ 0x0, offset:1 -> 0002  r1
 0001  0091C50000000041  MOV.i32 r5, ^r1                r1
>0002  7891C10000000001  MOV.i32.end r1, r1             none
                         ^ reads r1, which its note does not name

REFUSED with 20: instruction 2 reads r1, which its note does not name.
"""),
    'refused-21': (parcel([A], [[2]], [2]), """\
parcel version: 1
instructions: 1
filled before the start, by the parcel's own claim: r2

       word              instruction     note
 0000  0091C10000000002  MOV.i32 r1, r2  r2
                         ^ can go on to a place outside the program

REFUSED with 21: instruction 0 can go on to a place outside the program.
"""),
    # paper 01, "Checked examples"
    'refused-22': (parcel([0x0091C300000C0044, branch(-2), B], [[4], [3], []], [4]), """\
parcel version: 1
instructions: 3
filled before the start, by the parcel's own claim: r4

       word              instruction                     note
>0000  0091C300000C0044  POPCOUNT.i32 r3, ^r4            r4
 0001  001F0007FFFFFEC0  BRANCHZ 0x0, offset:-2 -> 0000  r3
                         ^ can go on to an instruction whose note names r4, which by its own note it does not leave filled
 0002  7800000000000000  NOP.end                         none

REFUSED with 22: instruction 1 can go on to an instruction whose note names r4, which by its own note it does not leave filled.
"""),
    'refused-23': (parcel([A_END], [[1, 2]], [2]), """\
parcel version: 1
instructions: 1
filled before the start, by the parcel's own claim: r2

       word              instruction         note
 0000  7891C10000000002  MOV.i32.end r1, r2  r1-r2
                         ^ has a note that names r1, which the parcel does not say is filled before the start

REFUSED with 23: instruction 0 has a note that names r1, which the parcel does not say is filled before the start.
"""),
    'refused-2': (parcel([FMA, 0x0091C10000010002, 0x0091C100000000E0], [[2, 3], [], [0, 1, 3]], [2, 3]), """\
parcel version: 1
instructions: 3
filled before the start, by the parcel's own claim: r2-r3

       word              instruction                                        note
 0000  00B2C20000038242  -- 2: no row fits; FMA.f32, left out by the scope  r2-r3
                         ^ is no legal instruction, so the program was not judged
 0001  0091C10000010002  -- 2: no row fits                                  none
 0002  0091C100000000E0  -- 7: source 0 is a reserved constant              r0-r1,r3

REFUSED with 2: instruction 0 is no legal instruction, so the program was not judged.
"""),
    'empty': (b'', 'REFUSED with 12: the count of instructions or the length is wrong.\n'),
    'wrong-mark': (b'VSQ' + bytes(13), 'REFUSED with 10: this is no parcel, since it does not begin with VSP.\n'),
    'wrong-version': (parcel([B], [[]], [], version=3), 'REFUSED with 11: the version of the parcel is neither 1 nor 2.\n'),
    'wrong-byte-5': (parcel([B], [[]], [], zero=1), 'REFUSED with 13: byte 5 of the parcel is not 0.\n'),
    'far-too-long': (longest(parcel, TWOS) + bytes(100000), 'REFUSED with 12: the count of instructions or the length is wrong.\n'),
    'branches': (plain([branch(-1), branch(-2), branch(-3), branch(-4), branch(7, flow=15), branch(2), branch(2), B, branch(0), branch(-1)]), None),
    'branch-ends': (plain([branch(67108863), branch(-67108864), B]), None),
    'target-unreadable': (plain([branch(0), 1 << 63, branch(-2), B]), None),
    'lowest-register': (parcel([word(row_number('CSEL.f32'), flow=15, sources=(63, 9, 10, 8))], [[63]], ALL), None),
    'stored': (stored, None),
    'sets': (plain([NOP] * 90 + [B]), None),
    'longest': (longest(parcel, TWOS), None),
    'most': (plain([mov(i % 64, i * 7 % 64) for i in range(2047)] + [B]), None),
}

# The same of version 2.
halved_parcels = {
    'halves': (halved([mov(1, 2, mask=1), mov(1, 64 + 2, mask=2), mov(0, 1, flow=15)], [[2], ['1L', 2], [1]], [2, '4L', '5L', '7H']), f"""\
parcel version: 2
instructions: 3
filled before the start, by the parcel's own claim: r2,r4L-r5L,r7H

       word              instruction         note
 0000  0091410000000002  MOV.i32 r1.h0, r2   r2
 0001  0091810000000042  MOV.i32 r1.h1, ^r2  r1L,r2
 0002  7891C00000000001  MOV.i32.end r0, r1  r1

{ACCEPTED}"""),
    'halves-refused-20': (halved([branch(1), mov(5, 1), mov(1, 1, flow=15)], [[1], [1], ['1L']], [1]), """\
parcel version: 2
instructions: 3
filled before the start, by the parcel's own claim: r1

       word              instruction                    note
 0000  001F0000000001C0  BRANCHZ 0x0, offset:1 -> 0002  r1
 0001  0091C50000000001  MOV.i32 r5, r1                 r1
>0002  7891C10000000001  MOV.i32.end r1, r1             r1L
                         ^ reads r1H, which its note does not name

REFUSED with 20: instruction 2 reads r1H, which its note does not name.
"""),
    'halves-refused-20-low': (halved([A_END], [['1H', '2H']], ['1H', 2]), """\
parcel version: 2
instructions: 1
filled before the start, by the parcel's own claim: r1H,r2

       word              instruction         note
 0000  7891C10000000002  MOV.i32.end r1, r2  r1H-r2H
                         ^ reads r2L, which its note does not name

REFUSED with 20: instruction 0 reads r2L, which its note does not name.
"""),
    'halves-refused-21': (halved([A], [[2]], [2]), """\
parcel version: 2
instructions: 1
filled before the start, by the parcel's own claim: r2

       word              instruction     note
 0000  0091C10000000002  MOV.i32 r1, r2  r2
                         ^ can go on to a place outside the program

REFUSED with 21: instruction 0 can go on to a place outside the program.
"""),
    'halves-refused-22': (halved([mov(1, 2, mask=1), mov(0, 1, flow=15)], [[2], [1]], [2]), """\
parcel version: 2
instructions: 2
filled before the start, by the parcel's own claim: r2

       word              instruction         note
 0000  0091410000000002  MOV.i32 r1.h0, r2   r2
                         ^ can go on to an instruction whose note names r1H, which by its own note it does not leave filled
 0001  7891C00000000001  MOV.i32.end r0, r1  r1

REFUSED with 22: instruction 0 can go on to an instruction whose note names r1H, which by its own note it does not leave filled.
"""),
    'halves-refused-23': (halved([A_END], [[1, 2]], ['1H', 2]), """\
parcel version: 2
instructions: 1
filled before the start, by the parcel's own claim: r1H,r2

       word              instruction         note
 0000  7891C10000000002  MOV.i32.end r1, r2  r1-r2
                         ^ has a note that names r1L, which the parcel does not say is filled before the start

REFUSED with 23: instruction 0 has a note that names r1L, which the parcel does not say is filled before the start.
"""),
    'halves-refused-2': (halved([FMA, B], [[2, 3], []], [2, 3]), """\
parcel version: 2
instructions: 2
filled before the start, by the parcel's own claim: r2-r3

       word              instruction                                        note
 0000  00B2C20000038242  -- 2: no row fits; FMA.f32, left out by the scope  r2-r3
                         ^ is no legal instruction, so the program was not judged
 0001  7800000000000000  NOP.end                                            none

REFUSED with 2: instruction 0 is no legal instruction, so the program was not judged.
"""),
    'halves-wrong-byte-5': (halved([B], [[]], [], zero=1), 'REFUSED with 13: byte 5 of the parcel is not 0.\n'),
    'halves-wrong-version': (versioned(halved([B], [[]], []), 3), 'REFUSED with 11: the version of the parcel is neither 1 nor 2.\n'),
    'halves-wrong-length': (versioned(parcel([B], [[]], []), 2), 'REFUSED with 12: the count of instructions or the length is wrong.\n'),
    'halves-far-too-long': (longest(halved, TURNS) + bytes(100000), 'REFUSED with 12: the count of instructions or the length is wrong.\n'),
    'halves-branches': (plain2([branch(-1), branch(-2), branch(-3), branch(-4), branch(7, flow=15), branch(2), branch(2), B, branch(0), branch(-1)]), None),
    'halves-stored': (plain2([*MESA, *UNREADABLE]), None),
    'halves-sets': (plain2([NOP] * 239 + [B]), None),
    'halves-longest': (longest(halved, TURNS), None),
    'halves-most': (plain2([mov(i % 64, i * 7 % 64, mask=1 + i % 3) for i in range(2047)] + [B]), None),
}
parcels.update(halved_parcels)
parcels.update((name, (data, None)) for name, data in front.parcels.items())


# ---- parcels for the program alone


def in_parcels(words):
    words = list(words)
    return [plain(words[i:i + 2048]) for i in range(0, len(words), 2048)]


def every_value():
    """Each row with each content of each field, legal or not."""
    for k, row in enumerate(ROWS):
        yield from (on_r0(k, flow=flow) for flow in range(16))
        yield from (on_r0(k, page=page, mask=mask, register=40 + page) for page in range(4) for mask in range(4))
        yield from (on_r0(k, fields={low: value}) for low, width, _, _ in row['fields'] for value in range(1 << width))
        yield from (on_r0(k, sources=[0] * j + [byte] + [0] * 4) for j in range(row['sources']) for byte in (63, 64, 127, 128, 191, 192, 229, 255))
        yield from (on_r0(k, offset=offset) for offset in (1, -1, 1 << 25, (1 << 26) - 1, -1 << 26) if row['offset'])


def every_source():
    """Each source byte on each page."""
    return (mov(0, byte) | page << 57 for page in range(4) for byte in range(256))


def every_opcode():
    """Each opcode with each secondary opcode."""
    return (opcode << 48 | 3 << 46 | second << 16 | second % 4 << 24 for opcode in range(512) for second in range(16))


def random_set(draw, version):
    """Many registers, or few; in version 2 also halves."""
    share = draw.randrange(17)
    names = [r for r in ALL if draw.randrange(16) > share]
    return [draw.choice((r, r, f'{r}L', f'{r}H')) for r in names] if version == 2 else names


def random_notes(draw, words):
    """The words with notes that are accepted, where there are such, or with any."""
    version = draw.choice((1, 2))
    if draw.randrange(2):
        words = words[:-1] + [words[-1] | 15 << 59]
        result = infer(version, b''.join(w.to_bytes(8, 'little') for w in words), LOW, LOW)
        if result[0] == 'notes':
            return result[2]
    return parcel(words, [random_set(draw, version) for _ in words], draw.choice(([], ALL, [0, 1, 2])), version=version)


def random_parcel(draw):
    words = [random_word(draw) for _ in range(draw.choice((1, 2, 5, 40)))]
    if draw.randrange(3) == 0:
        words = [draw.choice((w, mov(draw.randrange(64), w % 256), draw.randrange(512) << 48 | w % (1 << 48))) for w in words]
    data = random_notes(draw, words)
    kind = draw.randrange(8)
    if kind == 0:
        return data[:draw.randrange(len(data) + 1)]
    # a bit, of the words or of anything
    bit = 8 * FORMATS[version_of(data)][0] + draw.randrange(64 * len(words)) if kind == 1 else draw.randrange(8 * len(data))
    return bit_flipped(data, bit) if kind in (1, 2) else data


# ---- the calls


def worked_out(data, due):
    """What is written, held to what is due."""
    said = shown(data)
    assert due is None or said == due, (said, due)
    return said


def run(program, data, said):
    done = subprocess.run([program], input=data, capture_output=True, check=False)
    got = done.returncode, done.stdout.decode('ascii', 'replace'), done.stderr.decode('ascii', 'replace')
    assert got == (0, said, ''), (data[:2000].hex(), got[0], got[1][:2000], got[2])


def run_all(program):
    run(program, stored, stored_output())
    for data, due in parcels.values():
        run(program, data, worked_out(data, due))
    count = 1 + len(parcels)
    for data in in_parcels(every_value()) + in_parcels(every_source()) + in_parcels(every_opcode()):
        run(program, data, shown(data))
        count += 1
    draw, verdicts = random.Random(15), {}
    for _ in range(400):
        data = random_parcel(draw)
        said = shown(data)
        run(program, data, said)
        verdict = said.splitlines()[-1].split(':')[0]
        verdicts[verdict] = verdicts.get(verdict, 0) + 1
        count += 1
    assert len(verdicts) > 12 and verdicts['ACCEPTED'] > 40, verdicts
    print(f'viewer: {count} parcels, as the papers say')


def main(arguments):
    if arguments == ['--input']:
        sys.stdout.buffer.write(stored)
    elif not arguments:
        sys.stdout.write(stored_output())
    elif arguments[0] == '--program':
        run_all(arguments[1])
    else:
        for name, (data, due) in parcels.items():
            front.write(arguments[0], name + '.vsp', data)
            front.write(arguments[0], name + '.out', worked_out(data, due).encode())
            front.write(arguments[0], name + '.err', b'' if opening(data) is None else front.sentences(data).encode())


holds_to_mesa()
holds_in_records()
holds_in_names()
holds_in_sets()
main(sys.argv[1:])
