"""Pairs of parcels for the differ, and what must come of them.

    differ.py FOLDER               writes for each pair NAME.first and NAME.second, and NAME.status, NAME.out and NAME.err, what the front does
    differ.py --program PROGRAM    runs the program on all pairs, on inputs that the front never makes, and on random pairs
    differ.py --input              the stored input of the program differ
    differ.py                      what it must write for it

All is worked out from the papers (paper01.py); lists and refusals that are plain from the pair are asserted as well."""
import os
import random
import subprocess
import sys
from front import write, write_comparison
from paper01 import BOTH, FORMATS, LOW, R0, ROWS, contents, differ, differences, halved, misfit, opening, parcel, parcel_of, parts, row_number, \
    source_legal, version_of, versioned, word

LONGEST = 49176
A = 0x0091C10000000002  # MOV r1, r2
A_END = 0x7891C10000000002
B = 0x7800000000000000  # NOP, end
NOP = 0
APPROVED = [0x00A4C20000008040, 0x00A4C30000008141, 0x009CC40000000082, 0x00A4C20000000342, 0x7891C00000000042]
FLOWS = [flow for flow in range(16) if flow not in (11, 12, 14)]


def on_r0(k, sources=R0, **others):
    """The word of row k with r0 as each source where none is named."""
    return word(k, sources=sources, **others)


def of(name, **others):
    return on_r0(row_number(name), **others)


def alone(w, entry=(), note=()):
    """A parcel of one word."""
    return parcel([w], [note], entry)


def plain(words, note=(), make=parcel):
    """A parcel with the same note throughout."""
    return make(words, [note] * len(words), [])


def of_version(data, version):
    """The same words and sets in another version; of what does not open the same bytes."""
    if opening(data):
        return versioned(data, version)
    entry, words, notes = parts(data)
    return parcel_of(words, notes, entry, version=version)


# ---- a pair with all fields and all modifiers, added instructions, entry sets and notes; with its second parcel in version 2 it is stored

rich = (
    parcel([
        of('BRANCHZ', sources=(3,), offset=-3, fields={35: 1, 37: 4}),
        of('FADD.f32', register=2, sources=(64, 128)),
        A,
        of('CSEL.f32', sources=(1, 2, 3, 4)),
        of('ICMP_OR.u32', register=5, sources=(1, 2, 3), fields={26: 2, 30: 1, 32: 5, 36: 7}),
        of('MUX.v2i16', sources=(1, 2, 3), fields={24: 3, 26: 1, 28: 0}),
        B,
    ], [[3], [0, 3], [2], [1, 2, 3, 4], [1, 2, 3], [1, 2, 3], []], [0, 3]),
    parcel([
        of('FLUSH.f32', register=1, sources=(3,), fields={8: 2, 10: 1, 11: 1, 28: 2, 38: 1}),
        of('FADD.v2f16', register=2, mask=1, sources=(64, 128), fields={32: 1, 36: 1, 37: 1, 38: 1, 39: 1}),
        A,
        of('CSEL.f32', page=3, flow=8, register=63, mask=2, sources=(127, 128, 223, 255)),
        of('CUBEFACE1', register=5, sources=(1, 2, 3), fields={34: 1, 35: 1, 36: 1}),
        of('MUX.v2i16', sources=(1, 2, 3), fields={24: 3, 26: 2, 28: 1, 32: 3}),
        NOP,
        of('DISCARD.f32', sources=(1, 2), fields={32: 3}),
        of('FSINCOS_OFFSET.u6', flow=15, register=9, sources=(192,)),
    ], [[3], [0, 3], [], [1, 2, 3, 4, 63], [1, 2, 3], [1, 2, 3], [], [7], [8]], [0, 63]),
    """\
0000 row 01 BRANCHZ -> 40 FLUSH.f32
0000 destination 00 -> C1
0000 modifier 08 7FFFFFD -> 0000002
0000 modifier 10 0 -> 1
0000 modifier 11 0 -> 1
0000 modifier 28 0 -> 2
0000 modifier 35 1 -> 0
0000 modifier 37 4 -> 0
0000 modifier 38 0 -> 1
0001 row 53 FADD.f32 -> 54 FADD.v2f16
0001 destination C2 -> 42
0001 modifier 26 0 -> 2
0001 modifier 28 0 -> 2
0001 modifier 32 0 -> 1
0001 modifier 36 0 -> 1
0001 modifier 37 0 -> 1
0001 modifier 38 0 -> 1
0001 modifier 39 0 -> 1
0003 page 0 -> 3
0003 flow 0 -> 8
0003 destination C0 -> BF
0003 source 0 01 -> 7F
0003 source 1 02 -> 80
0003 source 2 03 -> DF
0003 source 3 04 -> FF
0004 row 64 ICMP_OR.u32 -> 60 CUBEFACE1
0004 modifier 26 2 -> 0
0004 modifier 30 1 -> 0
0004 modifier 32 5 -> 0
0004 modifier 34 0 -> 1
0004 modifier 35 0 -> 1
0004 modifier 36 7 -> 1
0005 modifier 26 1 -> 2
0005 modifier 28 0 -> 1
0005 modifier 32 1 -> 3
0006 flow F -> 0
0007 added 0020000300000201 DISCARD.f32
0008 added 789CC900000600C0 FSINCOS_OFFSET.u6
entry 0000000000000009 -> 8000000000000001
0002 note 0000000000000004 -> 0000000000000000
0003 note 000000000000001E -> 800000000000001E
""")

# The second parcel in version 2, and with sets whose halves differ.
stored = (
    rich[0],
    halved(parts(rich[1])[1], [[3], [0, '3L'], [], [1, 2, 3, 4, 63], [1, 2, 3, '9L', '10H'], [1, 2, 3], [], [7], ['8L']], [0, '3H', '63L']),
    'version 1 -> 2\n' + rich[2][:rich[2].index('entry')] + """\
entry low 0000000000000009 -> 8000000000000001
0001 note high 0000000000000009 -> 0000000000000001
0002 note low 0000000000000004 -> 0000000000000000
0002 note high 0000000000000004 -> 0000000000000000
0003 note low 000000000000001E -> 800000000000001E
0003 note high 000000000000001E -> 800000000000001E
0004 note low 000000000000000E -> 000000000000020E
0004 note high 000000000000000E -> 000000000000040E
""")

# ---- pairs


def every_field():
    """For each row and each field of it another content, one field an instruction; and what is listed then."""
    firsts, seconds, lines = [], [], []

    def pair(usual, other, text):
        lines.append(f'{len(firsts):04d} {text}\n')
        firsts.append(usual)
        seconds.append(other)
    for k, row in enumerate(ROWS):
        first = on_r0(k)
        pair(first, on_r0(k, page=2), 'page 0 -> 2')
        pair(first, on_r0(k, flow=13), 'flow 0 -> D')
        if row['destination']:
            pair(first, on_r0(k, register=5), 'destination C0 -> C5')
            pair(first, on_r0(k, mask=1), 'destination C0 -> 40')
            pair(first, on_r0(k, register=63, mask=2), 'destination C0 -> BF')
        for j in range(row['sources']):
            pair(first, on_r0(k, sources=[0] * j + [64] + [0] * 3), f'source {j} 00 -> 40')
        for low, _, legal, usual in row['fields']:
            other = max(legal - {usual})
            pair(first, on_r0(k, fields={low: other}), f'modifier {low:02d} ' + ('%07X -> %07X' if low == 8 else '%X -> %X') % (usual, other))
    return plain(firsts), plain(seconds), ''.join(lines)


def bit_flipped(data, bit):
    """The byte that holds the bit has the other one."""
    return data[:bit // 8] + bytes([data[bit // 8] ^ 1 << bit % 8]) + data[bit // 8 + 1:]


approved = parcel(APPROVED, [[0, 1], [1, 2], [2, 3], [2, 3, 4], [2, 3, 4]], [0, 1])
moves = [of('MOV.i32', register=i % 64, sources=(i * 7 % 64,)) for i in range(2047)]
most = plain(moves + [B], range(64))
most2 = plain(moves + [B], range(64), halved)
one2 = halved([B], [[]], [])
branch = of('BRANCHZ', sources=(0xC0,), offset=-1, fields={35: 1, 36: 1, 37: 4})
flush = of('FLUSH.f32', register=1, sources=(0xC0,), fields={8: 2, 10: 1, 11: 1, 28: 1, 38: 1, 39: 1})

# the longest list: no two words have more to tell of
LONG = """\
row 41 FLUSH.v2f16 -> 73 FCMP_AND.v2f16
page 0 -> 3
flow 0 -> F
destination 40 -> FF
source 0 01 -> 02
source 1 00 -> 02
source 2 00 -> 02
modifier 08 0000002 -> 0000000
modifier 10 1 -> 0
modifier 11 1 -> 0
modifier 26 0 -> 3
modifier 28 3 -> 0
modifier 30 0 -> 3
modifier 32 0 -> 7
modifier 36 0 -> 1
modifier 37 0 -> 1
modifier 38 1 -> 0
modifier 39 1 -> 0
"""
longest = (
    parcel([of('FLUSH.v2f16', mask=1, sources=(1,), fields={8: 2, 10: 1, 11: 1, 28: 3, 38: 1, 39: 1})] * 2048, [[]] * 2048, []),
    parcel([of('FCMP_AND.v2f16', page=3, flow=15, register=63, sources=(2, 2, 2), fields={26: 3, 28: 0, 30: 3, 32: 7, 36: 1, 37: 1})] * 2048,
           [[0]] * 2048, [63]),
    ''.join(f'{i:04d} {line}\n' for i in range(2048) for line in LONG.splitlines()) + 'entry 0000000000000000 -> 8000000000000000\n'
    + ''.join(f'{i:04d} note 0000000000000000 -> 0000000000000001\n' for i in range(2048)))

# The first parcel, the second, and what comes of them: the list, or a refusal's parcel, number, place and index; None where it is not plain.
pairs = {
    'stored': stored,
    'rich': rich,
    'rich-turned': (rich[1], rich[0], None),
    'every-field': every_field(),
    # nothing differs
    'same': (approved, approved, ''),
    'same-one': (alone(B), alone(B), ''),
    'same-largest': (most, most, ''),
    'same-and-unsafe': (alone(A, [3], [5]), alone(A, [3], [5]), ''),
    # a field, and no other
    'page': (alone(A), alone(of('MOV.i32', page=2, register=1, sources=(2,))), '0000 page 0 -> 2\n'),
    'page-without-sources': (alone(B), alone(of('NOP', page=3, flow=15)), '0000 page 0 -> 3\n'),
    'flow': (alone(A_END), alone(A), '0000 flow F -> 0\n'),
    'destination-register': (alone(A), alone(of('MOV.i32', register=63, sources=(2,))), '0000 destination C1 -> FF\n'),
    'destination-half': (alone(A), alone(of('MOV.i32', register=1, mask=2, sources=(2,))), '0000 destination C1 -> 81\n'),
    'source-released': (alone(A), alone(of('MOV.i32', register=1, sources=(66,))), '0000 source 0 02 -> 42\n'),
    'source-3': (alone(of('CSEL.f32')), alone(of('CSEL.f32', sources=(0, 0, 0, 191))), '0000 source 3 00 -> BF\n'),
    'offset': (alone(of('BRANCHZ', offset=1)), alone(of('BRANCHZ', offset=-1)), '0000 modifier 08 0000001 -> 7FFFFFF\n'),
    'offset-ends': (alone(of('BRANCHZ', offset=67108863)), alone(of('BRANCHZ', offset=-67108864)), '0000 modifier 08 3FFFFFF -> 4000000\n'),
    'last-of-most': (most, plain(moves + [NOP], range(64)), '2047 flow F -> 0\n'),
    'slope': (approved, approved[:16] + approved[16:].replace(b'\x42\x03', b'\x42\xd0'), '0003 source 1 03 -> D0\n'),
    # another row: fields with one lowest bit are one field, and none is listed where its contents are equal
    'row-alone': (alone(of('CUBEFACE1')), alone(of('CUBEFACE2_V9')), '0000 row 60 CUBEFACE1 -> 61 CUBEFACE2_V9\n'),
    'row-and-destination': (alone(NOP), alone(of('MOV.i32')), '0000 row 00 NOP -> 30 MOV.i32\n0000 destination 00 -> C0\n'),
    'row-widths-differ': (alone(of('IABS.v2s16', fields={36: 1})), alone(of('FADD.f32', fields={36: 1})), '0000 row 35 IABS.v2s16 -> 53 FADD.f32\n'),
    'row-wide-36': (alone(of('IABS.s32', fields={36: 7})), alone(of('FADD.f32', fields={36: 1})),
                    '0000 row 34 IABS.s32 -> 53 FADD.f32\n0000 modifier 36 7 -> 1\n'),
    'row-bit-39-twice': (alone(of('BRANCHZ', fields={37: 4})), alone(of('FRCP.f32', fields={39: 1})),
                         '0000 row 01 BRANCHZ -> 42 FRCP.f32\n0000 destination 00 -> C0\n0000 modifier 37 4 -> 0\n0000 modifier 39 0 -> 1\n'),
    'offset-and-nan': (alone(branch), alone(flush), '0000 row 01 BRANCHZ -> 40 FLUSH.f32\n0000 destination 00 -> C1\n'
                       '0000 modifier 08 7FFFFFF -> 0000002\n0000 modifier 10 0 -> 1\n0000 modifier 11 0 -> 1\n0000 modifier 28 0 -> 1\n'
                       '0000 modifier 35 1 -> 0\n0000 modifier 36 1 -> 0\n0000 modifier 37 4 -> 0\n0000 modifier 38 0 -> 1\n0000 modifier 39 0 -> 1\n'),
    'nan-and-offset': (alone(flush), alone(branch), None),
    'offset-as-nan': (alone(of('FLUSH.v2f16', fields={8: 1, 28: 0})), alone(of('BRANCHZ', offset=1)),
                      '0000 row 41 FLUSH.v2f16 -> 01 BRANCHZ\n0000 destination C0 -> 00\n'),
    'offset-over-sources': (alone(of('BRANCHZ', offset=0x010203)), alone(of('CSEL.f32', sources=(0, 3, 2, 1))),
                            '0000 row 01 BRANCHZ -> 03 CSEL.f32\n0000 destination 00 -> C0\n0000 source 1 00 -> 03\n0000 source 2 00 -> 02\n'
                            '0000 source 3 00 -> 01\n0000 modifier 08 0010203 -> 0000000\n'),
    'next-row': (plain([on_r0(k) for k in range(76)]), plain([on_r0(k) for k in range(1, 77)]), None),
    'row-far-away': (plain([on_r0(k) for k in range(77)]), plain([on_r0(76 - k) for k in range(77)]), None),
    # longer ones
    'one-added': (plain([NOP, B]), plain([NOP, B, A]), '0002 added 0091C10000000002 MOV.i32\n'),
    'one-removed': (plain([NOP, B, A]), plain([NOP, B]), '0002 removed 0091C10000000002 MOV.i32\n'),
    'many-added': (alone(NOP), plain([NOP] * 2047 + [B]), ''.join(f'{i:04d} added {w:016X} NOP\n' for i, w in enumerate([NOP] * 2047 + [B]) if i)),
    'many-removed': (plain(moves + [B]), alone(moves[0]), ''.join(f'{i:04d} removed {w:016X} {"MOV.i32" if w != B else "NOP"}\n'
                                                                  for i, w in enumerate(moves + [B]) if i)),
    'only-one-shared': (alone(NOP), plain([B, A]), '0000 flow 0 -> F\n0001 added 0091C10000000002 MOV.i32\n'),
    'notes-of-added': (alone(B), parcel([B, A], [[], [5]], []), '0001 added 0091C10000000002 MOV.i32\n'),
    'notes-of-removed': (parcel([B, A], [[], [5]], []), alone(B), '0001 removed 0091C10000000002 MOV.i32\n'),
    'inserted': (approved, parcel(APPROVED[:1] + [of('FADD.f32', register=2, sources=(66, 208))] + APPROVED[1:],
                                  [[0, 1], [1, 2], [1, 2], [2, 3], [2, 3, 4], [2, 3, 4]], [0, 1]), None),
    # entry sets and notes
    'entry': (alone(B, [0]), alone(B, [63]), 'entry 0000000000000001 -> 8000000000000000\n'),
    'note': (alone(B), alone(B, [], range(64)), '0000 note 0000000000000000 -> FFFFFFFFFFFFFFFF\n'),
    'notes': (plain([NOP, B, B], [4]), parcel([NOP, B, B], [[4], [5], [6]], []),
              '0001 note 0000000000000010 -> 0000000000000020\n0002 note 0000000000000010 -> 0000000000000040\n'),
    'all-kinds': (parcel([NOP, B], [[1], [2]], [3]), parcel([A, B, NOP], [[1], [], [9]], []), None),
    'longest-list': longest,
    'longest-list-turned': (longest[1], longest[0], None),
    # one is refused, with each number
    'first-short': (approved[:15], approved, ('first', 12, 0, 0)),
    'second-short': (approved, approved[:15], ('second', 12, 0, 0)),
    'first-empty': (b'', approved, ('first', 12, 0, 0)),
    'second-empty': (approved, b'', ('second', 12, 0, 0)),
    'first-mark': (b'VSQ' + approved[3:], approved, ('first', 10, 0, 0)),
    'second-mark': (approved, b'vSP' + approved[3:], ('second', 10, 0, 0)),
    'first-version': (parcel([B], [[]], [], version=3), approved, ('first', 11, 0, 0)),
    'second-byte-5': (approved, parcel([B], [[]], [], zero=1), ('second', 13, 0, 0)),
    'first-count': (parcel([], [], []), approved, ('first', 12, 0, 0)),
    'second-count': (approved, parcel([B], [[]], [], n=2049), ('second', 12, 0, 0)),
    'first-a-byte-more': (approved + b'\0', approved, ('first', 12, 0, 0)),
    'first-a-byte-less': (approved[:-1], approved, ('first', 12, 0, 0)),
    'second-a-byte-more': (approved, approved + b'\0', ('second', 12, 0, 0)),
    'second-a-byte-less': (approved, approved[:-1], ('second', 12, 0, 0)),
    'first-word-2': (plain([NOP, 0x0091C10000010002]), approved, ('first', 2, 0, 1)),
    'second-word-3': (approved, plain([NOP, NOP, 1 << 63]), ('second', 3, 63, 2)),
    'second-word-3-two-bits': (approved, plain([NOP, 0x8091C10000000202]), ('second', 3, 9, 1)),
    'first-word-4': (alone(0x5891C10000000002), approved, ('first', 4, 0, 0)),
    'second-word-5': (approved, plain([B, 0x0091010000000002]), ('second', 5, 0, 1)),
    'first-word-6': (plain([NOP, 0x00F0C00600020100]), approved, ('first', 6, 32, 1)),
    'second-word-6': (approved, alone(of('FLUSH.f32', fields={8: 3})), ('second', 6, 8, 0)),
    'first-word-7': (alone(0x0091C100000000E0), approved, ('first', 7, 0, 0)),
    'second-word-7': (approved, plain([NOP, of('CSEL.f32', sources=(0, 1, 2, 225))]), ('second', 7, 3, 1)),
    'first-last-word': (plain(moves + [1 << 63]), approved, ('first', 3, 63, 2047)),
    'second-extra-word': (alone(B), plain([B] * 9 + [1 << 63]), ('second', 3, 63, 9)),
    'first-extra-word': (plain([B] * 9 + [1 << 63]), alone(B), ('first', 3, 63, 9)),
    'same-and-refused': (alone(1 << 63), alone(1 << 63), ('first', 3, 63, 0)),
    # longer than any parcel
    'first-too-long': (most + b'\0', approved, ('first', 12, 0, 0)),
    'second-too-long': (approved, most + b'\0', ('second', 12, 0, 0)),
    'second-far-too-long': (approved, most + bytes(100000), ('second', 12, 0, 0)),
    'first-far-too-long': (approved + bytes(100000), approved, ('first', 12, 0, 0)),
    'first-too-long-wrong-mark': (b'VSQ' + most[3:] + bytes(100000), approved, ('first', 10, 0, 0)),
    'both-too-long': (most + bytes(2), most + bytes(1), ('first', 12, 0, 0)),
    # both are refused, in different ways: the first is told
    'word-and-short': (plain([NOP, 1 << 63]), approved[:15], ('first', 3, 63, 1)),
    'short-and-word': (approved[:15], plain([NOP, 1 << 63]), ('first', 12, 0, 0)),
    'words-6-and-2': (plain([B, B, 0x00F0C00600020100]), alone(0x0091C10000010002), ('first', 6, 32, 2)),
    'mark-and-version': (parcel([B], [[]], [], mark=b'VSQ'), parcel([B], [[]], [], version=3), ('first', 10, 0, 0)),
    'both-empty': (b'', b'', ('first', 12, 0, 0)),
    # unsafe, which is not judged
    'unsafe': (alone(A, [3], [5]), alone(A_END), '0000 flow 0 -> F\nentry 0000000000000008 -> 0000000000000000\n'
               '0000 note 0000000000000020 -> 0000000000000000\n'),
}
# Pairs that are tried in the other versions too.
IN_VERSIONS = ['rich', 'rich-turned', 'same', 'flow', 'one-added', 'notes-of-removed', 'inserted', 'entry', 'note', 'notes', 'all-kinds', 'longest-list',
               'second-word-3', 'first-word-6', 'second-too-long', 'unsafe']
EMPTY, R0_SET = '0000000000000000', '0000000000000001'
halved_pairs = {
    # a half, and no other
    'entry-low': (one2, halved([B], [[]], ['0L']), f'entry low {EMPTY} -> {R0_SET}\n'),
    'entry-high': (halved([B], [[]], ['0H']), one2, f'entry high {R0_SET} -> {EMPTY}\n'),
    'entry-both': (one2, halved([B], [[]], [0]), f'entry low {EMPTY} -> {R0_SET}\nentry high {EMPTY} -> {R0_SET}\n'),
    'entry-other-half': (halved([B], [[]], ['0L']), halved([B], [[]], ['0H']), f'entry low {R0_SET} -> {EMPTY}\nentry high {EMPTY} -> {R0_SET}\n'),
    'note-low': (one2, halved([B], [['0L']], []), f'0000 note low {EMPTY} -> {R0_SET}\n'),
    'note-high': (halved([NOP, B], [[], ['0H']], []), halved([NOP, B], [[], []], []), f'0001 note high {R0_SET} -> {EMPTY}\n'),
    'notes-in-order': (halved([NOP, B], [[], []], []), halved([NOP, B], [[0], ['0H']], []),
                       f'0000 note low {EMPTY} -> {R0_SET}\n0000 note high {EMPTY} -> {R0_SET}\n0001 note high {EMPTY} -> {R0_SET}\n'),
    # a set of version 1 counts as both halves
    'versions-alone': (alone(B, [0], [0]), halved([B], [[0]], [0]), 'version 1 -> 2\n'),
    'versions-alone-turned': (halved([B], [[0]], [0]), alone(B, [0], [0]), 'version 2 -> 1\n'),
    'versions-and-half': (alone(B, [0], [0]), halved([B], [['0H']], ['0L']),
                          f'version 1 -> 2\nentry high {R0_SET} -> {EMPTY}\n0000 note low {R0_SET} -> {EMPTY}\n'),
    'versions-and-half-turned': (halved([B], [['0H']], ['0L']), alone(B, [0], [0]),
                                 f'version 2 -> 1\nentry high {EMPTY} -> {R0_SET}\n0000 note low {EMPTY} -> {R0_SET}\n'),
    'versions-of-most': (most, most2, 'version 1 -> 2\n'),
    # one is refused
    'halves-first-length': (versioned(approved, 2), approved, ('first', 12, 0, 0)),
    'halves-second-length': (approved, versioned(one2, 1), ('second', 12, 0, 0)),
    'halves-first-16': (one2[:16], approved, ('first', 12, 0, 0)),
    'halves-second-23': (one2, one2[:23], ('second', 12, 0, 0)),
    'halves-second-version': (one2, versioned(one2, 3), ('second', 11, 0, 0)),
    'halves-first-word': (plain([NOP, 1 << 63], [], halved), approved, ('first', 3, 63, 1)),
    'halves-second-word': (approved, plain([NOP, 0x00F0C00600020100], [], halved), ('second', 6, 32, 1)),
    'halves-last-word': (most2, plain(moves + [1 << 63], [], halved), ('second', 3, 63, 2047)),
    'halves-first-too-long': (most2 + b'\0', approved, ('first', 12, 0, 0)),
    'halves-both-too-long': (most2, most2 + bytes(100000), ('second', 12, 0, 0)),
}


def by_halves(due):
    """The lines of two parcels of version 1, as they are where one of them is of version 2: a line for each half."""
    if not isinstance(due, str):
        return due
    lines = []
    for line in due.splitlines(keepends=True):
        what = next((what for what in ('entry ', ' note ') if what in line), None)
        lines += [line] if what is None else [line.replace(what, f'{what}{half} ') for half in ('low', 'high')]
    return ''.join(lines)


def in_versions():
    """Pairs of version 1 in the other versions."""
    for name in IN_VERSIONS:
        first, second, due = pairs[name]
        for versions in ((2, 2), (1, 2), (2, 1)):
            change = 'version %d -> %d\n' % versions if versions != (2, 2) else ''
            listed = change + by_halves(due) if isinstance(due, str) else due
            yield f'{name}-{versions[0]}-{versions[1]}', (of_version(first, versions[0]), of_version(second, versions[1]), listed)


pairs.update(halved_pairs)
pairs.update(in_versions())


def input_of(first, second):
    """The program's input, as the front makes it."""
    first = first[:LONGEST + 1]
    return len(first).to_bytes(8, 'little') + first + second[:LONGEST + 1]


def parcels_in(data):
    """The two parcels that an input of the program has."""
    length = int.from_bytes(data[:8], 'little')
    return data[8:8 + length], data[8 + length:]


def raw_inputs():
    """Inputs that the front never makes."""
    one = alone(B)
    yield from (bytes(length) for length in range(9))
    yield from (b'\xff' * length for length in range(9))
    for length in (0, 1, 15, 16, 31, 32, 33, 63, 64, 65, 1000, 49176, 49177, 65536, 1 << 32 | 32, 1 << 63, 1 << 63 | 32, (1 << 64) - 32, (1 << 64) - 1):
        yield length.to_bytes(8, 'little') + one + alone(A)
        yield length.to_bytes(8, 'little') + one
        yield length.to_bytes(8, 'little')
    # not cut
    for first, second in ((approved, most + bytes(100000)), (most + bytes(100000), approved), (most + bytes(40000), b''), (most, most + bytes(1)),
                          (most2, most2 + bytes(100000)), (most2 + bytes(100000), approved), (most2, most2 + bytes(1))):
        yield len(first).to_bytes(8, 'little') + first + second


# ---- random pairs


def random_word(draw):
    k = draw.randrange(77)
    page = draw.randrange(4)
    sources = [draw.choice([b for b in range(256) if source_legal(page, b)]) for _ in range(4)]
    fields = {low: draw.choice(sorted(legal)) for low, _, legal, _ in ROWS[k]['fields']}
    offset = draw.choice((draw.randrange(-3, 3), draw.randrange(-1 << 26, 1 << 26)))
    return word(k, page, draw.choice(FLOWS), draw.randrange(64), draw.randrange(1, 4), sources, fields, offset)


def random_parcel(draw, words):
    version = draw.choice((1, 2))

    def registers():
        return [draw.choice((r, f'{r}L', f'{r}H')) if version == 2 else r for r in range(64) if draw.randrange(16) == 0]
    return parcel(words, [draw.choice(([], [1], registers())) for _ in words], draw.choice(([], registers())), version=version)


def random_pair(draw):
    words = [random_word(draw) for _ in range(draw.choice((1, 2, 5, 40)))]
    first = random_parcel(draw, words)
    header = FORMATS[version_of(first)][0]
    kind = draw.randrange(7)
    if kind == 0:
        return first, random_parcel(draw, [random_word(draw) for _ in range(draw.choice((1, 2, 5, 40)))])
    if kind == 1:
        return first, random_parcel(draw, words[:draw.randrange(1, len(words) + 1)])
    if kind == 2:
        at = draw.randrange(len(words))
        return first, parcel(words[:at] + [random_word(draw)] + words[at:], [[]] * (len(words) + 1), [1], version=draw.choice((1, 2)))
    if kind == 3:
        return first, first[:draw.randrange(len(first) + 1)]
    if kind == 4:
        return first, of_version(first, draw.choice((1, 2)))
    # a bit, of the words or of anything: other contents, or a refusal
    bit = 8 * header + draw.randrange(64 * len(words)) if kind == 5 else draw.randrange(8 * len(first))
    return first, bit_flipped(first, bit)


def random_pairs(count):
    draw = random.Random(4)
    for _ in range(count):
        pair = random_pair(draw)
        yield pair if draw.randrange(2) else pair[::-1]


def replaced(s, half, left, right):
    """A set of halves with other contents, of a half or of whole registers."""
    if not half:
        assert s == left * BOTH
        return right * BOTH
    shift = {'low': 0, 'high': 64}[half]
    assert s >> shift & LOW == left
    return s ^ (left ^ right) << shift


def patched(first, lines):
    """What the second parcel has by the list: the version, the contents of each instruction, the entry set, and the notes that both have."""
    version, (entry, words, notes) = version_of(first), parts(first)
    words, notes = [contents(w) for w in words], list(notes)
    for index, what, left, right in lines:
        kind, _, half = what.partition(' ')
        if kind == 'version':
            assert left == version
            version = right
        elif kind == 'entry':
            entry = replaced(entry, half, left, right)
        elif kind == 'note':
            notes[index] = replaced(notes[index], half, left, right)
        elif what == 'added':
            assert index == len(words)
            words.append(contents(right))
        elif what == 'removed':
            assert contents(left) == words[index]
            words[index] = None
        else:
            assert left == words[index].get(what, 0)
            words[index][what] = right
    return version, [{field: bits for field, bits in w.items() if bits or field == 'row'} for w in words if w], entry, notes


def names_what_differs(first, second):
    """Of parcels that open and read the list is empty exactly where the bytes are the same, and with it the first says what the second has."""
    if misfit(first) or misfit(second):
        return
    _, lines = differences(first, second)
    assert (lines == []) == (first == second), (first, second)
    assert all(left != right for _, _, left, right in lines), lines
    version, words, entry, notes = patched(first, lines)
    wanted, wanted_words, wanted_notes = parts(second)
    assert (version, entry) == (version_of(second), wanted)
    shared = min(len(notes), len(wanted_notes))
    assert notes[:shared] == wanted_notes[:shared]
    assert words == patched(second, [])[1] and len(words) == len(wanted_words)


# ---- the calls


def worked_out(first, second, due):
    """What the program writes, held to what is due."""
    said, error = differ(first, second)
    if isinstance(due, str):
        assert (said, error) == (due, ''), (said, error, due)
    elif due is not None:
        assert differences(first, second) == ('refused', *due, 64, ''), (differences(first, second), due)
    return said, error


def run(program, data, first, second):
    done = subprocess.run([program], input=data, capture_output=True, check=False)
    got = done.returncode, done.stdout.decode('ascii', 'replace'), done.stderr.decode('ascii', 'replace')
    assert got == (0, *differ(first, second)), (data[:2000].hex(), got[0], got[1][:2000], got[2])


def run_all(program):
    count = 0
    for first, second, due in pairs.values():
        worked_out(first, second, due)
        # what is cut is refused with the same
        assert differ(*parcels_in(input_of(first, second))) == differ(first, second)
        names_what_differs(first, second)
        run(program, input_of(first, second), first, second)
        count += 1
    for data in raw_inputs():
        run(program, data, *parcels_in(data))
        count += 1
    listed = refused = 0
    for first, second in random_pairs(600):
        names_what_differs(first, second)
        run(program, input_of(first, second), first, second)
        kind = differences(first, second)[0]
        listed += kind == 'list'
        refused += kind == 'refused'
    assert listed > 200 and refused > 100, (listed, refused)
    print(f'differ: {count + listed + refused} inputs, as the paper says')


def main(arguments):
    if arguments == ['--input']:
        sys.stdout.buffer.write(input_of(*stored[:2]))
    elif not arguments:
        sys.stdout.write(worked_out(*stored)[0])
    elif arguments[0] == '--program':
        run_all(arguments[1])
    else:
        for name, (first, second, due) in pairs.items():
            worked_out(first, second, due)
            files = [os.path.join(arguments[0], name + ending) for ending in ('.first', '.second')]
            write(arguments[0], name + '.first', first)
            write(arguments[0], name + '.second', second)
            write_comparison(arguments[0], name, first, second, files)


lows = {low for row in ROWS for low, _, _, _ in row['fields']} | {8}
assert lows == {8, 10, 11, 24, 26, 28, 30, *range(32, 40)} - {33}, lows
if __name__ == '__main__':
    main(sys.argv[1:])
