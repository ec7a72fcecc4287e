"""The run-only parcels of paper 01, with some more, of both versions: the input of the program verdicts (--input) and what it must print.

Each verdict is worked out from the papers (paper01.py); those that the papers give, or that are plain from a parcel, are asserted."""
import sys
from paper01 import check, halved, parcel, row_number, versioned, word

A = 0x0091C10000000002  # MOV r1, r2
A_END = 0x7891C10000000002
B = 0x7800000000000000  # NOP, end
C = 0x0091C300000C0044  # POPCOUNT r3, r4 released
NOP = 0
ROOM = 131072  # bytes that the program reads


def branch(offset, source=0xC0, flow=0):
    return word(row_number('BRANCHZ'), flow=flow, sources=(source, 0, 0, 0), offset=offset)


def mov(register, source, flow=0, mask=3):
    return word(row_number('MOV.i32'), flow=flow, register=register, mask=mask, sources=(source, 0, 0, 0))


def fadd(*sources):
    return word(row_number('FADD.f32'), flow=15, sources=sources)


good = parcel([A_END], [[2]], [2])
good2 = halved([A_END], [[2]], [2])
FULL = range(64)
MOVES = [mov(i % 64, (i + 1) % 64) for i in range(2047)] + [B]
# r1 is filled by a write of each half, and read.
TWICE = [mov(1, 2, mask=1), mov(1, 2, mask=2), mov(0, 1, flow=15)]
# The low halves of its sources are all that it computes with.
LOW_HALVES = word(row_number('FADD.v2f16'), flow=15, sources=(1, 2), fields={26: 0, 28: 0})
# Each arm writes one half of r1.
ARMS = [branch(2, source=0), mov(1, 0, mask=1), branch(1), mov(1, 0, mask=2), mov(3, 1, flow=15)]

# The label, the parcel, and the numbers of the refusal: number, place, index, register with the half; None where it is accepted.
cases = [
    ('accepted', good, None),
    ('n 0', parcel([], [], [], n=0), '12 0 0 64'),
    ('n 2049', parcel([NOP] * 2049, [[]] * 2049, []), '12 0 0 64'),
    ('A alone', parcel([A], [[2]], [2]), '21 0 0 64'),
    ('note 6, entry 4', parcel([A_END], [[1, 2]], [2]), '23 0 0 1L'),
    ('C, branch by -2, B', parcel([C, branch(-2), B], [[4], [3], []], [4]), '22 0 1 4L'),
    ('15 bytes', good[:15], '12 0 0 64'),
    ('no bytes', b'', '12 0 0 64'),
    ('mark', parcel([A_END], [[2]], [2], mark=b'VSQ'), '10 0 0 64'),
    ('version 0', versioned(good, 0), '11 0 0 64'),
    ('version 3', versioned(good, 3), '11 0 0 64'),
    ('version 257', versioned(good, 257), '11 0 0 64'),
    ('byte 5', parcel([A_END], [[2]], [2], zero=1), '13 0 0 64'),
    ('a byte more', good + b'\0', '12 0 0 64'),
    ('a byte less', good[:-1], '12 0 0 64'),
    ('n too large', parcel([A_END], [[2]], [2], n=2), '12 0 0 64'),
    ('mark and version', parcel([A_END], [[2]], [2], mark=b'vSP', version=3), '10 0 0 64'),
    ('version and byte 5', parcel([A_END], [[2]], [2], version=0, zero=1), '11 0 0 64'),
    ('byte 5 and n', parcel([A_END], [[2]], [2], zero=7, n=0), '13 0 0 64'),
    ('unreadable word and 23', parcel([A, A | 1 << 63], [[1], []], []), '3 63 1 64'),
    ('two unreadable words', parcel([NOP, 0x00F0C00600020100, 1 << 63], [[], [], []], []), '6 32 1 64'),
    ('unreadable source', parcel([0x00A4C0000000E001], [[]], []), '7 1 0 64'),
    ('23 and 20', parcel([A_END], [[3]], []), '23 0 0 3L'),
    ('20 and 21', parcel([A], [[]], [2]), '20 0 0 2L'),
    ('lowest register of two', parcel([fadd(9, 5)], [[]], []), '20 0 0 5L'),
    ('21 backwards', parcel([branch(-2), B], [[], []], []), '21 0 0 64'),
    ('21 far', parcel([branch(67108863), B], [[], []], []), '21 0 0 64'),
    ('22 before 21', parcel([branch(7), B], [[], [3]], []), '22 0 0 3L'),
    ('branch with end', parcel([branch(7, flow=15)], [[]], []), None),
    ('branch releases on both arms', parcel([branch(1, source=64 + 5), B, B], [[5], [5], []], [5]), '22 0 0 5L'),
    ('branch releases, target', parcel([branch(1, source=64 + 5), B, B], [[5], [], [5]], [5]), '22 0 0 5L'),
    ('half write fills nothing', parcel([mov(1, 2, mask=1), mov(0, 1, flow=15)], [[2], [1, 2]], [2]), '22 0 0 1L'),
    ('two half writes', parcel(TWICE, [[2], [2], [1, 2]], [2]), '22 0 1 1L'),
    ('half write keeps a register', parcel([mov(1, 2, mask=2), mov(0, 1, flow=15)], [[1, 2], [1, 2]], [1, 2]), None),
    ('released and half written', parcel([mov(2, 64 + 2, mask=1), mov(0, 2, flow=15)], [[2], [2]], [2]), '22 0 0 2L'),
    ('released and written', parcel([mov(2, 64 + 2), mov(0, 2, flow=15)], [[2], [2]], [2]), None),
    ('released and read', parcel([fadd(64 + 2, 2)], [[2]], [2]), None),
    ('register 63', parcel([mov(63, 63, flow=15)], [[]], [63]), '20 0 0 63L'),
    ('a loop', parcel([mov(1, 2), mov(3, 1), branch(-2, source=3), mov(0, 64 + 3, flow=15)], [[2], [1, 2], [1, 2, 3], [1, 2, 3]], [2]), None),
    ('a loop that releases', parcel([mov(1, 2), mov(3, 64 + 1), branch(-2, source=3), B], [[2], [1, 2], [2, 3], []], [2]), '22 0 2 1L'),
    ('a diamond', parcel([branch(2, source=0), mov(1, 0), branch(1), mov(2, 0), mov(3, 0, flow=15)], [[0], [0], [0, 1], [0], [0]], [0]), None),
    ('a diamond that needs one arm', parcel([branch(2, source=0), mov(1, 0), branch(1), mov(2, 0), mov(3, 1, flow=15)],
                                            [[0], [0], [0, 1], [0], [0, 1]], [0]), '22 0 3 1L'),
    ('unreachable and wrong', parcel([B, mov(1, 2, flow=15)], [[], []], []), '20 0 1 2L'),
    ('the largest', parcel(MOVES, [FULL] * 2048, FULL), None),
    # version 2: opening
    ('2: accepted', good2, None),
    ('2: n 0', halved([], [], [], n=0), '12 0 0 64'),
    ('2: n 2049', halved([A_END], [[2]], [2], n=2049), '12 0 0 64'),
    ('2: n too large', halved([A_END], [[2]], [2], n=2), '12 0 0 64'),
    ('2: a byte more', good2 + b'\0', '12 0 0 64'),
    ('2: a byte less', good2[:-1], '12 0 0 64'),
    ('2: 15 bytes', good2[:15], '12 0 0 64'),
    ('2: 16 bytes', good2[:16], '12 0 0 64'),
    ('2: 23 bytes', good2[:23], '12 0 0 64'),
    ('2: the header alone', good2[:24], '12 0 0 64'),
    ('2: the length of version 1', versioned(good, 2), '12 0 0 64'),
    ('1: the length of version 2', versioned(good2, 1), '12 0 0 64'),
    ('3: the length of version 2', versioned(good2, 3), '11 0 0 64'),
    ('3: 16 bytes', versioned(good2, 3)[:16], '11 0 0 64'),
    ('version 258', versioned(good2, 258), '11 0 0 64'),
    ('version 512', versioned(good2, 512), '11 0 0 64'),
    ('2: mark', halved([A_END], [[2]], [2], mark=b'VSQ'), '10 0 0 64'),
    ('2: byte 5', halved([A_END], [[2]], [2], zero=1), '13 0 0 64'),
    ('2: byte 5 and 16 bytes', halved([A_END], [[2]], [2], zero=1)[:16], '13 0 0 64'),
    ('2: byte 5 and n', halved([A_END], [[2]], [2], zero=7, n=0), '13 0 0 64'),
    ('2: unreadable word and 23', halved([A, A | 1 << 63], [[1], []], []), '3 63 1 64'),
    # a read needs both halves, and the low one is told first
    ('2: neither half', halved([A_END], [[]], [2]), '20 0 0 2L'),
    ('2: the low half alone', halved([A_END], [['2L']], [2]), '20 0 0 2H'),
    ('2: the high half alone', halved([A_END], [['2H']], [2]), '20 0 0 2L'),
    ('2: low halves alone are used', halved([LOW_HALVES], [['1L', '2L']], [1, 2]), '20 0 0 1H'),
    ('2: low halves used, both held', halved([LOW_HALVES], [[1, 2]], [1, 2]), None),
    ('2: lowest register, then half', halved([fadd(9, 5)], [['5L']], FULL), '20 0 0 5H'),
    ('2: low before high', halved([fadd(9, 5)], [['9L', '9H']], FULL), '20 0 0 5L'),
    ('2: register 63, high', halved([mov(0, 63, flow=15)], [['63L']], FULL), '20 0 0 63H'),
    ('2: release needs both halves', halved([mov(0, 64 + 7, flow=15)], [['7H']], FULL), '20 0 0 7L'),
    # a write adds the halves in its mask
    ('2: two half writes', halved(TWICE, [[2], [2, '1L'], [1, 2]], [2]), None),
    ('2: two half writes, high first', halved([TWICE[1], TWICE[0], TWICE[2]], [[2], [2, '1H'], [1, 2]], [2]), None),
    ('2: notes of version 1', halved(TWICE, [[2], [2], [1, 2]], [2]), '22 0 1 1L'),
    ('2: one half write, low', halved([TWICE[0], TWICE[2]], [[2], [1, 2]], [2]), '22 0 0 1H'),
    ('2: one half write, high', halved([TWICE[1], TWICE[2]], [[2], [1, 2]], [2]), '22 0 0 1L'),
    ('2: the same half twice', halved([TWICE[0], TWICE[0], TWICE[2]], [[2], [2, '1L'], [1, 2]], [2]), '22 0 1 1H'),
    ('2: half write keeps the other', halved([TWICE[0], TWICE[2]], [[2, '1H'], [1, 2]], [2, '1H']), None),
    ('2: full write', halved([mov(1, 2), mov(0, 1, flow=15)], [[2], [1, 2]], [2]), None),
    # a release drops both
    ('2: released, high kept', halved([mov(1, 64 + 2), B], [[2], ['2H']], [2]), '22 0 0 2H'),
    ('2: released, low kept', halved([mov(1, 64 + 2), B], [[2], ['2L']], [2]), '22 0 0 2L'),
    ('2: released, both kept', halved([mov(1, 64 + 2), B], [[2], [2]], [2]), '22 0 0 2L'),
    ('2: released and low written', halved([mov(2, 64 + 2, mask=1), B], [[2], ['2L']], [2]), None),
    ('2: released and half written', halved([mov(2, 64 + 2, mask=1), B], [[2], [2]], [2]), '22 0 0 2H'),
    ('2: released, then halves filled', halved([mov(2, 64 + 2, mask=2), mov(2, 3, mask=1), mov(0, 2, flow=15)],
                                               [[2, 3], ['2H', 3], [2]], [2, 3]), None),
    # 22 and 23: the lowest register of which a half is missing
    ('2: 22, register then half', halved([NOP, B], [['3L'], [3, '7L']], FULL), '22 0 0 3H'),
    ('2: 22, low before high', halved([NOP, B], [[], [3, 7]], FULL), '22 0 0 3L'),
    ('2: 22 at the target', halved([branch(1), B, B], [['3L'], [], [3]], FULL), '22 0 0 3H'),
    ('2: 22 before 21', halved([branch(7), B], [[], ['3H']], []), '22 0 0 3H'),
    ('2: 23, low', halved([A_END], [['1L', 2]], [2, '1H']), '23 0 0 1L'),
    ('2: 23, high', halved([A_END], [[1, 2]], ['1L', 2]), '23 0 0 1H'),
    ('2: 23, register then half', halved([B], [['3H', '7L']], []), '23 0 0 3H'),
    ('2: 23 and 20', halved([A_END], [['3H']], []), '23 0 0 3H'),
    ('2: 20 and 21', halved([A], [['2L']], [2]), '20 0 0 2H'),
    ('2: 21', halved([A], [[2]], [2]), '21 0 0 64'),
    # ways
    ('2: a loop that fills by halves', halved([mov(3, 2, mask=1), branch(-2, source=2), mov(3, 2, mask=2), mov(0, 3, flow=15)],
                                              [[2], [2, '3L'], [2, '3L'], [2, 3]], [2]), None),
    ('2: a loop that releases', halved([mov(1, 2, mask=1), mov(3, 64 + 2), branch(-3), B], [[2], [2, '1L'], ['1L', 3], []], [2]), '22 0 2 2L'),
    ('2: an arm for each half', halved(ARMS, [[0], [0], [0, '1L'], [0], [0, 1]], [0]), '22 0 2 1H'),
    ('2: an arm for each half, no note', halved(ARMS, [[0], [0], [0, '1L'], [0], [0]], [0]), '20 0 4 1L'),
    ('2: unreachable and wrong', halved([B, mov(1, 2, flow=15)], [[], ['2H']], []), '20 0 1 2L'),
    ('2: the largest', halved(MOVES, [FULL] * 2048, FULL), None),
]


def numbers(verdict):
    return verdict if verdict is None else '%d %d %d %d%s' % verdict


stored = b''.join(label.ljust(32).encode() + len(data).to_bytes(4, 'little') + data for label, data, _ in cases)
assert len(stored) <= ROOM and all(len(label) <= 32 for label, _, _ in cases), len(stored)
if '--input' in sys.argv:
    sys.stdout.buffer.write(stored)
else:
    for label, data, expected in cases:
        verdict = numbers(check(data))
        assert verdict == expected, (label, verdict, expected)
        print(label.ljust(32), 'ACCEPTED' if verdict is None else f'REFUSED {verdict}')
