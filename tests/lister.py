"""Inputs for the lister, and what it must write for each: lister.py FOLDER writes NAME.vsp and NAME.out there.

With --input the paper's own example, which is the stored input of the program lister, and with no argument its listing.

What it must write is worked out from the papers (paper01.py); where a paper says it itself, that is asserted."""
import os
import sys
from paper01 import halved, listing, parcel, row_number, versioned, word

A = 0x0091C10000000002  # MOV r1, r2
A_END = 0x7891C10000000002
B = 0x7800000000000000  # NOP, end
MOVES = [word(row_number('MOV.i32'), register=i % 64, sources=(i * 7 % 64,)) for i in range(2047)] + [B]
LONG_NAMES = [word(row_number('FSINCOS_OFFSET.u6'), sources=(192,))] * 2047 + [B]
# r1 is filled by a write of each half, and read.
TWICE = [0x0091410000000002, 0x0091810000000002, 0x7891C00000000001]

example = parcel([A_END], [[2]], [2])
largest = parcel(MOVES, [range(64)] * 2048, range(64))
example2 = halved([A_END], [[2]], [2])
largest2 = halved(MOVES, [range(64)] * 2048, range(64))


def last_word(data, header, w):
    """The parcel of 2048 instructions with another last word."""
    return data[:header + 8 * 2047] + w.to_bytes(8, 'little') + data[header + 8 * 2048:]


cases = {
    # paper 01, "The lister"
    'example': (example, '0000 7891C10000000002 MOV.i32\nACCEPTED\n'),
    'example-note-0': (parcel([A_END], [[]], [2]), '0000 7891C10000000002 MOV.i32\nREFUSED 20 0000 02L\n'),
    # a verdict and no lines
    'no-bytes': (b'', 'REFUSED 12 0000 64\n'),
    'fifteen-bytes': (example[:15], 'REFUSED 12 0000 64\n'),
    'wrong-mark': (b'VSQ' + example[3:], 'REFUSED 10 0000 64\n'),
    'wrong-version': (versioned(example, 3), 'REFUSED 11 0000 64\n'),
    'wrong-byte-5': (parcel([A_END], [[2]], [2], zero=1), 'REFUSED 13 0000 64\n'),
    'no-instructions': (parcel([], [], []), 'REFUSED 12 0000 64\n'),
    'unreadable': (parcel([A, A | 1 << 63], [[2], [2]], [2]), 'REFUSED 03 0001 64 63\n'),
    'unreadable-two-bits': (parcel([A, A | 1 << 63 | 1 << 9], [[2], [2]], [2]), 'REFUSED 03 0001 64 09\n'),
    'unreadable-no-place': (parcel([A, 0x0091C10000010002], [[2], [2]], [2]), 'REFUSED 02 0001 64 00\n'),
    'unreadable-at-the-end': (last_word(largest, 16, 1 << 63), 'REFUSED 03 2047 64 63\n'),
    # the longest containers and listings
    'largest': (largest, None),
    'longest-names': (parcel(LONG_NAMES, [[]] * 2048, []), None),
    'runs-off-at-the-end': (last_word(largest, 16, 0), None),
    # longer than any container: a wrong length comes last in opening, so mark, version and byte 5 are told first
    'too-long': (largest + b'\0', 'REFUSED 12 0000 64\n'),
    'far-too-long': (largest + bytes(100000), 'REFUSED 12 0000 64\n'),
    'too-long-wrong-mark': (b'VSQ' + largest[3:] + bytes(100000), 'REFUSED 10 0000 64\n'),
    'too-long-wrong-version': (versioned(largest, 3) + bytes(100000), 'REFUSED 11 0000 64\n'),
    'too-long-wrong-byte-5': (largest[:5] + b'\1' + largest[6:] + bytes(100000), 'REFUSED 13 0000 64\n'),
    'n-2049': (parcel([0] * 2049, [[]] * 2049, []), 'REFUSED 12 0000 64\n'),
    # a refusal of each other kind
    'entry-set': (parcel([A_END], [[1, 2]], [2]), '0000 7891C10000000002 MOV.i32\nREFUSED 23 0000 01L\n'),
    'runs-off': (parcel([A], [[2]], [2]), '0000 0091C10000000002 MOV.i32\nREFUSED 21 0000 64\n'),
    # version 2: the half after the register, the low one first
    'halves': (example2, '0000 7891C10000000002 MOV.i32\nACCEPTED\n'),
    'halves-neither': (halved([A_END], [[]], [2]), '0000 7891C10000000002 MOV.i32\nREFUSED 20 0000 02L\n'),
    'halves-low-alone': (halved([A_END], [['2L']], [2]), '0000 7891C10000000002 MOV.i32\nREFUSED 20 0000 02H\n'),
    'halves-high-alone': (halved([A_END], [['2H']], [2]), '0000 7891C10000000002 MOV.i32\nREFUSED 20 0000 02L\n'),
    'halves-entry-set': (halved([A_END], [['1H', 2]], [2]), '0000 7891C10000000002 MOV.i32\nREFUSED 23 0000 01H\n'),
    'halves-runs-off': (halved([A], [[2]], [2]), '0000 0091C10000000002 MOV.i32\nREFUSED 21 0000 64\n'),
    # a register that is filled by two writes, in version 1 and in version 2
    'two-writes': (parcel(TWICE, [[2], [2], [1, 2]], [2]), '0000 0091410000000002 MOV.i32\n0001 0091810000000002 MOV.i32\n'
                   '0002 7891C00000000001 MOV.i32\nREFUSED 22 0001 01L\n'),
    'halves-two-writes': (halved(TWICE, [[2], ['1L', 2], [1, 2]], [2]), '0000 0091410000000002 MOV.i32\n0001 0091810000000002 MOV.i32\n'
                          '0002 7891C00000000001 MOV.i32\nACCEPTED\n'),
    'halves-one-write': (halved([TWICE[0], TWICE[2]], [[2], [1, 2]], [2]),
                         '0000 0091410000000002 MOV.i32\n0001 7891C00000000001 MOV.i32\nREFUSED 22 0000 01H\n'),
    # version 2: a verdict and no lines
    'halves-unreadable': (halved([A, A | 1 << 63 | 1 << 9], [[2], [2]], [2]), 'REFUSED 03 0001 64 09\n'),
    'halves-unreadable-at-the-end': (last_word(largest2, 24, 1 << 63), 'REFUSED 03 2047 64 63\n'),
    'halves-wrong-byte-5': (halved([A_END], [[2]], [2], zero=1), 'REFUSED 13 0000 64\n'),
    'halves-no-instructions': (halved([], [], []), 'REFUSED 12 0000 64\n'),
    'halves-n-2049': (halved([0] * 2049, [[]] * 2049, []), 'REFUSED 12 0000 64\n'),
    'halves-sixteen-bytes': (example2[:16], 'REFUSED 12 0000 64\n'),
    'halves-twenty-three-bytes': (example2[:23], 'REFUSED 12 0000 64\n'),
    'halves-length-of-version-1': (versioned(example, 2), 'REFUSED 12 0000 64\n'),
    'length-of-version-2': (versioned(example2, 1), 'REFUSED 12 0000 64\n'),
    'version-3': (versioned(example2, 3), 'REFUSED 11 0000 64\n'),
    'version-0': (versioned(example2, 0), 'REFUSED 11 0000 64\n'),
    'halves-largest': (largest2, None),
    'halves-longest-names': (halved(LONG_NAMES, [[]] * 2048, []), None),
    'halves-runs-off-at-the-end': (last_word(largest2, 24, 0), None),
    'halves-too-long': (largest2 + b'\0', 'REFUSED 12 0000 64\n'),
    'halves-far-too-long': (largest2 + bytes(100000), 'REFUSED 12 0000 64\n'),
    'version-3-too-long': (versioned(largest2, 3) + bytes(100000), 'REFUSED 11 0000 64\n'),
    # longer than any container of version 1, and no longer than one of version 2
    'longer-than-version-1': (largest + bytes(len(largest2) - len(largest)), 'REFUSED 12 0000 64\n'),
}

for name, (data, said) in cases.items():
    expected = listing(data)
    assert said is None or said == expected, (name, said, expected)
    if sys.argv[1:] and sys.argv[1] != '--input':
        with open(os.path.join(sys.argv[1], name + '.vsp'), 'wb') as f:
            f.write(data)
        with open(os.path.join(sys.argv[1], name + '.out'), 'w', encoding='ascii') as f:
            f.write(expected)
if sys.argv[1:] == ['--input']:
    sys.stdout.buffer.write(example)
elif not sys.argv[1:]:
    sys.stdout.write(listing(example))
