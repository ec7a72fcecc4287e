"""Parcels that the program parcels opens, asks for notes and words, and packs again, and what it must print; worked out from paper 01, The
parcel, and paper 02, Item 7."""
from paper01 import BOTH, LOW, count_in, format_of, halved, notes_part, opening, pack, parcel, parts, version_of, versioned, word_at

MOST = 2**64 - 1
MOV, NOP_END = 0x0091C10000000002, 0x7800000000000000
good = parcel([MOV, NOP_END], [[2], [1, 2, 40]], [2, 40])
zeroed = good[:5] + b'\1' + good[6:]
# r1 is half filled before the start, by the low half, and r40 by the high one.
good2 = halved([MOV, NOP_END], [['1L', 2], [1, 2, '40H']], ['1L', 2, '40H'])
third = versioned(good2, 3)


def digits(data):
    return ' '.join([str(len(data))] + ['%02x' % b for b in data])


def entry_digits(data):
    """The entry set; in version 2 the low halves and the high ones."""
    entry = parts(data)[0]
    return '%016x' % (entry & LOW) + (' %016x' % (entry >> 64) if version_of(data) == 2 else '')


def fetched(data, n, i):
    """A word's digits; 14 where the index is not below n or the word is not whole inside."""
    w = word_at(data, n, i)
    return 'refused 14' if w is None else '%016x' % w


def says(data):
    refused = opening(data)
    n = 0 if refused else count_in(data)
    print(f'refused {refused}' if refused else f'opened {n} {entry_digits(data)}')
    print('  notes', digits(notes_part(data)))
    for i in [0] + [n - 1] * (n > 0) + [n, MOST]:
        print('  word', i, fetched(data, n, i))


def makes_up(data):
    for n, i in [(0, 0), (1, 0), (5, 2), (5, 3), (5, 4), (MOST, 4), (MOST, 2**61), (MOST, MOST - 1), (MOST, MOST)]:
        print(f'  of {n}, word {i}', fetched(data, n, i))


def packs(version, entry, words, notes, out):
    refused, out = pack(version, entry, words, notes, out)
    print(f'refused {refused}' if refused else 'packed')
    print('  buffer', digits(out))
    return out


def packs_again(data):
    """A parcel of two instructions taken apart and packed again, after a part or the buffer had a wrong length."""
    version, entry = version_of(data), parts(data)[0]
    header, _, _ = format_of(version)
    words, notes, out = data[header:header + 16], data[header + 16:], b'\xff' * len(data)
    out = packs(version, entry, words[:15], notes, out)
    out = packs(version, entry, words, notes[:len(notes) // 2], out)
    out = packs(version, entry, words, notes, out[:-1]) + out[-1:]
    assert packs(version, entry, words, notes, out) == data


def number(data, start):
    return '%016x' % int.from_bytes(data[start:start + 8], 'little')


# 48 bytes hold a header, two words and two notes: a made-up n reaches the notes (2, 3) and no further (4)
assert len(good) == 48 and fetched(good, 5, 3) == number(good, 40) and fetched(good, 5, 4) == 'refused 14'
assert fetched(good, 2, 2) == 'refused 14' and opening(good) is None and opening(zeroed) == 13
# of 56 bytes of version 2 a made-up n reaches 3, of a version that is not known 4: its header counts as 16 bytes
assert len(good2) == 72 and fetched(good2[:56], 5, 3) == number(good2, 48) and fetched(good2[:56], 5, 4) == 'refused 14'
assert fetched(third[:56], 5, 4) == number(good2, 48) and opening(third) == 11
assert notes_part(good2) == good2[40:] and parts(good2)[0] == 4 * BOTH | 2 | 1 << 104
says(good)
makes_up(good)
says(good[:47])
says(good[:15])
makes_up(good[:23])
makes_up(good[:0])
packs_again(good)
says(zeroed)
# version 2
says(good2)
makes_up(good2[:56])
says(good2[:71])
says(good2[:48])
says(good2[:23])
makes_up(good2[:31])
packs_again(good2)
# one that is not known
says(third)
makes_up(third[:56])
