"""Paper 01, and Items 1, 2 and 4 to 7 of paper 02, in plain Python, written from the papers and source document 002 alone.

It is the second opinion from which the expected outputs of the tests are made; it shares no table with the Rattle code."""
import functools

# ---- the rows, as the paper lists them

# A field: its lowest bit, its width, its legal values, that of the fresh record, and its kind: 002's enumeration, or what it calls a flag.
ALL = {n: set(range(1 << n)) for n in range(1, 5)}


def N(k):
    return [(38 - 2 * k, 1, ALL[1], 0, 'neg'), (39 - 2 * k, 1, ALL[1], 0, 'abs')]


def F(k):
    return [(28 - 2 * k, 2, {0, 1, 2}, 0, 'Widen')]


def H(k):
    return [(28 - 2 * k, 2, ALL[2], 2, 'Swizzles (16-bit), the first four')]


def wide(k, legal, fresh, kind):
    return [(36 if k == 0 else 26, 4, legal, fresh, kind)]


def W32(k):
    return wide(k, {0, 2, 3, 4, 5, 6, 7}, 0, 'Swizzles (32-bit)')


def W16(k):
    return wide(k, set(range(14)), 2, 'Swizzles (16-bit)')


def W8(k):
    return wide(k, set(range(12)), 0, 'Swizzles (8-bit)')


R = [(30, 2, ALL[2], 0, 'Round mode')]
T = [(30, 2, ALL[2], 0, 'Result type')]
C = [(32, 3, ALL[3], 0, 'Condition')]
I = [(32, 3, set(range(6)), 0, 'Condition')]
X = [(32, 2, ALL[2], 1, 'Mux')]
LANE1 = [(28, 1, ALL[1], 0, 'Lane (16-bit)')]
LANE2 = [(28, 2, ALL[2], 0, 'Lane (8-bit)')]
HALF = [(36, 4, ALL[4], 0, 'Half-swizzles (8-bit)')]
CLAMP = [(32, 2, ALL[2], 0, 'Clamp')]
SATURATE = [(30, 1, ALL[1], 0, 'saturate')]
FLUSH = [(8, 2, {0, 1, 2}, 0, 'NaN mode'), (10, 1, ALL[1], 0, 'ftz'), (11, 1, ALL[1], 0, 'flush_inf')]
BRANCH = [(37, 3, set(range(5)), 0, 'Combine'), (36, 1, ALL[1], 0, 'eq'), (35, 1, ALL[1], 0, 'conservative')]

ROWS = []


def add(name, opcode, second, sources, fields, destination=True, offset=False):
    if second is None:
        place = None
    else:
        low = 16 if sources <= 2 else 24
        width = 5 if opcode == 0x90 else 2 if opcode in (0xF0, 0xF1, 0xF2, 0xF4, 0xF5, 0xF8, 0xF9, 0xFA) else 4
        place = (low, width, second)
    plain = sorted(field[:4] for field in fields)
    kinds = {low: kind for low, _, _, _, kind in fields}
    ROWS.append(dict(name=name, opcode=opcode, second=place, sources=sources, fields=plain, kinds=kinds, destination=destination, offset=offset))


add('NOP', 0x00, None, 0, [], destination=False)
add('BRANCHZ', 0x1F, None, 1, BRANCH, destination=False, offset=True)
add('DISCARD.f32', 0x20, None, 2, N(0) + N(1) + F(0) + F(1) + C, destination=False)
for name, opcode in (('CSEL.f32', 0x154), ('CSEL.v2f16', 0x155)):
    add(name, opcode, None, 4, C)
for names, fields in (
    ('V2S16_TO_V2F16/7 V2U16_TO_V2F16/17', R + W16(0)),
    ('S32_TO_F32/9 U32_TO_F32/19', R + W32(0)),
    ('S16_TO_S32/4 S16_TO_F32/5 U16_TO_U32/14 U16_TO_F32/15', H(0)),
    ('F32_TO_S32/C F32_TO_U32/1C', R + N(0)),
    ('V2F16_TO_V2S16/E V2F16_TO_V2U16/1E F16_TO_S32/A F16_TO_U32/1A', R + N(0) + H(0)),
    ('F16_TO_F32/B', R + N(0) + LANE1),
    ('S8_TO_S32/0 S8_TO_F32/1 U8_TO_U32/10 U8_TO_F32/11', LANE2),
    ('V2S8_TO_V2S16/2 V2S8_TO_V2F16/3 V2U8_TO_V2U16/12 V2U8_TO_V2F16/13', HALF),
    ('FROUND.f32/D', R + N(0) + F(0)),
    ('FROUND.v2f16/F', R + N(0) + H(0)),
):
    for entry in names.split():
        name, second = entry.split('/')
        add(name, 0x90, int(second, 16), 1, fields)
for name, second, fields in (
    ('MOV.i32', 0, []), ('CLZ.u32', 4, []), ('CLZ.v2u16', 5, H(0)), ('CLZ.v4u8', 6, []), ('IABS.s32', 8, W32(0)), ('IABS.v2s16', 9, W16(0)),
    ('IABS.v4s8', 0xA, []), ('POPCOUNT.i32', 0xC, []), ('BITREV.i32', 0xD, []), ('NOT_OLD.i32', 0xE, []),
):
    add(name, 0x91, second, 1, fields)
add('FLUSH.f32', 0x98, 0, 1, N(0) + F(0) + FLUSH)
add('FLUSH.v2f16', 0x98, 1, 1, N(0) + H(0) + FLUSH)
for name, second in (('FRCP.f32', 0), ('FRSQ.f32', 2), ('FLOGD.f32', 8), ('FPCLASS.f32', 10), ('FLOG_TABLE.f32', 12), ('FRCP_APPROX.f32', 14),
                     ('FRSQ_APPROX.f32', 15)):
    add(name, 0x9C, second, 1, N(0) + F(0))
for name, second in (('FSIN_TABLE.u6', 4), ('FCOS_TABLE.u6', 5), ('FSINCOS_OFFSET.u6', 6), ('FEXP_TABLE.u4', 13)):
    add(name, 0x9C, second, 1, [])
add('FADD.f32', 0xA4, 0, 2, N(0) + N(1) + CLAMP + F(0) + F(1))
add('FADD.v2f16', 0xA5, 0, 2, N(0) + N(1) + CLAMP + H(0) + H(1))
add('MUX.i32', 0xB8, None, 3, X)
add('MUX.v2i16', 0xB9, None, 3, X + H(0) + H(1) + H(2))
add('MUX.v4i8', 0xBA, None, 3, X)
add('CUBE_SSEL', 0xBC, 0, 3, N(0) + N(1))
add('CUBE_TSEL', 0xBC, 1, 3, N(0) + N(1))
add('CUBEFACE1', 0xC0, None, 3, N(0) + N(1) + N(2))
add('CUBEFACE2_V9', 0xC1, None, 3, N(0) + N(1) + N(2))
add('IDP.v4s8', 0xC2, 0, 3, SATURATE)
add('IDP.v4u8', 0xC2, 1, 3, SATURATE)
for second, name in ((0, 'ICMP_OR'), (1, 'ICMP_AND')):
    for ending, opcode, w in (('.u32', 0xF0, W32), ('.v2u16', 0xF1, W16), ('.v4u8', 0xF2, W8)):
        add(name + ending, opcode, second, 3, I + T + w(0) + w(1))
for second, name in ((0, 'FCMP_OR'), (1, 'FCMP_AND')):
    for ending, opcode, w in (('.f32', 0xF4, F), ('.v2f16', 0xF5, H)):
        add(name + ending, opcode, second, 3, C + T + N(0) + N(1) + w(0) + w(1))
for ending, opcode, w in (('.s32', 0xF8, W32), ('.v2s16', 0xF9, W16), ('.v4s8', 0xFA, W8)):
    add('ICMP_OR' + ending, opcode, 0, 3, I + T + w(0) + w(1))
assert len(ROWS) == 77

# ---- words


def bits(w, low, width):
    return w >> low & (1 << width) - 1


# Source document 002's "FAU special page" enumerations; None is a reserved value, and page 2 has none.
SPECIALS = [
    [None, None, 'warp_id', None, 'framebuffer_size', 'atest_datum', 'sample', None] + [f'blend_descriptor_{i}' for i in range(8)],
    [None, 'thread_local_pointer', None, 'workgroup_local_pointer', None, None, None, 'resource_table_pointer'] + 8 * [None],
    [],
    [None, 'lane_id', None, 'core_id'] + 11 * [None] + ['program_counter'],
]


def special(page, entry):
    """Which word of which special constant stands at an entry from 32 on (paper 02, Item 2), or None where it is refused."""
    for i, name in enumerate(SPECIALS[page]):
        if name is not None and entry == 32 + 2 * i:
            return f'{name}, low word'
        if name is not None and entry == 33 + 2 * i:
            return f'{name}, high word'
    return None


# Source document 002's "Immediates".
IMMEDIATES = """
    00000000 FFFFFFFF 7FFFFFFF FAFCFDFE 01000000 80002000 70605030 C0B0A090
    03020100 07060504 0B0A0908 0F0E0D0C 13121110 17161514 1B1A1918 1F1E1D1C
    3F800000 3DCCCCCD 3EA2F983 3F317218 40490FDB 00000000 477FFF00 5C005BF8
    2E660000 34000000 38000000 3C000000 40000000 44000000 48000000 42480000
""".split()


def meaning(page, byte):
    """What a source byte means, in words."""
    if byte < 64:
        return f'r{byte}'
    if byte < 128:
        return f'r{byte - 64} released'
    if byte < 192:
        return f'uniform {byte - 128 + 64 * page}'
    if byte < 224:
        return f'immediate {IMMEDIATES[byte - 192].lower()}'
    return special(page, byte - 192) or 'no source'


def source_legal(page, byte):
    return meaning(page, byte) != 'no source'


def fits(row, w):
    if bits(w, 48, 9) != row['opcode']:
        return False
    if row['second'] is None:
        return True
    low, width, value = row['second']
    return bits(w, low, width) == value


def assigned(row):
    mask = 0

    def own(low, width):
        nonlocal mask
        mask |= (1 << width) - 1 << low
    for k in range(row['sources']):
        own(8 * k, 8)
    for low, width, _, _ in row['fields']:
        own(low, width)
    if row['second'] is not None:
        own(row['second'][0], row['second'][1])
    if row['offset']:
        own(8, 27)
    if row['destination']:
        own(40, 8)
    own(48, 9)
    own(57, 2)
    own(59, 4)
    return mask


@functools.lru_cache(maxsize=None)
def read(data):
    """('read', row number) or ('refused', number, place), for bytes."""
    if len(data) != 8:
        return 'refused', 1, 0
    w = int.from_bytes(data, 'little')
    rows = [k for k, row in enumerate(ROWS) if fits(row, w)]
    if not rows:
        return 'refused', 2, 0
    [k] = rows
    row = ROWS[k]
    stray = [b for b in range(64) if bits(w & ~assigned(row), b, 1)]
    if stray:
        return 'refused', 3, min(stray)  # paper 02, Item 5
    if bits(w, 59, 4) in (11, 12, 14):
        return 'refused', 4, 0
    if row['destination'] and bits(w, 46, 2) == 0:
        return 'refused', 5, 0
    for low, width, legal, _ in row['fields']:
        if bits(w, low, width) not in legal:
            return 'refused', 6, low
    for k2 in range(row['sources']):
        if not source_legal(bits(w, 57, 2), bits(w, 8 * k2, 8)):
            return 'refused', 7, k2
    return 'read', k


ENTRY_0 = 192  # the source byte for constant entry 0
R0 = (0, 0, 0, 0)  # r0 as every source


def word(row, page=0, flow=0, register=0, mask=3, sources=(ENTRY_0,) * 4, fields=None, offset=0):
    """The word of a row's fresh record (02, Item 6), with the parts that are named."""
    r = ROWS[row]
    w = r['opcode'] << 48 | page << 57 | flow << 59
    if r['second'] is not None:
        w |= r['second'][2] << r['second'][0]
    if r['destination']:
        w |= register << 40 | mask << 46
    for k in range(r['sources']):
        w |= sources[k] << 8 * k
    for low, width, _, fresh in r['fields']:
        w |= (fields or {}).get(low, fresh) << low
    if r['offset']:
        w |= (offset & (1 << 27) - 1) << 8
    return w


def row_number(name):
    return [r['name'] for r in ROWS].index(name)

# ---- halves of registers (paper 02, Item 7)

# A set of halves is a number: bit r is the low half of register r, bit 64 + r its high half. So a set of version 1, which stands for both
# halves of each register, is a number times BOTH.
BOTH = 1 | 1 << 64
LOW = (1 << 64) - 1


def members_of(registers):
    """The set of what a list names: a register, as 2, or a half, as '2L' or '2H'."""
    found = 0
    for name in registers:
        half = {'L': 1, 'H': 1 << 64}.get(str(name)[-1])
        found |= BOTH << int(name) if half is None else half << int(name[:-1])
    return found


def low_and_high(registers):
    """The same as two sets of 64."""
    return members_of(registers) & LOW, members_of(registers) >> 64


def registers_in(s):
    """The registers of which both halves are in a set, those of which only the low half is, and those of which only the high half is."""
    low, high = s & LOW, s >> 64
    return [[r for r in range(64) if part >> r & 1] for part in (low & high, low & ~high, high & ~low)]


def lowest(missing):
    """The lowest register of which a half is in the set, and which half: the low one if that is."""
    register, half = min((k % 64, k // 64) for k in range(128) if missing >> k & 1)
    return register, 'LH'[half]


NO_REGISTER = (64, '')


# ---- parcels

# By version: the length of the header, that of a note, and the most instructions. A header ends with the entry set, which like a note is one
# set, for both halves, or two: the low halves, then the high ones.
FORMATS = {1: (16, 8, 2048), 2: (24, 16, 2048)}


def version_of(data):
    return int.from_bytes(data[3:5], 'little')


def format_of(version):
    """Where it is no version that we know, that of version 1: the view of a word goes by it (paper 01, 14)."""
    return FORMATS.get(version, FORMATS[1])


def count_in(data):
    return int.from_bytes(data[6:8], 'little')


def opening(data):
    """The number of the refusal, or None."""
    if len(data) < 16:
        return 12
    if data[:3] != b'VSP':
        return 10
    if version_of(data) not in FORMATS:
        return 11
    if data[5] != 0:
        return 13
    n, (header, note, most) = count_in(data), FORMATS[version_of(data)]
    if not 1 <= n <= most or len(data) != header + (8 + note) * n:
        return 12
    return None


def word_at(data, n, i):
    """The word at an index of bytes that are said to have n instructions, or None, which is refusal 14."""
    start = format_of(version_of(data))[0] + 8 * i
    return int.from_bytes(data[start:start + 8], 'little') if i < n and start + 8 <= len(data) else None


def notes_part(data):
    """The part of a parcel's bytes that has its notes; empty where it does not open."""
    header, note, _ = format_of(version_of(data))
    start = header + 8 * count_in(data)
    return b'' if opening(data) else data[start:start + note * count_in(data)]


def numbers_in(data, length=8):
    return [int.from_bytes(data[i:i + length], 'little') for i in range(0, len(data), length)]


def sets_in(data, version):
    """The sets of halves in bytes that have nothing else."""
    _, length, _ = FORMATS[version]
    return [s * BOTH if length == 8 else s for s in numbers_in(data, length)]


def parts(data):
    """The entry set, the words and the notes of a parcel that opens; sets are sets of halves."""
    version = version_of(data)
    header, _, _ = FORMATS[version]
    [entry] = sets_in(data[8:header], version)
    return entry, numbers_in(data[header:header + 8 * count_in(data)]), sets_in(notes_part(data), version)


def unreadable(words):
    """Number, place, index and no register of the lowest word that does not read, or None."""
    for i, w in enumerate(words):
        result = read(w.to_bytes(8, 'little'))
        if result[0] == 'refused':
            return result[1], result[2], i, *NO_REGISTER
    return None


def misfit(data):
    """None where a parcel opens and all its words read, else number, place, index, register, half."""
    number = opening(data)
    return unreadable(parts(data)[1]) if number is None else (number, 0, 0, *NO_REGISTER)


def effect(w, version):
    """The halves that a word that reads needs, those that it drops, and those that it fills. In version 1 a write of one half fills nothing."""
    _, k = read(w.to_bytes(8, 'little'))
    row = ROWS[k]
    needs = drops = fills = 0
    for j in range(row['sources']):
        b = bits(w, 8 * j, 8)
        if b < 128:
            needs |= BOTH << b % 64
        if 64 <= b < 128:
            drops |= BOTH << b - 64
    if row['destination']:
        low, high = bits(w, 46, 1), bits(w, 47, 1)
        if version == 1:
            low = high = low & high
        fills = (low | high << 64) << bits(w, 40, 6)
    return needs, drops, fills


def way(w):
    """Whether a word that reads ends the program, and its branch offset or None."""
    _, k = read(w.to_bytes(8, 'little'))
    offset = None
    if ROWS[k]['offset']:
        offset = bits(w, 8, 27)
        offset -= (offset >> 26) << 27
    return bits(w, 59, 4) == 15, offset


def successors(w, i):
    """Where instruction i, a word that reads, can go on: the fall-through, then the branch target."""
    ends, offset = way(w)
    return [] if ends else [i + 1] if offset is None else [i + 1, i + 1 + offset]


def check(data):
    """None where accepted, else number, place, index, register, half."""
    refused = misfit(data)
    if refused is not None:
        return refused
    entry, words, notes = parts(data)
    if notes[0] & ~entry:
        return 23, 0, 0, *lowest(notes[0] & ~entry)
    for i, w in enumerate(words):
        needs, drops, fills = effect(w, version_of(data))
        if needs & ~notes[i]:
            return 20, 0, i, *lowest(needs & ~notes[i])
        held = notes[i] & ~drops | fills
        for j in successors(w, i):
            if not 0 <= j < len(words):
                return 21, 0, i, *NO_REGISTER
            if notes[j] & ~held:
                return 22, 0, i, *lowest(notes[j] & ~held)
    return None


def name_of(w):
    """The name of a word that reads."""
    return ROWS[read(w.to_bytes(8, 'little'))[1]]['name']


def verdict_line(number, place, index, register, half):
    """The place is told of a word that does not read (paper 02, Item 5), the half after a register below 64 (Item 7)."""
    return f'REFUSED {number:02d} {index:04d} {register:02d}{half}' + (f' {place:02d}' if 2 <= number <= 7 else '')


def listing(data):
    """The lister's output for a parcel's bytes."""
    lines = []
    if misfit(data) is None:
        lines = [f'{i:04d} {w:016X} {name_of(w)}' for i, w in enumerate(parts(data)[1])]
    verdict = check(data)
    lines.append('ACCEPTED' if verdict is None else verdict_line(*verdict))
    return ''.join(line + '\n' for line in lines)


def set_bytes(s, version):
    """A set of halves as a parcel has it: in version 1 the registers whose low half is in it."""
    length = format_of(version)[1]
    return (s & (1 << 8 * length) - 1).to_bytes(length, 'little')


def parcel_of(words, notes, entry, mark=b'VSP', version=1, zero=0, n=None):
    """A parcel of words, notes and an entry set, which are sets of halves, as it is asked for, right or wrong."""
    n = len(words) if n is None else n
    head = mark + version.to_bytes(2, 'little') + bytes([zero]) + n.to_bytes(2, 'little') + set_bytes(entry, version)
    return head + b''.join(w.to_bytes(8, 'little') for w in words) + b''.join(set_bytes(note, version) for note in notes)


def parcel(words, notes, entry, **others):
    """The same of notes and an entry set that are lists, as for members_of."""
    return parcel_of(words, [members_of(note) for note in notes], members_of(entry), **others)


def halved(words, notes, entry, **others):
    """The same of version 2."""
    return parcel(words, notes, entry, version=2, **others)


def versioned(data, version):
    """The same bytes with another version."""
    return data[:3] + version.to_bytes(2, 'little') + data[5:]


def pack(version, entry, words, notes, out):
    """Packing an entry set, the words' bytes and the notes' into a buffer, for a version that we know: the number of the refusal or None, and
    the buffer afterwards."""
    n, (header, note, most) = len(words) // 8, FORMATS[version]
    if not 1 <= n <= most or len(words) != 8 * n or len(notes) != note * n or len(out) != header + (8 + note) * n:
        return 12, out
    return None, parcel_of(numbers_in(words), sets_in(notes, version), entry, version=version)


# ---- the maker (paper 02, Items 1 and 7)


def swept(version, words, entry):
    """The sweeps that it takes, the last, unchanging one included, and the notes then; words that read, sets of halves."""
    n = len(words)
    changes = [effect(w, version)[1:] for w in words]
    arrivals = [(i, j) for i, w in enumerate(words) for j in successors(w, i) if 0 <= j < n]
    old, notes, sweeps = None, [entry] + [LOW * BOTH] * (n - 1), 0
    while notes != old:
        old, notes, sweeps = notes, notes[:], sweeps + 1
        left = [note & ~drops | fills for note, (drops, fills) in zip(old, changes)]
        for i, j in arrivals:
            notes[j] &= left[i]
    return sweeps, notes


def infer(version, data, low, high):
    """For a version, the words' bytes and the entry sets of low and of high halves: ('notes', sweeps, parcel) or ('refused', number, place,
    index, register, half). In version 1 the low set is the entry set, and the high one plays no part."""
    if version not in FORMATS:
        return 'refused', 11, 0, 0, *NO_REGISTER
    words = numbers_in(data)
    if len(data) % 8 or not 1 <= len(words) <= FORMATS[version][2]:
        return 'refused', 12, 0, 0, *NO_REGISTER
    refused = unreadable(words)
    if refused is not None:
        return 'refused', *refused
    entry = low * BOTH if version == 1 else low | high << 64
    sweeps, notes = swept(version, words, entry)
    made = parcel_of(words, notes, entry, version=version)
    # the notes contain every acceptable set, so where they are refused none is accepted
    return ('notes', sweeps, made) if check(made) is None else ('refused', 24, 0, 0, *NO_REGISTER)


# ---- comparing (paper 02, Items 4 and 7)

# In the paper's order; a modifier is named by its lowest bit.
FIELDS = ['row', 'page', 'flow', 'destination', *(f'source {j}' for j in range(4)), *(f'modifier {low:02d}' for low in range(64))]
DIGITS = {'version': 1, 'page': 1, 'flow': 1, 'destination': 2, 'source': 2, 'modifier': 1, 'modifier 08': 7, 'entry': 16, 'note': 16}


def contents(w):
    """Of a word that reads the content of each field that its row has: the row's number, or the bits."""
    _, k = read(w.to_bytes(8, 'little'))
    row = ROWS[k]
    found = {'row': k, 'page': bits(w, 57, 2), 'flow': bits(w, 59, 4)}
    if row['destination']:
        found['destination'] = bits(w, 40, 8)
    for j in range(row['sources']):
        found[f'source {j}'] = bits(w, 8 * j, 8)
    for low, width, _, _ in row['fields']:
        found[f'modifier {low:02d}'] = bits(w, low, width)
    if row['offset']:
        found['modifier 08'] = bits(w, 8, 27)
    return found


def changes(w, w2):
    """The fields in which two words that read differ, each with both contents, 0 where a row lacks it."""
    first, second = contents(w), contents(w2)
    pairs = [(field, first.get(field, 0), second.get(field, 0)) for field in FIELDS]
    return [(field, left, right) for field, left, right in pairs if left != right]


def set_changes(index, what, left, right, whole):
    """The lines for two sets: one where registers are whole, else one for the low halves and one for the high ones."""
    names = [(what, 0)] if whole else [(f'{what} low', 0), (f'{what} high', 64)]
    pairs = [(name, left >> shift & LOW, right >> shift & LOW) for name, shift in names]
    return [(index, name, before, after) for name, before, after in pairs if before != after]


def differences(first, second):
    """For the bytes of two parcels ('refused', which, number, place, index, register, half), or ('list', lines). A line is the index, None for
    the versions and the entry sets; what differs; and both contents, None where a parcel has no such instruction."""
    for which, data in (('first', first), ('second', second)):
        refused = misfit(data)
        if refused is not None:
            return 'refused', which, *refused
    (entry, words, notes), (entry2, words2, notes2) = parts(first), parts(second)
    version, version2 = version_of(first), version_of(second)
    whole = version == version2 == 1
    lines = [(None, 'version', version, version2)] if version != version2 else []
    lines += [(i, *change) for i, pair in enumerate(zip(words, words2)) for change in changes(*pair)]
    lines += [(i, 'added', None, w) for i, w in enumerate(words2) if i >= len(words)]
    lines += [(i, 'removed', w, None) for i, w in enumerate(words) if i >= len(words2)]
    lines += set_changes(None, 'entry', entry, entry2, whole)
    return 'list', lines + [line for i, pair in enumerate(zip(notes, notes2)) for line in set_changes(i, 'note', *pair, whole)]


def difference_text(index, what, left, right):
    """A line of the list as the program differ writes it."""
    if what == 'row':
        text = f'row {left:02d} {ROWS[left]["name"]} -> {right:02d} {ROWS[right]["name"]}'
    elif what in ('added', 'removed'):
        w = right if what == 'added' else left
        text = f'{what} {w:016X} {name_of(w)}'
    else:
        digits = DIGITS.get(what) or DIGITS[what.split()[0]]
        text = f'{what} {left:0{digits}X} -> {right:0{digits}X}'
    return (text if index is None else f'{index:04d} {text}') + '\n'


def differ(first, second):
    """What the program differ writes for two parcels: standard output, standard error."""
    kind, *rest = differences(first, second)
    if kind == 'list':
        return ''.join(difference_text(*line) for line in rest[0]), ''
    which, *refused = rest
    return '', f'differ: {which}\n{verdict_line(*refused)}\n'
