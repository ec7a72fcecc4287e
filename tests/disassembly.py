"""The text of an instruction and what `show` writes of a parcel, in plain Python: the syntax of Mesa's Valhall disassembler, with the
enumerations and the names of source document 002.

As paper01.py it is a second opinion, and shares no table with the Rattle code."""
from paper01 import ROWS, IMMEDIATES, SPECIALS, bits, check, fits, opening, parts, read, registers_in, version_of, way

# ---- the text of an instruction

# 002's enumerations, in order: * marks the default, which is not written, and - is a reserved value.
ENUMERATIONS = {kind: names.split() for kind, names in {
    'Flow': '*none wait0 wait1 wait01 wait2 wait02 wait12 wait012 wait0126 wait reconverge - - discard - end',
    'NaN mode': 'none flush_nan quiet_nan',
    'Condition': 'eq gt ge ne lt le gtlt total',
    'Mux': 'neg *int_zero fp_zero bit',
    'Clamp': '*none clamp_0_inf clamp_m1_1 clamp_0_1',
    'Round mode': '*rte rtp rtn rtz',
    'Result type': 'i1 f1 m1 u1',
    'Widen': '*none h0 h1 - - - - -',
    'Swizzles (8-bit)': '*b0123 b3210 b0101 b2323 b0000 b1111 b2222 b3333 b2301 b1032 b0011 b2233 - - - -',
    'Swizzles (16-bit)': 'h00 h10 *h01 h11 b00 b20 b02 b22 b11 b31 b13 b33 b01 b23 - -',
    'Swizzles (16-bit), the first four': 'h00 h10 *h01 h11',
    'Swizzles (32-bit)': '*none - h0 h1 b0 b1 b2 b3',
    'Half-swizzles (8-bit)': 'b00 b10 b20 b30 b01 b11 b21 b31 b02 b12 b22 b32 b03 b13 b23 b33',
    'Lane (8-bit)': 'b0 b1 b2 b3',
    'Lane (16-bit)': 'h0 h1',
    'Combine': '*none h0 h1 and lowbits',
}.items()}
FLAGS = ['ftz', 'flush_inf', 'conservative', 'eq', 'saturate', 'neg', 'abs']
SIGNS = ['neg', 'abs']
OF_SOURCES = [kind for kind in ENUMERATIONS if kind.startswith(('Widen', 'Swizzles', 'Half-swizzles', 'Lane', 'Combine'))]
# Where the instruction's own modifiers stand, in the order in which they are written, and where the swizzles of each source do.
OWN = [8, 10, 11, 35, 36, 32, 30]
SWIZZLES = [[28, 36, 37], [26], [24], []]


def name_of(kind, value):
    """The name of a value, with its dot; nothing where it is the default, and a question mark where it has none."""
    names = ['*0', kind] if kind in FLAGS else ENUMERATIONS[kind]
    if value >= len(names) or names[value] == '-':
        return '.?'
    return '' if names[value][0] == '*' else '.' + names[value]


def operand(page, byte):
    """What a source byte is called."""
    if byte < 64:
        return f'r{byte}'
    if byte < 128:
        return f'^r{byte - 64}'
    if byte < 192:
        return f'u{byte - 128 + 64 * page}'
    if byte < 224:
        return f'0x{int(IMMEDIATES[byte - 192], 16):X}'
    specials = SPECIALS[page] if page < 4 else []
    i, half = divmod(byte - 224, 2)
    return f'{specials[i]}.w{half}' if i < len(specials) and specials[i] is not None else '?'


def text(row, page=0, flow=0, register=0, mask=3, sources=(0, 0, 0, 0), fields=None, offset=0):
    """The text of a record, legal or not; what it says of modifiers is in `fields`, by lowest bit, 0 where that has nothing."""
    ends = name_of('Flow', flow)
    if row >= len(ROWS):
        return '?' + ends
    r = ROWS[row]

    def written(lows, kinds):
        return ''.join(name_of(r['kinds'][low], (fields or {}).get(low, 0)) for low in lows if r['kinds'].get(low) in kinds)
    others = [kind for kind in [*ENUMERATIONS, *FLAGS] if kind not in SIGNS + OF_SOURCES]
    operands = [f'r{register}' + {1: '.h0', 2: '.h1', 3: ''}.get(mask, '.?')] if r['destination'] else []
    for k in range(r['sources']):
        operands.append(operand(page, sources[k]) + written([38 - 2 * k, 39 - 2 * k], SIGNS) + written(SWIZZLES[k], OF_SOURCES))
    operands += [f'offset:{offset}'] if r['offset'] else []
    return r['name'] + written(OWN, others) + ends + (' ' if operands else '') + ', '.join(operands)


def text_of(w):
    """The text of a word that reads."""
    _, k = read(w.to_bytes(8, 'little'))
    return text(k, page=bits(w, 57, 2), flow=bits(w, 59, 4), register=bits(w, 40, 6), mask=bits(w, 46, 2), sources=[bits(w, 8 * j, 8) for j in range(4)],
                fields={low: bits(w, low, width) for low, width, _, _ in ROWS[k]['fields']}, offset=way(w)[1])


# ---- the names that 002 has and the scope leaves out

# By opcode, where the name does not depend on a secondary opcode, or the papers do not say where that stands.
ALONE = """
    02F BRANCHZI; 045 BARRIER; 150 CSEL.u32; 151 CSEL.v2u16; 158 CSEL.s32; 159 CSEL.v2s16; 056 LD_VAR_SPECIAL; 05C LD_VAR_BUF_IMM.f32;
    05D LD_VAR_BUF_IMM.f16; 06C LD_VAR_BUF.f32; 06D LD_VAR_BUF.f16; 064 LD_VAR; 054 LD_VAR_IMM; 055 LD_VAR_FLAT; 041 LD_VAR_FLAT_IMM;
    066 LD_ATTR_IMM or LD_TEX_IMM; 076 LD_ATTR or LD_TEX; 067 LEA_ATTR_IMM or LEA_TEX_IMM; 077 LEA_ATTR or LEA_TEX; 06A LD_BUFFER;
    05E LEA_BUF_IMM; 060 LOAD; 061 STORE; 06B LEA_BUFFER; 071 ST_CVT; 078 LD_TILE; 079 ST_TILE; 07F BLEND; 07D ATEST; 07E ZS_EMIT;
    095 WMASK; 0B2 FMA.f32; 0B3 FMA.v2f16; 0B4 a shift, as LSHIFT_AND.i32; 0B5 a shift, as LSHIFT_AND.v2i16;
    0B6 a shift, as LSHIFT_AND.v4i8; 1B7 a shift, as LSHIFT_AND.i64; 0BD MKVEC.v2i8; 110 IADD_IMM.i32; 111 IADD_IMM.v2i16;
    112 IADD_IMM.v4i8; 114 FADD_IMM.f32; 115 FADD_IMM.v2f16; 069 ATOM1_RETURN; 068 ATOM; 120 ATOM_RETURN; 125 TEX_FETCH; 128 TEX_SINGLE;
    129 TEX_GATHER; 12A TEX_GRADIENT; 12F TEX_DUAL; 130 VAR_TEX_BUF_SINGLE; 131 VAR_TEX_BUF_GATHER; 132 VAR_TEX_BUF_GRADIENT;
    137 VAR_TEX_BUF_DUAL; 138 VAR_TEX_SINGLE; 139 VAR_TEX_GATHER; 13A VAR_TEX_GRADIENT; 13F VAR_TEX_DUAL; 160 FMA_RSCALE.f32;
    161 FMA_RSCALE_N.f32; 162 FMA_RSCALE_LEFT.f32; 163 FMA_RSCALE_SCALE16.f32
"""
# By opcode and secondary opcode: the four bits from bit 16 on, and the two bits from bit 24 on.
AT_16 = """
    191/E NOT_OLD.i64; 099/0 FREXPM.f32; 099/1 FREXPM.v2f16; 099/2 FREXPE.f32; 099/3 FREXPE.v2f16; 09C/1 FRCP.f16; 09C/3 FRSQ.f16;
    09C/B FPCLASS.f16; 0A4/2 FMIN.f32; 0A5/2 FMIN.v2f16; 0A4/3 FMAX.f32; 0A5/3 FMAX.v2f16; 0A5/4 V2F32_TO_V2F16; 0A4/6 LDEXP.f32;
    0A5/6 LDEXP.v2f16; 0A4/8 FEXP.f32; 0A4/9 FADD_LSCALE.f32; 0A4/E FATAN_ASSIST.f32; 0A0/0 IADD.u32; 0A1/0 IADD.v2u16; 0A2/0 IADD.v4u8;
    0A8/0 IADD.s32; 0A9/0 IADD.v2s16; 0AA/0 IADD.v4s8; 1A3/0 IADD.u64; 1AB/0 IADD.s64; 0A1/5 MKVEC.v2i16; 0A0/1 ISUB.u32;
    0A1/1 ISUB.v2u16; 0A2/1 ISUB.v4u8; 0A8/1 ISUB.s32; 0A9/1 ISUB.v2s16; 0AA/1 ISUB.v4s8; 1A3/1 ISUB.u64; 1AB/1 ISUB.s64;
    1A3/6 SEG_ADD.u64; 1A3/7 SHADDX.u64; 1AB/7 SHADDX.s64; 0A0/A IMUL.i32; 0A1/A IMUL.v2i16; 0A2/A IMUL.v4i8; 0A8/A IMUL.s32;
    0A9/A IMUL.v2s16; 0AA/A IMUL.v4s8; 1A3/A IMULD.u64; 0A0/B HADD.u32; 0A1/B HADD.v2u16; 0A2/B HADD.v4u8; 0A8/B HADD.s32;
    0A9/B HADD.v2s16; 0AA/B HADD.v4s8; 0A0/F CLPER.i32; 0A1/F CLPER.v2u16; 0A2/F CLPER.v4u8; 0A8/F CLPER.s32; 0A9/F CLPER.v2s16;
    0AA/F CLPER.v4s8; 1A3/F CLPER.u64; 1AB/F CLPER.s64
"""
AT_24 = '0F8/1 ICMP_AND.s32; 0F9/1 ICMP_AND.v2s16; 0FA/1 ICMP_AND.v4s8; 0F0/2 ICMP_MULTI.u32; 0F8/2 ICMP_MULTI.s32'


def table(lines):
    return dict(line.strip().split(' ', 1) for line in lines.split(';'))


LEFT_OUT = {**table(ALONE), **table(AT_16), **table(AT_24)}


def left_out(w):
    """002's name for a word that no row fits, or None."""
    opcode = f'{bits(w, 48, 9):03X}'
    # an opcode has names of one of the three kinds only
    places = (opcode, f'{opcode}/{bits(w, 16, 4):X}') if opcode[:2] != '0F' else (f'{opcode}/{bits(w, 24, 2):X}',)
    return next((LEFT_OUT[place] for place in places if place in LEFT_OUT), None)


# ---- what `show` writes of a parcel


def rows_of(names):
    """The first and the last of each row in ascending registers with the letter of their half."""
    rows = []
    for r, half in names:
        if rows and rows[-1][1:] == [r - 1, half]:
            rows[-1][1] = r
        else:
            rows.append([r, r, half])
    return rows


def registers(s):
    """A set of halves as rows in the registers' order, with L or H where only one half is in it."""
    names = sorted((r, half) for half, numbers in zip(('', 'L', 'H'), registers_in(s)) for r in numbers)
    return ','.join(f'r{first}{half}' if first == last else f'r{first}{half}-r{last}{half}' for first, last, half in rows_of(names)) or 'none'


def target(w, i):
    """Where instruction i, a word that reads, branches to, or None."""
    ends, offset = way(w)
    return None if ends or offset is None else i + 1 + offset


def stray(w, bit):
    """Which bit is 1 that the word's row leaves unassigned, and what the row lacks there (paper 01, "The frame")."""
    [row] = [row for row in ROWS if fits(row, w)]
    modified = any(low <= bit < low + width for low, width, *_ in row['fields'])
    if bit < 24:
        assert row['sources'] <= bit // 8
        lack = f'no source {bit // 8}'
    elif bit < 40:
        assert not modified and (bit >= 32 or row['sources'] <= 3)
        lack = 'neither a source nor a modifier' if bit < 32 else 'no modifier'
    else:
        assert bit == 63 or not row['destination']
        lack = 'nothing' if bit == 63 else 'no destination'
    return f'bit {bit} is 1, where {row["name"]} has {lack}'


def reason(w, number, place):
    """Why a word does not read."""
    if number == 2:
        name = left_out(w)
        return 'no row fits' + (f'; {name}, left out by the scope' if name else '')
    if number == 3:
        return stray(w, place)
    return {4: 'its flow is reserved', 5: 'neither half of its destination is written', 6: f'illegal modifier at bit {place}',
            7: f'source {place} is a reserved constant'}[number]


def column(words, i, texts):
    """What stands for word i: its text, from `texts` where that has it, and where it branches to; or why it does not read."""
    w = words[i]
    kind, *rest = read(w.to_bytes(8, 'little'))
    if kind == 'refused':
        return f'-- {rest[0]}: {reason(w, *rest)}'
    goes = target(w, i)
    arrow = '' if goes is None else f' -> {goes:04d}' if 0 <= goes < len(words) else ' -> outside'
    return texts.get(w, text_of(w)) + arrow


def why(data, number, _place, _index, register, half):
    """What is wrong with the instruction that a refusal is about. Version 1 knows no halves."""
    if number < 10:
        return 'is no legal instruction, so the program was not judged'
    missing = f'r{register}' if version_of(data) == 1 else f'r{register}{half}'
    return {20: f'reads {missing}, which its note does not name',
            21: 'can go on to a place outside the program',
            22: f'can go on to an instruction whose note names {missing}, which by its own note it does not leave filled',
            23: f'has a note that names {missing}, which the parcel does not say is filled before the start'}[number]


def verdict_words(data):
    refused = check(data)
    if refused is None:
        return 'ACCEPTED: whichever way the program goes, it reads no register that is not filled, if the display fills what the parcel says.'
    number, _, index, *_ = refused
    told = {10: 'this is no parcel, since it does not begin with VSP',
            11: 'the version of the parcel is neither 1 nor 2',
            12: 'the count of instructions or the length is wrong',
            13: 'byte 5 of the parcel is not 0'}
    return f'REFUSED with {number}: ' + (told.get(number) or f'instruction {index} {why(data, *refused)}') + '.'


def lines_of(data, texts):
    """The lines for the words, and the one below that which is at fault."""
    _, words, notes = parts(data)
    shown = [column(words, i, texts) for i in range(len(words))]
    width = max(map(len, [*shown, 'instruction']))
    targets = {target(w, i) for i, w in enumerate(words) if read(w.to_bytes(8, 'little'))[0] == 'read'}
    refused = check(data)
    yield f'       {"word":16}  {"instruction":{width}}  note'
    for i, (w, note) in enumerate(zip(words, notes)):
        yield f'{">" if i in targets else " "}{i:04d}  {w:016X}  {shown[i]:{width}}  {registers(note)}'
        if refused is not None and refused[2] == i:
            yield f'{"":25}^ {why(data, *refused)}'


def shown(data, texts=None):
    """What `show` writes of a parcel's bytes; `texts` has the texts of words that are known from elsewhere."""
    lines = []
    if opening(data) is None:
        entry, words, _ = parts(data)
        lines = [f'parcel version: {version_of(data)}', f'instructions: {len(words)}',
                 f"filled before the start, by the parcel's own claim: {registers(entry)}", '', *lines_of(data, texts or {}), '']
    return ''.join(line + '\n' for line in [*lines, verdict_words(data)])
