"""Runs of parcels, of both versions: the input of the program replays (--input) and what it must print.

What comes of each run is stated beside it, as the papers have it, and held to what the second reading gives (machine.py): END, LIMIT or DIFFERS
with its numbers, or a refusal's number, place, index and register with the half; then the registers that the run left changed."""
import struct
import sys
from machine import ROWS_RUN, replay
from paper01 import LOW, ROWS, halved, infer, parcel, row_number, word

A = 0x0091C10000000002  # MOV r1, r2
A_END = 0x7891C10000000002
B = 0x7800000000000000  # NOP, end
NOP = 0
ROOM = 524288  # bytes that the program reads
OLD = 0xDEADBEEF  # in the destination before a run, so that every write is seen
MINUS_0, PLUS_NAN, MINUS_NAN, INF, MINUS_INF = 0x80000000, 0x7FC00000, 0xFFC00000, 0x7F800000, 0xFF800000
ONE, TWO, HALF, TENTH = 0x3F800000, 0x40000000, 0x3F000000, 0x3DCCCCCD
MINUS_1, MINUS_2 = 0xBF800000, 0xC0000000
CLAMPS = {'none': 0, 'clamp_0_inf': 1, 'clamp_m1_1': 2, 'clamp_0_1': 3}
MUXES = {'neg': 0, 'int_zero': 1, 'fp_zero': 2, 'bit': 3}
U, C = 128, 192  # the source bytes for uniform 0 and constant entry 0
PAST_END, LONG = 0x777, [1 << 20] * 64

# ---- words and parcels


def of(name, *sources, to=1, end=True, **others):
    """The word of a row, which writes r1 and ends the program where nothing else is said."""
    return word(row_number(name), register=to, flow=15 if end else 0, sources=sources, **others)


def on(name, *sources, to=1, **others):
    """The same, and the program goes on."""
    return of(name, *sources, to=to, end=False, **others)


def branch(source, offset, end=False, **others):
    return word(row_number('BRANCHZ'), sources=(source,), offset=offset, flow=15 if end else 0, **others)


def whole(words, version=1):
    """A parcel that says that all registers are filled, with the notes that the maker gives."""
    kind, _, made = infer(version, b''.join(w.to_bytes(8, 'little') for w in words), LOW, LOW)
    assert kind == 'notes'
    return made


def steps(*changes, start=None):
    """A trace: of each step the registers that changed since the step before, or the start."""
    numbers, row = [], [(start or {}).get(r, 0) for r in range(64)]
    for change in changes:
        row = [change.get(r, number) for r, number in enumerate(row)]
        numbers += row
    return numbers


# ---- the vectors: the label, the parcel, what is due, and what the run is given

vectors = []


def add(label, data, due, registers=None, uniforms=(), trace=(), limit=100):
    """`data` is a parcel, or the words of one."""
    data = data if isinstance(data, bytes) else whole(data)
    vectors.append((label, data, due, registers or {}, list(uniforms), list(trace), limit))


def add_value(label, w, due, **sources):
    """One instruction, which must leave these bits in r1; its sources are r2 to r4."""
    add(label, [w], f'END 1 r1={due}', {1: OLD, **{int(name[1:]): number for name, number in sources.items()}})


def add_sum(label, a, b, due, clamp='none', **signs):
    """FADD.f32 r1, r2, r3. Of the signs n0 and a0 are negate and absolute of the first, n1 and a1 of the second."""
    places = {'n0': 38, 'a0': 39, 'n1': 36, 'a1': 37}
    fields = {32: CLAMPS[clamp], **{places[sign]: value for sign, value in signs.items()}}
    add_value(label, of('FADD.f32', 2, 3, fields=fields), due, r2=a, r3=b)


# 002, "Clamp", its nine identities, each of a sum that is what it speaks of
add_sum('clamp_0_1 of -0', MINUS_0, MINUS_0, '00000000', 'clamp_0_1')
add_sum('clamp_0_1 of -NaN', MINUS_NAN, 0, '00000000', 'clamp_0_1')
add_sum('clamp_0_1 of NaN', PLUS_NAN, 0, '00000000', 'clamp_0_1')
add_sum('clamp_m1_1 of -0', MINUS_0, MINUS_0, '80000000', 'clamp_m1_1')
add_sum('clamp_m1_1 of NaN', PLUS_NAN, 0, 'BF800000', 'clamp_m1_1')
add_sum('clamp_m1_1 of -NaN', MINUS_NAN, 0, 'BF800000', 'clamp_m1_1')
add_sum('clamp_0_inf of NaN', PLUS_NAN, 0, '00000000', 'clamp_0_inf')
add_sum('clamp_0_inf of -NaN', MINUS_NAN, 0, '00000000', 'clamp_0_inf')
add_sum('clamp_0_inf of -0', MINUS_0, MINUS_0, '00000000', 'clamp_0_inf')
# the same without a clamp: a not-a-number that is left is recorded as 7FC00000
add_sum('no clamp, -0', MINUS_0, MINUS_0, '80000000')
add_sum('no clamp, NaN', PLUS_NAN, 0, '7FC00000')
add_sum('no clamp, -NaN', MINUS_NAN, 0, '7FC00000')
add_sum('no clamp, NaN as the second', ONE, 0xFFFFFFFF, '7FC00000')
add_sum('no clamp, two NaNs', 0x7FC12345, 0xFFC54321, '7FC00000')
add_sum('no clamp, a signalling NaN', 0x7F800001, ONE, '7FC00000')
add_sum('no clamp, a negated NaN', PLUS_NAN, ONE, '7FC00000', n0=1)
add_sum('no clamp, infinity and -infinity', INF, MINUS_INF, '7FC00000')
add_sum('no clamp, -infinity and infinity', MINUS_INF, INF, '7FC00000')
add_sum('clamp_0_inf, infinity and -infinity', INF, MINUS_INF, '00000000', 'clamp_0_inf')
add_sum('clamp_m1_1, infinity and -infinity', INF, MINUS_INF, 'BF800000', 'clamp_m1_1')
add_sum('clamp_0_1, infinity and -infinity', INF, MINUS_INF, '00000000', 'clamp_0_1')
# the bounds, and what lies at them and beyond
for clamp, dues in {
    #               2.0      1.0      1.0 and a bit  0.5    2^-149   0      -2^-149  -0.5     -1.0    -2.0     inf      -inf
    'none': '40000000 3F800000 3F800001 3F000000 00000001 00000000 80000001 BF000000 BF800000 C0000000 7F800000 FF800000',
    'clamp_0_inf': '40000000 3F800000 3F800001 3F000000 00000001 00000000 00000000 00000000 00000000 00000000 7F800000 00000000',
    'clamp_m1_1': '3F800000 3F800000 3F800000 3F000000 00000001 00000000 80000001 BF000000 BF800000 BF800000 3F800000 BF800000',
    'clamp_0_1': '3F800000 3F800000 3F800000 3F000000 00000001 00000000 00000000 00000000 00000000 00000000 3F800000 00000000',
}.items():
    for number, due in zip((TWO, ONE, ONE + 1, HALF, 1, 0, 0x80000001, 0xBF000000, MINUS_1, MINUS_2, INF, MINUS_INF), dues.split()):
        add_sum(f'{clamp} of {number:08X}', number, 0, due, clamp)
# absolute before negate
add_sum('negate the first', 0x3FC00000, 0, 'BFC00000', n0=1)
add_sum('absolute of the first', 0xBFC00000, 0, '3FC00000', a0=1)
add_sum('absolute, then negate the first', 0xBFC00000, 0, 'BFC00000', n0=1, a0=1)
add_sum('absolute, then negate a positive first', 0x3FC00000, 0, 'BFC00000', n0=1, a0=1)
add_sum('negate the second', 0, 0x3FC00000, 'BFC00000', n1=1)
add_sum('absolute of the second', 0, 0xBFC00000, '3FC00000', a1=1)
add_sum('absolute, then negate the second', 0, 0xBFC00000, 'BFC00000', n1=1, a1=1)
add_sum('-|-2.0| + |-0.5|', MINUS_2, 0xBF000000, 'BFC00000', n0=1, a0=1, a1=1)
add_sum('|-2.0| - |-0.5|', MINUS_2, 0xBF000000, '3FC00000', a0=1, n1=1, a1=1)
add_sum('-(0) + -0', 0, MINUS_0, '80000000', n0=1)
add_sum('|-0| + -0', MINUS_0, MINUS_0, '00000000', a0=1)
add_sum('-infinity negated, and infinity', MINUS_INF, INF, '7F800000', n0=1)
add_sum('negate and clamp_0_1', 0x3F400000, 0, '00000000', 'clamp_0_1', n0=1)
# rounding: ties to even, and what lies beside a tie
add_sum('1 + 2^-24, a tie down', ONE, 0x33800000, '3F800000')
add_sum('1 + 2^-23 + 2^-24, a tie up', ONE + 1, 0x33800000, '3F800002')
add_sum('1 + less than 2^-24', ONE, 0x337FFFFF, '3F800000')
add_sum('1 + more than 2^-24', ONE, 0x33800001, '3F800001')
add_sum('1 - 2^-24, exact', ONE, 0xB3800000, '3F7FFFFF')
add_sum('1 - 2^-25, a tie up', ONE, 0xB3000000, '3F800000')
add_sum('1 - more than 2^-25', ONE, 0xB3000001, '3F7FFFFF')
add_sum('2^24 + 1, a tie down', 0x4B800000, ONE, '4B800000')
add_sum('2^24 + 3, a tie up', 0x4B800000, 0x40400000, '4B800002')
add_sum('-2^24 - 3, a tie away from 0', 0xCB800000, 0xC0400000, 'CB800002')
add_sum('2 - 2^-23 + 2^-24, a tie to the next power', 0x3FFFFFFF, 0x33800000, '40000000')
add_sum('the largest + half a place, a tie to infinity', 0x7F7FFFFF, 0x73000000, '7F800000')
add_sum('the largest + less than half a place', 0x7F7FFFFF, 0x72FFFFFF, '7F7FFFFF')
add_sum('twice the largest', 0x7F7FFFFF, 0x7F7FFFFF, '7F800000')
add_sum('twice the lowest', 0xFF7FFFFF, 0xFF7FFFFF, 'FF800000')
add_sum('twice the largest, clamp_m1_1', 0x7F7FFFFF, 0x7F7FFFFF, '3F800000', 'clamp_m1_1')
add_sum('infinity + 1', INF, ONE, '7F800000')
add_sum('0.1 + 0.2', TENTH, 0x3E4CCCCD, '3E99999A')
add_sum('pi - pi', 0x40490FDB, 0xC0490FDB, '00000000')
# subnormals are kept, and zeros have signs
add_sum('2^-149 + 2^-149', 1, 1, '00000002')
add_sum('2^-149 - 2^-149', 1, 0x80000001, '00000000')
add_sum('-2^-149 + 0', 0x80000001, 0, '80000001')
add_sum('the largest subnormal + 2^-149', 0x007FFFFF, 1, '00800000')
add_sum('the smallest normal - 2^-149', 0x00800000, 0x80000001, '007FFFFF')
add_sum('two normals that leave a subnormal', 0x00800003, 0x80800000, '00000003')
add_sum('1 + 2^-149', ONE, 1, '3F800000')
add_sum('0 + -0', 0, MINUS_0, '00000000')
add_sum('0 + 0', 0, 0, '00000000')
# only FADD changes a not-a-number: the others carry bits through
for number in (PLUS_NAN, MINUS_NAN, 0x7F800001, 0xFFC12345, 0x00000001, MINUS_0):
    add_value(f'MOV carries {number:08X}', of('MOV.i32', 2), f'{number:08X}', r2=number)
    add_value(f'MUX carries {number:08X} as A', of('MUX.i32', 2, 3, 4), f'{number:08X}', r2=number, r3=ONE, r4=0)
    add_value(f'MUX carries {number:08X} as B', of('MUX.i32', 2, 3, 4), f'{number:08X}', r2=ONE, r3=number, r4=1)
add_value('MOV of constant 2, a NaN', of('MOV.i32', C + 2), '7FFFFFFF')
add_value('FADD of constant 2, a NaN', of('FADD.f32', C + 2, C), '7FC00000')
# the integer rows
for name, pairs in {
    'CLZ.u32': '00000000:00000020 00000001:0000001F 80000000:00000000 00010000:0000000F FFFFFFFF:00000000 7FFFFFFF:00000001',
    'POPCOUNT.i32': '00000000:00000000 FFFFFFFF:00000020 12345678:0000000D 80000001:00000002',
    'BITREV.i32': '00000000:00000000 00000001:80000000 80000000:00000001 12345678:1E6A2C48 F0000000:0000000F FFFFFFFF:FFFFFFFF',
    'NOT_OLD.i32': '00000000:FFFFFFFF FFFFFFFF:00000000 12345678:EDCBA987 80000000:7FFFFFFF',
}.items():
    for number, due in (pair.split(':') for pair in pairs.split()):
        add_value(f'{name} of {number}', of(name, 2), due, r2=int(number, 16))
# MUX: A is r2, B is r3, and the mask r4
for mode, pairs in {
    'neg': '80000000:A FFFFFFFF:A 7FFFFFFF:B 00000000:B',
    'int_zero': '00000000:A 00000001:B 80000000:B FFFFFFFF:B',
    'fp_zero': '00000000:A 80000000:A 00000001:B 80000001:B 7FC00000:B 3F800000:B',
    'bit': '00000000:B FFFFFFFF:A 0000FFFF:5555AAAA F0F0F0F0:A5A5A5A5 80000000:D5555555',
}.items():
    for mask, due in (pair.split(':') for pair in pairs.split()):
        add_value(f'MUX.i32.{mode} by {mask}', of('MUX.i32', 2, 3, 4, fields={32: MUXES[mode]}),
                  {'A': 'AAAAAAAA', 'B': '55555555'}.get(due, due), r2=0xAAAAAAAA, r3=0x55555555, r4=int(mask, 16))
# constants and uniforms as sources
add_value('FADD of two constants', of('FADD.f32', C + 17, C + 16), '3F8CCCCD')
add_value('constant 0', of('MOV.i32', C), '00000000')
add_value('constant 31', of('MOV.i32', C + 31), '42480000')
add_value('constant 31 on page 3', of('MOV.i32', C + 31, page=3), '42480000')

# BRANCHZ over one instruction: r1 is left alone where it jumps
OVER = (on('MOV.i32', C + 16), of('MOV.i32', C + 1, to=3))
STAYS, JUMPS = 'END 3 r1=3F800000 r3=FFFFFFFF', 'END 2 r3=FFFFFFFF'
for fields, more in (({}, ''), ({35: 1}, ', conservative')):
    for number in (1, 0x80000000, 0xFFFFFFFF, PLUS_NAN):
        add(f'BRANCHZ on {number:08X}{more}', [branch(2, 1, fields=fields), *OVER], JUMPS, {2: number})
        add(f'BRANCHZ.eq on {number:08X}{more}', [branch(2, 1, fields={36: 1, **fields}), *OVER], STAYS, {2: number})
    add(f'BRANCHZ on 0{more}', [branch(2, 1, fields=fields), *OVER], STAYS)
    add(f'BRANCHZ.eq on 0{more}', [branch(2, 1, fields={36: 1, **fields}), *OVER], JUMPS)
add('BRANCHZ on constant 1', [branch(C + 1, 1), *OVER], JUMPS)
add('BRANCHZ.eq on constant 0', [branch(C, 1, fields={36: 1}), *OVER], JUMPS)
add('BRANCHZ on a uniform', [branch(U + 1, 1), *OVER], JUMPS, uniforms=[0, 7])
add('BRANCHZ on a released register', [branch(64 + 2, 1), *OVER], JUMPS, {2: 7})
add('BRANCHZ to the next', [branch(2, 0), *OVER], STAYS, {2: 7})
add('BRANCHZ with end', [branch(2, 1, end=True), *OVER], 'END 1', {2: 7})
add('BRANCHZ with end and out of the program', [branch(2, 7, end=True)], 'END 1', {2: 7})
add('BRANCHZ to itself', [branch(C + 1, -1), B], 'LIMIT 5', limit=5)
add('BRANCHZ.eq to itself, not taken', [branch(C + 1, -1, fields={36: 1}), B], 'END 2', limit=5)
# a loop that counts from 3.0 down by a uniform, -1.0
LOOP = [on('FADD.f32', 0, U, to=0), branch(0, -2), B]
add('a loop', LOOP, 'END 7 r0=00000000', {0: 0x40400000}, [MINUS_1])
add('a loop, the limit at its end', LOOP, 'END 7 r0=00000000', {0: 0x40400000}, [MINUS_1], limit=7)
add('a loop, the limit before its end', LOOP, 'LIMIT 6 r0=00000000', {0: 0x40400000}, [MINUS_1], limit=6)
add('a loop that does not end', LOOP, 'LIMIT 99 r0=C23E0000', {0: 0x40200000}, [MINUS_1], limit=99)
add('a loop that rests at 2^24', [on('FADD.f32', 0, C + 16, to=0), branch(C + 1, -2), B], 'LIMIT 9 r0=4B800000', {0: 0x4B7FFFFE}, limit=9)

# limits
THREE = [on('MOV.i32', C + 16), on('MOV.i32', C + 20, to=2), of('MOV.i32', C + 1, to=3)]
AFTER_1, AFTER_2, AFTER_3 = 'r1=3F800000', 'r1=3F800000 r2=40490FDB', 'r1=3F800000 r2=40490FDB r3=FFFFFFFF'
RECORD = ({1: ONE}, {2: 0x40490FDB}, {3: 0xFFFFFFFF})
add('limit 0', THREE, 'LIMIT 0', limit=0)
add('limit 1', THREE, f'LIMIT 1 {AFTER_1}', limit=1)
add('limit just before the end', THREE, f'LIMIT 2 {AFTER_2}', limit=2)
add('end on the last permitted step', THREE, f'END 3 {AFTER_3}', limit=3)
add('the largest limit', THREE, f'END 3 {AFTER_3}', limit=0xFFFFFFFF)
add('end on the only step', [B], 'END 1', limit=1)
add('limit 0 of one step', [B], 'LIMIT 0', limit=0)
# traces
add('the whole trace', THREE, f'END 3 {AFTER_3}', trace=steps(*RECORD))
add('a trace of one step', THREE, f'END 3 {AFTER_3}', trace=steps(*RECORD[:1]))
add('a trace of two steps', THREE, f'END 3 {AFTER_3}', trace=steps(*RECORD[:2]))
add('an empty trace', THREE, f'END 3 {AFTER_3}')
add('a longer trace', THREE, f'END 3 {AFTER_3}', trace=steps(*RECORD, {0: PAST_END}, {5: PAST_END}))
add('a trace longer than the limit', THREE, f'LIMIT 1 {AFTER_1}', trace=steps(RECORD[0], {9: PAST_END}, {}), limit=1)
add('limit 0 and another trace', THREE, 'LIMIT 0', trace=steps({9: PAST_END}), limit=0)
add('a trace with the start', THREE, f'END 3 {AFTER_3}', {40: 7, 63: MINUS_NAN}, trace=steps(*RECORD, start={40: 7, 63: MINUS_NAN}))
# differences: the first step, the lowest register, all 64 of them, before `end` and before the limit
add('a difference at step 0', THREE, f'DIFFERS 0 1 {AFTER_1}', trace=steps({1: ONE + 1}, *RECORD[1:]))
add('a difference, not yet written', THREE, f'DIFFERS 0 1 {AFTER_1}', trace=steps({}, RECORD[0]))
add('the lowest of two registers', THREE, f'DIFFERS 0 5 {AFTER_1}', trace=steps({1: ONE, 9: 1, 5: 2}))
add('the lowest of 64 registers', THREE, f'DIFFERS 0 0 {AFTER_1}', trace=LONG)
add('register 63', THREE, f'DIFFERS 0 63 {AFTER_1}', trace=steps({1: ONE, 63: 1}))
add('a register that no instruction touches', THREE, f'DIFFERS 1 40 {AFTER_2}', {40: 7}, trace=steps(RECORD[0], {**RECORD[1], 40: 8}, start={40: 7}))
add('a difference at a later step', THREE, f'DIFFERS 1 2 {AFTER_2}', trace=steps(RECORD[0], {2: 0x40490FDC}, RECORD[2]))
add('a difference that does not last', THREE, f'DIFFERS 0 3 {AFTER_1}', trace=steps({1: ONE, 3: 0xFFFFFFFF}, RECORD[1], RECORD[2]))
add('a lower register at a later step', THREE, f'DIFFERS 0 9 {AFTER_1}', trace=steps({1: ONE, 9: 1}, {9: 0, 0: 1}))
add('a difference on the same step as end', THREE, f'DIFFERS 2 3 {AFTER_3}', trace=steps(*RECORD[:2], {3: 0xFFFFFFFE}))
add('a difference on the last permitted step', THREE, f'DIFFERS 1 2 {AFTER_2}', trace=steps(RECORD[0], {}), limit=2)
add('a difference after the last permitted step', THREE, f'LIMIT 1 {AFTER_1}', trace=steps(RECORD[0], {}), limit=1)
add('a difference in the sign of 0', [of('MOV.i32', C)], 'DIFFERS 0 1', trace=steps({1: MINUS_0}))
add('another NaN recorded', [of('FADD.f32', C + 2, C)], 'DIFFERS 0 1 r1=7FC00000', trace=steps({1: 0x7FFFFFFF}))
add('a difference in a loop', LOOP, 'DIFFERS 2 0 r0=3F800000', {0: 0x40400000}, [MINUS_1], steps({0: TWO}, {}, {}, start={0: 0x40400000}))
add('a loop as recorded', LOOP, 'LIMIT 3 r0=3F800000', {0: 0x40400000}, [MINUS_1], steps({0: TWO}, {}, {0: ONE}, start={0: 0x40400000}), 3)

# a release leaves the contents, and of the flows only `end` acts
add('a release leaves the contents', [of('MOV.i32', 64 + 2)], 'END 1 r1=00000007', {2: 7}, trace=steps({1: 7}, start={2: 7}))
add('a release recorded as a 0', [of('MOV.i32', 64 + 2)], 'DIFFERS 0 2 r1=00000007', {2: 7}, trace=steps({1: 7, 2: 0}, start={2: 7}))
add('released and written', [of('FADD.f32', 64 + 1, 1)], 'END 1 r1=40000000', {1: ONE})
for flow in (1, 2, 3, 4, 5, 6, 7, 8, 9, 10, 13):
    add(f'flow {flow}', [word(row_number('NOP'), flow=flow), of('MOV.i32', C + 1)], 'END 2 r1=FFFFFFFF')
add('what was read before is written over', [of('MUX.i32', 1, 2, 1)], 'END 1 r1=00000009', {1: 5, 2: 9})
add('the next reads what was written', [on('MOV.i32', C + 16), of('FADD.f32', 1, 1)], 'END 2 r1=40000000')
add('r63', [on('NOT_OLD.i32', 63, to=63), of('BITREV.i32', 63, to=0)], 'END 2 r0=EDB7FFFF r63=FFFFEDB7', {63: 0x00001248})

# refusals: the check's own come first
FRCP = of('FRCP.f32', 2)
BAD = [0] * 65
unread = parcel([A_END], [[]], [2])
add('20 before 32', unread, 'REFUSED 20 0 0 2L', trace=BAD)
add('21 before 30', parcel([on('FRCP.f32', C)], [[]], []), 'REFUSED 21 0 0 64')
add('22 before 31', parcel([on('MOV.i32', U), B], [[], [5]], []), 'REFUSED 22 0 0 5L')
add('23 before 32', parcel([A_END], [[1, 2]], [2]), 'REFUSED 23 0 0 1L', trace=BAD)
add('an unreadable word before 32', parcel([A, A | 1 << 63], [[2], [2]], [2]), 'REFUSED 3 63 1 64', trace=BAD)
add('an illegal modifier before 30', parcel([FRCP, 0x00F0C00600020100], [[2], []], [2]), 'REFUSED 6 32 1 64')
add('no parcel before 32', b'', 'REFUSED 12 0 0 64', trace=BAD)
add('another mark', parcel([B], [[]], [], mark=b'VSQ'), 'REFUSED 10 0 0 64')
add('another version', parcel([B], [[]], [], version=3), 'REFUSED 11 0 0 64')
add('byte 5', parcel([B], [[]], [], zero=1), 'REFUSED 13 0 0 64', trace=BAD)
add('a byte more', parcel([B], [[]], []) + b'\0', 'REFUSED 12 0 0 64')
add('20 at a later instruction before 30', parcel([on('FRCP.f32', C), A_END], [[], []], []), 'REFUSED 20 0 1 2L')
# then 32
for length in (1, 63, 65, 127, 129):
    add(f'a trace of {length} numbers', [B], 'REFUSED 32 0 0 64', trace=[0] * length)
add('32 before 30', [FRCP], 'REFUSED 32 0 0 64', trace=BAD)
add('32 before 31', [of('MOV.i32', U)], 'REFUSED 32 0 0 64', trace=BAD)
add('32 with limit 0', THREE, 'REFUSED 32 0 0 64', trace=BAD, limit=0)
add('32 where nothing would be compared', THREE, 'REFUSED 32 0 0 64', trace=steps(*RECORD, {}) + [0], limit=1)
# then 30 or 31 of the lowest instruction, 30 first
for k, row in enumerate(ROWS):
    if row['name'] not in ROWS_RUN:
        add(f'{row["name"]} is not run', [word(k, flow=15)], 'REFUSED 30 0 0 64')
for k, name in enumerate(('h0', 'h1', 'and', 'lowbits'), 1):
    add(f'BRANCHZ with the combine {name}', [branch(2, 0, fields={37: k}), B], 'REFUSED 30 0 0 64')
add('BRANCHZ with a combine and end', [branch(C, 0, end=True, fields={37: 1})], 'REFUSED 30 0 0 64')
for low in (28, 26):
    for value in (1, 2):
        add(f'FADD.f32 with the widen {value} at {low}', [of('FADD.f32', 2, 3, fields={low: value})], 'REFUSED 30 0 0 64')
for name in ROWS_RUN[2:]:
    for mask, half in ((1, 'low'), (2, 'high')):
        add(f'{name} to a {half} half', [of(name, C, C, C, mask=mask)], 'REFUSED 30 0 0 64')
for page, byte, name in ((0, 228, 'warp_id.w0'), (0, 229, 'warp_id.w1'), (1, 226, 'thread_local_pointer.w0'), (3, 255, 'program_counter.w1')):
    add(f'MOV of {name}', [of('MOV.i32', byte, page=page)], 'REFUSED 30 0 0 64')
add('BRANCHZ on a special constant', [branch(228, 0), B], 'REFUSED 30 0 0 64')
add('FADD.f32, a special constant second', [of('FADD.f32', C, 228)], 'REFUSED 30 0 0 64')
add('MUX.i32, a special constant third', [of('MUX.i32', C, C, 228)], 'REFUSED 30 0 0 64')
add('30 at an instruction that is not reached', [B, FRCP], 'REFUSED 30 0 1 64')
add('31 at an instruction that is not reached', [B, of('MOV.i32', U)], 'REFUSED 31 0 1 64')
add('30 with limit 0', [NOP, FRCP], 'REFUSED 30 0 1 64', limit=0)
add('31 with limit 0', [NOP, of('MOV.i32', U)], 'REFUSED 31 0 1 64', limit=0)
add('30 before a difference', [NOP, FRCP], 'REFUSED 30 0 1 64', trace=LONG)
add('30 before 31 on the same instruction', [of('MOV.i32', U, mask=1)], 'REFUSED 30 0 0 64')
add('30 before 31, by a special constant', [of('FADD.f32', U, 228)], 'REFUSED 30 0 0 64')
add('30 before 31, by the row', [of('FRCP.f32', U)], 'REFUSED 30 0 0 64')
add('31 before 30 of a higher instruction', [NOP, on('MOV.i32', U), FRCP], 'REFUSED 31 0 1 64')
add('30 before 31 of a higher instruction', [NOP, on('FRCP.f32', 2), of('MOV.i32', U)], 'REFUSED 30 0 1 64')
add('the lowest of two with 31', [NOP, on('MOV.i32', U + 1), of('MOV.i32', U)], 'REFUSED 31 0 1 64')
# uniforms just inside the list and just past it
add('no uniforms', [of('MOV.i32', U)], 'REFUSED 31 0 0 64')
add('the last uniform', [of('MOV.i32', U + 1)], 'END 1 r1=00000009', uniforms=[8, 9])
add('the uniform past the last', [of('MOV.i32', U + 2)], 'REFUSED 31 0 0 64', uniforms=[8, 9])
add('the second source past the last', [of('FADD.f32', U + 1, U + 2)], 'REFUSED 31 0 0 64', uniforms=[8, 9])
add('the third source past the last', [of('MUX.i32', U, U + 1, U + 2)], 'REFUSED 31 0 0 64', uniforms=[8, 9])
add('BRANCHZ past the last', [branch(U + 2, 0), B], 'REFUSED 31 0 0 64', uniforms=[8, 9])
add('uniform 63', [of('MOV.i32', U + 63)], 'END 1 r1=0000003F', uniforms=range(64))
add('uniform 64, past 64', [of('MOV.i32', U, page=1)], 'REFUSED 31 0 0 64', uniforms=range(64))
add('uniform 64', [of('MOV.i32', U, page=1)], 'END 1 r1=00000040', uniforms=range(65))
add('uniform 255', [of('MOV.i32', U + 63, page=3)], 'END 1 r1=000000FF', uniforms=range(256))
add('uniform 255, past 255', [of('MOV.i32', U + 63, page=3)], 'REFUSED 31 0 0 64', uniforms=range(255))
add('three uniforms of a page', [of('MUX.i32', U + 3, U + 4, U + 5, page=2)], 'END 1 r1=00000084', uniforms=range(256))
add('a page that no source uses', [word(row_number('NOP'), page=3), of('MOV.i32', 2, page=2)], 'END 2 r1=00000007', {2: 7})

# parcels of version 2
add('2: as recorded', whole(THREE, 2), f'END 3 {AFTER_3}', trace=steps(*RECORD))
add('2: a difference', whole(THREE, 2), f'DIFFERS 1 2 {AFTER_2}', trace=steps(RECORD[0], {2: 1}))
add('2: the limit', whole(THREE, 2), f'LIMIT 2 {AFTER_2}', limit=2)
add('2: a loop', whole(LOOP, 2), 'END 7 r0=00000000', {0: 0x40400000}, [MINUS_1])
add('2: entry by halves', halved([A_END], [['2L', '2H']], ['2H', '2L', '5L']), 'END 1 r1=00000007', {2: 7})
add('2: a half that is not held', halved([A_END], [['2L']], [2]), 'REFUSED 20 0 0 2H', trace=BAD)
add('2: a half outside the entry set', halved([A_END], [['1H', 2]], [2]), 'REFUSED 23 0 0 1H')
add('2: two half writes', halved([on('MOV.i32', 2, mask=1), on('MOV.i32', 2, mask=2), of('MOV.i32', 1, to=0)], [[2], ['1L', 2], [1]], [2]),
    'REFUSED 30 0 0 64', {2: 7})
add('2: a trace of 65 numbers', whole(THREE, 2), 'REFUSED 32 0 0 64', trace=BAD)
add('2: a uniform past the list', whole([NOP, of('MOV.i32', U)], 2), 'REFUSED 31 0 1 64')
add('2: another row', whole([NOP, FRCP], 2), 'REFUSED 30 0 1 64')
add('2: the length of version 1', parcel([B], [[]], [])[:3] + b'\2' + parcel([B], [[]], [])[4:], 'REFUSED 12 0 0 64', trace=BAD)

# the most instructions: each adds 1 to what the one before left, with a step back to 0 that is not taken
LONGEST = [on('FADD.f32', k % 64, C + 16, to=(k + 1) % 64) for k in range(2046)] + [branch(C, -2047), B]
add('2048 instructions', LONGEST, 'LIMIT 70 ' + ' '.join(
    f'r{r}={struct.unpack("<I", struct.pack("<f", r + 64 if r <= 6 else r))[0]:08X}' for r in range(64)), limit=70)
add('2048 instructions, the last at fault', [NOP] * 2047 + [FRCP], 'REFUSED 30 0 2047 64')
add('2: 2048 instructions to the end', whole([NOP] * 2047 + [of('MOV.i32', C + 1)], 2), 'END 2048 r1=FFFFFFFF', limit=2048)

# ---- the program


def input_of(steps_told, data, registers, uniforms, trace, limit):
    """The input of the program replayer."""
    numbers = [steps_told, limit, len(uniforms), len(trace), *(registers.get(r, 0) for r in range(64)), *uniforms, *trace]
    return struct.pack(f'<{len(numbers)}I', *numbers) + data


def outcome(data, registers, uniforms, trace, limit):
    """What the program prints after the label."""
    start = [registers.get(r, 0) for r in range(64)]
    (kind, *rest), states = replay(data, start, uniforms, trace, limit)
    said = [kind, '%d %d %d %d%s' % tuple(rest) if kind == 'REFUSED' else ' '.join(map(str, rest))]
    return ' '.join(said + [f'r{r}={now:08X}' for r, (before, now) in enumerate(zip(start, (states or [start])[-1])) if now != before])


def entry(label, data, _due, *given):
    body = input_of(0, data, *given)
    return label.ljust(48).encode('ascii') + len(body).to_bytes(4, 'little') + body


def main(arguments):
    stored = b''.join(entry(*vector) for vector in vectors)
    labels = [label for label, *_ in vectors]
    assert len(stored) <= ROOM and len(set(labels)) == len(labels) and max(map(len, labels)) <= 48, (len(stored), max(labels, key=len))
    lines = []
    for label, data, due, *given in vectors:
        said = outcome(data, *given)
        assert said == due, (label, said, due)
        lines.append(f'{label:48} {said}\n')
    if arguments == ['--input']:
        sys.stdout.buffer.write(stored)
    else:
        sys.stdout.write(''.join(lines))


if __name__ == '__main__':
    main(sys.argv[1:])
