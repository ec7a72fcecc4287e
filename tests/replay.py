"""Parcels with runs for replay, and what must come of them.

    replay.py FOLDER               writes for each case NAME.vsp and NAME.run, and NAME.status, NAME.out, NAME.steps and NAME.err, what the front
                                   does: its status, its standard output without and with --steps, and its standard error
    replay.py --program PROGRAM    runs the program replayer on all cases and vectors, on inputs that the front never makes, and on random runs
    replay.py --input              the stored input of the program replayer
    replay.py                      what it must write for it

All is worked out from the papers (machine.py); answers that are plain from a case are asserted as well."""
import os
import random
import struct
import subprocess
import sys
from front import Run, write, write_replay
from machine import ROWS_RUN, answer_line, replay
from paper01 import LOW, check, halved, infer, parcel, row_number, word
from replays import B, C, INF, LONG, MINUS_0, MINUS_1, NOP, ONE, PLUS_NAN, TENTH, THREE, TWO, U, branch, input_of, of, on, steps, vectors, whole

MOST_UNIFORMS, MOST_NUMBERS, ENOUGH = 256, 262144, 49177
HUNDRED, TWENTY_FIVE, FIFTY, HUNDRED_AND_A_TENTH = 0x42C80000, 0x41C80000, 0x42480000, 0x42C83333

# ---- the cases: the parcel, the run as text, what it says, and how the answer begins

# The ground ahead, point by point: r0 the height, r1 the points to go, r2 how far the point is.
LEVEL = [on('MOV.i32', C, to=2), on('FADD.f32', 2, U, to=2), on('FADD.f32', 0, U + 1, to=0), on('FADD.f32', 1, U + 2, to=1), branch(1, -4),
         of('MOV.i32', 64 + 0, to=3)]
TILTED = LEVEL[:2] + [on('FADD.f32', 0, C + 17, to=0)] + LEVEL[3:]
FLAT = 'r0 = 100.0\nr1 = 2.0\nuniforms 25.0 0.0 -1.0\nlimit 20\n'
FLAT_STEPS = 'step\nstep r2 = 25.0\nstep\nstep r1 = 1.0\nstep\nstep r2 = 50.0\nstep\nstep r1 = 0.0\nstep\nstep r3 = 100.0\n'
START = {0: HUNDRED, 1: TWO}
FLAT_TRACE = steps({}, {2: TWENTY_FIVE}, {}, {1: ONE}, {}, {2: FIFTY}, {}, {1: 0}, {}, {3: HUNDRED}, start=START)
FLAT_RUN = Run(START, [TWENTY_FIVE, 0, MINUS_1], '', FLAT_TRACE, 20)
level, tilted = parcel(LEVEL, [[0, 1]] + [[0, 1, 2]] * 5, [0, 1]), parcel(TILTED, [[0, 1]] + [[0, 1, 2]] * 5, [0, 1])
level2 = halved(LEVEL, [[0, 1]] + [[0, 1, 2]] * 5, [0, 1])
# A logger's lines for a trace, of 64 numbers each.
LOGGED = ''.join('trace ' + ' '.join(f'0x{n:08X}' for n in FLAT_TRACE[i:i + 64]) + '\n' for i in range(0, 640, 64))
HEX_START = 'registers 0x42C80000 0x40000000' + ' 0' * 62 + '\n'
EVERY, ZEROS = {r: START.get(r, 0) for r in range(64)}, dict.fromkeys(range(64), 0)


def alone(w, entry=()):
    """A parcel of one word."""
    return parcel([w], [entry], entry)


def single(number):
    return struct.unpack('<I', struct.pack('<f', number))[0]


def limited(limit):
    return FLAT.replace('20', limit)


def of_flat(**others):
    return FLAT_RUN._replace(**others)


cases = {
    # as a person writes it and as a logger does, in both versions
    'level': (level, FLAT + FLAT_STEPS, FLAT_RUN, 'END after 10 steps, 10 compared'),
    'level-logged': (level, HEX_START + 'uniforms 0x41C80000 0 0xBF800000\nlimit 20\n' + LOGGED, of_flat(registers=EVERY),
                     'END after 10 steps, 10 compared'),
    'level-halves': (level2, FLAT + LOGGED, FLAT_RUN, 'END after 10 steps, 10 compared'),
    'tilted': (tilted, FLAT + FLAT_STEPS, FLAT_RUN, 'DIFFERS at step 2, r0: 42C83333 replayed, 42C80000 recorded'),
    'tilted-alone': (tilted, FLAT, of_flat(trace=[]), 'END after 10 steps, 0 compared'),
    'tilted-two-steps': (tilted, FLAT + 'step\nstep r2 = 25.0\n', of_flat(trace=FLAT_TRACE[:128]), 'END after 10 steps, 2 compared'),
    # traces and limits
    'one-step': (level, FLAT + 'step', of_flat(trace=FLAT_TRACE[:64]), 'END after 10 steps, 1 compared'),
    'longer': (level, FLAT + FLAT_STEPS + 'step r9 = 1\nstep', of_flat(trace=FLAT_TRACE + 2 * (FLAT_TRACE[-64:-55] + [1] + FLAT_TRACE[-54:])),
               'END after 10 steps, 10 compared'),
    'limit-0': (level, limited('0') + FLAT_STEPS, of_flat(limit=0), 'LIMIT after 0 steps, 0 compared'),
    'limit-1': (level, limited('0x1') + FLAT_STEPS, of_flat(limit=1), 'LIMIT after 1 step, 1 compared'),
    'limit-0-alone': (level, limited('0'), of_flat(limit=0, trace=[]), 'LIMIT after 0 steps, 0 compared'),
    'limit-9': (level, limited('9') + FLAT_STEPS, of_flat(limit=9), 'LIMIT after 9 steps, 9 compared'),
    'limit-9-two-steps': (level, limited('9') + 'step\nstep r2=25.0', of_flat(limit=9, trace=FLAT_TRACE[:128]), 'LIMIT after 9 steps, 2 compared'),
    'limit-10': (level, limited('10') + FLAT_STEPS, of_flat(limit=10), 'END after 10 steps, 10 compared'),
    'limit-1-one-step': (level, limited('1') + 'step', of_flat(limit=1, trace=FLAT_TRACE[:64]), 'LIMIT after 1 step, 1 compared'),
    'endless': (whole([branch(C + 1, -1), B]), 'limit 5000\nregisters' + ' 0' * 64, Run(ZEROS, limit=5000), 'LIMIT after 5000 steps, 0 compared'),
    # differences: at the first step, of several registers, of what the step did not touch
    'differs-at-0': (level, FLAT + 'step r2 = 1', of_flat(trace=steps({2: 1}, start=START)), 'DIFFERS at step 0, r2: 00000000 replayed, 00000001 recorded'),
    'differs-in-two': (level, FLAT + 'step\nstep r63 = nan r40 = -0.0', of_flat(trace=steps({}, {63: PLUS_NAN, 40: MINUS_0}, start=START)),
                       'DIFFERS at step 1, r2: 41C80000 replayed, 00000000 recorded'),
    'differs-elsewhere': (level, FLAT + 'step\nstep r2 = 25.0 r63 = inf', of_flat(trace=steps({}, {2: TWENTY_FIVE, 63: INF}, start=START)),
                          'DIFFERS at step 1, r63: 00000000 replayed, 7F800000 recorded'),
    'differs-in-all': (level, FLAT + 'trace' + ' 1048576' * 64, of_flat(trace=LONG), 'DIFFERS at step 0, r0: 42C80000 replayed, 00100000 recorded'),
    'differs-at-the-end': (level, FLAT + FLAT_STEPS.replace('r3 = 100.0', 'r3 = 100.5'), of_flat(trace=FLAT_TRACE[:-61] + [0x42C90000] + FLAT_TRACE[-60:]),
                           'DIFFERS at step 9, r3: 42C80000 replayed, 42C90000 recorded'),
    # registers that the parcel counts on and the run does not give; uniforms that it leaves out
    'not-given-1': (level, 'r1 = 2.0\nuniforms 25.0 0.0 -1.0\nlimit 20\n', of_flat(registers={1: TWO}, trace=[]), 'END after 10 steps'),
    'not-given-2': (level, 'u0 = 25.0 u2 = -1.0\nlimit 3\n', Run({}, [TWENTY_FIVE, 0, MINUS_1], 'u1', limit=3), 'LIMIT after 3 steps'),
    'not-given-rows': (alone(B, [0, 2, 3, 4, 5, 7, 8, 63]), 'r3 = 0\nlimit 1', Run({3: 0}, limit=1), 'END after 1 step'),
    'not-given-halves': (halved([B], [[]], [0, '1L', '2L', '3L', '5H', 9, '63H']), 'r9 = 1 r2 = 1\nlimit 1', Run({9: 1, 2: 1}, limit=1),
                         'END after 1 step'),
    'not-given-one-half': (halved([B], [[]], ['1L', 9]), 'r9 = 1\nlimit 1', Run({9: 1}, limit=1), 'END after 1 step'),
    'given-and-no-halves': (halved([B], [[]], ['1L', '9H']), 'r1 = 1, r9 = 1, r20 = 2\nlimit 1', Run({9: 1, 1: 1, 20: 2}, limit=1), 'END after 1 step'),
    'uniforms-left-out': (alone(of('MOV.i32', U + 5, page=1)), 'u69 = 1.0\nu2 = 0x7\nu3=1\nlimit 1',
                          Run({}, [0] * 2 + [7, 1] + [0] * 65 + [ONE], 'u0, u1, u4 to u68', limit=1), 'END after 1 step'),
    'uniforms-mixed': (alone(of('MOV.i32', U + 2)), 'uniforms 1 2\nu4 = 4\nuniforms 3\nlimit 1', Run({}, [1, 2, 3, 0, 4], 'u3', limit=1),
                       'END after 1 step'),
    # steps of all kinds of numbers
    'kinds': (whole(THREE), 'limit 3\nstep r1 = 1.0\nstep r2 = 3.1415927\nstep r3 = -1\n',
              Run(trace=steps({1: ONE}, {2: 0x40490FDB}, {3: 0xFFFFFFFF}), limit=3), 'END after 3 steps'),
    'bits': (whole([on('MOV.i32', C + k, to=k) for k in range(32)] + [B]), 'limit 33', Run(limit=33), 'END after 33 steps'),
    # refusals of replay itself
    'refused-30': (alone(of('FRCP.f32', C, to=4)), 'limit 1', Run(limit=1), 'REFUSED 30 0000 64'),
    'refused-30-later': (whole([NOP, NOP, of('FADD.v2f16', 2, 3)], 2), HEX_START + 'limit 1', Run(EVERY, limit=1), 'REFUSED 30 0002 64'),
    'refused-30-branch': (whole([branch(3, -1, fields={36: 1, 37: 2}), B]), HEX_START + 'limit 1', Run(EVERY, limit=1), 'REFUSED 30 0000 64'),
    'refused-30-widen': (alone(of('FADD.f32', C, C, fields={28: 1, 32: 3, 36: 1})), 'limit 1', Run(limit=1), 'REFUSED 30 0000 64'),
    'refused-30-half': (alone(of('MOV.i32', C + 16, mask=2)), 'limit 1', Run(limit=1), 'REFUSED 30 0000 64'),
    'refused-30-special': (alone(of('MOV.i32', 228)), 'limit 1', Run(limit=1), 'REFUSED 30 0000 64'),
    'refused-30-discard': (alone(of('DISCARD.f32', C, C)), 'limit 0', Run(limit=0), 'REFUSED 30 0000 64'),
    'refused-31': (level, 'uniforms 25.0 0.0\nlimit 20\nr0 = 1 r1 = 2', of_flat(registers={0: 1, 1: 2}, uniforms=[TWENTY_FIVE, 0], trace=[]),
                   'REFUSED 31 0003 64'),
    'refused-31-one': (level, 'u0 = 25.0\nlimit 20', Run({}, [TWENTY_FIVE], limit=20), 'REFUSED 31 0002 64'),
    'refused-31-none': (level2, 'limit 20', Run(limit=20), 'REFUSED 31 0001 64'),
    'refused-31-last': (alone(of('MOV.i32', U + 63, page=3)), 'uniforms' + ' 1' * 255 + '\nlimit 20', Run({}, [1] * 255, limit=20), 'REFUSED 31 0000 64'),
    'refused-32': (level, FLAT + 'trace' + ' 0' * 65, of_flat(trace=[0] * 65), 'REFUSED 32 0000 64'),
    'refused-32-one': (level, FLAT + 'trace 1.5', of_flat(trace=[0x3FC00000]), 'REFUSED 32 0000 64'),
    'refused-32-first': (alone(of('FRCP.f32', U)), 'limit 1\ntrace 1 2', Run(trace=[1, 2], limit=1), 'REFUSED 32 0000 64'),
    # the check's own
    'refused-20': (parcel([of('MOV.i32', 2)], [[]], [2]), 'limit 1\ntrace 1', Run(trace=[1], limit=1), 'REFUSED 20 0000 02L'),
    'refused-20-half': (halved([of('MOV.i32', 2)], [['2L']], [2]), 'limit 1', Run(limit=1), 'REFUSED 20 0000 02H'),
    'refused-21': (parcel([NOP], [[]], []), 'limit 1', Run(limit=1), 'REFUSED 21 0000 64'),
    'refused-22': (parcel([NOP, B], [[], [5]], [5]), 'limit 1\nr5 = 1', Run({5: 1}, limit=1), 'REFUSED 22 0000 05L'),
    'refused-23': (parcel([B], [[5]], []), 'limit 1', Run(limit=1), 'REFUSED 23 0000 05L'),
    'refused-3': (parcel([NOP, 1 << 63 | 1 << 9, B], [[]] * 3, [4]), 'limit 1', Run(limit=1), 'REFUSED 03 0001 64 09'),
    'refused-2': (parcel([0x00B2C20000038242], [[]], []), 'limit 1', Run(limit=1), 'REFUSED 02 0000 64 00'),
    'refused-10': (b'VSQ' + level[3:], 'limit 1\nu5 = 1', Run({}, [0] * 5 + [1], limit=1), 'REFUSED 10 0000 64'),
    'refused-11': (parcel([B], [[]], [], version=3), 'limit 1', Run(limit=1), 'REFUSED 11 0000 64'),
    'refused-12-empty': (b'', 'limit 1', Run(limit=1), 'REFUSED 12 0000 64'),
    'refused-12-long': (whole([NOP] * 2047 + [B], 2) + bytes(20000), 'limit 1', Run(limit=1), 'REFUSED 12 0000 64'),
    'refused-13': (parcel([B], [[]], [], zero=9), 'limit 1', Run(limit=1), 'REFUSED 13 0000 64'),
    # the most that a run can have
    'most': (whole([on('FADD.f32', 0, U + 63, to=0, page=3), branch(C + 1, -2), B]), 'limit 5000\nuniforms' + ' 0.0' * 255 + ' 1.0\nregisters'
             + ' 0' * 64 + '\n' + ''.join(f'step r0 = {k + 1}.0\nstep\n' for k in range(2048)),
             Run(ZEROS, [0] * 255 + [ONE], '', steps(*({0: single(k // 2 + 1)} for k in range(4096))), 5000), 'LIMIT after 5000 steps, 4096 compared'),
}

# ---- the program


def program_input(steps_told, data, run):
    return input_of(steps_told, data[:ENOUGH], run.registers, run.uniforms, run.trace, run.limit)


def told(data):
    """What the program writes for an input, or None where that is too short for what it says, or says too much."""
    if len(data) < 16:
        return None
    steps_told, limit, uniforms, numbers = struct.unpack_from('<4I', data)
    first = 272 + 4 * uniforms
    last = first + 4 * numbers
    if uniforms > MOST_UNIFORMS or numbers > MOST_NUMBERS or len(data) < last:
        return None
    trace = list(struct.unpack_from(f'<{numbers}I', data, first))
    start, given = list(struct.unpack_from('<64I', data, 16)), struct.unpack_from(f'<{uniforms}I', data, 272)
    answer, states = replay(data[last:last + ENOUGH], start, given, trace, limit)
    lines = [''.join(f'{n:08X}' for n in state) for state in states] if steps_told else []
    return ''.join(line + '\n' for line in [*lines, answer_line(answer, states, trace)])


# What is stored: every row that is run, in a loop, with three steps of its record.
STORED = LEVEL[:5] + [on('MUX.i32', 0, 2, 1, to=3, fields={32: 2}), on('CLZ.u32', 2, to=4), on('POPCOUNT.i32', 2, to=5), on('BITREV.i32', 2, to=6),
                      on('NOT_OLD.i32', 64 + 1, to=7), on('FADD.f32', 0, 2, to=8, fields={32: 1, 36: 1, 37: 1}), B]
stored = input_of(1, whole(STORED, 2), START, [TWENTY_FIVE, TENTH, MINUS_1],
                  steps({}, {2: TWENTY_FIVE}, {0: HUNDRED_AND_A_TENTH}, start=START), 20)


def raw_inputs():
    """Inputs that the front never makes, and the limits of those that it makes."""
    good = input_of(0, level, START, [1, 2, 3], FLAT_TRACE[:64], 3)
    assert told(good) is not None and told(good[:272 + 12 + 256]) == 'REFUSED 12 0000 64\n'
    yield from (good[:length] for length in (0, 1, 4, 15, 16, 17, 100, 271, 272, 273, 283, 284, 539, 540, 541, 556, len(good) - 1, len(good)))
    for uniforms, numbers in ((257, 0), (0xFFFFFFFF, 0), (1 << 31, 0), (1 << 30, 0), (0, 262145), (0, 262208), (0, 0xFFFFFFFF), (0, 1 << 31),
                              (1 << 30, 1 << 30), (0xFFFFFFFF, 0xFFFFFFFF)):
        yield struct.pack('<4I', 0, 3, uniforms, numbers) + good[16:]
        yield struct.pack('<4I', 1, 3, uniforms, numbers) + good[16:] + bytes(1100000)
    for uniforms, numbers in ((256, 262144), (255, 262143), (256, 64), (0, 262144)):
        longest = struct.pack('<4I', 0, 3, uniforms, numbers) + bytes(256 + 4 * (uniforms + numbers))
        yield from (longest + data for data in (level2, b'', whole([NOP] * 2047 + [B], 2), whole([NOP] * 2047 + [B], 2) + bytes(20000)))
        yield longest[:-1]


NUMBERS = (0, MINUS_0, 1, 0x80000001, 0x007FFFFF, 0x00800000, ONE, MINUS_1, TWO, TENTH, 0x33800000, ONE + 1, 0x4B800000, 0x7F7FFFFF, INF, INF | MINUS_0,
           PLUS_NAN, 0xFFC12345, 0x7F800001, 0x73000000)


def seldom(draw, usual, *others):
    """The usual, or once in fifty times another."""
    return draw.choice((usual,) * 50 + others)


def random_source(draw):
    few = draw.randrange(4)
    return draw.choice((few, few, few, U + few, C + draw.randrange(32), seldom(draw, few, 64 + few, 228)))


def random_word(draw, i, count):
    """Instruction i of so many, mostly one that is run, with few registers and uniforms."""
    name, fields = seldom(draw, draw.choice(ROWS_RUN + ['BRANCHZ', 'FADD.f32']), 'FRCP.f32'), {}
    if name == 'BRANCHZ':
        fields = {35: draw.randrange(2), 36: draw.randrange(2), 37: seldom(draw, 0, 1, 4)}
    elif name == 'MUX.i32':
        fields = {32: draw.randrange(4)}
    elif name == 'FADD.f32':
        fields = {32: draw.randrange(4), 26: seldom(draw, 0, 1), 28: seldom(draw, 0, 2), **{low: draw.randrange(2) for low in (36, 37, 38, 39)}}
    return word(row_number(name), page=seldom(draw, 0, 1), flow=draw.choice((0,) * 10 + (9, 15)), register=draw.randrange(4), mask=seldom(draw, 3, 1, 2),
                sources=[random_source(draw) for _ in range(3)], fields=fields, offset=seldom(draw, draw.randrange(count), count) - i - 1)


def random_number(draw):
    return draw.choice((draw.choice(NUMBERS), draw.choice(NUMBERS), draw.getrandbits(32)))


def random_input(draw):
    count = draw.randrange(1, 9)
    words = [random_word(draw, i, count) for i in range(count)]
    words[-1] |= seldom(draw, 15, 0) << 59
    version = draw.choice((1, 2))
    made = infer(version, b''.join(w.to_bytes(8, 'little') for w in words), seldom(draw, LOW, 0b11), LOW)
    data = made[2] if made[0] == 'notes' else parcel(words, [range(64)] * len(words), range(64), version=version)
    start = {r: random_number(draw) for r in range(5)}
    uniforms, limit = [random_number(draw) for _ in range(seldom(draw, 4, 70, 1))], draw.randrange(draw.choice((5, 40)))
    _, states = replay(data, [start.get(r, 0) for r in range(64)], uniforms, [], limit)
    trace = [n for state in states for n in state][:64 * draw.randrange(40)]
    if trace and draw.randrange(2):
        trace[draw.randrange(len(trace))] ^= 1 << draw.randrange(32)
    trace += seldom(draw, [], [0], [7] * 64)
    return input_of(draw.randrange(2), data, start, uniforms, trace, limit)


def run(program, data):
    """Runs the program, and gives the first word of its answer."""
    done = subprocess.run([program], input=data, capture_output=True, check=False)
    said, error = done.stdout.decode('ascii', 'replace'), done.stderr.decode('ascii', 'replace')
    due = told(data)
    if due is None:
        assert (done.returncode, said) == (0, '') and error.startswith('replayer: ') and error.count('\n') == 1, (data[:400].hex(), said, error)
        return 'none'
    assert (done.returncode, said, error) == (0, due, ''), (data[:2000].hex(), done.returncode, said[-200:], due[-200:], error)
    return due.rpartition('\n')[0].rpartition('\n')[2].split()[0]


def run_all(program):
    answers = []
    for data, _, given, due in cases.values():
        assert told(program_input(0, data, given)).startswith(due), due
        answers += [run(program, program_input(steps_told, data, given)) for steps_told in (0, 1)]
    answers += [run(program, input_of(k % 2, data, *given)) for k, (_, data, _, *given) in enumerate(vectors)]
    answers += [run(program, data) for data in raw_inputs()]
    draw = random.Random(8)
    drawn = [run(program, random_input(draw)) for _ in range(600)]
    counts = {kind: drawn.count(kind) for kind in ('END', 'LIMIT', 'DIFFERS', 'REFUSED')}
    assert min(counts.values()) > 30, counts
    print(f'replayer: {len(answers) + len(drawn)} inputs, as the papers say')


# ---- the calls


def main(arguments):
    if arguments == ['--input']:
        sys.stdout.buffer.write(stored)
    elif not arguments:
        assert told(stored).endswith('\nEND after 16 steps, 3 compared\n') and told(stored).count('\n') == 17, told(stored)
        sys.stdout.write(told(stored))
    elif arguments[0] == '--program':
        run_all(arguments[1])
    else:
        for name, (data, text, given, due) in cases.items():
            write(arguments[0], name + '.vsp', data)
            write(arguments[0], name + '.run', text.encode())
            write_replay(arguments[0], name, data, given, os.path.join(arguments[0], name + '.run'))
            assert told(program_input(0, data, given)).startswith(due), (name, due)


assert check(level) is None and check(tilted) is None and check(level2) is None
if __name__ == '__main__':
    main(sys.argv[1:])
