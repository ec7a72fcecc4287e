"""Tries the scripts of front/, which turn a run into bytes and steps into text: numbers, every refusal of a run with its line, and how steps are shown.

Numbers are held to those that are written out here, and to exact ones: a number of times 2^-150 is a decimal of 150 places, and lies on a single
or in the middle between two."""
import os
import random
import struct
import subprocess
import sys
import tempfile

sys.dont_write_bytecode = True
folder = os.path.join(os.path.dirname(os.path.abspath(__file__)), '..', 'front')
sys.path.insert(0, folder)
import run
import singles
import steps
from machine import rounded, units

LARGEST = 0x7F7FFFFF

# ---- numbers

NUMBERS = """
    0:00000000 1:00000001 100:00000064 4294967295:FFFFFFFF 2147483648:80000000 -1:FFFFFFFF -2147483648:80000000 +7:00000007 007:00000007 -0:00000000
    0x0:00000000 0x42C80000:42C80000 0xffffffff:FFFFFFFF 0XfF:000000FF 0x00000000000000001:00000001
    0.0:00000000 -0.0:80000000 1.0:3F800000 1.:3F800000 +1.5:3FC00000 .5:3F000000 -.5:BF000000 100.0:42C80000 1e2:42C80000 1E+2:42C80000 1000e-1:42C80000
    100.5:42C90000 0.1:3DCCCCCD 0.2:3E4CCCCD 3.1415927:40490FDB -2e-3:BB03126F 65535.0:477FFF00 16777216.0:4B800000 00001.50000:3FC00000
    16777217.0:4B800000 16777219.0:4B800002 16777217.0000001:4B800001 3.4028235e38:7F7FFFFF -3.4028235e38:FF7FFFFF 3.4028235677973366e38:7F7FFFFF
    1.1754944e-38:00800000 1.1754942e-38:007FFFFF 1.4e-45:00000001 1e-45:00000001 7.1e-46:00000001 7.0e-46:00000000 -7.0e-46:80000000 1e-46:00000000
    1e-999999999:00000000 -0e999999999:80000000 0.0e99999999999999999999:00000000 1e-99999999999999999999:00000000
    inf:7F800000 +inf:7F800000 -inf:FF800000 nan:7FC00000 -nan:FFC00000
""".split()
# Each with what the sentence says of it.
NO_NUMBERS = [(text, 'is no number: one is written as') for text in (
    '', '.', '-', '+', 'e5', '.e5', '1e', '1e+', '--1', '+-1', '1-', '0x', '0xG', '0x1.8', '-0x1', '+0x1', '1_0', '1.5f', '1.2.3', '1e5.0', '1e5e5',
    'Inf', 'NaN', 'infinity', 'snan', '+nan', '42C80000', 'x42C80000', '42C80000h', '$1', '1,5', '\u0661', '\uff11', '1\xa0', '\0', '#1', "'1'", '0b1',
    '1/3', 'r0', 'r0=1')] + [
    ('4294967296', 'is no number of 32 bits'), ('-2147483649', 'is no number of 32 bits'), ('9' * 999, 'is no number of 32 bits'),
    ('0x100000000', 'has more than 32 bits'), ('0x' + 'F' * 900, 'has more than 32 bits'),
    ('3.4028235677973367e38', 'is too large for a single'), ('-3.5e38', 'is too large for a single'), ('1e39', 'is too large for a single'),
    ('1e999999999', 'is too large for a single'), ('-1e99999999999999999999', 'is too large for a single'), ('1' * 40 + '.0', 'is too large for a single'),
    ('1' * 1001, 'has 1001 characters'), ('0.' + '0' * 999, 'has 1001 characters')]
# Bits, and the number as it is shown.
SHOWN = """
    00000000:0.0 80000000:-0.0 3F800000:1.0 BFC00000:-1.5 42C80000:100.0 42C90000:100.5 42C83333:100.1 3DCCCCCD:0.1 3E99999A:0.3 40490FDB:3.1415927
    00000001:1e-45 80000001:-1e-45 00000002:3e-45 00800000:1.1754944e-38 007FFFFF:1.1754942e-38 7F7FFFFF:3.4028235e+38 FF7FFFFF:-3.4028235e+38
    4B800000:16777216.0 501502F9:1e+10 501502F8:9999999000.0 3727C5AC:0.00001 3727C5AB:9.999999e-06 38D1B717:0.0001 38D1B716:0.00009999999
    0F800000:1.2621775e-29 6C800000:1.2379401e+27 477FFF00:65535.0 C9A937A6:-1386228.8 461C4000:10000.0
    7F800000:inf FF800000:-inf 7FC00000:nan FFC00000:nan 7F800001:nan FFFFFFFF:nan
""".split()


def wrong(call, *arguments):
    """The sentence with which something is refused, or what it gives."""
    try:
        return f'not refused: {call(*arguments)}'
    except singles.Wrong as sentence:
        return str(sentence)


def reads_numbers():
    for text, due in (pair.rsplit(':', 1) for pair in NUMBERS):
        assert f'{singles.number(text):08X}' == due, (text, f'{singles.number(text):08X}', due)
    for text, due in NO_NUMBERS:
        said = wrong(singles.number, text)
        assert due in said and said.endswith('.') and len(said) < 250, (text[:80], said)


def exact(count):
    """A number of times 2^-150 as a decimal, with an exponent or without."""
    digits = str(count * 5 ** 150)
    padded = digits.zfill(151)
    return random_draw.choice((f'{digits}e-150', f'{digits[:1]}.{digits[1:]}e{len(digits) - 151}', f'{padded[:-150]}.{padded[-150:]}'))


def just(count, more):
    """A decimal that is more or less than that number by a hair, which a double does not see."""
    return f'{count * 5 ** 150 * 10 ** 300 + (1 if more else -1)}e-450'


def rounds_once():
    """Singles are read as they are. The middle between two goes to the even one, and what lies a hair beside it to the nearer one."""
    edges = [0, 1, 2, 0x007FFFFE, 0x007FFFFF, 0x00800000, 0x00800001, 0x00FFFFFF, 0x01000000, 0x3F7FFFFF, 0x3F800000, 0x3F800001, LARGEST - 2, LARGEST - 1]
    for bits in edges + [random_draw.randrange(LARGEST) for _ in range(3000)]:
        here, there = 2 * units(bits), 2 * units(bits + 1)
        middle = (here + there) // 2
        assert singles.number(exact(here)) == bits, f'{bits:08X}'
        assert singles.number('-' + exact(there)) == bits + 1 | 0x80000000, f'{bits:08X}'
        assert singles.number(exact(middle)) == bits + bits % 2, f'{bits:08X}'
        assert singles.number(just(middle, True)) == bits + 1 and singles.number(just(middle, False)) == bits, f'{bits:08X}'
    # past the largest: the middle to 2^128 would go to infinity, which is no number that was meant
    past = 2 * units(LARGEST) + (units(LARGEST) - units(LARGEST - 1))
    assert 'too large' in wrong(singles.number, exact(past)) and singles.number(just(past, False)) == LARGEST


def rounds_fractions():
    """Fractions against the second reading, which knows whole numbers of times 2^-149."""
    for _ in range(3000):
        size = random_draw.getrandbits(random_draw.randrange(1, 277))
        assert singles.nearest(size, 1 << 149) == (rounded(size) if size else 0), size
        assert singles.nearest(size * 3, 3 << 149) == singles.nearest(size, 1 << 149), size


def shows_numbers():
    for bits, due in (pair.split(':') for pair in SHOWN):
        assert singles.single(int(bits, 16)) == due, (bits, singles.single(int(bits, 16)), due)
    assert singles.shown(0x42C80000) == '42C80000 (100.0, 1120403456)'
    drawn = [random_draw.getrandbits(32) for _ in range(3000)] + [k << 23 for k in range(1, 255)]
    for bits in (bits for bits in drawn if bits & 0x7FFFFFFF <= LARGEST):
        assert singles.number(singles.single(bits)) == bits, f'{bits:08X}'
    for bits in (bits & 0x7FFFFFFF for bits in drawn if 0 < bits & 0x7FFFFFFF < LARGEST):
        is_shortest(bits)


def is_shortest(bits):
    """No decimal with a digit less lies where it would be read as these bits: between the middles to the singles below and above."""
    digits, power = singles.shortest(bits)
    while digits % 10 == 0:
        digits, power = digits // 10, power + 1
    below, above = (units(bits) + units(bits - 1)) * 5 ** 150, (units(bits) + units(bits + 1)) * 5 ** 150
    digit = 10 ** (power + 1 + 150) if power + 151 >= 0 else None  # of the last place but one, in 10^-150
    if digits >= 10 and digit:
        first = -(-below // digit)
        assert first * digit > above or first * digit in (below, above) and bits % 2 == 1, f'{bits:08X}'


# ---- runs


def given(registers=(), uniforms=(), limit=1, trace=(), named=None, without=''):
    """What a run says: the program's input, and the facts."""
    start = [dict(registers).get(r, 0) for r in range(64)]
    numbers = [0, limit, len(uniforms), len(trace), *start, *uniforms, *trace]
    named = sorted(dict(registers)) if named is None else named
    return struct.pack(f'<{len(numbers)}I', *numbers), \
        f'registers {" ".join(map(str, named))}\nuniforms {len(uniforms)}\nwithout {without}\ntrace {len(trace)}\n'


def row(**changes):
    return [changes.get(f'r{r}', 0) for r in range(64)]


ZEROS = ' 0' * 64
RUNS = [
    ('limit 1', given()),
    ('limit 0', given(limit=0)),
    ('limit 4294967295\n', given(limit=0xFFFFFFFF)),
    ('limit 0xFFFFFFFF', given(limit=0xFFFFFFFF)),
    ('limit 007\n\n', given(limit=7)),
    ('\ufefflimit 1\n', given()),
    ('# a run \u00e4\r\n\r\n  limit\t1 # so many\r\n#\r\n', given()),
    # registers, in any order, one or more in a line, with blanks, tabs and commas or without
    ('r0 = 1.5\nr63=7\nlimit 1', given({0: 0x3FC00000, 63: 7})),
    ('r3=1 r2 =2,r1= 3\t,\tr00 = 4\nlimit 1\nr07=5', given({3: 1, 2: 2, 1: 3, 0: 4, 7: 5})),
    ('registers 1 2, 3\nlimit 1', given({0: 1, 1: 2, 2: 3})),
    ('registers 1\nregisters\nregisters 2 3\nr5 = 0\nlimit 1', given({0: 1, 1: 2, 2: 3, 5: 0})),
    ('r1 = 7\nregisters 1\nlimit 1', given({0: 1, 1: 7})),
    ('registers' + ''.join(f' {k}' for k in range(64)) + '\nlimit 1', given({k: k for k in range(64)})),
    # uniforms, after the trace too
    ('uniforms 1 2.0\nuniforms 0x3\nlimit 1', given((), [1, 0x40000000, 3])),
    ('u1 = 2 u0 = 1\nlimit 1', given((), [1, 2])),
    ('u3 = 2\nlimit 1', given((), [0, 0, 0, 2], without='u0 to u2')),
    ('u1 = 2 u4 = 3, u9 = 4\nlimit 1', given((), [0, 2, 0, 0, 3, 0, 0, 0, 0, 4], without='u0, u2, u3, u5 to u8')),
    ('u255 = 2\nuniforms' + ' 1' * 255 + '\nlimit 1', given((), [1] * 255 + [2])),
    ('step\nu0 = 2\nlimit 1', given((), [2], trace=row())),
    ('r0 = 1 u0 = 2\nlimit 1', given({0: 1}, [2])),
    # steps: what is not named is as before
    ('r0 = 9\nstep r1 = 1\nstep\nstep r0 = 2, r2=3.0\nlimit 1',
     given({0: 9}, trace=row(r0=9, r1=1) + row(r0=9, r1=1) + row(r0=2, r1=1, r2=0x40400000))),
    ('limit 1\nstep', given(trace=row())),
    # a logger's trace, in lines of any length, and both in turn
    (f'trace{ZEROS}\nlimit 1', given(trace=row())),
    ('trace 1\ntrace' + ' 0' * 62 + '\ntrace\ntrace 7\nlimit 1', given(trace=row(r0=1, r63=7))),
    (f'step r5 = 5\ntrace 1{ZEROS[2:]}\nstep r1 = 1\nlimit 1', given(trace=row(r5=5) + row(r0=1) + row(r0=1, r1=1))),
    # a length that is no multiple of 64 is for the program
    ('trace 1\nlimit 1', given(trace=[1])),
    (f'trace{ZEROS} 1\nlimit 1', given(trace=row() + [1])),
    ('limit 1\n' + f'trace{ZEROS}\n' * 4096, given(trace=[0] * 262144)),
    ('limit 1\n' + 'step\n' * 4096, given(trace=[0] * 262144)),
]
NO_LIMIT = 'There is no line with the limit, as in limit 100: after so many steps the run stops at the latest.'
TOO_LONG = 'The trace has more than 4096 steps of 64 numbers, which is the most that a run can have.'
BEGINS = "begins no line; one begins with registers, uniforms, limit, step or trace, or with a register or a uniform, as in r0 = 1.5."
# A run, the line at fault, and what is said of it.
REFUSALS = [
    ('', 1, NO_LIMIT),
    ('\n# limit 1\n', 1, NO_LIMIT),
    ('r0 = 1\nstep\n', 1, NO_LIMIT),
    ('limit 1\n\nlimit 1', 3, 'A line before this one gives the limit.'),
    ('limit', 1, "The limit is one number of steps, from 0 to 4294967295, and '' is none."),
    ('limit 1 2', 1, "The limit is one number of steps, from 0 to 4294967295, and '1 2' is none."),
    ('limit = 5', 1, "The limit is one number of steps, from 0 to 4294967295, and '= 5' is none."),
    ('limit 1.0', 1, "The limit is one number of steps, from 0 to 4294967295, and '1.0' is none."),
    ('limit -1', 1, "The limit is one number of steps, from 0 to 4294967295, and '-1' is none."),
    ('limit 1e3', 1, "The limit is one number of steps, from 0 to 4294967295, and '1e3' is none."),
    ('limit inf', 1, "The limit is one number of steps, from 0 to 4294967295, and 'inf' is none."),
    ('limit 4294967296', 1, "The limit is one number of steps, from 0 to 4294967295, and '4294967296' is none."),
    ('limit 0x100000000', 1, "The limit is one number of steps, from 0 to 4294967295, and '0x100000000' is none."),
    ('limit 1\nr0 = -2147483649', 2, "'-2147483649' is no number of 32 bits: those go from -2147483648 to 4294967295; with a point, as in 1.0, it is a single."),
    ('limit 1\nr0 = one', 2, "'one' is no number: one is written as 100, -1, 0x42C80000, 1.5, 2e-3, inf or nan."),
    ('limit 1\nr0 = 42C80000', 2, "'42C80000' is no number: one is written as 100, -1, 0x42C80000, 1.5, 2e-3, inf or nan."),
    ('limit 1\nr0 = 1e39', 2, "'1e39' is too large for a single, which goes to 3.4028235e38."),
    ('limit 1\nr0 = 0x1FFFFFFFF', 2, "'0x1FFFFFFFF' has more than 32 bits."),
    ('limit 1\nr0', 2, 'r0 needs = and a number after it, as in r0 = 1.5.'),
    ('limit 1\nr0 1.5', 2, 'r0 needs = and a number after it, as in r0 = 1.5.'),
    ('limit 1\nr0 =', 2, 'r0 needs = and a number after it, as in r0 = 1.5.'),
    ('limit 1\nr0 = = 1', 2, 'r0 needs = and a number after it, as in r0 = 1.5.'),
    ('limit 1\nu7 = 1 u8', 2, 'u8 needs = and a number after it, as in u8 = 1.5.'),
    ('limit 1\nr0 = 1 2', 2, "'2' stands where a register or a uniform does, as r0 or u0."),
    ('limit 1\nu1 = 2 uniforms 3', 2, "'uniforms' stands where a register or a uniform does, as r0 or u0."),
    ('limit 1\nr0 = 1 limit 2', 2, "'limit' stands where a register or a uniform does, as r0 or u0."),
    ('limit 1\nr64 = 1', 2, "The number of a register goes from 0 to 63, and that of 'r64' is more."),
    ('limit 1\nr0064 = 1', 2, "The number of a register goes from 0 to 63, and that of 'r0064' is more."),
    ('limit 1\nr' + '9' * 5000 + ' = 1', 2, "The number of a register goes from 0 to 63, and that of 'r" + '9' * 39 + "..' is more."),
    ('limit 1\nu256 = 1', 2, "The number of a uniform goes from 0 to 255, and that of 'u256' is more."),
    ('limit 1\nr0 = 1 r1 = 2 r0 = 1', 2, 'r0 has a number already.'),
    ('limit 1\nr0 = 1\nregisters 1', 3, 'r0 has a number already.'),
    ('limit 1\nregisters 1 2\nr1 = 2', 3, 'r1 has a number already.'),
    ('limit 1\nu1 = 1\nuniforms 1\nuniforms 2', 4, 'u1 has a number already.'),
    ('limit 1\nuniforms 1\nu0 = 1', 3, 'u0 has a number already.'),
    ('limit 1\nregisters' + ZEROS + '\n\nregisters 7', 4, "There are 64 registers, and '7' is one more."),
    ('limit 1\nuniforms' + ' 1' * 257, 2, "There are 256 uniforms, and '1' is one more."),
    ('limit 1\nregisters r0 = 1', 2, "'r0' is no number: one is written as 100, -1, 0x42C80000, 1.5, 2e-3, inf or nan."),
    ('limit 1\nstep\nr0 = 1', 3, 'The registers that the run starts with stand before its trace.'),
    ('limit 1\ntrace\nregisters 1', 3, 'The registers that the run starts with stand before its trace.'),
    ('limit 1\nstep 1 2 3', 2, "'1' stands where a register or a uniform does, as r0 or u0."),
    ('limit 1\nstep r0', 2, 'r0 needs = and a number after it, as in r0 = 1.5.'),
    ('limit 1\nstep r0 = x', 2, "'x' is no number: one is written as 100, -1, 0x42C80000, 1.5, 2e-3, inf or nan."),
    ('limit 1\nstep r64 = 1', 2, "The number of a register goes from 0 to 63, and that of 'r64' is more."),
    ('limit 1\nstep u0 = 1', 2, 'A step has registers, and u0 is none.'),
    ('limit 1\nstep r1 = 1 r1 = 1', 2, 'r1 is named twice.'),
    ('limit 1\ntrace 1 2\nstep', 3, 'The trace has 2 numbers before this step, which are no whole steps of 64.'),
    ('limit 1\ntrace r0 = 1', 2, "'r0' is no number: one is written as 100, -1, 0x42C80000, 1.5, 2e-3, inf or nan."),
    ('limit 1\ntrace 1 two', 2, "'two' is no number: one is written as 100, -1, 0x42C80000, 1.5, 2e-3, inf or nan."),
    ('limit 1\n' + 'step\n' * 4097, 4098, TOO_LONG),
    ('limit 1\n' + f'trace{ZEROS}\n' * 4096 + 'trace\ntrace 1', 4099, TOO_LONG),
    ('limit 1\nR0 = 1', 2, f"'R0' {BEGINS}"),
    ('limit 1\nr = 1', 2, f"'r' {BEGINS}"),
    ('limit 1\nr-1 = 1', 2, f"'r-1' {BEGINS}"),
    ('limit 1\nr1L = 1', 2, f"'r1L' {BEGINS}"),
    ('limit 1\nr\u0661 = 1', 2, f"'r\\u0661' {BEGINS}"),
    ('limit 1\n= 1', 2, f"'=' {BEGINS}"),
    ('limit 1\n1.5', 2, f"'1.5' {BEGINS}"),
    ('limit 1\nLimit 2', 2, f"'Limit' {BEGINS}"),
    ('limit 1\nsteps r0 = 1', 2, f"'steps' {BEGINS}"),
    ('limit 1\nr0\xa0= 1', 2, f"'r0\\xa0' {BEGINS}"),
    ('limit 1\n' + 'x' * 5000, 2, "'" + 'x' * 40 + f"..' {BEGINS}"),
    (b'limit 1\nr0 = 1 # \xe9\n', 2, 'The line is not UTF-8.'),
    (b'\xef\xbb\xbflimit 1\n\n\xff', 3, 'The line is not UTF-8.'),
    (b'\xff\xfel\0i\0m\0', 1, 'The line is not UTF-8.'),
    (b'VSP\1\0\0\1\0', 1, 'This begins with the letters VSP, as a parcel does; the parcel is named first, and then the run.'),
]


def call(script, *arguments, stdout=subprocess.PIPE, **more):
    """Runs a script of front/ as the front does."""
    words = [sys.executable, '-E', '-s', '-B', os.path.join(folder, script), *arguments]
    return subprocess.run(words, stdout=stdout, stderr=subprocess.PIPE, check=False, **more)


def bytes_of(text):
    return text if isinstance(text, bytes) else text.encode('utf8')


def understands():
    for text, due in RUNS:
        what, errors = run.understood(bytes_of(text))
        assert errors == [] and (run.packed(what, 0), run.facts(what)) == due, (text[:200], errors, run.facts(what))
        assert run.packed(what, 1) == b'\1' + due[0][1:]


def refuses():
    for text, line, why in REFUSALS:
        _, errors = run.understood(bytes_of(text))
        assert errors == [(line, why)], (text[:80], errors)
    # of each line the first, ten in all
    _, errors = run.understood(b'x\nr0 = 1 r0 = y r64 = 1\nlimit 1\nstep q\n')
    assert [line for line, _ in errors] == [1, 2, 4] and errors[1][1] == "'y' is no number: one is written as 100, -1, 0x42C80000, 1.5, 2e-3, inf or nan."
    for count in (9, 10, 11, 12):
        _, errors = run.understood(b'x\n' * count)
        said = run.complaints('a run', errors)
        assert said[:10] == [f"a run:{k}: 'x' {BEGINS}" for k in range(1, min(count, 10) + 1)]
        assert said[10:] == {11: ['a run: 1 line more cannot be understood.'], 12: ['a run: 2 lines more cannot be understood.']}.get(count, [])


def writes_files(room):
    """The script: its files, or its complaints and nothing else."""
    path, made, facts = (os.path.join(room, name) for name in ('run', 'made', 'facts'))
    for text, due in (RUNS[0], RUNS[-6]):
        with open(path, 'wb') as f:
            f.write(bytes_of(text))
        done = call('run.py', 'a name', path, '0', made, facts)
        assert (done.returncode, done.stdout, done.stderr) == (0, b'', b''), done
        with open(made, 'rb') as f, open(facts, encoding='ascii') as g:
            assert (f.read(), g.read()) == due
        os.remove(made)
        os.remove(facts)
    with open(path, 'wb') as f:
        f.write(b'limit 1\nr0 = one\n')
    done = call('run.py', 'a \u00e4 name', path, '0', made, facts)
    assert (done.returncode, done.stdout) == (3, b'') and done.stderr.count(b'\n') == 1 and b"name:2: 'one' is no number" in done.stderr, done
    assert os.listdir(room) == ['run']


# ---- steps


def program_input(trace, uniforms=(), **start):
    numbers = [1, 9, len(uniforms), len(trace), *row(**start), *uniforms, *trace]
    return struct.pack(f'<{len(numbers)}I', *numbers) + b'a parcel'


def digits(numbers):
    return ''.join(f'{n:08X}' for n in numbers) + '\n'


# What the program is given, what it writes, and what is shown.
SHOWN_STEPS = [
    (program_input([], r0=1), 'an answer\n', ''),
    (program_input([], [1, 2], r0=1), digits(row(r0=1)) + digits(row(r0=0x42C80000)) + 'an answer\n',
     'step 0     no register changed\n'
     'step 1     r0   42C80000 (100.0, 1120403456)\n'),
    (program_input(row(r0=1) + row(r63=7), [1, 2], r0=1), digits(row(r0=1)) + digits(row(r0=0x42C80000)) + 'an answer\n',
     'step 0     no register changed\n'
     'step 1     r0   42C80000 (100.0, 1120403456)  recorded 00000000 (0.0, 0)  <- differs\n'
     '           r63  00000000 (0.0, 0)             recorded 00000007 (1e-44, 7)  <- differs\n'),
    (program_input(row(r0=5), r0=1), digits(row(r0=5)) + digits(row(r0=5, r9=0x80000000, r10=0xFFFFFFFF)),
     'step 0     r0   00000005 (7e-45, 5)           recorded 00000005 (7e-45, 5)\n'
     'step 1     r9   80000000 (-0.0, 2147483648)\n'
     '           r10  FFFFFFFF (nan, 4294967295)\n'),
]


def shows_steps(room):
    given_path, answer_path = os.path.join(room, 'input'), os.path.join(room, 'answer')
    for data, written, due in SHOWN_STEPS:
        with open(given_path, 'wb') as f:
            f.write(data)
        done = call('steps.py', given_path, answer_path, input=written.encode())
        assert (done.returncode, done.stdout.decode(), done.stderr) == (0, due, b''), (done.returncode, done.stdout.decode(), due, done.stderr)
        with open(answer_path, encoding='ascii') as f:
            assert f.read() == ('an answer\n' if 'an answer' in written else '')
    # a step from 1000 on, and what is no line of steps
    text = ''.join(steps_line + '\n' for steps_line in steps.lines(12345, row(), row(r1=1), None))
    assert text == 'step 12345  r1   00000001 (1e-45, 1)\n', text
    for other in ('0' * 511, '0' * 513, 'g' + '0' * 511, 'a' * 512):
        done = call('steps.py', given_path, answer_path, input=f'{other}\n'.encode())
        with open(answer_path, encoding='ascii') as f:
            assert (done.returncode, done.stdout, f.read()) == (0, b'', f'{other}\n')


def tells_unwritten(room):
    """A standard output that is full is told, a reader that goes away is not; what the program writes is read to its end."""
    given_path, answer_path = os.path.join(room, 'input'), os.path.join(room, 'answer')
    with open(given_path, 'wb') as f:
        f.write(program_input([]))
    written = (digits(row(r0=1)) + digits(row())) * 5000 + 'an answer\n'
    for output, status in (('/dev/full', 3), ('unread', 0)):
        if output == 'unread':
            reader, writer = os.pipe()
            os.close(reader)
        else:
            writer = os.open(output, os.O_WRONLY)
        done = call('steps.py', given_path, answer_path, input=written.encode(), stdout=writer)
        os.close(writer)
        with open(answer_path, encoding='ascii') as f:
            assert (done.returncode, done.stderr, f.read()) == (status, b'', 'an answer\n'), (output, done)


random_draw = random.Random(8)
reads_numbers()
rounds_once()
rounds_fractions()
shows_numbers()
understands()
refuses()
for test in (writes_files, shows_steps, tells_unwritten):
    with tempfile.TemporaryDirectory() as room:
        test(room)
print(f'front/: {len(NUMBERS)} numbers and {len(NO_NUMBERS)} that are none, {len(RUNS)} runs, {len(REFUSALS)} refusals')
