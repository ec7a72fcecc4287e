"""Item 8 of paper 02 in plain Python: a parcel that is run, and held to a record. Written from the papers and source document 002 alone.

As paper01.py it is a second opinion, and shares no table with the Rattle code. It has no floating-point numbers: a finite single is a whole
number of times 2^-149, so a sum of two is one of integers, which is then rounded."""
from paper01 import IMMEDIATES, NO_REGISTER, ROWS, bits, check, parts, read, verdict_line, way

ROWS_RUN = ['NOP', 'BRANCHZ', 'MOV.i32', 'CLZ.u32', 'POPCOUNT.i32', 'BITREV.i32', 'NOT_OLD.i32', 'MUX.i32', 'FADD.f32']
ALL_ONES = 0xFFFFFFFF
SIGN = 0x80000000
INFINITY = 0x7F800000
NAN = 0x7FC00000  # as which one is recorded
ONE = 0x3F800000
MINUS_ONE = 0xBF800000

# ---- singles


def is_nan(single):
    return single & ~SIGN > INFINITY


def units(single):
    """How many times 2^-149 a finite single is."""
    exponent, fraction = bits(single, 23, 8), bits(single, 0, 23)
    size = fraction if exponent == 0 else (1 << 23 | fraction) << exponent - 1
    return -size if single & SIGN else size


def rounded(size):
    """The single nearest to a positive number of times 2^-149, of two that are as near the even one; from 2^128 on infinity."""
    shift = 0
    while size >> shift >= 1 << 24:
        shift += 1
    whole, rest = size >> shift, size & (1 << shift) - 1
    if 2 * rest > 1 << shift or 2 * rest == 1 << shift and whole % 2 == 1:
        whole += 1
    if whole == 1 << 24:
        whole, shift = 1 << 23, shift + 1
    if whole < 1 << 23:
        return whole
    return INFINITY if shift + 1 > 254 else shift + 1 << 23 | whole - (1 << 23)


def added(a, b):
    """The sum of two singles, rounded once to nearest, ties to even; NAN stands for every not-a-number."""
    if is_nan(a) or is_nan(b) or (a ^ b == SIGN and a & ~SIGN == INFINITY):
        return NAN
    for one in (a, b):
        if one & ~SIGN == INFINITY:
            return one
    total = units(a) + units(b)
    if total == 0:
        return SIGN if a == b == SIGN else 0
    return (SIGN if total < 0 else 0) | rounded(abs(total))


def order(single):
    """Singles that are numbers are in the order of these; -0 comes before 0."""
    return -1 - (single & ~SIGN) if single & SIGN else single


def maximum(a, b):
    """002, "Clamp": the other operand if one is not a number."""
    return b if is_nan(a) else a if is_nan(b) else max(a, b, key=order)


def minimum(a, b):
    return b if is_nan(a) else a if is_nan(b) else min(a, b, key=order)


def clamped(clamp, single):
    """002, "Clamp": none, clamp_0_inf, clamp_m1_1, clamp_0_1."""
    if clamp == 1:
        return maximum(single, 0)
    if clamp == 2:
        return minimum(maximum(single, MINUS_ONE), ONE)
    if clamp == 3:
        return minimum(maximum(single, 0), ONE)
    return single


def fadd(w, a, b):
    """FADD.f32: absolute before negate, the sum, the clamp; a not-a-number that is left is NAN."""
    operands = []
    for k, operand in enumerate((a, b)):
        if bits(w, 39 - 2 * k, 1):
            operand &= ~SIGN
        if bits(w, 38 - 2 * k, 1):
            operand ^= SIGN
        operands.append(operand)
    result = clamped(bits(w, 32, 2), added(*operands))
    return NAN if is_nan(result) else result


# ---- an instruction


def source(w, k, registers, uniforms):
    """What source k of a word reads."""
    byte = bits(w, 8 * k, 8)
    if byte < 128:
        return registers[byte % 64]
    if byte < 192:
        return uniforms[byte - 128 + 64 * bits(w, 57, 2)]
    return int(IMMEDIATES[byte - 192], 16)


def muxed(mode, a, b, mask):
    """002, "Mux": neg, int_zero, fp_zero, bit."""
    if mode == 3:
        return a & mask | b & ~mask & ALL_ONES
    return a if [mask & SIGN, mask == 0, mask & ~SIGN == 0][mode] else b


def result(name, w, values):
    """What an instruction with a destination writes, of what its sources read."""
    a = values[0]
    if name == 'MOV.i32':
        return a
    if name == 'CLZ.u32':
        return 32 - a.bit_length()
    if name == 'POPCOUNT.i32':
        return f'{a:b}'.count('1')
    if name == 'BITREV.i32':
        return int(f'{a:032b}'[::-1], 2)
    if name == 'NOT_OLD.i32':
        return a ^ ALL_ONES
    if name == 'MUX.i32':
        return muxed(bits(w, 32, 2), *values)
    assert name == 'FADD.f32'
    return fadd(w, *values)


def stepped(w, i, registers, uniforms):
    """The registers after instruction i, a word that is run, and which one follows if it does not end the program."""
    row = ROWS[read(w.to_bytes(8, 'little'))[1]]
    values = [source(w, k, registers, uniforms) for k in range(row['sources'])]
    if row['destination']:
        after = registers[:]
        after[bits(w, 40, 6)] = result(row['name'], w, values)
        return after, i + 1
    if row['name'] == 'BRANCHZ' and (values[0] == 0) == (bits(w, 36, 1) == 1):
        return registers, i + 1 + way(w)[1]
    return registers, i + 1


# ---- a run


def not_run(w):
    """Whether a word that reads is one that is not run, which is 30."""
    row = ROWS[read(w.to_bytes(8, 'little'))[1]]
    if row['name'] not in ROWS_RUN:
        return True
    kinds = [low for low, kind in row['kinds'].items() if kind in ('Combine', 'Widen')]
    changed = any(bits(w, low, width) for low, width, _, _ in row['fields'] if low in kinds)
    half = row['destination'] and bits(w, 46, 2) != 3
    return changed or half or any(bits(w, 8 * k, 8) >= 224 for k in range(row['sources']))


def past_uniforms(w, count):
    """Whether a word reads a uniform past so many, which is 31."""
    row = ROWS[read(w.to_bytes(8, 'little'))[1]]
    return any(128 <= bits(w, 8 * k, 8) < 192 and bits(w, 8 * k, 8) - 128 + 64 * bits(w, 57, 2) >= count for k in range(row['sources']))


def refusal(data, uniforms, trace):
    """Number, place, index, register and half, or None."""
    refused = check(data)
    if refused is not None:
        return refused
    if len(trace) % 64:
        return 32, 0, 0, *NO_REGISTER
    for i, w in enumerate(parts(data)[1]):
        if not_run(w):
            return 30, 0, i, *NO_REGISTER
        if past_uniforms(w, len(uniforms)):
            return 31, 0, i, *NO_REGISTER
    return None


def replay(data, registers, uniforms, trace, limit):
    """The answer and the registers after each step. The answer is ('REFUSED', number, place, index, register, half), ('DIFFERS', step,
    register), ('END', steps) or ('LIMIT', steps)."""
    refused = refusal(data, uniforms, trace)
    if refused is not None:
        return ('REFUSED', *refused), []
    words, i, states = parts(data)[1], 0, []
    while len(states) < limit:
        w, step = words[i], len(states)
        registers, i = stepped(w, i, registers, uniforms)
        states.append(registers)
        recorded = trace[64 * step:64 * step + 64]
        differing = [r for r in range(64) if recorded and recorded[r] != registers[r]]
        if differing:
            return ('DIFFERS', step, min(differing)), states
        if way(w)[0]:
            return ('END', len(states)), states
    return ('LIMIT', limit), states


def answer_line(answer, states, trace):
    """What the program replayer writes for an answer."""
    kind, *rest = answer
    if kind == 'REFUSED':
        return verdict_line(*rest)
    if kind == 'DIFFERS':
        step, register = rest
        return f'DIFFERS at step {step}, r{register}: {states[step][register]:08X} replayed, {trace[64 * step + register]:08X} recorded'
    [steps] = rest
    return f'{kind} after {steps} step{"" if steps == 1 else "s"}, {min(steps, len(trace) // 64)} compared'
