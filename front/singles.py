"""Numbers of 32 bits as text: what a person or a logger writes for one, and what is shown of one.

A single is a whole number of times 2^-149. So all is done with integers, and a decimal is rounded once: to the nearest single, of two that are as
near to the even one."""
import re

LONGEST = 1000  # characters of a number
HEXADECIMAL = re.compile('0[xX]0*([0-9A-Fa-f]+)')
INTEGER = re.compile('([+-]?)0*([0-9]+)')
DECIMAL = re.compile(r'([+-]?)(?=\.?[0-9])([0-9]*)\.?([0-9]*)(?:[eE]([+-]?[0-9]+))?')
NAMES = {'inf': 0x7F800000, '+inf': 0x7F800000, '-inf': 0xFF800000, 'nan': 0x7FC00000, '-nan': 0xFFC00000}
INFINITE = 0x7F800000
NEGATIVE = 0x80000000


class Wrong(Exception):
    """What is wrong with a text, as a sentence."""


def quoted(text):
    """A text in a sentence, cut where it is long."""
    return ascii(text if len(text) <= 40 else text[:40] + '..')


# ---- from text


def number(text):
    """The 32 bits that a text stands for."""
    if len(text) > LONGEST:
        raise Wrong(f'{quoted(text)} has {len(text)} characters, and a number has {LONGEST} at most.')
    if text in NAMES:
        return NAMES[text]
    for form, meaning in ((HEXADECIMAL, hexadecimal), (INTEGER, integer), (DECIMAL, decimal)):
        parts = form.fullmatch(text)
        if parts is not None:
            return meaning(text, *parts.groups(''))
    raise Wrong(f'{quoted(text)} is no number: one is written as 100, -1, 0x42C80000, 1.5, 2e-3, inf or nan.')


def hexadecimal(text, digits):
    if len(digits) > 8:
        raise Wrong(f'{quoted(text)} has more than 32 bits.')
    return int(digits, 16)


def integer(text, sign, digits):
    """The number itself, in two's complement where it is negative."""
    value = int(sign + digits)
    if not -1 << 31 <= value < 1 << 32:
        raise Wrong(f'{quoted(text)} is no number of 32 bits: those go from -2147483648 to 4294967295; with a point, as in 1.0, it is a single.')
    return value % (1 << 32)


def decimal(text, sign, whole, fraction, exponent):
    """The nearest single."""
    digits = (whole + fraction).lstrip('0')
    power = int(exponent or 0) - len(fraction)
    size = len(digits) + power  # it is below 10^size, and unless 0 not below 10^(size - 1)
    if digits == '' or size < -50:
        bits = 0
    elif size > 50:
        bits = INFINITE
    else:
        bits = nearest(int(digits) * 10 ** max(power, 0), 10 ** max(-power, 0))
    if bits >= INFINITE:
        raise Wrong(f'{quoted(text)} is too large for a single, which goes to 3.4028235e38.')
    return bits | (NEGATIVE if sign == '-' else 0)


def nearest(numerator, denominator):
    """The single nearest to a fraction that is not negative; INFINITE or more where that is past the largest one."""
    whole, rest = divmod(numerator << 149, denominator)
    dropped = max(whole.bit_length() - 24, 0)
    kept = whole >> dropped
    twice = 2 * (((whole & (1 << dropped) - 1) * denominator) + rest)
    middle = denominator << dropped
    kept += twice > middle or twice == middle and kept & 1
    # the leading one of 24 bits stands where the exponent does, so that it counts as one more there; below 24 bits there is none
    return (dropped << 23) + kept


# ---- to text


def shown(bits):
    """The bits, and what they are as a single and as a number."""
    return f'{bits:08X} ({single(bits)}, {bits})'


def single(bits):
    """The shortest decimal that reads back as these bits; of several the nearest. Every not-a-number is nan."""
    sign, size = '-' if bits & NEGATIVE else '', bits & ~NEGATIVE
    if size > INFINITE:
        return 'nan'
    if size == INFINITE:
        return sign + 'inf'
    return sign + (written(*shortest(size)) if size else '0.0')


def value(bits):
    """How many times 2^-149 a finite single that is not negative is."""
    exponent, fraction = divmod(bits, 1 << 23)
    return (fraction | 1 << 23) << exponent - 1 if exponent else fraction


def shortest(bits):
    """Digits and a power of ten of a finite single that is greater than 0."""
    wanted = value(bits)
    power = len(str(wanted * 10 ** 60 >> 149)) - 61  # it has this power of ten as its first digit's
    for count in range(1, 10):
        last = power - count + 1
        over, under = 10 ** max(last, 0), 10 ** max(-last, 0)
        below = wanted * under // (over << 149)
        near = [digits for digits in (below, below + 1) if nearest(digits * over, under) == bits]
        if near:
            return min(near, key=lambda digits: (abs((digits * over << 149) - wanted * under), digits % 2)), last
    raise AssertionError('nine digits are enough for a single')


def written(digits, power):
    """Digits times a power of ten, with a point; where it is very large or small with an exponent."""
    text = str(digits)
    first = len(text) - 1 + power
    text = text.rstrip('0')
    if 0 <= first < 10:
        return text[:first + 1].ljust(first + 1, '0') + '.' + (text[first + 1:] or '0')
    if -5 <= first < 0:
        return '0.' + '0' * (-first - 1) + text
    return text[0] + ('.' + text[1:] if text[1:] else '') + f'e{first:+03d}'
