"""Turns a run, a text that a person writes or a logger produces, into what the program replayer takes before the parcel.

    run.py NAME RUN STEPS INPUT FACTS

RUN is the file, which errors call NAME. STEPS is 1 where a line for each step is asked for, else 0. INPUT gets the bytes, FACTS what the front has
to say of the run: the registers that it gives, how many uniforms it has and which of them it leaves out, and how many numbers its trace has.

The exit status is 0, or 3 where the run cannot be understood: then NAME:LINE: and a sentence are on standard error, of each line the first, and
nothing is written. `./vsp help replay` says how a run is written."""
import re
import struct
import sys
from singles import Wrong, number, quoted

NAMED = re.compile('([ru])0*([0-9]+)')
# Of registers and of uniforms: how many there are, and what one is called.
KINDS = {'r': (64, 'register'), 'u': (256, 'uniform')}
STEP = 64  # numbers of a step
MOST_STEPS = 4096
MOST_ERRORS = 10  # that are told
MARK = b'\xef\xbb\xbf'  # with which some editors begin a text


def pieces(text):
    return re.findall('=|[^ ,=]+', text)


def named(text):
    """The kind and the number of a register or a uniform."""
    parts = NAMED.fullmatch(text)
    if parts is None:
        raise Wrong(f'{quoted(text)} stands where a register or a uniform does, as r0 or u0.')
    kind, digits = parts.groups()
    count, called = KINDS[kind]
    if len(digits) > 3 or int(digits) >= count:
        raise Wrong(f'The number of a {called} goes from 0 to {count - 1}, and that of {quoted(text)} is more.')
    return kind, int(digits)


def assignments(words):
    """What `r0 = 1.5 r1 = 2.5` says: kind, number and bits of each."""
    for k in range(0, len(words), 3):
        kind, which = named(words[k])
        if words[k + 1:k + 2] != ['='] or words[k + 2:k + 3] in ([], ['=']):
            raise Wrong(f'{kind}{which} needs = and a number after it, as in {kind}{which} = 1.5.')
        yield kind, which, number(words[k + 2])


def given_limit(words):
    """How many steps a line `limit` allows."""
    text = ' '.join(words)
    try:
        if re.fullmatch('[0-9]+|0[xX][0-9A-Fa-f]+', text):
            return number(text)
    except Wrong:
        pass
    raise Wrong(f'The limit is one number of steps, from 0 to 4294967295, and {quoted(text)} is none.')


class Run:
    """What the lines up to now say."""

    def __init__(self):
        self.values = {'r': {}, 'u': {}}
        self.listed = {'r': 0, 'u': 0}  # so many stand in lists
        self.trace = []
        self.begun = False  # the trace
        self.limit = None

    def give(self, kind, which, bits):
        """A register that the run starts with, or a uniform."""
        if kind == 'r' and self.begun:
            raise Wrong('The registers that the run starts with stand before its trace.')
        if which in self.values[kind]:
            raise Wrong(f'{kind}{which} has a number already.')
        self.values[kind][which] = bits

    def give_list(self, kind, words):
        """The next ones, from the first on."""
        count, called = KINDS[kind]
        for word in words:
            if self.listed[kind] == count:
                raise Wrong(f'There are {count} {called}s, and {quoted(word)} is one more.')
            self.give(kind, self.listed[kind], number(word))
            self.listed[kind] += 1

    def start(self):
        """The registers that the run starts with: 0 where one is not given."""
        return [self.values['r'].get(which, 0) for which in range(STEP)]

    def uniforms(self):
        """From the first to the last that is given, and 0 where one before it is not."""
        return [self.values['u'].get(which, 0) for which in range(max(self.values['u'], default=-1) + 1)]

    def record(self, numbers):
        """More of the trace."""
        self.begun = True
        self.trace += numbers
        if len(self.trace) > STEP * MOST_STEPS:
            raise Wrong(f'The trace has more than {MOST_STEPS} steps of {STEP} numbers, which is the most that a run can have.')

    def record_step(self, words):
        """A step: as the one before it, or the start, but for the registers that are named."""
        if len(self.trace) % STEP:
            raise Wrong(f'The trace has {len(self.trace)} numbers before this step, which are no whole steps of {STEP}.')
        step, seen = self.trace[-STEP:] or self.start(), set()
        for kind, which, bits in assignments(words):
            if kind != 'r':
                raise Wrong(f'A step has registers, and u{which} is none.')
            if which in seen:
                raise Wrong(f'r{which} is named twice.')
            seen.add(which)
            step[which] = bits
        self.record(step)

    def take(self, words):
        """A line."""
        first, rest = words[0], words[1:]
        if first in ('registers', 'uniforms'):
            self.give_list(first[0], rest)
        elif first == 'limit':
            if self.limit is not None:
                raise Wrong('A line before this one gives the limit.')
            self.limit = given_limit(rest)
        elif first == 'trace':
            self.record([number(word) for word in rest])
        elif first == 'step':
            self.record_step(rest)
        elif NAMED.fullmatch(first):
            for value in assignments(words):
                self.give(*value)
        else:
            raise Wrong(f'{quoted(first)} begins no line; one begins with registers, uniforms, limit, step or trace, '
                        'or with a register or a uniform, as in r0 = 1.5.')


# ---- a file


def text_of(data):
    """The text, or the number of the line that is none and a sentence."""
    if data.startswith(b'VSP'):
        return 1, 'This begins with the letters VSP, as a parcel does; the parcel is named first, and then the run.'
    data = data[len(MARK):] if data.startswith(MARK) else data
    try:
        return data.decode('utf8')
    except UnicodeDecodeError as error:
        return data.count(b'\n', 0, error.start) + 1, 'The line is not UTF-8.'


def understood(data):
    """The run that the bytes of a file say, and the errors: the number of a line and a sentence."""
    run, errors, text = Run(), [], text_of(data)
    if isinstance(text, tuple):
        return run, [text]
    for k, line in enumerate(text.split('\n'), 1):
        words = pieces(line.partition('#')[0].rstrip('\r').replace('\t', ' '))
        try:
            if words:
                run.take(words)
        except Wrong as wrong:
            errors.append((k, str(wrong)))
    if run.limit is None and not errors:
        errors.append((1, 'There is no line with the limit, as in limit 100: after so many steps the run stops at the latest.'))
    return run, errors


def packed(run, steps):
    """What the program takes before the parcel."""
    uniforms = run.uniforms()
    numbers = [steps, run.limit, len(uniforms), len(run.trace), *run.start(), *uniforms, *run.trace]
    return struct.pack(f'<{len(numbers)}I', *numbers)


def rows(numbers, letter):
    """Ascending numbers with a letter, three and more in a row by the first and the last: 'u0, u2 to u5'."""
    found = []
    for which in numbers:
        if found and found[-1][1] == which - 1:
            found[-1][1] = which
        else:
            found.append([which, which])
    return ', '.join(f'{letter}{a} to {letter}{b}' if b - a > 1 else f'{letter}{a}, {letter}{b}' if b > a else f'{letter}{a}' for a, b in found)


def facts(run):
    """What the front has to say of the run, a line each."""
    left_out = [which for which in range(len(run.uniforms())) if which not in run.values['u']]
    return f'registers {" ".join(map(str, sorted(run.values["r"])))}\nuniforms {len(run.uniforms())}\n' \
        f'without {rows(left_out, "u")}\ntrace {len(run.trace)}\n'


def complaints(name, errors):
    lines = [f'{name}:{k}: {why}' for k, why in errors[:MOST_ERRORS]]
    more = len(errors) - len(lines)
    return lines + [f'{name}: {more} line{"" if more == 1 else "s"} more cannot be understood.'] * (more > 0)


def main(name, path, steps, input_path, facts_path):
    with open(path, 'rb') as f:
        run, errors = understood(f.read())
    if errors:
        print('\n'.join(complaints(name, errors)), file=sys.stderr)
        return 3
    with open(input_path, 'wb') as f:
        f.write(packed(run, int(steps)))
    with open(facts_path, 'w', encoding='ascii') as f:
        f.write(facts(run))
    return 0


if __name__ == '__main__':
    sys.exit(main(*sys.argv[1:]))
