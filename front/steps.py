"""Shows the steps of a run while it goes: a line for each step on standard output, from what the program replayer writes.

    steps.py INPUT ANSWER

INPUT is what the program was given. Standard input is what it writes; whatever there is no line of 512 hex digits goes to ANSWER as it is. A
line has the registers that changed in the step, and those that are not as recorded: what the replay has, and where the trace has this step what
was recorded. Each further register has a line below. All that the program writes is read, also where nobody reads on.

The exit status is 0, or 3 where standard output cannot be written; a reader that goes away is no fault."""
import os
import re
import struct
import sys
from singles import shown

STEP = re.compile(b'[0-9A-F]{512}\n')
REGISTERS = range(64)
ROOM = 65536  # bytes that are kept before they are written


class Recorded:
    """The program's input: the registers that the run starts with, and the steps of its trace."""

    def __init__(self, data):
        uniforms, count = struct.unpack_from('<2I', data, 8)
        self.start = struct.unpack_from('<64I', data, 16)
        self.first, self.count, self.data = 272 + 4 * uniforms, count // 64, data

    def step(self, k):
        """The registers after step k, or None where the trace has no such step."""
        return struct.unpack_from('<64I', self.data, self.first + 256 * k) if k < self.count else None


class Output:
    """Standard output: what is put there is written in larger parts."""

    def __init__(self):
        self.waiting, self.status = b'', 0
        self.open = True

    def put(self, text):
        self.waiting += text.encode('ascii')
        if len(self.waiting) >= ROOM:
            self.write()

    def write(self):
        """Writes what waits; once that fails, nothing more."""
        try:
            while self.waiting and self.open:
                self.waiting = self.waiting[os.write(1, self.waiting):]
        except OSError as error:
            self.open = False
            self.status = 0 if isinstance(error, BrokenPipeError) else 3
        self.waiting = b''


def line(replayed, recorded):
    """A register after a step; `recorded` is None where the trace has no such step."""
    if recorded is None:
        return shown(replayed)
    return f'{shown(replayed):28}  recorded {shown(recorded)}' + ('' if replayed == recorded else '  <- differs')


def lines(k, before, after, recorded):
    """What is shown of step k."""
    told = [r for r in REGISTERS if before[r] != after[r] or recorded and recorded[r] != after[r]]
    label = f'step {k:<4}'
    if not told:
        yield f'{label}  no register changed'
    for r in told:
        yield f'{label}  {f"r{r}":3}  ' + line(after[r], recorded and recorded[r])
        label = ' ' * len(label)


def show(recorded, source, answer, output):
    """Shows the steps that come from `source`, and hands on the rest."""
    k, before = 0, recorded.start
    for data in source:
        if STEP.fullmatch(data):
            after = struct.unpack('>64I', bytes.fromhex(data[:512].decode('ascii')))
            for text in lines(k, before, after, recorded.step(k)) if output.open else ():
                output.put(text + '\n')
            k, before = k + 1, after
        else:
            answer.write(data)
    output.write()


def main(input_path, answer_path):
    with open(input_path, 'rb') as f:
        recorded = Recorded(f.read())
    output = Output()
    with open(answer_path, 'wb') as answer:
        show(recorded, sys.stdin.buffer, answer, output)
    return output.status


if __name__ == '__main__':
    sys.exit(main(*sys.argv[1:]))
