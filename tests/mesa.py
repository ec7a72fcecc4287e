"""Mesa's assembler cases (data/mesa-assembler-cases.tsv) against paper 01, as paper 02 mends it.

With --input the words for the program mesa, without it what it must print, with --refused the words that the paper refuses and why.
Each answer is worked out from the paper (paper01.py); where a word reads, its name must be Mesa's mnemonic."""
import os
import sys
from paper01 import ROWS, read

REASONS = {
    2: 'no row of the paper: an instruction that it leaves out',
    3: 'Mesa writes C0 into bits 40-47, which the paper leaves unassigned for a row without a destination',
}


def cases():
    with open(os.path.join(os.path.dirname(os.path.abspath(__file__)), 'data', 'mesa-assembler-cases.tsv'), encoding='ascii') as f:
        for line in f:
            word, mnemonic = line.rstrip('\n').split('\t')
            yield int(word, 16), mnemonic


names = {row['name'] for row in ROWS}
for w, mnemonic in cases():
    data = w.to_bytes(8, 'little')
    answer = read(data)
    if answer[0] == 'read':
        name = ROWS[answer[1]]['name']
        assert name == mnemonic, (hex(w), name, mnemonic)
    else:
        # no word of a listed instruction is left out for want of a row, and each reason is the one that is given
        assert (answer[1] == 2) == (mnemonic not in names), (hex(w), mnemonic)
        assert answer[1] != 3 or w >> 40 & 0xFF == 0xC0 and mnemonic in ('NOP', 'BRANCHZ', 'DISCARD.f32')
        assert answer[1] in REASONS, (hex(w), answer)
    if '--input' in sys.argv:
        sys.stdout.buffer.write(data)
    elif '--refused' in sys.argv:
        if answer[0] == 'refused':
            print(f'{w:016X} {mnemonic:20} {answer[1]} {REASONS[answer[1]]}')
    else:
        print(f'{w:016x} ' + (name if answer[0] == 'read' else f'refused {answer[1]} {answer[2]}'))
