"""What the program opcodes must print, worked out from the paper (paper01.py)."""
from paper01 import ROWS

for opcode in (*range(1024), 2 ** 32 + 0x90, 2 ** 64 - 1):
    numbers = [number for number, row in enumerate(ROWS) if row['opcode'] == opcode]
    print(f'opcode {opcode}:' + ''.join(f' {k}:{number}' for k, number in enumerate(numbers)))
