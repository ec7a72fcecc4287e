"""What the program vectors must print, worked out from the paper (paper01.py)."""
from paper01 import R0, ROWS, meaning, read, word, row_number


def answer(result):
    return ROWS[result[1]]['name'] if result[0] == 'read' else f'refused {result[1]} {result[2]}'


def reads(w):
    print(f'read {w:016x}: {answer(read(w.to_bytes(8, "little")))}')


for n in (0, 7, 9, 16):
    print(f'read {n} bytes: {answer(read(bytes(n)))}')
for n in (0, 7, 9):
    print(f'write into {n} bytes: refused 8 0, buffer kept')
reads(0x0091C10000000102)
reads(0x0091010000000002)
print('write row 77: refused 2 0, buffer kept')
print('fresh 77: refused 2 0')
print('write offset 67108864: refused 9 0, buffer kept')
for offset in (67108863, -67108864):
    print(f'write offset {offset}: {word(row_number("BRANCHZ"), sources=R0, offset=offset):016x}')
print('write offset -67108865: refused 9 0, buffer kept')
for w in (0xD8A40000300002E0, 0x58A40000300002E0, 0x00A40000300002E0, 0x00A4C000300002E0, 0x00A4C000000002E0, 0x00A4C00000000201):
    reads(w)
for page in range(4):
    for entry in range(32, 64):
        result = read(word(row_number('MOV.i32'), page=page, register=1, sources=(192 + entry,)).to_bytes(8, 'little'))
        print(f'page {page}, entry {entry}: {answer(result) if result[0] == "refused" else "read"}, {meaning(page, 192 + entry)}')
for page in (0, 3):
    for byte in (0, 63, 64, 127, 128, 191):
        print(f'page {page}, byte {byte}: {meaning(page, byte)}')
for byte in range(192, 224):
    print(f'page 2, byte {byte}: {meaning(2, byte)}')
for k, row in enumerate(ROWS):
    w = word(k)
    assert read(w.to_bytes(8, 'little')) == ('read', k)
    print(f'{k} {row["name"]} {w:016x} again')
