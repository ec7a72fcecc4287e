#!/usr/bin/env python3
"""Tries samples/make.py: the words that it gives against those that paper 01 writes out, each refusal, and its arguments.

Every refusal must name the file and the line, end with status 1 and leave the folder as it was."""
import contextlib
import importlib.util
import io
import os
import shutil
import subprocess
import sys
import tempfile

sys.dont_write_bytecode = True
program = os.path.join(os.path.dirname(os.path.abspath(__file__)), '..', 'samples', 'make.py')
loaded = importlib.util.spec_from_file_location('samples_make', program)
module = importlib.util.module_from_spec(loaded)
loaded.loader.exec_module(module)

# Paper 01's examples A to L, L as paper 02 mends it, and the two after them, and what else a source can say, worked out from the frame.
WORDS = [
    ('MOV.i32 r1, r2', 0x0091C10000000002),
    ('NOP end', 0x7800000000000000),
    ('POPCOUNT.i32 r3, r4^', 0x0091C300000C0044),
    ('FADD.f32 r0, r1, r2 m36=1', 0x00A4C01000000201),
    ('BRANCHZ c0 to 4', 0x001F0007FFFFFFC0),
    ('FADD.v2f16 r0, r1, r2', 0x00A5C00028000201),
    ('MOV.i32 r1, u69', 0x0291C10000000085),
    ('NOP bit 63', 0x8000000000000000),
    ('MOV.i32 r1, r2 bit 16', 0x0091C10000010002),
    ('MOV.i32 r1, r2 bit 59 bit 60 bit 62', 0x5891C10000000002),
    ('ICMP_OR.u32 r0, r0, r1, r2 m32=6', 0x00F0C00600020100),
    ('MOV.i32 r1, c32', 0x0091C100000000E0),
    ('MOV.i32 r1, c34', 0x0091C100000000E2),
    ('MOV.i32 r1, r2 bit 8', 0x0091C10000000102),
    ('BRANCHZ c0 to 16', 0x001F0000000001C0),
    ('MOV.i32 r1.low, r2', 0x0091410000000002),
    ('MOV.i32 r1.high, r2', 0x0091810000000002),
    ('MOV.i32 r63, r63^', 0x0091FF000000007F),
    ('MOV.i32 r1, u255', 0x0691C100000000BF),
    ('MOV.i32 r1, c63 page 1', 0x0291C100000000FF),
    ('MOV.i32 r1, u64 page 1', 0x0291C10000000080),
    ('MOV.i32 r1, r2 page 2', 0x0491C10000000002),
    ('CSEL.f32 r0, u64, u127, c1, r1 m32=7', 0x0354C00701C1BF80),
    ('MUX.i32 r0, r1, r2, r3', 0x00B8C00100030201),
    ('MUX.i32 r0, r1, r2, r3 m32=0', 0x00B8C00000030201),
    ('DISCARD.f32 r1 ,r2 m32=3 m39=1', 0x0020008300000201),
    ('BRANCHZ r0 to 0026 m37=7 m36=1 end', 0x781F00F7FFFFFF00),
    ('MOV.i32 r1, c36', 0x0091C100000000E4),
    ('MOV.i32 r1, c37', 0x0091C100000000E5),
    ('word 00B2C20000030442', 0x00B2C20000030442),
    ('word \tfedcba9876543210', 0xFEDCBA9876543210),
]

# A line of code, with its bar and note, and how the sentence on it begins.
CODE = [
    ('MOV.i32 r77, r1 |', 'The number of a register goes from 0 to 63, and 77 is more.'),
    ('MOV.i32 r1, r64 |', 'The number of a register goes from 0 to 63, and 64 is more.'),
    ('MOV.i32 r1, r64^ |', 'The number of a register'),
    ('MOV.i32 r1, r' + '9' * 5000 + ' |', 'The number of a register'),
    ('MOV.i32 r1, u256 |', 'The number of a uniform goes from 0 to 255, and 256 is more.'),
    ('MOV.i32 r1, c99 |', 'The number of a constant goes from 0 to 63, and 99 is more.'),
    ('MOV.i32 r1, c64 |', 'The number of a constant'),
    ('FADD.f32 r1, u0, u64 |', 'The instruction has one page, and pages 0 and 1 are asked for'),
    ('CSEL.f32 r1, u0, u70, u130, u255 |', 'The instruction has one page, and pages 0 and 1 and 2 and 3 are asked for'),
    ('MOV.i32 r1, u0 page 1 |', 'The instruction has one page, and pages 0 and 1 are asked for'),
    ('MOV.i32 r1, c33 page 4 |', 'The page goes from 0 to 3, and 4 is more.'),
    ('MOV.i32 r1, c33 page |', "The page must be a decimal number, and '' is none."),
    ('MOV.i32 r1, c33 page one |', "The page must be a decimal number, and 'one' is none."),
    ('MOV.i32 r1, c33 page 1 page 1 |', 'page is given twice.'),
    ('MOV.i32 r1, r2 m38=1 |', 'MOV.i32 has no modifier m38; it has none.'),
    ('FRCP.f32 r1, r2 m36=1 |', 'FRCP.f32 has no modifier m36; it has m28, m38, m39.'),
    ('BRANCHZ r0 to 0 m8=1 |', 'BRANCHZ has no modifier m8; it has m35, m36, m37.'),
    ('FADD.f32 r1, r2, r3 m999999=1 |', 'FADD.f32 has no modifier m999999;'),
    ('FADD.f32 r1, r2, r3 m38=2 |', 'm38 of FADD.f32 goes from 0 to 1, and 2 is more.'),
    ('FADD.f32 r1, r2, r3 m32=4 |', 'm32 of FADD.f32 goes from 0 to 3, and 4 is more.'),
    ('ICMP_OR.u32 r0, r0, r1, r2 m32=8 |', 'm32 of ICMP_OR.u32 goes from 0 to 7, and 8 is more.'),
    ('IABS.s32 r0, r0 m36=16 |', 'm36 of IABS.s32 goes from 0 to 15, and 16 is more.'),
    ('FADD.f32 r1, r2, r3 m38=-1 |', "'m38=-1' is no modifier"),
    ('FADD.f32 r1, r2, r3 m-38=1 |', "'m-38=1' is no modifier"),
    ('FADD.f32 r1, r2, r3 m38= |', "'m38=' is no modifier"),
    ('FADD.f32 r1, r2, r3 x38=1 |', "'x38=1' is no modifier"),
    ('FADD.f32 r1, r2, r3 m38=1x |', "'m38=1x' is no modifier"),
    ('FADD.f32 r1, r2, r3 m38=\u0661 |', "'m38=\\u0661' is no modifier"),
    ('FADD.f32 r1, r2, r3 m38=1 m38=1 |', 'm38 is given twice.'),
    ('FADD.f32 r1, r2, r3 m38=1 m038=0 |', 'm38 is given twice.'),
    ('FADD.f32 r1, r2 |', 'FADD.f32 has one destination and 2 source(s), and the line gives 2 operand(s).'),
    ('FADD.f32 r1, r2, r3, r4 |', 'FADD.f32 has one destination and 2 source(s), and the line gives 4'),
    ('MOV.i32 |', 'MOV.i32 has one destination and 1 source(s), and the line gives 0'),
    ('NOP r1 |', 'NOP has no destination and 0 source(s), and the line gives 1'),
    ('DISCARD.f32 r0, r1, r2 |', 'DISCARD.f32 has no destination and 2 source(s), and the line gives 3'),
    ('MOV.i32 u1, r2 |', "The destination must be a register, and 'u1' is none."),
    ('MOV.i32 c1, r2 |', "The destination must be a register, and 'c1' is none."),
    ('MOV.i32 r4^, r2 |', "'r4^' is the destination, and only a source can be a last use."),
    ('MOV.i32 r4.mid, r2 |', "'.mid' is no half of a register"),
    ('MOV.i32 r4.LOW, r2 |', "'.LOW' is no half of a register"),
    ('MOV.i32 r4.low^, r2 |', "'.low^' is no half of a register"),
    ('MOV.i32 r4., r2 |', "'.' is no half of a register"),
    ('MOV.i32 r4, r2.low |', "'r2.low' is a source, and only the destination can be a half."),
    ('MOV.i32 r4, u2^ |', "'u2^' is no register, and only a register has a last use."),
    ('MOV.i32 r4, c2^ |', "'c2^' is no register, and only a register has a last use."),
    ('MOV.i32 r1x, r2 |', "'r1x' is neither a register, uniform or constant"),
    ('MOV.i32 r+1, r2 |', "'r+1' is neither"),
    ('MOV.i32 r-1, r2 |', "'r-1' is neither"),
    ('MOV.i32 r1, r\u0661 |', "'r\\u0661' is neither"),
    ('MOV.i32 r1, r1_0 |', "'r1_0' is neither"),
    ('MOV.i32 r1, r |', "'r' is neither"),
    ('MOV.i32 r1, R2 |', "'R2' is neither"),
    ('MOV.i32 r1, r2^^ |', "'r2^^' is neither"),
    ('MOV.i32 r1,\xa0r2 |', "'\\xa0r2' is neither"),
    ('MOV.i32 r1, r2 END |', "'END' is neither"),
    ('MOV.i32 r1, r2 bit8 |', "'bit8' is neither"),
    ('MOV.i32 r1, r2 to 0 |', 'MOV.i32 does not branch'),
    ('BRANCHZ r0 |', 'BRANCHZ needs `to`'),
    ('BRANCHZ r0 to 1 |', 'The instruction to branch to goes from 0 to 0, and 1 is more.'),
    ('BRANCHZ r0 to 67108864 |', 'The instruction to branch to goes from 0 to 0, and 67108864 is more.'),
    ('BRANCHZ r0 to -1 |', "The instruction to branch to must be a decimal number, and '-1' is none."),
    ('BRANCHZ r0 to \u0660 |', "The instruction to branch to must be a decimal number, and '\\u0660' is none."),
    ('BRANCHZ r0 to |', "The instruction to branch to must be a decimal number, and '' is none."),
    ('BRANCHZ r0 to end |', "The instruction to branch to must be a decimal number, and 'end' is none."),
    ('BRANCHZ r0 to 0 to 0 |', 'to is given twice.'),
    ('NOP bit 64 |', 'The bit goes from 0 to 63, and 64 is more.'),
    ('NOP bit -1 |', "The bit must be a decimal number, and '-1' is none."),
    ('NOP bit \u0661 |', "The bit must be a decimal number, and '\\u0661' is none."),
    ('NOP bit |', "The bit must be a decimal number, and '' is none."),
    ('NOP bit 8 bit 9 bit 8 |', 'bit 8 is given twice.'),
    ('NOP end end |', 'end is given twice.'),
    ('MOV.i32 r1 end r2 |', "'r2' stands behind a clause and is none."),
    ('word |', "A word is 16 hex digits, and '' is not."),
    ('word 00B2C2000003044 |', "A word is 16 hex digits, and '00B2C2000003044' is not."),
    ('word 00B2C200000304420 |', "A word is 16 hex digits, and '00B2C200000304420' is not."),
    ('word 0x00B2C200000304 |', "A word is 16 hex digits, and '0x00B2C200000304' is not."),
    ('word 00B2C200 00030442 |', 'A word is 16 hex digits'),
    ('word 00B2C20000030442 end |', 'A word is 16 hex digits'),
    ('word \u0660\u0660B2C20000030442 |', 'A word is 16 hex digits'),
    ('word 00B2C20000030442', 'The bar is missing'),
    ('Word 00B2C20000030442 |', "'Word' is no instruction of paper 01."),
    ('FADD.f64 r1, r2, r3 |', "'FADD.f64' is no instruction of paper 01."),
    ('mov.i32 r1, r2 |', "'mov.i32' is no instruction"),
    ('entryr0 |', "'entryr0' is no instruction"),
    ('\ufeffNOP |', "'\\ufeffNOP' is no instruction"),
    ('| r0', "'' is no instruction"),
    ('NOP', 'The bar is missing'),
    ('NOP | r64', 'The number of a register goes from 0 to 63, and 64 is more.'),
    ('NOP | r0 r1 r0', 'r0 is named twice.'),
    ('NOP | r0^', "'r0^' stands where only whole registers do."),
    ('NOP | r0.low', "'r0.low' stands where only whole registers do."),
    ('NOP | u0', "'u0' stands where only whole registers do."),
    ('NOP | 0', "'0' is neither"),
    ('NOP | r0 | r1', "'|' is neither"),
    ('version2 |', "'version2' is no instruction"),
]

# A note of a version 2 parcel, and how the sentence on it begins.
NOTES = [
    ('r64.low', 'The number of a register goes from 0 to 63, and 64 is more.'),
    ('r0.mid', "'r0.mid' stands where only registers and their halves do."),
    ('r0L', "'r0L' is neither"),
    ('r0^', "'r0^' stands where only registers and their halves do."),
    ('r0.low^', "'r0.low^' stands where only registers and their halves do."),
    ('u0', "'u0' stands where only registers and their halves do."),
    ('u0.low', "'u0.low' stands where only registers and their halves do."),
    ('r0 r0', 'r0 is named twice.'),
    ('r0 r1 r0.low', 'r0.low is named twice.'),
    ('r0.high r0', 'r0 is named twice.'),
    ('r0.high r0.low r0.high', 'r0.high is named twice.'),
]

# A whole source, the line at fault, and how the sentence on it begins.
SOURCES = [
    ('', 1, 'There is no instruction in this file.'),
    ('# NOP |\n\nentry r0\n', 1, 'There is no instruction'),
    ('entry r0\n\nentry r1\nNOP |\n', 3, 'A line before this one names the registers'),
    ('entry\nNOP |\nentry\n', 3, 'A line before this one names the registers'),
    ('NOP |\nentry r64\n', 2, 'The number of a register goes from 0 to 63, and 64 is more.'),
    ('entry r1 r1\nNOP |\n', 1, 'r1 is named twice.'),
    ('entry u1\nNOP |\n', 1, "'u1' stands where only whole registers do."),
    ('entry r1 | r1\nNOP |\n', 1, "'|' is neither"),
    ('entry r1.low\nNOP |\n', 1, "'r1.low' stands where only whole registers do."),
    ('version 1\nentry r1.low\nNOP |\n', 2, "'r1.low' stands where only whole registers do."),
    ('version 2\nentry r1.low r1\nNOP |\n', 2, 'r1 is named twice.'),
    ('NOP | r1.low\nversion 2\nversion 2\n', 3, 'A line before this one names the version.'),
    ('version 1\nversion 2\nNOP |\n', 2, 'A line before this one names the version.'),
    ('version\nNOP |\n', 1, "The version is 1 or 2, and '' is neither."),
    ('NOP |\nversion 0\n', 2, "The version is 1 or 2, and '0' is neither."),
    ('version 3\nNOP | r1.low\n', 1, "The version is 1 or 2, and '3' is neither."),
    ('version 02\nNOP |\n', 1, "The version is 1 or 2, and '02' is neither."),
    ('version 2 |\nNOP |\n', 1, "The version is 1 or 2, and '2 |' is neither."),
    ('version 2\n', 1, 'There is no instruction in this file.'),
    ('words\nNOP |\nwords\n', 3, 'A line before this one asks for the words alone.'),
    ('NOP |\nwords r0\n', 2, '`words` has its line for itself.'),
    ('NOP |\nwords |\n', 2, '`words` has its line for itself.'),
    ('words\n', 1, 'There is no instruction in this file.'),
    ('NOP |\r\nBRANCHZ c0 to 3 |\r\nNOP end |\r\n', 2, 'The instruction to branch to goes from 0 to 2, and 3 is more.'),
    ('NOP |\n' * 2048 + '# one more\nNOP end |\nNOP |\n', 2050, 'This is instruction 2049, and a parcel has 2048 at most.'),
    (b'NOP |\nNOP | # \xe9\n', 2, 'The line is not UTF-8.'),
    (b'\xff\xfeN\0O\0P\0', 1, 'The line is not UTF-8.'),
]


def run(folder, *arguments, **more):
    """The status, standard output and standard error of make.py with these arguments in this folder."""
    done = subprocess.run([sys.executable, program, *arguments], cwd=folder, capture_output=True, encoding='utf8', **more)
    return done.returncode, done.stdout, done.stderr


def run_inside(*arguments):
    """The same without a process of its own, which is quick."""
    said, error = io.StringIO(), io.StringIO()
    with contextlib.redirect_stdout(said), contextlib.redirect_stderr(error):
        status = module.main(list(arguments))
    return status, said.getvalue(), error.getvalue()


def put(folder, name, data):
    with open(os.path.join(folder, name), 'wb') as f:
        f.write(data if isinstance(data, bytes) else data.encode('utf8'))


def files(folder):
    """The files in a folder, each with its bytes."""
    found = {}
    for name in (entry.name for entry in os.scandir(folder) if entry.is_file()):
        with open(os.path.join(folder, name), 'rb') as f:
            found[name] = f.read()
    return found


def fresh(room):
    return tempfile.mkdtemp(dir=room)


def refusals():
    return [('version 2\nNOP | ' + note + '\n', 2, start) for note, start in NOTES] \
        + [('NOP |\n\n' + line + '\n', 3, start) for line, start in CODE if ' to ' not in line] \
        + [(line + '\n', 1, start) for line, start in CODE if ' to ' in line] + SOURCES


def accepts_words(room):
    folder = fresh(room)
    text = 'entry r2, r63\t# two\n\n' + ''.join(f'{code}\t| r{k}\r\n' for k, (code, _) in enumerate(WORDS))
    put(folder, 'a name.vsa', text)
    assert run(folder, 'a name.vsa') == (0, '', '')
    expected = b'VSP\x01\x00\x00' + len(WORDS).to_bytes(2, 'little') + (1 << 63 | 4).to_bytes(8, 'little') \
        + b''.join(w.to_bytes(8, 'little') for _, w in WORDS) + b''.join((1 << k).to_bytes(8, 'little') for k in range(len(WORDS)))
    made = files(folder)
    assert set(made) == {'a name.vsa', 'a name.vsp'}, set(made)
    for k, (code, w) in enumerate(WORDS):
        got = int.from_bytes(made['a name.vsp'][16 + 8 * k:24 + 8 * k], 'little')
        assert got == w, f'{code}: {got:016X} and not {w:016X}'
    assert made['a name.vsp'] == expected


def accepts_versions(room):
    """Version 1 where it is named or not, and version 2, with halves."""
    folder = fresh(room)
    text = 'NOP | r0 r63\nNOP end |\n'
    put(folder, 'a.vsa', 'entry r2\n' + text)
    put(folder, 'b.vsa', '  version\t1 # the first\r\nentry r2\n' + text)
    put(folder, 'c.vsa', 'entry r2\n' + text + 'version 2')
    put(folder, 'd.vsa', 'version 2\nentry r2.low, r3.high, r0\nwords\nNOP | r5.high r5.low r63.high\nNOP end | r1.low\n')
    assert run(folder, 'a.vsa', 'b.vsa', 'c.vsa', 'd.vsa') == (0, '', '')
    made = files(folder)
    words = bytes(8) + (15 << 59).to_bytes(8, 'little')

    def expected(version, *sets):
        numbers = [s.to_bytes(8, 'little') for s in sets]
        return b'VSP' + bytes([version, 0, 0, 2, 0]) + b''.join(numbers[:version]) + words + b''.join(numbers[version:])
    assert made['a.vsp'] == made['b.vsp'] == expected(1, 4, 1 << 63 | 1, 0)
    assert made['c.vsp'] == expected(2, 4, 4, 1 << 63 | 1, 1 << 63 | 1, 0, 0)
    assert made['d.vsp'] == expected(2, 0b101, 0b1001, 1 << 5, 1 << 63 | 1 << 5, 2, 0)
    assert made['d.words'] == words


def gives_words(room):
    """The words alone where a line asks for them, and not without it."""
    folder = fresh(room)
    text = ''.join(f'{code} | r1\n' for code, _ in WORDS)
    put(folder, 'a.vsa', 'entry r2\n \twords # too\r\n' + text)
    put(folder, 'b.vsa', 'entry r2\n' + text)
    assert run(folder, 'a.vsa', 'b.vsa') == (0, '', '')
    made = files(folder)
    assert set(made) == {'a.vsa', 'a.vsp', 'a.words', 'b.vsa', 'b.vsp'}, set(made)
    assert made['a.vsp'] == made['b.vsp']
    assert made['a.words'] == b''.join(w.to_bytes(8, 'little') for _, w in WORDS)
    assert run(folder, '--check', 'a.vsa') == (0, 'a.vsp: as its source says\na.words: as its source says\n', '')
    put(folder, 'a.words', made['a.words'] + b'\0')
    assert run(folder, '--check', 'a.vsa') == (1, 'a.vsp: as its source says\na.words: differs from its source\n', '')


def accepts_limits(room):
    folder = fresh(room)
    put(folder, 'long.vsa', 'NOP |\n' * 2047 + 'BRANCHZ r00 to 2047 | ' + ' '.join(f'r{k}' for k in range(64)))
    assert run(folder, 'long.vsa') == (0, '', '')
    made = files(folder)['long.vsp']
    assert made[:16] == b'VSP\x01\x00\x00\x00\x08' + bytes(8) and len(made) == 16 + 16 * 2048
    assert made[16 + 8 * 2047:24 + 8 * 2047] == (0x001F0007FFFFFF00).to_bytes(8, 'little')
    assert made[-8:] == b'\xff' * 8 and not any(made[-16:-8])


def refuses(room):
    """Each alone, with a parcel there before it that stays."""
    for text, line, start in refusals():
        folder = fresh(room)
        path = os.path.join(folder, 'x.vsa')
        put(folder, 'x.vsa', text)
        put(folder, 'x.vsp', b'before')
        before = files(folder)
        status, said, error = run_inside(path)
        assert (status, said) == (1, ''), (text[:80], status, said)
        assert error.startswith(f'{path}:{line}: {start}') and error.count('\n') == 1 and error.endswith('.\n'), (text[:80], error)
        assert files(folder) == before, text[:80]


def refuses_together(room):
    """All at once, each named, among good ones: nothing is written and nothing is compared."""
    folder = fresh(room)
    cases = refusals()
    names = [f'{k:03d}.vsa' for k in range(len(cases))]
    for name, (text, _, _) in zip(names, cases):
        put(folder, name, text)
    put(folder, 'good.vsa', 'NOP end |\n')
    before = files(folder)
    for option in ((), ('--check',)):
        status, said, error = run(folder, 'good.vsa', *names, *option, 'good.vsa')
        assert (status, said) == (1, '')
        lines = error.splitlines()
        assert len(lines) == len(cases)
        for got, name, (_, line, start) in zip(lines, names, cases):
            assert got.startswith(f'{name}:{line}: {start}'), (got, name, start)
        assert files(folder) == before


def refuses_each_line(room):
    folder = fresh(room)
    put(folder, 'x.vsa', 'NOP\nentry r99\nMOV.i32 r64, r65 | r66\nNOP end | r0\nNOP | r66\n')
    status, said, error = run(folder, 'x.vsa')
    assert (status, said) == (1, '')
    assert [line.split(' ')[0] for line in error.splitlines()] == ['x.vsa:1:', 'x.vsa:2:', 'x.vsa:3:', 'x.vsa:5:'], error


def refuses_files(room):
    folder = fresh(room)
    put(folder, 'good.vsa', 'NOP end |\n')
    os.mkdir(os.path.join(folder, 'folder.vsa'))
    for name in ('missing.vsa', 'folder.vsa', 'good.vsa/x.vsa'):
        status, said, error = run(folder, 'good.vsa', name)
        assert (status, said) == (1, '') and error.startswith(f'{name}: The file cannot be read: ') and error.count('\n') == 1, error
        assert sorted(os.listdir(folder)) == ['folder.vsa', 'good.vsa']
    put(folder, 'other.vsa', 'NOP end |\n')
    os.mkdir(os.path.join(folder, 'other.vsp'))
    status, said, error = run(folder, 'good.vsa', 'other.vsa')
    assert (status, said) == (1, '') and error.startswith('other.vsp: The file cannot be written: '), error
    assert sorted(os.listdir(folder)) == ['folder.vsa', 'good.vsa', 'other.vsa', 'other.vsp']
    status, said, error = run(folder, 'good.vsa', preexec_fn=small_files)
    assert (status, said) == (1, '') and error.startswith('good.vsp: The file cannot be written: '), error
    assert sorted(os.listdir(folder)) == ['folder.vsa', 'good.vsa', 'other.vsa', 'other.vsp']


def small_files():
    """No file may grow over 16 bytes: a write that fails half-way."""
    import resource
    import signal
    signal.signal(signal.SIGXFSZ, signal.SIG_IGN)
    resource.setrlimit(resource.RLIMIT_FSIZE, (16, 16))


def takes_arguments(room):
    folder = fresh(room)
    put(folder, 'a.vsa', 'NOP end |\n')
    put(folder, 'b.vsa', 'NOP end | r0\n')
    before = files(folder)
    for wrong, start in (
        (['-x'], 'there is no option -x\n'),
        (['--Check', 'a.vsa'], 'there is no option --Check\n'),
        (['--check=a.vsa'], 'there is no option --check=a.vsa\n'),
        (['a.vsa', 'b.vsa', '-'], 'there is no option -\n'),
        (['a'], 'a does not end in .vsa\n'),
        (['a.vsp'], 'a.vsp does not end in .vsa\n'),
        (['a.vsa', ''], ' does not end in .vsa\n'),
    ):
        assert run(folder, *wrong) == (2, '', f'make.py: {start}usage: make.py [--check] [FILE.vsa ..], or make.py --help\n'), wrong
        assert files(folder) == before, wrong
    for option in ('-h', '--help'):
        status, said, error = run(folder, 'a.vsa', option)
        assert (status, error) == (0, '') and said.startswith('Makes parcels') and files(folder) == before
    assert run(folder, 'a.vsa', './a.vsa', 'a.vsa') == (0, '', '')
    assert set(files(folder)) == {'a.vsa', 'b.vsa', 'a.vsp'}


def compares(room):
    folder = fresh(room)
    put(folder, 'a.vsa', 'NOP end |\n')
    put(folder, 'b.vsa', 'NOP end | r0\n')
    assert run(folder, 'b.vsa', 'a.vsa') == (0, '', '')
    before = files(folder)
    both = 'a.vsp: as its source says\nb.vsp: as its source says\n'
    assert run(folder, '--check', 'a.vsa', 'b.vsa') == (0, both, '') == run(folder, 'a.vsa', 'b.vsa', '--check')
    for data in (before['a.vsp'], before['b.vsp'][:-1], before['b.vsp'] + b'\0', b''):
        put(folder, 'b.vsp', data)
        assert run(folder, '--check', 'a.vsa', 'b.vsa') == (1, 'a.vsp: as its source says\nb.vsp: differs from its source\n', '')
        assert files(folder)['b.vsp'] == data
    os.remove(os.path.join(folder, 'b.vsp'))
    status, said, error = run(folder, '--check', 'b.vsa')
    assert (status, error) == (1, '') and said.startswith('b.vsp: cannot be read: '), said
    assert 'b.vsp' not in files(folder)


def makes_all(room):
    """Without names, in a copy of the repository's part that it needs: the stored parcels and words, or none."""
    endings = ('.vsp', '.words')
    root, copy = os.path.join(os.path.dirname(program), '..'), fresh(room)
    shutil.copytree(os.path.join(root, 'samples'), os.path.join(copy, 'samples'))
    os.mkdir(os.path.join(copy, 'tests'))
    shutil.copy(os.path.join(root, 'tests', 'paper01.py'), os.path.join(copy, 'tests'))
    stored = {name: data for name, data in files(os.path.join(root, 'samples')).items() if name.endswith(endings)}
    assert stored
    for name in stored:
        os.remove(os.path.join(copy, 'samples', name))
    call = [sys.executable, os.path.join('samples', 'make.py')]
    assert subprocess.run(call + ['--check'], cwd=copy, capture_output=True).returncode == 1
    assert subprocess.run(call, cwd=copy).returncode == 0
    assert {name: data for name, data in files(os.path.join(copy, 'samples')).items() if name.endswith(endings)} == stored
    for name in stored:
        os.remove(os.path.join(copy, 'samples', name))
    put(os.path.join(copy, 'samples'), 'zz.vsa', 'NOP\n')
    done = subprocess.run(call, cwd=copy, capture_output=True, encoding='utf8')
    assert done.returncode == 1 and done.stderr.startswith(os.path.join('samples', 'zz.vsa:1: The bar')), done
    assert not any(name.endswith(endings) for name in os.listdir(os.path.join(copy, 'samples')))


def tells_unwritten(room):
    """A standard output that is full or closed."""
    for arguments in (['--help'], ['--check']):
        for ending in ('>/dev/full', '>&-'):
            call = ['sh', '-c', f'"$@" {ending}', 'sh', sys.executable, program, *arguments]
            done = subprocess.run(call, cwd=room, capture_output=True, encoding='utf8')
            assert (done.returncode, done.stderr) == (1, 'make.py: standard output cannot be written.\n'), done


with tempfile.TemporaryDirectory() as room:
    for test in (accepts_words, accepts_versions, gives_words, accepts_limits, refuses, refuses_together, refuses_each_line, refuses_files,
                 takes_arguments, compares, makes_all, tells_unwritten):
        test(room)
print(f'samples/make.py: {len(WORDS)} words as the paper says, {len(refusals())} refusals')
