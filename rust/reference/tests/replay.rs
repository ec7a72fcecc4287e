//! Runs of the replay worked out by hand from the papers.

use reference::{Half, Instruction, MODIFIER_BITS, NotRun, ROWS, Refusal, Registers, Replayed, record, replay, write};

const ALL: u64 = u64::MAX;
const END: u8 = 15;

/// Constant entries 0, 1 and 16: 0, all ones, and 1.0.
const ZERO: u8 = 192;
const ONES: u8 = 193;
const FLOAT_ONE: u8 = 208;

/// The lowest bits of modifiers.
const CLAMP: u8 = 32;
const MUX: u8 = 32;
const NEGATE: [u8; 2] = [38, 36];
const ABSOLUTE: [u8; 2] = [39, 37];
const WIDEN: [u8; 2] = [28, 26];
const CONSERVATIVE: u8 = 35;
const EQ: u8 = 36;
const COMBINE: u8 = 37;

const NOT_A_NUMBER: u32 = 0x7FC0_0000;
const SIGN: u32 = 0x8000_0000;

fn row(name: &str) -> u8 {
    ROWS.iter().position(|row| row.name == name).unwrap() as u8
}

/// An instruction with a full destination.
fn plain(name: &str, register: u8, sources: &[u8]) -> Instruction {
    let mut instruction = Instruction { row: row(name), register, half_mask: 3, ..Instruction::default() };
    instruction.sources[..sources.len()].copy_from_slice(sources);
    instruction
}

fn mov(register: u8, source: u8) -> Instruction {
    plain("MOV.i32", register, &[source])
}

fn fadd(register: u8, first: u8, second: u8) -> Instruction {
    plain("FADD.f32", register, &[first, second])
}

fn branch(source: u8, offset: i32) -> Instruction {
    Instruction { row: row("BRANCHZ"), sources: [source, 0, 0, 0], offset, ..Instruction::default() }
}

fn nop() -> Instruction {
    Instruction::default()
}

fn end(instruction: Instruction) -> Instruction {
    Instruction { flow: END, ..instruction }
}

fn with(mut instruction: Instruction, lowest_bit: u8, value: u8) -> Instruction {
    let slot = MODIFIER_BITS.iter().position(|low| *low == lowest_bit).unwrap();
    instruction.modifiers[slot] = value;
    instruction
}

/// A parcel of version 1 with this entry set and these notes.
fn parcel(entry: u64, program: &[Instruction], notes: &[u64]) -> Vec<u8> {
    let mut bytes = b"VSP\x01\0\0".to_vec();
    bytes.extend((program.len() as u16).to_le_bytes());
    bytes.extend(entry.to_le_bytes());
    for instruction in program {
        let mut word = [0; 8];
        write(instruction, &mut word).unwrap();
        bytes.extend(word);
    }
    bytes.extend(notes.iter().flat_map(|note| note.to_le_bytes()));
    bytes
}

/// A parcel in which all registers are held everywhere; its program releases none.
fn held(program: &[Instruction]) -> Vec<u8> {
    parcel(ALL, program, &vec![ALL; program.len()])
}

/// r0 to r7 and nothing else.
fn registers(first: [u32; 8]) -> Registers {
    let mut registers = [0; 64];
    registers[..8].copy_from_slice(&first);
    registers
}

/// Runs without a trace; the answer and r0 to r7 afterwards.
fn run(program: &[Instruction], first: [u32; 8], limit: u32) -> (Replayed, [u32; 8]) {
    let mut after = registers(first);
    let replayed = replay(&held(program), &mut after, &[], &[], limit).unwrap();
    assert!(after[8..].iter().all(|number| *number == 0));
    (replayed, *after.first_chunk().unwrap())
}

/// What an instruction leaves in r0, from r1, r2 and r3.
fn result(instruction: Instruction, sources: [u32; 3]) -> u32 {
    let [a, b, c] = sources;
    let before = [0x0BAD_0BAD, a, b, c, 0, 0, 0, 0];
    let (replayed, after) = run(&[end(instruction)], before, 1);
    assert_eq!(replayed, Replayed::Ended { steps: 1 });
    assert_eq!(after[1..], before[1..]);
    after[0]
}

fn refused(refusal: Refusal, index: u16) -> NotRun {
    NotRun { refusal, index, register: 64, half: None }
}

/// The refusal of a parcel; the registers stay.
fn refusal(bytes: &[u8], uniforms: &[u32], trace: &[u32]) -> NotRun {
    let before: Registers = std::array::from_fn(|r| 0x0101_0101 * r as u32);
    let mut after = before;
    let refusal = replay(bytes, &mut after, uniforms, trace, 9).unwrap_err();
    assert_eq!(after, before);
    refusal
}

#[test]
fn integer_rows() {
    let examples = [
        ("MOV.i32", 0x7F80_0001, 0x7F80_0001),
        ("MOV.i32", 0xFFC1_2345, 0xFFC1_2345),
        ("CLZ.u32", 0, 32),
        ("CLZ.u32", 1, 31),
        ("CLZ.u32", 0x0001_0000, 15),
        ("CLZ.u32", 0x7FFF_FFFF, 1),
        ("CLZ.u32", SIGN, 0),
        ("POPCOUNT.i32", 0, 0),
        ("POPCOUNT.i32", 0xF0F0_F0F1, 17),
        ("POPCOUNT.i32", u32::MAX, 32),
        ("BITREV.i32", 1, SIGN),
        ("BITREV.i32", 0x1234_5678, 0x1E6A_2C48),
        ("NOT_OLD.i32", 0, u32::MAX),
        ("NOT_OLD.i32", 0x1234_5678, 0xEDCB_A987),
    ];
    for (name, source, expected) in examples {
        assert_eq!(result(plain(name, 0, &[1]), [source, 0, 0]), expected, "{name} of {source:08X}");
    }
}

/// neg, int_zero, fp_zero and bit on the third source; the first is taken where it holds.
#[test]
fn muxes() {
    let (a, b) = (0xAAAA_AAAA, 0x5555_5555);
    let examples = [
        (0, 0, b),
        (0, 0x7FFF_FFFF, b),
        (0, SIGN, a),
        (0, u32::MAX, a),
        (1, 0, a),
        (1, SIGN, b),
        (1, 1, b),
        (2, 0, a),
        (2, SIGN, a),
        (2, 1, b),
        (2, SIGN | 1, b),
        (3, 0, b),
        (3, u32::MAX, a),
        (3, 0xFFFF_0000, 0xAAAA_5555),
        (3, 0x0F0F_F0F0, 0x5A5A_A5A5),
    ];
    for (mode, mask, expected) in examples {
        let mux = with(plain("MUX.i32", 0, &[1, 2, 3]), MUX, mode);
        assert_eq!(result(mux, [a, b, mask]), expected, "mode {mode}, mask {mask:08X}");
    }
}

/// Rounding to nearest with ties to even, overflow, subnormals, zeros and what isn't a number.
#[test]
fn sums() {
    let examples = [
        (0x3F80_0000, 0x3F80_0000, 0x4000_0000),
        // 1 + 2^-24 and its odd neighbour + 2^-24 are ties; a little more than a tie goes up.
        (0x3F80_0000, 0x3380_0000, 0x3F80_0000),
        (0x3F80_0001, 0x3380_0000, 0x3F80_0002),
        (0x3F80_0000, 0x3380_0001, 0x3F80_0001),
        (0xBF80_0001, 0xB380_0000, 0xBF80_0002),
        // 1 - 2^-25 is a tie with the number below 1, which is odd.
        (0x3F80_0000, 0xB300_0000, 0x3F80_0000),
        (0x3F80_0000, 0xB300_0001, 0x3F7F_FFFF),
        // The largest number and half the distance to the next, which there isn't.
        (0x7F7F_FFFF, 0x7300_0000, 0x7F80_0000),
        (0x7F7F_FFFF, 0x72FF_FFFF, 0x7F7F_FFFF),
        (0xFF7F_FFFF, 0xFF7F_FFFF, 0xFF80_0000),
        (0x0000_0001, 0x0000_0001, 0x0000_0002),
        (0x007F_FFFF, 0x0000_0001, 0x0080_0000),
        (0x0080_0000, 0x8000_0001, 0x007F_FFFF),
        (0x0080_0001, 0x8080_0000, 0x0000_0001),
        (0x0000_0000, 0x0000_0000, 0x0000_0000),
        (0x8000_0000, 0x8000_0000, 0x8000_0000),
        (0x8000_0000, 0x0000_0000, 0x0000_0000),
        (0x3F80_0000, 0xBF80_0000, 0x0000_0000),
        (0x7F80_0000, 0xFF7F_FFFF, 0x7F80_0000),
        (0xFF80_0000, 0xFF80_0000, 0xFF80_0000),
        (0x7F80_0000, 0xFF80_0000, NOT_A_NUMBER),
        (0x7FC1_2345, 0x3F80_0000, NOT_A_NUMBER),
        (0x0000_0000, 0xFF80_0001, NOT_A_NUMBER),
        (0x7F80_0001, 0xFFFF_FFFF, NOT_A_NUMBER),
        (0xFFC0_0000, 0xFFC0_0000, NOT_A_NUMBER),
    ];
    for (a, b, sum) in examples {
        for sources in [[a, b, 0], [b, a, 0]] {
            assert_eq!(result(fadd(0, 1, 2), sources), sum, "{sources:08X?}");
        }
    }
}

/// Absolute before negate, on either source: 2 with all four signs, and 8.
#[test]
fn signs() {
    let (two, eight) = (2.0_f32, 8.0_f32);
    for k in 0..2 {
        for (absolute, negate, source, term) in [
            (0, 0, -two, -two),
            (0, 1, -two, two),
            (1, 0, -two, two),
            (1, 1, -two, -two),
            (0, 0, two, two),
            (0, 1, two, -two),
            (1, 0, two, two),
            (1, 1, two, -two),
        ] {
            let add = with(with(fadd(0, 1, 2), ABSOLUTE[k], absolute), NEGATE[k], negate);
            let mut sources = [eight.to_bits(); 3];
            sources[k] = source.to_bits();
            assert_eq!(f32::from_bits(result(add, sources)), eight + term, "{source} as source {k}: {add:?}");
        }
    }
    let negated = with(with(fadd(0, 1, 2), NEGATE[0], 1), NEGATE[1], 1);
    assert_eq!(result(negated, [0, 0, 0]), SIGN);
    let infinity = 0x7F80_0000;
    assert_eq!(result(with(fadd(0, 1, 2), NEGATE[1], 1), [infinity, infinity, 0]), NOT_A_NUMBER);
    assert_eq!(result(with(fadd(0, 1, 2), ABSOLUTE[1], 1), [infinity, infinity | SIGN, 0]), infinity);
    assert_eq!(result(negated, [0x7FC0_0000, 0, 0]), NOT_A_NUMBER);
}

/// 002's identities, the bounds, and numbers between and beyond them.
#[test]
fn clamps() {
    let (one, minus_one, infinity) = (0x3F80_0000, 0xBF80_0000, 0x7F80_0000);
    let (half, two, large) = (0x3F00_0000, 0x4000_0000, 0x7F7F_FFFF);
    let examples: [(u32, [u32; 4]); 17] = [
        (0x7FC0_0000, [NOT_A_NUMBER, 0, minus_one, 0]),
        (0xFFC0_0000, [NOT_A_NUMBER, 0, minus_one, 0]),
        (0x7F80_0001, [NOT_A_NUMBER, 0, minus_one, 0]),
        (0xFFFF_FFFF, [NOT_A_NUMBER, 0, minus_one, 0]),
        (SIGN, [SIGN, 0, SIGN, 0]),
        (0, [0, 0, 0, 0]),
        (1, [1, 1, 1, 1]),
        (SIGN | 1, [SIGN | 1, 0, SIGN | 1, 0]),
        (half, [half, half, half, half]),
        (SIGN | half, [SIGN | half, 0, SIGN | half, 0]),
        (one, [one, one, one, one]),
        (minus_one, [minus_one, 0, minus_one, 0]),
        (one + 1, [one + 1, one + 1, one, one]),
        (SIGN | two, [SIGN | two, 0, minus_one, 0]),
        (large, [large, large, one, one]),
        (infinity, [infinity, infinity, one, one]),
        (SIGN | infinity, [SIGN | infinity, 0, minus_one, 0]),
    ];
    for (x, expected) in examples {
        for (clamp, expected) in expected.into_iter().enumerate() {
            // x + -0 is x, and -0 for -0.
            let add = with(fadd(0, 1, 2), CLAMP, clamp as u8);
            assert_eq!(result(add, [x, SIGN, 0]), expected, "{x:08X} with clamp {clamp}");
        }
    }
}

/// A source can be a constant or a uniform, whose number goes on with the page.
#[test]
fn sources() {
    let uniforms: Vec<u32> = (0..256).map(|k| 0x1000 + k).collect();
    let page = |page, instruction| Instruction { page, ..instruction };
    let program = [
        mov(0, 128),
        page(1, mov(1, 133)),
        page(2, mov(2, 128)),
        page(3, mov(3, 191)),
        page(2, mov(4, ONES)),
        fadd(5, FLOAT_ONE, FLOAT_ONE),
        end(mov(6, 223)),
    ];
    let mut after = registers([7; 8]);
    let replayed = replay(&held(&program), &mut after, &uniforms, &[], 100);
    assert_eq!(replayed, Ok(Replayed::Ended { steps: 7 }));
    let expected = [0x1000, 0x1045, 0x1080, 0x10FF, u32::MAX, 0x4000_0000, 0x4248_0000, 7];
    assert_eq!(after, registers(expected));
}

/// A source that is written by the same instruction is read before.
#[test]
fn own_destination() {
    let (replayed, after) = run(&[fadd(0, 0, 0), end(mov(1, 1))], [0x3F80_0000, 5, 0, 0, 0, 0, 0, 0], 2);
    assert_eq!((replayed, after[..2].to_vec()), (Replayed::Ended { steps: 2 }, vec![0x4000_0000, 5]));
}

/// On nonzero by default, on zero with eq; conservative changes nothing.
#[test]
fn branches() {
    for (source, eq, jumps) in [(0, 0, false), (1, 0, true), (SIGN, 0, true), (0, 1, true), (1, 1, false)] {
        for conservative in 0..2 {
            let jump = with(with(branch(1, 1), EQ, eq), CONSERVATIVE, conservative);
            let program = [jump, mov(2, ONES), end(mov(3, ONES))];
            let (replayed, after) = run(&program, [0, source, 0, 0, 0, 0, 0, 0], 10);
            let (steps, skipped) = if jumps { (2, 0) } else { (3, u32::MAX) };
            assert_eq!(replayed, Replayed::Ended { steps }, "{source:X} {eq}");
            assert_eq!(after[2..4], [skipped, u32::MAX], "{source:X} {eq}");
        }
    }
}

/// The sample `loop`: from 3 down to 0 by steps of 1.
#[test]
fn a_loop() {
    let program =
        [mov(1, ZERO), fadd(1, 1, 128), with(fadd(0, 0, FLOAT_ONE), NEGATE[1], 1), branch(0, -3), end(mov(2, 1))];
    let mut after = registers([3.0_f32.to_bits(), 0, 0, 0, 0, 0, 0, 0]);
    let replayed = replay(&held(&program), &mut after, &[0.5_f32.to_bits()], &[], u32::MAX);
    assert_eq!(replayed, Ok(Replayed::Ended { steps: 11 }));
    let slope = 1.5_f32.to_bits();
    assert_eq!(after, registers([0, slope, slope, 0, 0, 0, 0, 0]));
}

/// No flow but `end` does anything, and a released register keeps its number.
#[test]
fn flows_and_releases() {
    let flows = (0..END).filter(|flow| ![11, 12, 14].contains(flow));
    let mut program: Vec<Instruction> = flows.map(|flow| Instruction { flow, ..mov(1, 64) }).collect();
    let steps = program.len() as u32 + 1;
    program.iter_mut().skip(1).for_each(|instruction| instruction.sources[0] = 1);
    program.push(end(mov(2, 65)));
    let mut notes = vec![2; program.len()];
    notes[0] = 1;
    let mut after = registers([9; 8]);
    let replayed = replay(&parcel(1, &program, &notes), &mut after, &[], &[], 100);
    assert_eq!(replayed, Ok(Replayed::Ended { steps }));
    assert_eq!(after, registers([9; 8]));
}

/// An `end` on the last permitted step is an end; a branch with `end` goes nowhere.
#[test]
fn limits() {
    let program = [nop(), mov(0, ONES), end(branch(ONES, 67_108_863))];
    for (limit, replayed, r0) in [
        (0, Replayed::Limit { steps: 0 }, 0),
        (1, Replayed::Limit { steps: 1 }, 0),
        (2, Replayed::Limit { steps: 2 }, u32::MAX),
        (3, Replayed::Ended { steps: 3 }, u32::MAX),
        (4, Replayed::Ended { steps: 3 }, u32::MAX),
        (u32::MAX, Replayed::Ended { steps: 3 }, u32::MAX),
    ] {
        assert_eq!(run(&program, [0; 8], limit), (replayed, [r0, 0, 0, 0, 0, 0, 0, 0]), "limit {limit}");
    }
    let forever = [branch(ONES, -1), end(nop())];
    assert_eq!(run(&forever, [0; 8], 1_000).0, Replayed::Limit { steps: 1_000 });
}

/// Three moves: r0, r9 and r63 become all ones.
fn moves() -> Vec<u8> {
    held(&[mov(0, ONES), mov(9, ONES), end(mov(63, ONES))])
}

/// The registers after each of the three.
fn moved() -> Vec<u32> {
    let mut now = [0; 64];
    let after = [0, 9, 63].map(|register| {
        now[register] = u32::MAX;
        now
    });
    after.concat()
}

/// A trace that agrees, whether shorter than the run, as long, longer or empty.
#[test]
fn traces_that_agree() {
    let longer = [moved(), vec![5; 64]].concat();
    for count in 0..=4 {
        for (limit, replayed) in [(2, Replayed::Limit { steps: 2 }), (3, Replayed::Ended { steps: 3 })] {
            let mut after = [0; 64];
            assert_eq!(replay(&moves(), &mut after, &[], &longer[..64 * count], limit), Ok(replayed), "{count}");
            assert_eq!(after[..], longer[64 * limit as usize - 64..][..64], "{count}");
        }
    }
    assert_eq!(record(&moves(), &mut [0; 64], &[], 9).unwrap().1.concat(), moved());
    let (replayed, trace) = record(&moves(), &mut [0; 64], &[], 2).unwrap();
    assert_eq!((replayed, trace.concat()), (Replayed::Limit { steps: 2 }, moved()[..128].to_vec()));
}

/// The first step that differs, and its lowest register, though neither was written; before `end`
/// and before the limit.
#[test]
fn traces_that_differ() {
    for step in 0..3 {
        for register in [0, 1, 9, 62, 63] {
            let mut trace = moved();
            trace[64 * step + register] ^= 0x0100_0000;
            trace[64 * step + 63] ^= 1;
            if step < 2 {
                trace[64 * step + 64] ^= 1;
            }
            for limit in [step as u32 + 1, 9] {
                let mut after = [0; 64];
                let replayed = replay(&moves(), &mut after, &[], &trace, limit);
                assert_eq!(replayed, Ok(Replayed::Differs { step: step as u32, register: register as u8 }));
                assert_eq!(after[..], moved()[64 * step..][..64]);
            }
        }
    }
    // A difference in a step that the limit leaves out is none.
    let mut trace = moved();
    trace[128] ^= 1;
    assert_eq!(replay(&moves(), &mut [0; 64], &[], &trace, 2), Ok(Replayed::Limit { steps: 2 }));
    assert_eq!(replay(&moves(), &mut [0; 64], &[], &trace, 0), Ok(Replayed::Limit { steps: 0 }));
}

/// 30 for a row, a combine, a widen, a half write or a special constant.
#[test]
fn instructions_that_are_not_run() {
    let page = |page, instruction| Instruction { page, ..instruction };
    let mut wrong = vec![
        plain("FADD.v2f16", 0, &[0, 0]),
        plain("CLZ.v4u8", 0, &[0]),
        plain("FRCP.f32", 0, &[0]),
        Instruction { half_mask: 1, ..mov(0, 0) },
        Instruction { half_mask: 2, ..plain("MUX.i32", 0, &[0, 0, 0]) },
        mov(0, 228),
        fadd(0, 0, 229),
        plain("MUX.i32", 0, &[0, 0, 255]),
        page(1, mov(0, 226)),
        page(3, branch(254, 0)),
    ];
    wrong.extend((1..=4).map(|combine| with(branch(0, 0), COMBINE, combine)));
    wrong.extend(WIDEN.into_iter().flat_map(|low| [1, 2].map(|widen| with(fadd(0, 0, 0), low, widen))));
    for instruction in wrong {
        assert_eq!(refusal(&held(&[nop(), instruction, end(nop())]), &[], &[]), refused(Refusal::NotReplayed, 1));
        assert_eq!(refusal(&held(&[nop(), end(nop()), end(instruction)]), &[], &[]), refused(Refusal::NotReplayed, 2));
    }
}

/// 31 for a uniform past the list, in any source and on any page, reached or not.
#[test]
fn uniforms_past_the_list() {
    let last = Instruction { page: 3, ..mov(0, 191) };
    for (instruction, number) in [
        (mov(0, 128), 0),
        (mov(0, 191), 63),
        (fadd(0, 0, 133), 5),
        (plain("MUX.i32", 0, &[0, 0, 140]), 12),
        (branch(130, 0), 2),
        (last, 255),
    ] {
        let bytes = held(&[end(nop()), end(instruction)]);
        let uniforms = vec![0; number + 1];
        assert_eq!(refusal(&bytes, &uniforms[1..], &[]), refused(Refusal::NoUniform, 1), "{instruction:?}");
        assert!(replay(&bytes, &mut [0; 64], &uniforms, &[], 1).is_ok(), "{instruction:?}");
    }
}

/// The check's own, then 32, then the lowest instruction with 30 or 31, 30 first.
#[test]
fn order_of_refusals() {
    let (other, missing) = (plain("FRCP.f32", 0, &[0]), mov(0, 128));
    let both = fadd(0, 128, 228);
    let trace = vec![0; 65];
    for (program, first) in [
        ([other, missing], refused(Refusal::NotReplayed, 0)),
        ([missing, other], refused(Refusal::NoUniform, 0)),
        ([both, missing], refused(Refusal::NotReplayed, 0)),
        ([nop(), both], refused(Refusal::NotReplayed, 1)),
    ] {
        let [first_one, last] = program;
        let program = [first_one, end(last)];
        assert_eq!(refusal(&held(&program), &[], &[]), first);
        assert_eq!(refusal(&held(&program), &[], &trace), refused(Refusal::TraceLength, 0));
        let unheld = NotRun { refusal: Refusal::UnheldAtEntry, index: 0, register: 0, half: Some(Half::Low) };
        assert_eq!(refusal(&parcel(0, &program, &[ALL; 2]), &[], &trace), unheld);
    }
    for count in [1, 63, 65, 127] {
        assert_eq!(refusal(&moves(), &[], &vec![0; count]), refused(Refusal::TraceLength, 0));
    }
    assert_eq!(refusal(&moves()[1..], &[], &trace), refused(Refusal::Mark, 0));
    assert_eq!(refusal(&held(&[mov(0, 1)]), &[], &trace), refused(Refusal::LeavesProgram, 0));
}
