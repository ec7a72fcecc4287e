//! The reference's texts: against Mesa's disassembler, by hand, and against the reader.

use inputs::{Rng, instruction, mesa, on_r0};
use reference::{Instruction, MODIFIER_BITS, ROW_COUNT, ROWS, read, text};

fn row(name: &str) -> u8 {
    ROWS.iter().position(|row| row.name == name).unwrap() as u8
}

fn plain(name: &str) -> Instruction {
    on_r0(row(name))
}

/// The instruction with another value of the modifier at a lowest bit.
fn with(instruction: Instruction, low: u8, value: u8) -> Instruction {
    let mut other = instruction;
    other.modifiers[MODIFIER_BITS.iter().position(|bit| *bit == low).unwrap()] = value;
    other
}

#[test]
fn texts_of_mesa() {
    let mut seen = [0; ROW_COUNT];
    for (word, expected) in mesa() {
        let instruction = read(&word.to_le_bytes()).unwrap();
        assert_eq!(text(&instruction), expected, "{word:016X}");
        seen[instruction.row as usize] += 1;
    }
    assert_eq!(seen, [4; ROW_COUNT]);
}

/// The paper's examples that read, and words with much in them.
#[test]
fn texts_by_hand() {
    let examples = [
        (0x0091_C100_0000_0002, "MOV.i32 r1, r2"),
        (0x7800_0000_0000_0000, "NOP.end"),
        (0x0091_C300_000C_0044, "POPCOUNT.i32 r3, ^r4"),
        (0x00A4_C010_0000_0201, "FADD.f32 r0, r1, r2.neg"),
        (0x001F_0007_FFFF_FFC0, "BRANCHZ 0x0, offset:-1"),
        (0x00A5_C000_2800_0201, "FADD.v2f16 r0, r1, r2"),
        (0x0291_C100_0000_0085, "MOV.i32 r1, u69"),
        (0x0091_C100_0000_00E4, "MOV.i32 r1, warp_id.w0"),
        (0x0691_C100_0000_00FF, "MOV.i32 r1, program_counter.w1"),
        (0x781F_001B_FFFF_FF7F, "BRANCHZ.conservative.eq.end ^r63, offset:67108863"),
        (0x001F_009C_0000_0000, "BRANCHZ.conservative.eq r0.lowbits, offset:-67108864"),
        (0x1898_4AC0_2000_0EBF, "FLUSH.f32.quiet_nan.ftz.flush_inf.wait01 r10.h0, u63.neg.abs.h1"),
    ];
    for (word, expected) in examples {
        assert_eq!(text(&read(&u64::to_le_bytes(word)).unwrap()), expected, "{word:016X}");
    }
}

/// Modifiers that aren't legal, or too large for any word.
#[test]
fn modifiers_without_a_name() {
    let examples = [
        ("BRANCHZ", 37, 5, "BRANCHZ r0.?, offset:0"),
        ("BRANCHZ", 35, 2, "BRANCHZ.? r0, offset:0"),
        ("BRANCHZ", 36, 255, "BRANCHZ.? r0, offset:0"),
        ("S32_TO_F32", 36, 1, "S32_TO_F32 r0, r0.?"),
        ("S32_TO_F32", 36, 8, "S32_TO_F32 r0, r0.?"),
        ("S32_TO_F32", 30, 4, "S32_TO_F32.? r0, r0"),
        ("CLZ.v2u16", 28, 4, "CLZ.v2u16 r0, r0.?"),
        ("F16_TO_F32", 28, 2, "F16_TO_F32 r0, r0.?"),
        ("S8_TO_S32", 28, 4, "S8_TO_S32 r0, r0.?"),
        ("V2S8_TO_V2S16", 36, 16, "V2S8_TO_V2S16 r0, r0.?"),
        ("IABS.v2s16", 36, 14, "IABS.v2s16 r0, r0.?"),
        ("FLUSH.f32", 8, 3, "FLUSH.f32.? r0, r0"),
        ("FLUSH.f32", 10, 2, "FLUSH.f32.none.? r0, r0"),
        ("FLUSH.f32", 11, 9, "FLUSH.f32.none.? r0, r0"),
        ("FRCP.f32", 28, 3, "FRCP.f32 r0, r0.?"),
        ("FADD.f32", 32, 4, "FADD.f32.? r0, r0, r0"),
        ("FADD.f32", 37, 2, "FADD.f32 r0, r0, r0.?"),
        ("MUX.v2i16", 24, 4, "MUX.v2i16 r0, r0, r0, r0.?"),
        ("CUBEFACE1", 34, 3, "CUBEFACE1 r0, r0, r0, r0.?"),
        ("IDP.v4s8", 30, 2, "IDP.v4s8.? r0, r0, r0, r0"),
        ("ICMP_OR.v4u8", 26, 12, "ICMP_OR.v4u8.eq.i1 r0, r0, r0.?, r0"),
        ("ICMP_OR.u32", 32, 8, "ICMP_OR.u32.?.i1 r0, r0, r0, r0"),
        // Not legal on integers, but it has a name.
        ("ICMP_OR.u32", 32, 6, "ICMP_OR.u32.gtlt.i1 r0, r0, r0, r0"),
    ];
    for (name, low, value, expected) in examples {
        assert_eq!(text(&with(plain(name), low, value)), expected);
    }
}

/// Everything but modifiers that isn't legal, or too large for any word.
#[test]
fn other_numbers_without_a_name() {
    let (nop, mov, branch) = (plain("NOP"), plain("MOV.i32"), plain("BRANCHZ"));
    let all = Instruction { sources: [255; 4], modifiers: [255; 14], register: 255, page: 255, offset: -1, ..nop };
    let examples = [
        (Instruction { row: 77, ..all }, "?"),
        (Instruction { row: 255, flow: 15, ..all }, "?.end"),
        (Instruction { row: 255, flow: 16, ..all }, "?.?"),
        (all, "NOP"),
        (Instruction { flow: 11, ..nop }, "NOP.?"),
        (Instruction { flow: 14, ..mov }, "MOV.i32.? r0, r0"),
        (Instruction { flow: 255, ..mov }, "MOV.i32.? r0, r0"),
        (Instruction { half_mask: 0, ..mov }, "MOV.i32 r0.?, r0"),
        (Instruction { half_mask: 4, register: 255, ..mov }, "MOV.i32 r255.?, r0"),
        (Instruction { page: 255, sources: [191, 0, 0, 0], ..mov }, "MOV.i32 r0, u16383"),
        (Instruction { page: 255, sources: [195, 0, 0, 0], ..mov }, "MOV.i32 r0, 0xFAFCFDFE"),
        (Instruction { page: 4, sources: [228, 0, 0, 0], ..mov }, "MOV.i32 r0, ?"),
        (Instruction { page: 2, sources: [228, 0, 0, 0], ..mov }, "MOV.i32 r0, ?"),
        (Instruction { page: 1, sources: [255, 0, 0, 0], ..mov }, "MOV.i32 r0, ?"),
        (Instruction { sources: [226, 0, 0, 0], ..mov }, "MOV.i32 r0, ?"),
        (Instruction { offset: i32::MIN, ..branch }, "BRANCHZ r0, offset:-2147483648"),
        (Instruction { offset: i32::MAX, ..branch }, "BRANCHZ r0, offset:2147483647"),
    ];
    for (instruction, expected) in examples {
        assert_eq!(text(&instruction), expected);
    }
}

/// A source has no name exactly where the reader refuses it.
#[test]
fn sources_without_a_name_are_refused() {
    for page in 0..4 {
        for byte in 0..=255 {
            let text = text(&Instruction { page, sources: [byte, 0, 0, 0], ..plain("MOV.i32") });
            let word = 0x0091_C000_0000_0000 | u64::from(page) << 57 | u64::from(byte);
            assert_eq!(text.contains('?'), read(&word.to_le_bytes()).is_err(), "byte {byte} on page {page}");
        }
    }
}

/// A modifier's value has no name where it isn't legal, but for the two conditions of floats on
/// integers; a modifier that the row doesn't have doesn't show.
#[test]
fn modifiers_without_a_name_are_illegal() {
    for (number, row) in ROWS.iter().enumerate() {
        let plain = on_r0(number as u8);
        for (k, modifier) in row.modifiers.iter().enumerate() {
            for value in 0..=255 {
                let mut other = plain;
                other.modifiers[k] = value;
                let legal = value < 16 && modifier.legal >> value & 1 != 0;
                let float = row.name.starts_with("ICMP") && MODIFIER_BITS[k] == 32 && [6, 7].contains(&value);
                if modifier.width == 0 {
                    assert_eq!(text(&other), text(&plain));
                } else {
                    assert_eq!(text(&other).contains('?'), !legal && !float, "{}", text(&other));
                }
            }
        }
    }
}

/// Legal instructions that differ in one field have different texts, but for the page, and for the
/// two fixed numbers that are 0.
#[test]
fn texts_tell_fields_apart() {
    let mut rng = Rng::new(600);
    for number in 0..ROW_COUNT as u8 {
        for _ in 0..500 {
            let first = instruction(&mut rng, number);
            let second = instruction(&mut rng, number);
            let k = rng.below(14);
            let mut others = [first; 6];
            others[0].flow = second.flow;
            others[1].register = second.register;
            others[2].half_mask = second.half_mask;
            others[3].sources[k % 4] = if second.page == first.page { second.sources[k % 4] } else { 0 };
            others[4].modifiers[k] = second.modifiers[k];
            others[5].offset = second.offset;
            for other in others {
                let same = Instruction { sources: first.sources.map(zero), ..first }
                    == Instruction { sources: other.sources.map(zero), ..other };
                assert_eq!(text(&first) == text(&other), same, "{first:?} {other:?}");
            }
        }
    }
}

/// One byte for both of the numbers that are 0.
fn zero(byte: u8) -> u8 {
    if byte == 192 + 21 { 192 } else { byte }
}
