use reference::{Instruction, MODIFIER_BITS, ROWS};

/// The rows that the replay runs.
const NAMES: [&str; 9] =
    ["NOP", "BRANCHZ", "MOV.i32", "CLZ.u32", "POPCOUNT.i32", "BITREV.i32", "NOT_OLD.i32", "MUX.i32", "FADD.f32"];

/// Their numbers.
pub fn replayed_rows() -> [u8; 9] {
    NAMES.map(|name| ROWS.iter().position(|row| row.name == name).unwrap() as u8)
}

/// Whether the replay runs an instruction, uniforms apart.
pub fn is_replayed(instruction: &Instruction) -> bool {
    let mut other = *instruction;
    as_replayed(&mut other);
    NAMES.contains(&ROWS[instruction.row as usize].name) && other == *instruction
}

/// Turns an instruction of one of these rows into one that the replay runs: no combine or widen, a
/// full write, and fixed numbers in place of special constants.
pub fn as_replayed(instruction: &mut Instruction) {
    let row = &ROWS[instruction.row as usize];
    for low in parts(row.name) {
        instruction.modifiers[MODIFIER_BITS.iter().position(|bit| bit == low).unwrap()] = 0;
    }
    if row.destination {
        instruction.half_mask = 3;
    }
    for byte in instruction.sources[..row.sources].iter_mut().filter(|byte| **byte >= 224) {
        *byte -= 32;
    }
}

/// The lowest bits of a row's combine or widens.
fn parts(name: &str) -> &'static [u8] {
    match name {
        "BRANCHZ" => &[37],
        "FADD.f32" => &[26, 28],
        _ => &[],
    }
}
