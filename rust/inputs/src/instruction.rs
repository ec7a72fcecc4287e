use crate::Rng;
use reference::{Instruction, MODIFIER_BITS, MODIFIERS, Modifier, ROW_COUNT, ROWS, Refusal, Row, fresh, read, write};

/// The row of BRANCHZ.
pub const BRANCH: u8 = 1;

const RESERVED_FLOWS: [u8; 3] = [11, 12, 14];

/// The fresh instruction of a row with r0 as each source.
pub fn on_r0(row: u8) -> Instruction {
    Instruction { sources: [0; 4], ..fresh(row.into()).unwrap() }
}

/// A legal instruction of a row, every field random.
pub fn instruction(rng: &mut Rng, number: u8) -> Instruction {
    let row = &ROWS[number as usize];
    let page = rng.below(4) as u8;
    let mut sources = [0; 4];
    for byte in &mut sources[..row.sources] {
        *byte = source(rng, page);
    }
    Instruction {
        row: number,
        page,
        flow: legal_flow(rng),
        register: if row.destination { rng.below(64) as u8 } else { 0 },
        half_mask: if row.destination { rng.pick(&[1, 2, 3, 3]) } else { 0 },
        sources,
        modifiers: row.modifiers.map(|modifier| legal_value(rng, modifier)),
        offset: if row.offset { rng.bits() as i32 >> rng.pick(&[5, 5, 12, 20, 28]) } else { 0 },
    }
}

/// A source byte that is legal on the page: registers, uniforms and constants alike.
pub fn source(rng: &mut Rng, page: u8) -> u8 {
    loop {
        let byte = rng.byte();
        if legal_source(byte, page) {
            return byte;
        }
    }
}

/// An instruction of a row whose numbers fit their fields; they needn't be legal.
pub fn misfit(rng: &mut Rng, number: u8) -> Instruction {
    let row = &ROWS[number as usize];
    let mut wrong = instruction(rng, number);
    // Each field goes wrong now and then, so that many words have exactly one fault.
    if rng.percent(15) {
        wrong.flow = rng.below(16) as u8;
    }
    if row.destination && rng.percent(15) {
        wrong.half_mask = rng.below(4) as u8;
    }
    for (value, modifier) in wrong.modifiers.iter_mut().zip(row.modifiers) {
        if rng.percent(30) {
            *value = rng.below(1 << modifier.width) as u8;
        }
    }
    for byte in &mut wrong.sources[..row.sources] {
        if rng.percent(25) {
            *byte = 192 + rng.below(64) as u8;
        }
    }
    wrong
}

/// The word with these fields, legal or not, field by field from the paper's frame.
pub fn pack(instruction: &Instruction) -> u64 {
    let row = &ROWS[instruction.row as usize];
    let mut word = u64::from(row.opcode) << 48;
    if let Some(secondary) = row.secondary {
        word += u64::from(secondary.value) << secondary.low;
    }
    for (k, byte) in instruction.sources.iter().enumerate() {
        word += u64::from(*byte) << (8 * k);
    }
    for (k, value) in instruction.modifiers.iter().enumerate() {
        word += u64::from(*value) << MODIFIER_BITS[k];
    }
    word += (instruction.offset as i64).rem_euclid(1 << 27) as u64 * 256;
    word += u64::from(instruction.register) << 40;
    word += u64::from(instruction.half_mask) << 46;
    word += u64::from(instruction.page) << 57;
    word + (u64::from(instruction.flow) << 59)
}

/// The bits that the fields of a row own.
pub fn assigned(row: &Row) -> u64 {
    let mut bits = 0x7FFF << 48 | ((1 << (8 * row.sources)) - 1);
    if row.destination {
        bits |= 0xFF << 40;
    }
    if row.offset {
        bits |= 0x7FF_FFFF << 8;
    }
    if let Some(secondary) = row.secondary {
        bits |= ((1 << secondary.width) - 1) << secondary.low;
    }
    for (k, modifier) in row.modifiers.iter().enumerate() {
        bits |= ((1 << modifier.width) - 1) << MODIFIER_BITS[k];
    }
    bits
}

/// The word of a legal instruction.
pub fn encode(instruction: &Instruction) -> u64 {
    let mut word = [0; 8];
    let answer = write(instruction, &mut word);
    assert_eq!(answer, Ok(()), "{instruction:?}");
    u64::from_le_bytes(word)
}

/// A word that is legal but for one fault, with its refusal; number is 2 to 7.
pub fn refused_word(rng: &mut Rng, number: u8) -> (u64, Refusal) {
    loop {
        let row = rng.below(ROW_COUNT) as u8;
        let legal = instruction(rng, row);
        if let Some(found) = spoil(rng, number, legal) {
            return found;
        }
    }
}

/// One fault of this kind, where the row has room for it.
fn spoil(rng: &mut Rng, number: u8, legal: Instruction) -> Option<(u64, Refusal)> {
    let row = &ROWS[legal.row as usize];
    let mut wrong = legal;
    let refusal = match number {
        2 => return Some((other_opcode(rng, pack(&legal)), Refusal::NoRow)),
        3 => {
            let stray = rng.member(!assigned(row));
            let refusal = Refusal::UnassignedBit(stray.trailing_zeros() as u8);
            return Some((pack(&legal) | stray, refusal)).filter(|(word, _)| same_row(*word, legal.row));
        }
        4 => {
            wrong.flow = rng.pick(&RESERVED_FLOWS);
            Refusal::ReservedFlow
        }
        5 => {
            wrong.half_mask = 0;
            row.destination.then_some(Refusal::EmptyHalfMask)?
        }
        6 => {
            let k = rng.below(MODIFIERS);
            wrong.modifiers[k] = illegal_value(rng, row.modifiers[k])?;
            Refusal::Modifier(MODIFIER_BITS[k])
        }
        _ => {
            let k = rng.below(4);
            wrong.sources[k] = 224 + rng.below(32) as u8;
            let refused = k < row.sources && !legal_source(wrong.sources[k], wrong.page);
            refused.then_some(Refusal::Source(k as u8))?
        }
    };
    Some((pack(&wrong), refusal))
}

/// Whether the word's opcode and secondary opcode are those of the row.
fn same_row(word: u64, number: u8) -> bool {
    let row = &ROWS[number as usize];
    let secondary = |secondary: reference::Secondary| {
        word >> secondary.low & ((1 << secondary.width) - 1) == u64::from(secondary.value)
    };
    word >> 48 & 0x1FF == u64::from(row.opcode) && row.secondary.is_none_or(secondary)
}

/// The word with an opcode that no row has.
fn other_opcode(rng: &mut Rng, word: u64) -> u64 {
    loop {
        let opcode = rng.below(512) as u64;
        if ROWS.iter().all(|row| u64::from(row.opcode) != opcode) {
            return word & !(0x1FF << 48) | opcode << 48;
        }
    }
}

fn legal_flow(rng: &mut Rng) -> u8 {
    loop {
        let flow = rng.below(16) as u8;
        if !RESERVED_FLOWS.contains(&flow) {
            return flow;
        }
    }
}

fn legal_value(rng: &mut Rng, modifier: Modifier) -> u8 {
    rng.member(modifier.legal.into()).trailing_zeros() as u8
}

fn illegal_value(rng: &mut Rng, modifier: Modifier) -> Option<u8> {
    let all = (1u64 << (1 << modifier.width)) - 1;
    let illegal = all & !u64::from(modifier.legal);
    (illegal != 0).then(|| rng.member(illegal).trailing_zeros() as u8)
}

/// By the reader itself, on a row with one plain source.
fn legal_source(byte: u8, page: u8) -> bool {
    let mov = 0x0091_C000_0000_0000 | u64::from(page) << 57 | u64::from(byte);
    read(&mov.to_le_bytes()).is_ok()
}
