//! The paper's checked examples, and the reference's tables as wholes.

use reference::Half::{High, Low};
use reference::{
    Difference, Fault, Half, Instruction, MODIFIER_BITS, Parcel, ROW_COUNT, ROWS, Refusal, Side, Unread, Verdict,
    Version, What, check, differences, fresh, infer, read, write,
};

fn read_word(word: u64) -> Result<Instruction, Refusal> {
    read(&word.to_le_bytes())
}

fn write_word(instruction: &Instruction) -> Result<u64, Refusal> {
    let mut buffer = [0; 8];
    write(instruction, &mut buffer).map(|()| u64::from_le_bytes(buffer))
}

fn row(name: &str) -> u8 {
    ROWS.iter().position(|row| row.name == name).unwrap() as u8
}

fn parcel(entry: u64, words: &[u64], notes: &[u64]) -> Vec<u8> {
    let mut bytes = b"VSP\x01\0\0".to_vec();
    bytes.extend((words.len() as u16).to_le_bytes());
    for number in [entry].iter().chain(words).chain(notes) {
        bytes.extend(number.to_le_bytes());
    }
    bytes
}

/// A parcel of version 2, its sets as low halves and high halves.
fn parcel_2(entry: [u64; 2], words: &[u64], notes: &[[u64; 2]]) -> Vec<u8> {
    let mut bytes = b"VSP\x02\0\0".to_vec();
    bytes.extend((words.len() as u16).to_le_bytes());
    for number in entry.iter().chain(words).chain(notes.as_flattened()) {
        bytes.extend(number.to_le_bytes());
    }
    bytes
}

/// A refusal from version 1, where a register at fault is always told as its low half.
fn refused(refusal: Refusal, index: u16, register: u8) -> Verdict {
    let half = (register < 64).then_some(Low);
    Verdict::Refused { refusal, index, register, half }
}

/// A refusal from version 2 that blames a half of a register.
fn refused_half(refusal: Refusal, index: u16, register: u8, half: Half) -> Verdict {
    Verdict::Refused { refusal, index, register, half: Some(half) }
}

fn line(what: What, index: u16, first: u64, second: u64) -> Difference {
    Difference { what, index, first, second }
}

/// An instruction with a full destination, all else 0.
fn plain(name: &str, register: u8, sources: [u8; 4]) -> Instruction {
    Instruction { row: row(name), register, half_mask: 3, sources, ..Instruction::default() }
}

fn with(mut instruction: Instruction, lowest_bit: u8, value: u8) -> Instruction {
    let slot = MODIFIER_BITS.iter().position(|low| *low == lowest_bit).unwrap();
    instruction.modifiers[slot] = value;
    instruction
}

const A: u64 = 0x0091_C100_0000_0002;
const B: u64 = 0x7800_0000_0000_0000;
const C: u64 = 0x0091_C300_000C_0044;
const BRANCH: u64 = 0x001F_0000_0000_00C0;
/// MOV.i32 of constant 0 to the low half of r1, and to its high half.
const LOW_R1: u64 = 0x0091_4100_0000_00C0;
const HIGH_R1: u64 = 0x0091_8100_0000_00C0;
/// MOV.i32 r2, r1, with `end`.
const USE_R1: u64 = 0x7891_C200_0000_0001;

const R1: u64 = 1 << 1;
const R2: u64 = 1 << 2;
const R3: u64 = 1 << 3;
const R4: u64 = 1 << 4;
const ALL: u64 = u64::MAX;

fn branch(offset: i32) -> u64 {
    BRANCH | (offset as u64 & 0x7FF_FFFF) << 8
}

#[test]
fn words_that_read() {
    let fadd = with(plain("FADD.f32", 0, [1, 2, 0, 0]), 36, 1);
    let fadd16 = with(with(plain("FADD.v2f16", 0, [1, 2, 0, 0]), 28, 2), 26, 2);
    let branch = Instruction { row: row("BRANCHZ"), sources: [192, 0, 0, 0], offset: -1, ..Instruction::default() };
    let examples = [
        (A, plain("MOV.i32", 1, [2, 0, 0, 0])),
        (B, Instruction { flow: 15, ..Instruction::default() }),
        (C, plain("POPCOUNT.i32", 3, [68, 0, 0, 0])),
        (0x00A4_C010_0000_0201, fadd),
        (0x001F_0007_FFFF_FFC0, branch),
        (0x00A5_C000_2800_0201, fadd16),
        (0x0291_C100_0000_0085, Instruction { page: 1, ..plain("MOV.i32", 1, [133, 0, 0, 0]) }),
        (0x0091_C100_0000_00E4, plain("MOV.i32", 1, [228, 0, 0, 0])),
        (0x0091_C100_0000_00E5, plain("MOV.i32", 1, [229, 0, 0, 0])),
    ];
    for (word, instruction) in examples {
        assert_eq!(read_word(word), Ok(instruction), "{word:016X}");
        assert_eq!(write_word(&instruction), Ok(word), "{word:016X}");
    }
}

#[test]
fn words_that_are_refused() {
    let examples = [
        (0x8000_0000_0000_0000, Refusal::UnassignedBit(63)),
        (0x0091_C100_0001_0002, Refusal::NoRow),
        (0x5891_C100_0000_0002, Refusal::ReservedFlow),
        (0x00F0_C006_0002_0100, Refusal::Modifier(32)),
        (0x0091_C100_0000_00E0, Refusal::Source(0)),
        (0x0091_C100_0000_00E2, Refusal::Source(0)),
        (0x0091_C100_0000_0102, Refusal::UnassignedBit(8)),
        (0x0091_0100_0000_0002, Refusal::EmptyHalfMask),
    ];
    for (word, refusal) in examples {
        assert_eq!(read_word(word), Err(refusal), "{word:016X}");
    }
}

#[test]
fn word_lengths() {
    for length in (0..24).filter(|length| *length != 8) {
        assert_eq!(read(&vec![0; length]), Err(Refusal::WordLength), "{length}");
        let mut buffer = vec![7; length];
        assert_eq!(write(&Instruction::default(), &mut buffer), Err(Refusal::BufferLength), "{length}");
        assert_eq!(buffer, vec![7; length], "{length}");
    }
}

#[test]
fn instructions_that_are_refused() {
    let mov = plain("MOV.i32", 1, [2, 0, 0, 0]);
    let branch = Instruction { row: row("BRANCHZ"), ..Instruction::default() };
    let lane = plain("F16_TO_F32", 0, [0; 4]);
    let examples = [
        (Instruction { row: 77, ..mov }, Refusal::NoRow),
        (Instruction { offset: 67_108_864, ..branch }, Refusal::FieldRange),
        (Instruction { offset: -67_108_865, ..branch }, Refusal::FieldRange),
        (Instruction { offset: 1, ..mov }, Refusal::FieldRange),
        (Instruction { page: 4, ..mov }, Refusal::FieldRange),
        (Instruction { flow: 16, half_mask: 0, ..mov }, Refusal::FieldRange),
        (Instruction { register: 64, ..mov }, Refusal::FieldRange),
        (Instruction { half_mask: 4, ..mov }, Refusal::FieldRange),
        (Instruction { half_mask: 3, ..branch }, Refusal::FieldRange),
        (Instruction { sources: [2, 1, 0, 0], ..mov }, Refusal::FieldRange),
        (with(mov, 30, 1), Refusal::FieldRange),
        (with(lane, 28, 2), Refusal::FieldRange),
        (Instruction { flow: 12, half_mask: 0, ..mov }, Refusal::ReservedFlow),
        (Instruction { half_mask: 0, sources: [224, 0, 0, 0], ..mov }, Refusal::EmptyHalfMask),
        (with(with(plain("ICMP_OR.u32", 0, [224; 4]), 32, 7), 26, 1), Refusal::FieldRange),
        (with(with(plain("ICMP_OR.u32", 0, [0, 0, 224, 0]), 32, 7), 26, 1), Refusal::Modifier(26)),
        (plain("CSEL.f32", 0, [0, 255, 225, 224]), Refusal::Source(2)),
    ];
    for (instruction, refusal) in examples {
        assert_eq!(write_word(&instruction), Err(refusal), "{instruction:?}");
    }
    for offset in [67_108_863, -67_108_864] {
        let instruction = Instruction { offset, ..branch };
        assert_eq!(write_word(&instruction).and_then(read_word), Ok(instruction));
    }
}

/// Every source byte on every page, against the enumerations spelled out by name: a value has two bytes, its low and its high word.
#[test]
fn source_bytes() {
    let names: [&[(u8, &str)]; 4] = [
        &[
            (2, "warp_id"),
            (4, "framebuffer_size"),
            (5, "atest_datum"),
            (6, "sample"),
            (8, "blend_descriptor_0"),
            (9, "blend_descriptor_1"),
            (10, "blend_descriptor_2"),
            (11, "blend_descriptor_3"),
            (12, "blend_descriptor_4"),
            (13, "blend_descriptor_5"),
            (14, "blend_descriptor_6"),
            (15, "blend_descriptor_7"),
        ],
        &[(1, "thread_local_pointer"), (3, "workgroup_local_pointer"), (7, "resource_table_pointer")],
        &[],
        &[(1, "lane_id"), (3, "core_id"), (15, "program_counter")],
    ];
    for page in 0..4 {
        for byte in 0..=255 {
            let named = names[page as usize]
                .iter()
                .any(|(value, _)| [192 + 32 + 2 * value, 192 + 33 + 2 * value].contains(&byte));
            let instruction = Instruction { page, ..plain("MOV.i32", 1, [byte, 0, 0, 0]) };
            let expected = if byte < 224 || named { Ok(instruction) } else { Err(Refusal::Source(0)) };
            let word = A & !0xFF | u64::from(byte) | u64::from(page) << 57;
            assert_eq!(read_word(word), expected, "byte {byte} on page {page}");
        }
    }
}

#[test]
fn fresh_instructions() {
    for number in 0..ROW_COUNT {
        let instruction = fresh(number as u64).unwrap();
        assert_eq!(write_word(&instruction).and_then(read_word), Ok(instruction), "{number}");
    }
    for row in [77, 78, 255, 256, 257, 1 << 32, (1 << 32) + 3, u64::MAX] {
        assert_eq!(fresh(row), Err(Refusal::NoRow), "{row}");
    }
    let halves = with(with(with(plain("MUX.v2i16", 0, [0xC0, 0xC0, 0xC0, 0]), 24, 2), 26, 2), 28, 2);
    assert_eq!(fresh(row("MUX.v2i16").into()), Ok(with(halves, 32, 1)));
    let compare = with(with(plain("ICMP_AND.v2u16", 0, [0xC0, 0xC0, 0xC0, 0]), 26, 2), 36, 2);
    assert_eq!(fresh(row("ICMP_AND.v2u16").into()), Ok(compare));
    for (name, sources) in [("MOV.i32", [0xC0, 0, 0, 0]), ("FADD.f32", [0xC0, 0xC0, 0, 0]), ("CSEL.f32", [0xC0; 4])] {
        assert_eq!(fresh(row(name).into()), Ok(plain(name, 0, sources)));
    }
    let branch = Instruction { row: row("BRANCHZ"), sources: [0xC0, 0, 0, 0], ..Instruction::default() };
    assert_eq!(fresh(row("BRANCHZ").into()), Ok(branch));
    assert_eq!(fresh(0), Ok(Instruction::default()));
}

/// The rows' places, by a few names of each part of the list.
#[test]
fn row_numbers() {
    let numbers = [
        ("NOP", 0),
        ("CSEL.v2f16", 4),
        ("V2S16_TO_V2F16", 5),
        ("FROUND.v2f16", 29),
        ("MOV.i32", 30),
        ("NOT_OLD.i32", 39),
        ("FLUSH.v2f16", 41),
        ("FRCP.f32", 42),
        ("FEXP_TABLE.u4", 52),
        ("FADD.f32", 53),
        ("MUX.v4i8", 57),
        ("IDP.v4u8", 63),
        ("ICMP_AND.v4u8", 69),
        ("FCMP_OR.f32", 70),
        ("FCMP_AND.v2f16", 73),
        ("ICMP_OR.v4s8", 76),
    ];
    for (name, number) in numbers {
        assert_eq!(row(name), number, "{name}");
    }
}

/// No bit belongs to two fields of a row.
#[test]
fn fields_are_disjoint() {
    for row in &ROWS {
        let mut fields = vec![(48, 9), (57, 2), (59, 4), (0, 8 * row.sources as u8)];
        fields.extend(row.destination.then_some((40, 8)));
        fields.extend(row.offset.then_some((8, 27)));
        fields.extend(row.secondary.map(|secondary| (secondary.low, secondary.width)));
        fields.extend(MODIFIER_BITS.iter().zip(row.modifiers).map(|(low, modifier)| (*low, modifier.width)));
        let mut owned = 0;
        for (low, width) in fields {
            let bits = ((1u64 << width) - 1) << low;
            assert_eq!(owned & bits, 0, "{} at bit {low}", row.name);
            owned |= bits;
        }
        assert_eq!(owned >> 63, 0, "{}", row.name);
    }
}

#[test]
fn parcels_that_do_not_open() {
    let good = parcel(4, &[A | B], &[4]);
    assert_eq!(check(&good), Verdict::Accepted);
    let damaged = |at: usize, byte: u8| {
        let mut bytes = good.clone();
        bytes[at] = byte;
        bytes
    };
    let examples = [
        (damaged(0, b'v'), Refusal::Mark),
        (damaged(2, 0), Refusal::Mark),
        (damaged(3, 0), Refusal::Version),
        (damaged(3, 3), Refusal::Version),
        (damaged(4, 1), Refusal::Version),
        // Version 2 has another length.
        (damaged(3, 2), Refusal::Size),
        (damaged(5, 1), Refusal::ReservedByte),
        (damaged(6, 0), Refusal::Size),
        (damaged(6, 2), Refusal::Size),
        (damaged(7, 1), Refusal::Size),
        (parcel(0, &[], &[]), Refusal::Size),
        (parcel(0, &[B; 2049], &[0; 2049]), Refusal::Size),
        (vec![b'v'; 15], Refusal::Size),
        (vec![b'v'; 16], Refusal::Mark),
        (good[..31].to_vec(), Refusal::Size),
        ([&good[..], &[0]].concat(), Refusal::Size),
        (Vec::new(), Refusal::Size),
    ];
    for (bytes, refusal) in examples {
        assert_eq!(check(&bytes), refused(refusal, 0, 64), "{bytes:02X?}");
        assert_eq!(Parcel::open(&bytes).err(), Some(refusal), "{bytes:02X?}");
    }
    assert_eq!(check(&parcel(0, &[B; 2048], &[0; 2048])), Verdict::Accepted);
}

#[test]
fn opened_parcels() {
    let bytes = parcel(4, &[A, B], &[4, 0]);
    let opened = Parcel::open(&bytes).unwrap();
    assert_eq!((opened.version, opened.entry, opened.count()), (Version::One, [4, 4], 2));
    assert_eq!(opened.word(1), Ok(&B.to_le_bytes()));
    for index in [2, 3, 2048, usize::MAX] {
        assert_eq!(opened.word(index), Err(Refusal::Index));
    }
    assert_eq!(opened.notes().as_ptr_range(), bytes[32..].as_ptr_range());
    assert_eq!(opened.note_halves().collect::<Vec<_>>(), [[4, 4], [0, 0]]);
}

/// Header 24, words of 8 and notes of 16 bytes.
#[test]
fn parcels_of_version_2_that_do_not_open() {
    let good = parcel_2([4, 4], &[A | B], &[[4, 4]]);
    assert_eq!((good.len(), check(&good)), (48, Verdict::Accepted));
    let damaged = |at: usize, byte: u8| {
        let mut bytes = good.clone();
        bytes[at] = byte;
        bytes
    };
    let short = damaged(5, 1);
    let examples = [
        (damaged(0, b'v'), Refusal::Mark),
        (damaged(3, 3), Refusal::Version),
        (damaged(3, 0), Refusal::Version),
        (damaged(4, 1), Refusal::Version),
        (damaged(5, 1), Refusal::ReservedByte),
        (damaged(6, 0), Refusal::Size),
        (damaged(6, 2), Refusal::Size),
        (damaged(7, 1), Refusal::Size),
        // Version 1 has another length.
        (damaged(3, 1), Refusal::Size),
        (parcel_2([0, 0], &[], &[]), Refusal::Size),
        (parcel_2([0, 0], &[B; 2049], &[[0, 0]; 2049]), Refusal::Size),
        // One instruction takes 32 bytes in version 1.
        (good[..32].to_vec(), Refusal::Size),
        (good[..47].to_vec(), Refusal::Size),
        ([&good[..], &[0]].concat(), Refusal::Size),
        (good[..15].to_vec(), Refusal::Size),
        // Cut off within the header, 13 comes before 12.
        (short[..16].to_vec(), Refusal::ReservedByte),
        (short[..23].to_vec(), Refusal::ReservedByte),
        (short[..15].to_vec(), Refusal::Size),
    ];
    for (bytes, refusal) in examples {
        assert_eq!(check(&bytes), refused(refusal, 0, 64), "{bytes:02X?}");
        assert_eq!(Parcel::open(&bytes).err(), Some(refusal), "{bytes:02X?}");
    }
    for length in 16..24 {
        assert_eq!(check(&good[..length]), refused(Refusal::Size, 0, 64), "{length}");
    }
    let longest = parcel_2([0, 0], &[B; 2048], &[[0, 0]; 2048]);
    assert_eq!((longest.len(), check(&longest)), (49_176, Verdict::Accepted));
}

#[test]
fn opened_parcels_of_version_2() {
    let bytes = parcel_2([4, 5], &[A, B], &[[4, 6], [0, 1]]);
    let opened = Parcel::open(&bytes).unwrap();
    assert_eq!((opened.version, opened.entry, opened.count()), (Version::Two, [4, 5], 2));
    assert_eq!(opened.word(0), Ok(&A.to_le_bytes()));
    assert_eq!(opened.word(1), Ok(&B.to_le_bytes()));
    for index in [2, 3, 2048, usize::MAX] {
        assert_eq!(opened.word(index), Err(Refusal::Index));
    }
    assert_eq!(opened.notes().as_ptr_range(), bytes[40..].as_ptr_range());
    assert_eq!(opened.note_halves().collect::<Vec<_>>(), [[4, 6], [0, 1]]);
}

#[test]
fn verdicts() {
    let half = A & !(1 << 46);
    let bad = 0x00F0_C006_0002_0100;
    let no_successor = BRANCH & !0xFF | B | 0x44;
    let examples: [(u64, &[u64], &[u64], Verdict); 22] = [
        (R2, &[A | B], &[R2], Verdict::Accepted),
        (R2, &[A | B], &[0], refused(Refusal::UnheldRead, 0, 2)),
        (R2, &[A], &[R2], refused(Refusal::LeavesProgram, 0, 64)),
        (R2, &[A], &[R2 | R1], refused(Refusal::UnheldAtEntry, 0, 1)),
        // What is released stays so whichever way a later branch goes.
        (R4, &[C, branch(-2), B], &[R4, R3, 0], refused(Refusal::UnheldAfter, 1, 4)),
        (R4, &[C, branch(0), B], &[R4, R3, R3], Verdict::Accepted),
        // The offset counts from the next instruction.
        (0, &[branch(-1), B], &[0, 0], Verdict::Accepted),
        (0, &[branch(-2), B], &[0, 0], refused(Refusal::LeavesProgram, 0, 64)),
        (0, &[branch(1), B], &[0, 0], refused(Refusal::LeavesProgram, 0, 64)),
        (0, &[branch(0), B], &[0, 0], Verdict::Accepted),
        // The fall-through comes before the target.
        (0, &[branch(-2), B], &[0, R3], refused(Refusal::UnheldAfter, 0, 3)),
        (0, &[B, branch(-2)], &[0, 0], refused(Refusal::LeavesProgram, 1, 64)),
        // A full write fills, a half write doesn't.
        (R2, &[A, B], &[R2, R1 | R2], Verdict::Accepted),
        (R2, &[half, B], &[R2, R1 | R2], refused(Refusal::UnheldAfter, 0, 1)),
        // Nor do two, one of each half.
        (0, &[LOW_R1, HIGH_R1, USE_R1], &[0, 0, R1], refused(Refusal::UnheldAfter, 1, 1)),
        (0, &[LOW_R1, HIGH_R1, USE_R1], &[0, 0, 0], refused(Refusal::UnheldRead, 2, 1)),
        // Released and filled by the same instruction: held after it.
        (R1, &[A & !0xFF | 0x41, B], &[R1, R1], Verdict::Accepted),
        // A branch that ends has no successor, but reads its source.
        (R4, &[no_successor], &[R4], Verdict::Accepted),
        (R4, &[no_successor], &[0], refused(Refusal::UnheldRead, 0, 4)),
        // An unreadable word comes before 23 and 20, the lowest one first.
        (0, &[A, bad, bad], &[R1, 0, 0], refused(Refusal::Modifier(32), 1, 64)),
        (0, &[A, B, 1 << 63], &[0, 0, 0], refused(Refusal::UnassignedBit(63), 2, 64)),
        // Unreachable instructions are checked too.
        (R2, &[B, A], &[0, R2], refused(Refusal::LeavesProgram, 1, 64)),
    ];
    for (entry, words, notes, verdict) in examples {
        assert_eq!(check(&parcel(entry, words, notes)), verdict, "{words:016X?} {notes:X?}");
    }
}

/// Version 2: what is held are halves.
#[test]
fn verdicts_on_halves() {
    // MOV.i32 r3, r1 released; MOV.i32 of r1, released, to its own low half.
    let release = 0x0091_C300_0000_0041;
    let narrow = 0x0091_4100_0000_0041;
    // FADD.v2f16 r0, r1, r2, with `end`; both swizzles are h00, of the low halves alone.
    let add = 0x78A5_C000_0000_0201;
    let read = |index, register, half| refused_half(Refusal::UnheldRead, index, register, half);
    let after = |index, register, half| refused_half(Refusal::UnheldAfter, index, register, half);
    let entry = |register, half| refused_half(Refusal::UnheldAtEntry, 0, register, half);
    type Sets = [u64; 2];
    let examples: [(Sets, &[u64], &[Sets], Verdict); 36] = [
        // Two half writes fill a register, in either order.
        ([0, 0], &[LOW_R1, HIGH_R1, USE_R1], &[[0, 0], [R1, 0], [R1, R1]], Verdict::Accepted),
        ([0, 0], &[HIGH_R1, LOW_R1, USE_R1], &[[0, 0], [0, R1], [R1, R1]], Verdict::Accepted),
        ([0, 0], &[LOW_R1, LOW_R1, USE_R1], &[[0, 0], [R1, 0], [R1, R1]], after(1, 1, High)),
        ([0, 0], &[HIGH_R1, HIGH_R1, USE_R1], &[[0, 0], [0, R1], [R1, R1]], after(1, 1, Low)),
        // So does one, of which the other half is held.
        ([0, R1], &[LOW_R1, USE_R1], &[[0, R1], [R1, R1]], Verdict::Accepted),
        ([R1, 0], &[LOW_R1, USE_R1], &[[R1, 0], [R1, R1]], after(0, 1, High)),
        // A full write fills both halves; a half write takes nothing away.
        ([R2, R2], &[A, USE_R1], &[[R2, R2], [R1, R1]], Verdict::Accepted),
        ([R1, R1], &[LOW_R1, USE_R1], &[[R1, R1], [R1, R1]], Verdict::Accepted),
        // A read needs both halves: low is told before high, high where only high is missing.
        ([0, 0], &[LOW_R1, USE_R1], &[[0, 0], [R1, 0]], read(1, 1, High)),
        ([0, 0], &[HIGH_R1, USE_R1], &[[0, 0], [0, R1]], read(1, 1, Low)),
        ([0, 0], &[LOW_R1, USE_R1], &[[0, 0], [0, 0]], read(1, 1, Low)),
        ([R1, R1], &[USE_R1], &[[R1, R1]], Verdict::Accepted),
        // Whatever its swizzle.
        ([R1 | R2, R1 | R2], &[add], &[[R1 | R2, R1 | R2]], Verdict::Accepted),
        ([R1 | R2, R1 | R2], &[add], &[[R1 | R2, R1]], read(0, 2, High)),
        ([R1 | R2, R1 | R2], &[add], &[[R1 | R2, 0]], read(0, 1, High)),
        // The lowest register of which any half is missing, and then its half.
        ([R1 | R2, R1 | R2], &[add], &[[R1, R2]], read(0, 1, High)),
        ([R1 | R2, R1 | R2], &[add], &[[R2, R1]], read(0, 1, Low)),
        ([R1 | R2, R1 | R2], &[add], &[[R1, R1]], read(0, 2, Low)),
        ([0, 0], &[B], &[[R2, R1]], entry(1, High)),
        ([0, 0], &[B], &[[R1 | R2, R1]], entry(1, Low)),
        ([0, R1], &[B], &[[R1, R1 | R2]], entry(1, Low)),
        ([R1, R2], &[B], &[[R1, R1]], entry(1, High)),
        ([1 << 63, 0], &[B], &[[1 << 63, 1 << 63]], entry(63, High)),
        ([R1, R2], &[B], &[[R1, R2]], Verdict::Accepted),
        // A release drops both halves, whatever the note after it names.
        ([R1, R1], &[release, B], &[[R1, R1], [R3, R3]], Verdict::Accepted),
        ([R1, R1], &[release, B], &[[R1, R1], [R1, 0]], after(0, 1, Low)),
        ([R1, R1], &[release, B], &[[R1, R1], [0, R1]], after(0, 1, High)),
        ([R1, R1], &[release, B], &[[R1, 0], [0, 0]], read(0, 1, High)),
        // The write comes after the release.
        ([R1, R1], &[narrow, B], &[[R1, R1], [R1, 0]], Verdict::Accepted),
        ([R1, R1], &[narrow, B], &[[R1, R1], [R1, R1]], after(0, 1, High)),
        // The fall-through before the target, each with its half.
        ([0, R3], &[branch(-1), B], &[[0, R3], [0, R3]], Verdict::Accepted),
        ([0, R3], &[branch(-1), B], &[[0, R3], [R3, R3]], after(0, 3, Low)),
        ([0, R3], &[B, branch(-2), B], &[[0, R3], [0, 0], [0, 0]], after(1, 3, High)),
        // Neither half where no register is at fault; an unreadable word comes before 23.
        ([R2, R2], &[A], &[[R2, R2]], refused(Refusal::LeavesProgram, 0, 64)),
        ([0, 0], &[branch(-2), B], &[[0, 0], [0, 0]], refused(Refusal::LeavesProgram, 0, 64)),
        ([0, 0], &[A, 1 << 63], &[[R1, 0], [0, 0]], refused(Refusal::UnassignedBit(63), 1, 64)),
    ];
    for (entry, words, notes, verdict) in examples {
        assert_eq!(check(&parcel_2(entry, words, notes)), verdict, "{entry:X?} {words:016X?} {notes:X?}");
    }
}

/// Worked out by hand, sweep by sweep.
#[test]
fn proposals() {
    // MOV r1, constant 0, full and low half; BRANCHZ on r1, released; NOP.
    let fill = A & !0xFF | 0xC0;
    let half = fill & !(2 << 46);
    let release = |offset| branch(offset) & !0xFF | 0x41;
    let nop = B & !(15 << 59);
    // Notes and sweeps.
    type Answer<'a> = Result<(&'a [u64], u32), Refusal>;
    let none = Refusal::NoNotes;
    let examples: [(u64, &[u64], Answer); 16] = [
        (R2 | R3, &[A | B], Ok((&[R2 | R3], 1))),
        (R3, &[A | B], Err(none)),
        (R2, &[A], Err(none)),
        (R2, &[A, B], Ok((&[R2, R1 | R2], 2))),
        (R4, &[C, B], Ok((&[R4, R3], 2))),
        (R4, &[C, branch(-2), B], Err(none)),
        (R4, &[C, branch(-1), B], Ok((&[R4, R3, R3], 3))),
        (R2, &[half, B], Ok((&[R2, R2], 2))),
        // Two half writes never fill a register.
        (0, &[LOW_R1, HIGH_R1, B], Ok((&[0, 0, 0], 3))),
        (0, &[LOW_R1, HIGH_R1, USE_R1], Err(none)),
        // Note 0 is narrowed too: the loop comes back without r1.
        (R1 | R2, &[fill, release(-2), B], Ok((&[R2, R1 | R2, R2], 3))),
        // Nothing arrives at the last one.
        (0, &[B, B], Ok((&[0, ALL], 1))),
        // The third can't be reached, but goes on to the second, and takes r1 from its note.
        (R1 | R2, &[nop, B, release(-2), B], Ok((&[R1 | R2, R2, ALL, ALL & !R1], 2))),
        // A loop that nothing reaches keeps what it doesn't release.
        (0, &[B, fill, release(-2), B], Ok((&[0, ALL & !R1, ALL, ALL & !R1], 2))),
        // Unreached ones that leave the program, or read what one before has released.
        (0, &[B, nop], Err(none)),
        (0, &[B, release(0), release(0), B], Err(none)),
    ];
    for (entry, words, expected) in examples {
        // The set of high halves plays no part.
        for high in [entry, 0, ALL] {
            assert_eq!(propose(1, words, [entry, high]), owned(expected), "{words:016X?} {high:X}");
        }
    }
}

/// Words without notes, in version 2; sweep by sweep.
#[test]
fn proposals_of_halves() {
    // BRANCHZ on r1, released; NOP.
    let release = |offset| branch(offset) & !0xFF | 0x41;
    let nop = B & !(15 << 59);
    // Sets as low halves and high halves.
    type Answer<'a> = Result<(&'a [[u64; 2]], u32), Refusal>;
    let none = Refusal::NoNotes;
    let examples: [([u64; 2], &[u64], Answer); 16] = [
        ([R2, R2 | R3], &[A | B], Ok((&[[R2, R2 | R3]], 1))),
        ([R2, R3], &[A | B], Err(none)),
        ([R2, R2], &[A], Err(none)),
        ([R2, R2 | R3], &[A, B], Ok((&[[R2, R2 | R3], [R1 | R2, R1 | R2 | R3]], 2))),
        ([R4, R4], &[C, B], Ok((&[[R4, R4], [R3, R3]], 2))),
        ([R4, 0], &[C, B], Err(none)),
        // The first sweep sets the second note, the next one the third, the last changes nothing.
        ([0, 0], &[LOW_R1, HIGH_R1, USE_R1], Ok((&[[0, 0], [R1, 0], [R1, R1]], 3))),
        ([0, 0], &[HIGH_R1, LOW_R1, USE_R1], Ok((&[[0, 0], [0, R1], [R1, R1]], 3))),
        ([0, 0], &[LOW_R1, LOW_R1, USE_R1], Err(none)),
        // One set stays as it is, the other goes on changing: both are swept until neither changes.
        ([ALL, 0], &[nop, nop, B], Ok((&[[ALL, 0]; 3], 3))),
        ([0, ALL], &[nop, nop, B], Ok((&[[0, ALL]; 3], 3))),
        ([ALL, ALL], &[nop, nop, B], Ok((&[[ALL, ALL]; 3], 1))),
        ([!R1, !R1], &[HIGH_R1, nop, nop, B], Ok((&[[!R1, !R1], [!R1, ALL], [!R1, ALL], [!R1, ALL]], 4))),
        // The loop comes back without r1. One half write doesn't fill it again, two do.
        ([R1 | R2, R1 | R2], &[LOW_R1, release(-2), B], Err(none)),
        (
            [R1 | R2, R1 | R2],
            &[LOW_R1, HIGH_R1, release(-3), B],
            Ok((&[[R2, R2], [R1 | R2, R2], [R1 | R2, R1 | R2], [R2, R2]], 4)),
        ),
        // Nothing arrives at the last one.
        ([0, R1], &[B, B], Ok((&[[0, R1], [ALL, ALL]], 1))),
    ];
    for (entry, words, expected) in examples {
        let expected = expected.map(|(notes, sweeps)| (notes.as_flattened(), sweeps));
        assert_eq!(propose(2, words, entry), owned(expected), "{entry:X?} {words:016X?}");
    }
}

/// 11, then 12, then the lowest unreadable word; the buffer stays.
#[test]
fn proposals_that_are_refused() {
    let fault = |refusal, index| Err(Fault { refusal, index, register: 64 });
    let infer = |version, words: &[u8], room: usize| {
        let mut notes = vec![0xA5; room];
        let answer = infer(version, words, [0, 0], &mut notes);
        assert!(answer.is_ok() || notes == vec![0xA5; room], "version {version}");
        answer
    };
    let good = B.to_le_bytes();
    let stray = [good, (1u64 << 63).to_le_bytes()].concat();
    assert_eq!((infer(1, &good, 8), infer(2, &good, 16)), (Ok(1), Ok(1)));
    for version in [0, 3, 4, 255, 256, 257, 258, 1 << 16 | 1, 1 << 32 | 2, u64::MAX] {
        for (words, room) in [(&good[..], 8), (&good, 16), (&good[..7], 8), (&[], 0), (&stray, 16), (&stray, 32)] {
            assert_eq!(infer(version, words, room), fault(Refusal::Version, 0), "version {version}");
        }
    }
    for (version, note) in [(1, 8), (2, 16)] {
        assert_eq!(infer(version, &good, 24 - note), fault(Refusal::Size, 0), "the other version's notes");
        assert_eq!(infer(version, &stray, note), fault(Refusal::Size, 0), "version {version}");
        assert_eq!(infer(version, &good[..7], note), fault(Refusal::Size, 0), "version {version}");
        assert_eq!(infer(version, &[], 0), fault(Refusal::Size, 0), "version {version}");
        assert_eq!(infer(version, &good.repeat(2048), 2048 * note), Ok(1), "version {version}");
        assert_eq!(infer(version, &good.repeat(2049), 2049 * note), fault(Refusal::Size, 0), "version {version}");
        assert_eq!(infer(version, &stray, 2 * note), fault(Refusal::UnassignedBit(63), 1), "version {version}");
    }
}

/// The notes as numbers, and the sweeps; a refusal, which blames no instruction, leaves the buffer.
fn propose(version: u64, words: &[u64], entry: [u64; 2]) -> Result<(Vec<u64>, u32), Refusal> {
    let bytes: Vec<u8> = words.iter().flat_map(|word| word.to_le_bytes()).collect();
    let mut notes = vec![0xA5; version as usize * bytes.len()];
    let answer = infer(version, &bytes, entry, &mut notes);
    if let Err(fault) = answer {
        assert_eq!((fault.index, fault.register), (0, 64));
        assert!(notes.iter().all(|byte| *byte == 0xA5));
    }
    let numbers = notes.as_chunks().0.iter().map(|note| u64::from_le_bytes(*note)).collect();
    answer.map(|sweeps| (numbers, sweeps)).map_err(|fault| fault.refusal)
}

fn owned(answer: Result<(&[u64], u32), Refusal>) -> Result<(Vec<u64>, u32), Refusal> {
    answer.map(|(notes, sweeps)| (notes.to_vec(), sweeps))
}

/// Worked out by hand from the paper: the lists of parcels with entry set 4 and notes 0.
#[test]
fn comparisons() {
    let nop = 0;
    // FLUSH.f32 r0, r1 released, with NaN mode 2 and flush_inf.
    let flush = 0x0098_C000_0000_0A41;
    let examples: [(&[u64], &[u64], &[Difference]); 12] = [
        (&[A], &[A], &[]),
        (&[A], &[A | 0x40], &[line(What::Source(0), 0, 2, 0x42)]),
        (&[A], &[A | 1 << 57], &[line(What::Page, 0, 0, 1)]),
        (&[A], &[A | B], &[line(What::Flow, 0, 0, 15)]),
        (&[A], &[A ^ 0x80 << 40], &[line(What::Destination, 0, 0xC1, 0x41)]),
        (
            &[B, A],
            &[B, C],
            &[line(What::Row, 1, 30, 37), line(What::Destination, 1, 0xC1, 0xC3), line(What::Source(0), 1, 2, 0x44)],
        ),
        (&[branch(2)], &[branch(-2)], &[line(What::Modifier(8), 0, 2, 0x7FF_FFFE)]),
        // NaN mode and offset are one field, and both are 2; ftz is 0 on either side.
        (
            &[branch(2)],
            &[flush],
            &[
                line(What::Row, 0, 1, 40),
                line(What::Destination, 0, 0, 0xC0),
                line(What::Source(0), 0, 0xC0, 0x41),
                line(What::Modifier(11), 0, 0, 1),
            ],
        ),
        (&[A], &[A, nop, B], &[line(What::Added, 1, 0, 0), line(What::Added, 2, 0, B)]),
        (&[A, nop, B], &[A], &[line(What::Removed, 1, 0, 0), line(What::Removed, 2, B, 0)]),
        (&[nop, A], &[B], &[line(What::Flow, 0, 0, 15), line(What::Removed, 1, A, 0)]),
        (
            &[0x00F0_C002_0002_0100],
            &[0x00F0_C004_4002_0100],
            &[line(What::Modifier(30), 0, 0, 1), line(What::Modifier(32), 0, 2, 4)],
        ),
    ];
    for (first, second, lines) in examples {
        let bytes = [first, second].map(|words| parcel(4, words, &vec![0; words.len()]));
        assert_eq!(differences(&bytes[0], &bytes[1]), Ok(lines.to_vec()), "{first:016X?} {second:016X?}");
    }
}

/// Entry sets and notes come last; a note without a counterpart isn't told.
#[test]
fn comparisons_of_sets() {
    let first = parcel(4, &[A, B], &[4, 1]);
    let second = parcel(5, &[A, B, B], &[6, 1, 7]);
    let added = line(What::Added, 2, 0, B);
    let sets = [line(What::Entry(None), 0, 4, 5), line(What::Note(None), 0, 4, 6)];
    assert_eq!(differences(&first, &second), Ok([&[added], &sets[..]].concat()));
    assert_eq!(differences(&second, &second), Ok(Vec::new()));
}

/// Other versions: they come first, and a version 1 set stands for both halves.
#[test]
fn comparisons_of_versions() {
    let old = parcel(4, &[A, B], &[4, 1]);
    let same = parcel_2([4, 4], &[A, B], &[[4, 4], [1, 1]]);
    assert_eq!(differences(&old, &same), Ok(vec![line(What::Version, 0, 1, 2)]));
    assert_eq!(differences(&same, &old), Ok(vec![line(What::Version, 0, 2, 1)]));
    assert_eq!(differences(&same, &same), Ok(Vec::new()));
    let new = parcel_2([4, 5], &[A | B, B, C], &[[0, 4], [2, 3], [7, 7]]);
    let lines = [
        line(What::Version, 0, 1, 2),
        line(What::Flow, 0, 0, 15),
        line(What::Added, 2, 0, C),
        line(What::Entry(Some(High)), 0, 4, 5),
        line(What::Note(Some(Low)), 0, 4, 0),
        line(What::Note(Some(Low)), 1, 1, 2),
        line(What::Note(Some(High)), 1, 1, 3),
    ];
    assert_eq!(differences(&old, &new), Ok(lines.to_vec()));
    let lines = [
        line(What::Version, 0, 2, 1),
        line(What::Flow, 0, 15, 0),
        line(What::Removed, 2, C, 0),
        line(What::Entry(Some(High)), 0, 5, 4),
        line(What::Note(Some(Low)), 0, 0, 4),
        line(What::Note(Some(Low)), 1, 2, 1),
        line(What::Note(Some(High)), 1, 3, 1),
    ];
    assert_eq!(differences(&new, &old), Ok(lines.to_vec()));
}

/// Two parcels of version 2: a line for each set, in the order of the file.
#[test]
fn comparisons_of_halves() {
    let first = parcel_2([1, 2], &[A, B], &[[4, 4], [8, 8]]);
    let second = parcel_2([3, 4], &[A, B], &[[4, 5], [9, 10]]);
    let lines = [
        line(What::Entry(Some(Low)), 0, 1, 3),
        line(What::Entry(Some(High)), 0, 2, 4),
        line(What::Note(Some(High)), 0, 4, 5),
        line(What::Note(Some(Low)), 1, 8, 9),
        line(What::Note(Some(High)), 1, 8, 10),
    ];
    assert_eq!(differences(&first, &second), Ok(lines.to_vec()));
    let unread = |side, refusal, index| Err(Unread { side, refusal, index });
    let mut third = first.clone();
    third[3] = 3;
    assert_eq!(differences(&first, &third), unread(Side::Second, Refusal::Version, 0));
    assert_eq!(differences(&third, &second[..20]), unread(Side::First, Refusal::Version, 0));
    assert_eq!(differences(&first, &second[..20]), unread(Side::Second, Refusal::Size, 0));
}

/// The first parcel that doesn't open or read, whatever the second is.
#[test]
fn comparisons_that_are_refused() {
    let good = parcel(0, &[A, B], &[0, 0]);
    let stray = parcel(0, &[A, 1 << 63, 0x0091_C100_0000_00E0], &[0; 3]);
    let unread = |side, refusal, index| Err(Unread { side, refusal, index });
    assert_eq!(differences(&good, &stray), unread(Side::Second, Refusal::UnassignedBit(63), 1));
    assert_eq!(differences(&stray, &good), unread(Side::First, Refusal::UnassignedBit(63), 1));
    assert_eq!(differences(&stray, &good[..15]), unread(Side::First, Refusal::UnassignedBit(63), 1));
    assert_eq!(differences(&good[..15], &stray), unread(Side::First, Refusal::Size, 0));
    assert_eq!(differences(&good, &good[1..]), unread(Side::Second, Refusal::Mark, 0));
}

#[test]
fn numbers_and_places() {
    let refusals = [
        (Refusal::WordLength, 1, 0),
        (Refusal::NoRow, 2, 0),
        (Refusal::UnassignedBit(40), 3, 40),
        (Refusal::ReservedFlow, 4, 0),
        (Refusal::EmptyHalfMask, 5, 0),
        (Refusal::Modifier(37), 6, 37),
        (Refusal::Source(3), 7, 3),
        (Refusal::BufferLength, 8, 0),
        (Refusal::FieldRange, 9, 0),
        (Refusal::Mark, 10, 0),
        (Refusal::Version, 11, 0),
        (Refusal::Size, 12, 0),
        (Refusal::ReservedByte, 13, 0),
        (Refusal::Index, 14, 0),
        (Refusal::UnheldRead, 20, 0),
        (Refusal::LeavesProgram, 21, 0),
        (Refusal::UnheldAfter, 22, 0),
        (Refusal::UnheldAtEntry, 23, 0),
        (Refusal::NoNotes, 24, 0),
        (Refusal::NotReplayed, 30, 0),
        (Refusal::NoUniform, 31, 0),
        (Refusal::TraceLength, 32, 0),
    ];
    for (refusal, number, place) in refusals {
        assert_eq!((refusal.number(), refusal.place()), (number, place), "{refusal:?}");
    }
}
