//! Parcels of both versions checked by the library and by the reference: over half a million.

mod common;

use common::{Tally, compare_check, compare_check_as, verdict_code};
use inputs::{
    BRANCH, Program, Rng, Set, Shape, both_versions, parcel, parcel_2, parcel_of, refused_word, with_version, with_word,
};
use reference::{Half, ROW_COUNT, Refusal, Verdict};

const ACCEPTED: Verdict = Verdict::Accepted;
/// NOP with `end`.
const END: u64 = 0x7800_0000_0000_0000;

both_versions! {
    accepted_with_exact_notes
    accepted_with_weaker_notes
    many_branches
    long_parcels
    one_instruction
    unreadable_words
    entry_set_too_small
    unheld_reads
    successors_outside_the_program
    unheld_after
    late_faults
    random_notes
    random_programs
    flipped_bits
    truncated_and_extended
    headers
    order_of_opening
    counts
    versions
}

/// A refusal that blames no register.
fn refused(refusal: Refusal, index: usize) -> Verdict {
    Verdict::Refused { refusal, index: index as u16, register: 64, half: None }
}

/// A refusal that blames the lowest of what isn't held.
fn unheld<S: Set>(refusal: Refusal, index: usize, missing: S) -> Verdict {
    let (register, half) = missing.lowest();
    Verdict::Refused { refusal, index: index as u16, register, half }
}

fn shape(rng: &mut Rng, count: usize) -> Shape {
    Shape { count, branches: rng.pick(&[0, 5, 20]), ends: rng.pick(&[0, 2]), registers: rng.pick(&[3, 8, 64]) }
}

/// A short program that is accepted with its exact notes, which come with it.
fn short<S: Set>(rng: &mut Rng) -> (Program<S>, Vec<S>) {
    let count = 1 + rng.below(24);
    let shape = shape(rng, count);
    let program = Program::safe(rng, shape);
    let exact = program.exact();
    (program, exact)
}

fn accepted_with_exact_notes<S: Set>() {
    let mut rng = Rng::new(300);
    for _ in 0..20_000 {
        let (program, exact) = short::<S>(&mut rng);
        compare_check_as(&program.parcel(&exact), ACCEPTED);
    }
}

fn accepted_with_weaker_notes<S: Set>() {
    let mut rng = Rng::new(301);
    let mut weakened = 0;
    for _ in 0..10_000 {
        let (program, exact) = short::<S>(&mut rng);
        let some = program.weaker(&exact, || S::random(&mut rng) & S::random(&mut rng));
        let least = program.weaker(&exact, || S::NONE);
        compare_check_as(&program.parcel(&some), ACCEPTED);
        compare_check_as(&program.parcel(&least), ACCEPTED);
        weakened += u32::from(some != exact) + u32::from(least != some);
    }
    assert!(weakened > 15_000, "{weakened}");
}

fn many_branches<S: Set>() {
    let mut rng = Rng::new(302);
    for _ in 0..5_000 {
        let count = 2 + rng.below(60);
        let shape = Shape { count, branches: 55, ends: rng.pick(&[0, 4]), registers: rng.pick(&[4, 16]) };
        let program = Program::<S>::safe(&mut rng, shape);
        let exact = program.exact();
        compare_check_as(&program.parcel(&exact), ACCEPTED);
        let some = program.weaker(&exact, || S::random(&mut rng));
        compare_check_as(&program.parcel(&some), ACCEPTED);
    }
}

/// As many instructions as there may be, accepted and with a fault at either end.
fn long_parcels<S: Set>() {
    let mut rng = Rng::new(303);
    for count in [255, 256, 257, 1024, 2047, 2048] {
        for branches in [0, 10, 50] {
            let program = Program::<S>::safe(&mut rng, Shape { count, branches, ends: 0, registers: 40 });
            let exact = program.exact();
            let bytes = program.parcel(&exact);
            compare_check_as(&bytes, ACCEPTED);
            compare_check_as(&program.parcel(&program.weaker(&exact, || S::NONE)), ACCEPTED);
            let (word, refusal) = refused_word(&mut rng, 6);
            for index in [0, count / 2, count - 1] {
                compare_check_as(&with_word(&bytes, index, word), refused(refusal, index));
            }
            leaves_at_the_end(program, &exact);
        }
    }
}

fn one_instruction<S: Set>() {
    let mut rng = Rng::new(304);
    let mut tally = Tally::new();
    for row in 0..ROW_COUNT as u8 {
        for _ in 0..60 {
            let mut only = inputs::instruction(&mut rng, row);
            only.flow = rng.pick(&[only.flow, 15]);
            only.offset = if row == BRANCH { rng.pick(&[-2, -1, 0, 1, only.offset]) } else { 0 };
            let mut any = || S::random(&mut rng);
            let program = Program { entry: any() | any() | any(), instructions: vec![only] };
            let note = program.entry & (any() | program.reads(0));
            tally.count(compare_check(&program.parcel(&[note])));
            tally.count(compare_check(&program.parcel(&[any()])));
        }
    }
    tally.assert_seen(&[0, 20, 21, 23], 100);
}

/// 2 to 7, at any index, before 23, 20 and later unreadable words.
fn unreadable_words<S: Set>() {
    let mut rng = Rng::new(305);
    for number in 2..=7 {
        for _ in 0..2_000 {
            let (program, mut notes) = short::<S>(&mut rng);
            if rng.percent(50) {
                notes.fill_with(|| S::random(&mut rng));
            }
            let bytes = program.parcel(&notes);
            let index = rng.below(program.count());
            let (word, refusal) = refused_word(&mut rng, number);
            let mut bytes = with_word(&bytes, index, word);
            let verdict = refused(refusal, index);
            compare_check_as(&bytes, verdict);
            if index + 1 < program.count() {
                let later = index + 1 + rng.below(program.count() - index - 1);
                bytes = with_word(&bytes, later, refused_word(&mut rng, 2 + (number + 1) % 6).0);
                compare_check_as(&bytes, verdict);
            }
        }
    }
}

fn entry_set_too_small<S: Set>() {
    let mut rng = Rng::new(306);
    let mut made = 0;
    while made < 3_000 {
        let (mut program, exact) = short::<S>(&mut rng);
        let removed = exact[0] & S::random(&mut rng) & S::random(&mut rng);
        if removed == S::NONE {
            continue;
        }
        program.entry = program.entry & !removed;
        let verdict = unheld(Refusal::UnheldAtEntry, 0, removed);
        compare_check_as(&program.parcel(&exact), verdict);
        made += 1;
    }
}

fn unheld_reads<S: Set>() {
    let mut rng = Rng::new(307);
    let mut made = 0;
    while made < 5_000 {
        let (program, mut notes) = short::<S>(&mut rng);
        let index = rng.below(program.count());
        let removed = program.reads(index) & S::random(&mut rng);
        if removed == S::NONE {
            continue;
        }
        notes[index] = notes[index] & !removed;
        let verdict = unheld(Refusal::UnheldRead, index, removed);
        compare_check_as(&program.parcel(&notes), verdict);
        made += 1;
    }
}

/// The last instruction falls off the end.
fn leaves_at_the_end<S: Set>(mut program: Program<S>, exact: &[S]) {
    let last = program.count() - 1;
    program.instructions[last].flow = 0;
    compare_check_as(&program.parcel(exact), refused(Refusal::LeavesProgram, last));
}

fn successors_outside_the_program<S: Set>() {
    let mut rng = Rng::new(308);
    let (mut ends, mut targets) = (0, 0);
    while ends < 2_000 || targets < 4_000 {
        let (mut program, exact) = short::<S>(&mut rng);
        let branches: Vec<usize> = (0..program.count()).filter(|i| program.successors(*i).count() == 2).collect();
        if branches.is_empty() {
            leaves_at_the_end(program, &exact);
            ends += 1;
            continue;
        }
        let index = rng.pick(&branches);
        let (first, count) = (-(index as i32) - 1, program.count() as i32);
        program.instructions[index].offset = match rng.below(6) {
            0 => first - 1,
            1 => first + count,
            2 => -67_108_864,
            3 => 67_108_863,
            4 => first - 1 - rng.below(70_000) as i32,
            _ => first + count + rng.below(70_000) as i32,
        };
        compare_check_as(&program.parcel(&exact), refused(Refusal::LeavesProgram, index));
        targets += 1;
    }
}

/// An instruction, and a register, or half of one, that its note lacks: one that a predecessor
/// releases or half writes, or any.
fn addition<S: Set>(rng: &mut Rng, program: &Program<S>, notes: &[S]) -> Option<(usize, S)> {
    let from = rng.below(program.count());
    let touched = program.releases(from) | S::register(program.instructions[from].register);
    let (index, wanted) = match program.successors(from).last() {
        Some(next) if rng.percent(70) => (next as usize, touched),
        _ => (from, S::ALL),
    };
    let lacking = wanted & !notes[index];
    (lacking != S::NONE).then(|| (index, lacking.member(rng)))
}

/// A note with one register, or half of one, too many: 22 at the lowest predecessor without it.
fn unheld_after<S: Set>() {
    let mut rng = Rng::new(309);
    let (mut falls, mut targets, mut entries) = (0, 0, 0);
    while falls < 6_000 || targets < 3_000 || entries < 20 {
        let (program, mut notes) = short::<S>(&mut rng);
        let Some((index, added)) = addition(&mut rng, &program, &notes) else {
            continue;
        };
        notes[index] = notes[index] | added;
        let bytes = program.parcel(&notes);
        if index == 0 && program.entry & added == S::NONE {
            compare_check_as(&bytes, unheld(Refusal::UnheldAtEntry, 0, added));
            entries += 1;
            continue;
        }
        let lacks = |from: &usize| {
            program.successors(*from).any(|next| next == index as i64)
                && program.after(*from, notes[*from]) & added == S::NONE
        };
        let Some(from) = (0..program.count()).find(lacks) else {
            // Only a walk that already has it comes here, as a loop on itself.
            compare_check_as(&bytes, ACCEPTED);
            continue;
        };
        compare_check_as(&bytes, unheld(Refusal::UnheldAfter, from, added));
        if from + 1 == index {
            falls += 1;
        } else {
            targets += 1;
        }
    }
}

/// Faults late in a long program: an index above a byte together with a register.
fn late_faults<S: Set>() {
    let mut rng = Rng::new(316);
    let (mut reads, mut afters) = (0, 0);
    while reads < 20 || afters < 20 {
        let program = Program::<S>::safe(&mut rng, Shape { count: 2048, branches: 10, ends: 0, registers: 40 });
        let exact = program.exact();
        let index = 300 + rng.below(1748);
        let removed = program.reads(index);
        if removed != S::NONE {
            let mut notes = exact.clone();
            notes[index] = notes[index] & !removed;
            let verdict = unheld(Refusal::UnheldRead, index, removed);
            compare_check_as(&program.parcel(&notes), verdict);
            reads += 1;
        }
        let added = (!exact[index]).member(&mut rng);
        let mut notes = exact.clone();
        notes[index] = notes[index] | added;
        let lacks = |from: &usize| {
            program.successors(*from).any(|next| next == index as i64)
                && program.after(*from, notes[*from]) & added == S::NONE
        };
        if let Some(from) = (0..program.count()).find(lacks) {
            let verdict = unheld(Refusal::UnheldAfter, from, added);
            compare_check_as(&program.parcel(&notes), verdict);
            afters += u32::from(from > 255);
        }
    }
}

/// Several registers at fault: the lowest is named, by its low half where that is at fault.
fn random_notes<S: Set>() {
    let mut rng = Rng::new(310);
    let mut tally = Tally::new();
    for _ in 0..15_000 {
        let (program, exact) = short::<S>(&mut rng);
        let keep = rng.pick(&[0, 1, 2]);
        let mut any = || S::random(&mut rng);
        let notes: Vec<S> = exact
            .iter()
            .map(|set| match keep {
                0 => any(),
                1 => *set & (any() | any() | any() | any()),
                _ => *set | any() & any() & any() & any() & any(),
            })
            .collect();
        tally.count(compare_check(&program.parcel(&notes)));
    }
    tally.assert_seen(&[0, 20, 22, 23], 200);
}

/// Programs that read unheld registers, with the largest notes there are.
fn random_programs<S: Set>() {
    let mut rng = Rng::new(311);
    let mut tally = Tally::new();
    for _ in 0..10_000 {
        let count = 1 + rng.below(16);
        let shape = shape(&mut rng, count);
        let mut program = Program::<S>::random(&mut rng, shape);
        if rng.percent(20) {
            program.instructions[count - 1].flow = 0;
        }
        tally.count(compare_check(&program.parcel(&program.exact())));
    }
    tally.assert_only(&[0, 20, 21]);
    tally.assert_seen(&[0, 20, 21], 200);
}

/// Accepted parcels with one to three bits flipped anywhere.
fn flipped_bits<S: Set>() {
    let mut rng = Rng::new(312);
    let mut tally = Tally::new();
    for _ in 0..10_000 {
        let (program, exact) = short::<S>(&mut rng);
        let good = program.parcel(&program.weaker(&exact, || S::NONE));
        for _ in 0..3 {
            let mut bytes = good.clone();
            for _ in 0..1 + rng.below(3) {
                let at = rng.below(bytes.len());
                bytes[at] ^= 1 << rng.below(8);
            }
            tally.count(compare_check(&bytes));
        }
    }
    tally.assert_seen(&[0, 2, 3, 4, 5, 6, 7, 10, 11, 12, 13, 20, 21, 22, 23], 10);
}

/// Every length but the right one.
fn truncated_and_extended<S: Set>() {
    let mut rng = Rng::new(313);
    let short = refused(Refusal::Size, 0);
    for count in 1..=12 {
        for _ in 0..4 {
            let shape = shape(&mut rng, count);
            let program = Program::<S>::safe(&mut rng, shape);
            let mut bytes = program.parcel(&program.exact());
            for length in 0..bytes.len() {
                compare_check_as(&bytes[..length], short);
            }
            compare_check_as(&bytes, ACCEPTED);
            for _ in 0..40 {
                bytes.push(rng.byte());
                compare_check_as(&bytes, short);
            }
        }
    }
}

/// Every value of every byte of the header, alone and with a wrong length.
fn headers<S: Set>() {
    let mut tally = Tally::new();
    let good = parcel_of(S::NONE, &[END; 3], &[S::NONE; 3]);
    for at in 0..S::HEADER {
        for byte in 0..=255 {
            let mut bytes = good.clone();
            bytes[at] = byte;
            tally.count(compare_check(&bytes));
            tally.count(compare_check(&bytes[..bytes.len() - 1]));
            for length in 15..=S::HEADER {
                tally.count(compare_check(&bytes[..length]));
            }
        }
    }
    tally.assert_only(&[0, 10, 11, 12, 13]);
    tally.assert_seen(&[10, 11, 12, 13], 500);
}

/// Two faults in the header: the order is 12 (short), 10, 11, 13, 12; so too for what is cut off
/// after the first 16 bytes.
fn order_of_opening<S: Set>() {
    let good = parcel_of(S::NONE, &[END], &[S::NONE]);
    let size = verdict_code(refused(Refusal::Size, 0));
    for faults in 0..16 {
        let mut bytes = good.clone();
        let mut expected = size;
        if faults & 8 != 0 {
            bytes[6] = 2;
        }
        for (bit, at, refusal) in [(4, 5, Refusal::ReservedByte), (2, 4, Refusal::Version), (1, 1, Refusal::Mark)] {
            if faults & bit != 0 {
                bytes[at] = 0x80;
                expected = verdict_code(refused(refusal, 0));
            }
        }
        if faults != 0 {
            assert_eq!(compare_check(&bytes), expected, "{}", common::hex(&bytes));
        }
        for length in 16..=S::HEADER {
            assert_eq!(compare_check(&bytes[..length]), expected, "{}", common::hex(&bytes[..length]));
        }
        assert_eq!(compare_check(&bytes[..15]), size, "{}", common::hex(&bytes));
    }
}

/// Counts around the bounds, with the length that belongs to them and others.
fn counts<S: Set>() {
    for count in [0, 1, 2, 2047, 2048, 2049, 2050, 4096, 0x8000, 0xFFFF] {
        let bytes = parcel_of(S::NONE, &vec![END; count], &vec![S::NONE; count]);
        let inside = (1..=2048).contains(&count);
        let verdict = if inside { ACCEPTED } else { refused(Refusal::Size, 0) };
        compare_check_as(&bytes, verdict);
        let each = 8 + S::BYTES;
        let others = [bytes.len() - 1, bytes.len().saturating_sub(each), S::HEADER + each * (count % 2048)];
        // And the lengths of the other version, header or instructions or both.
        let mixed = [16 + 16 * count, 16 + 24 * count, 24 + 16 * count];
        for length in others.into_iter().chain(mixed) {
            if length < bytes.len() {
                compare_check_as(&bytes[..length], refused(Refusal::Size, 0));
            } else if length > bytes.len() {
                let longer = [&bytes[..], &vec![0; length - bytes.len()]].concat();
                compare_check_as(&longer, refused(Refusal::Size, 0));
            }
        }
    }
}

/// Every version: 11 but for two of them, and 12 for the one whose lengths these aren't.
fn versions<S: Set>() {
    let good = parcel_of(S::NONE, &[END; 2], &[S::NONE; 2]);
    for version in 0..=u16::MAX {
        let verdict = match version {
            version if version == S::VERSION.into() => ACCEPTED,
            1 | 2 => refused(Refusal::Size, 0),
            _ => refused(Refusal::Version, 0),
        };
        compare_check_as(&with_version(&good, version), verdict);
    }
}

/// All that follows the count is END, as a word or as a set, so that only the version says what is
/// what: a parcel is accepted exactly in the version whose length it has.
#[test]
fn told_apart_by_version() {
    for count in [1, 2, 3, 9, 1024] {
        let one = parcel(END, &vec![END; count], &vec![END; count]);
        let two = parcel_2([END; 2], &vec![END; count], &vec![[END; 2]; count]);
        compare_check_as(&one, ACCEPTED);
        compare_check_as(&two, ACCEPTED);
        compare_check_as(&with_version(&one, 2), refused(Refusal::Size, 0));
        compare_check_as(&with_version(&two, 1), refused(Refusal::Size, 0));
        // As long as one of version 1 with 3 instructions for 2, rounded up.
        if count % 2 == 1 {
            let mut other = with_version(&two, 1);
            other[6..8].copy_from_slice(&(3 * count as u16).div_ceil(2).to_le_bytes());
            compare_check_as(&other, ACCEPTED);
            compare_check_as(&with_version(&other, 2), refused(Refusal::Size, 0));
        }
    }
}

/// A version 1 parcel and the version 2 parcel whose sets have both halves of the same registers:
/// the same verdict but for the half, which can be high only for 22, where the low one is written.
#[test]
fn sets_that_stand_for_both_halves() {
    let mut rng = Rng::new(317);
    let mut tally = Tally::new();
    let mut high = 0;
    for _ in 0..10_000 {
        let count = 1 + rng.below(16);
        let shape = shape(&mut rng, count);
        let program =
            if rng.percent(50) { Program::<u64>::safe(&mut rng, shape) } else { Program::random(&mut rng, shape) };
        let mut notes = program.exact();
        if rng.percent(40) {
            notes.iter_mut().for_each(|note| *note ^= rng.bits() & rng.bits() & rng.bits() & rng.bits());
        } else if let Some((index, added)) = addition(&mut rng, &program, &notes) {
            notes[index] |= added;
        }
        let sets: Vec<[u64; 2]> = notes.iter().map(|note| [*note; 2]).collect();
        let one = compare_check(&program.parcel(&notes));
        let two = compare_check(&parcel_2([program.entry; 2], &program.words(), &sets));
        let written = &program.instructions[(one >> 16) as u16 as usize];
        let low_is_written = one as u8 == 22 && (one >> 32) as u8 == written.register && written.half_mask == 1;
        let expected = if low_is_written { one ^ 3 << 40 } else { one };
        assert_eq!(two, expected, "{program:X?} {notes:X?}");
        high += u32::from(low_is_written);
        tally.count(one);
    }
    tally.assert_seen(&[0, 20, 22, 23], 200);
    assert!(high > 20, "{high}");
}

/// Registers that are filled in two half writes: accepted in version 2; in version 1 the first
/// read is refused with 20, or with 22 where its note names the register.
#[test]
fn filled_in_two_writes() {
    let mut rng = Rng::new(318);
    let mut tally = Tally::new();
    for _ in 0..5_000 {
        let shape = Shape { count: 6 + rng.below(30), branches: rng.pick(&[0, 10]), ends: 0, registers: 3 };
        let program = Program::<u128>::in_halves(&mut rng, shape);
        let exact = program.exact();
        compare_check_as(&program.parcel(&exact), ACCEPTED);
        let reads = (0..program.count()).find(|index| program.reads(*index) != u128::NONE);
        let old = Program { entry: 0, instructions: program.instructions.clone() };
        let whole: Vec<u64> = exact.iter().map(|note| note.whole()).collect();
        let verdict = match reads {
            Some(index) => unheld(Refusal::UnheldRead, index, old.reads(index)),
            None => ACCEPTED,
        };
        tally.count(compare_check_as(&old.parcel(&old.exact()), verdict));
        let told = compare_check(&old.parcel(&whole));
        assert_eq!(told == 0, whole.iter().all(|note| *note == 0), "{program:X?}");
        tally.count(told);
    }
    tally.assert_only(&[0, 20, 22]);
    tally.assert_seen(&[0, 20, 22], 200);
}

/// Of a register that is read, one half or both are taken out of the note: low is told first.
#[test]
fn halves_that_are_told() {
    let mut rng = Rng::new(319);
    let mut seen = [0; 3];
    while seen.iter().any(|times| *times < 1_000) {
        let (program, mut notes) = short::<u128>(&mut rng);
        let index = rng.below(program.count());
        let reads = program.reads(index).whole();
        if reads == 0 {
            continue;
        }
        let register = rng.member(reads).trailing_zeros() as u8;
        let half_mask = 1 + rng.below(3);
        notes[index] &= !u128::filled(register, half_mask as u8);
        let half = if half_mask == 2 { Half::High } else { Half::Low };
        let refusal = Refusal::UnheldRead;
        let verdict = Verdict::Refused { refusal, index: index as u16, register, half: Some(half) };
        let code = compare_check_as(&program.parcel(&notes), verdict);
        assert_eq!(code >> 40, if half_mask == 2 { 2 } else { 1 });
        seen[half_mask - 1] += 1;
    }
}

/// The paper's parcels.
#[test]
fn examples() {
    const A: u64 = 0x0091_C100_0000_0002;
    const C: u64 = 0x0091_C300_000C_0044;
    const BACK_TWO: u64 = 0x001F_0007_FFFF_FEC0;
    compare_check_as(&parcel(4, &[A | END], &[4]), ACCEPTED);
    compare_check_as(&parcel(4, &[A | END], &[0]), unheld(Refusal::UnheldRead, 0, 1_u64 << 2));
    compare_check_as(&parcel(4, &[A], &[4]), refused(Refusal::LeavesProgram, 0));
    compare_check_as(&parcel(4, &[A], &[6]), unheld(Refusal::UnheldAtEntry, 0, 1_u64 << 1));
    compare_check_as(&parcel(16, &[C, BACK_TWO, END], &[16, 8, 0]), unheld(Refusal::UnheldAfter, 1, 1_u64 << 4));
}

/// Codes digit by digit: the half above the register, none where no register is at fault.
#[test]
fn codes() {
    const A: u64 = 0x0091_C100_0000_0002;
    // MOV.i32 of constant 0 to the low half of r1 and to its high half; MOV.i32 r2, r1 with `end`.
    const LOW: u64 = 0x0091_4100_0000_00C0;
    const HIGH: u64 = 0x0091_8100_0000_00C0;
    const USE: u64 = 0x7891_C200_0000_0001;
    let check = |parcel: Vec<u8>| vsp::raw::check(&parcel);
    assert_eq!(check(parcel(4, &[A | END], &[0])), 0x0102_0000_0014);
    assert_eq!(check(parcel(4, &[A], &[4])), 0x0040_0000_0015);
    assert_eq!(check(parcel(0, &[LOW, HIGH, USE], &[0, 0, 2])), 0x0101_0001_0016);
    assert_eq!(check(parcel(0, &[LOW, HIGH, USE], &[0, 0, 0])), 0x0101_0002_0014);
    assert_eq!(check(parcel_2([0, 0], &[LOW, HIGH, USE], &[[0, 0], [2, 0], [2, 2]])), 0);
    assert_eq!(check(parcel_2([0, 0], &[LOW, USE], &[[0, 0], [2, 0]])), 0x0201_0001_0014);
    assert_eq!(check(parcel_2([0, 0], &[HIGH, USE], &[[0, 0], [0, 2]])), 0x0101_0001_0014);
    assert_eq!(check(parcel_2([0, 0], &[LOW, USE], &[[0, 0], [2, 2]])), 0x0201_0000_0016);
    assert_eq!(check(parcel_2([0, 0], &[END], &[[4, 2]])), 0x0201_0000_0017);
    assert_eq!(check(parcel_2([4, 4], &[A], &[[4, 4]])), 0x0040_0000_0015);
    assert_eq!(check(parcel_2([4, 4], &[A, 1 << 63], &[[0, 0]; 2])), 0x0040_0001_3F03);
    assert_eq!(check(with_version(&parcel_2([0, 0], &[END], &[[0, 0]]), 3)), 0x0040_0000_000B);
    assert_eq!(check(with_version(&parcel(0, &[END], &[0]), 2)), 0x0040_0000_000C);
}
