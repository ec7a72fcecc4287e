//! Notes for parcels of both versions made by the library and by the reference: over two hundred
//! thousand times. What is proposed is put into a parcel and checked.

mod common;

use common::{Tally, compare_infer, compare_version, inference_code};
use inputs::{
    BRANCH, Program, Rng, Set, Shape, Tiny, all_notes, both_versions, refused_word, tiny_programs, union_of_accepted,
};
use reference::{Fault, ROW_COUNT, Refusal};

both_versions! {
    notes_are_the_exact_ones
    random_programs
    entry_sets
    successors_outside_the_program
    one_instruction
    long_programs
    unreadable_words
    flipped_bits
    wrong_lengths
    any_alignment
    as_many_sweeps_as_instructions
    a_loop_that_releases
    every_choice_of_notes
    tiny_programs_of_three
}

/// Answers without an instruction of their own.
fn refused(refusal: Refusal) -> u64 {
    refused_at(refusal, 0)
}

fn refused_at(refusal: Refusal, index: usize) -> u64 {
    inference_code(Err(Fault { refusal, index: index as u16, register: 64 }))
}

fn proposed(sweeps: u32) -> u64 {
    inference_code(Ok(sweeps))
}

/// Makes notes with both for the program.
fn compare<S: Set>(rng: &mut Rng, program: &Program<S>) -> u64 {
    compare_infer(rng, &program.word_bytes(), program.entry, S::BYTES * program.count())
}

/// The notes that the library proposes for the program, where it does.
fn proposal<S: Set>(program: &Program<S>) -> Option<Vec<S>> {
    let mut buffer = vec![0xA5; S::BYTES * program.count()];
    let [low, high] = program.entry.halves();
    match vsp::infer(S::VERSION.into(), &program.word_bytes(), low, high, &mut buffer) {
        vsp::Inference::Proposed { .. } => Some(buffer.chunks_exact(S::BYTES).map(S::load).collect()),
        vsp::Inference::Refused { .. } => None,
    }
}

/// Straight or branchy, with loops and with parts that nothing reaches.
fn shape(rng: &mut Rng, count: usize) -> Shape {
    Shape {
        count,
        branches: rng.pick(&[0, 5, 20, 55]),
        ends: rng.pick(&[0, 4, 15]),
        registers: rng.pick(&[1, 3, 8, 64]),
    }
}

fn short<S: Set>(rng: &mut Rng) -> Program<S> {
    let count = 1 + rng.below(24);
    let shape = shape(rng, count);
    Program::safe(rng, shape)
}

/// Against the sweeps note by note as well.
fn notes_are_the_exact_ones<S: Set>() {
    let mut rng = Rng::new(500);
    for _ in 0..8_000 {
        let program = short::<S>(&mut rng);
        let (notes, sweeps) = program.sweeps();
        assert_eq!(compare(&mut rng, &program), proposed(sweeps), "{program:X?}");
        assert_eq!(proposal(&program), Some(notes), "{program:X?}");
    }
}

fn random_programs<S: Set>() {
    let mut rng = Rng::new(501);
    let mut tally = Tally::new();
    for _ in 0..10_000 {
        let count = 1 + rng.below(12);
        let shape = shape(&mut rng, count);
        let program = Program::<S>::random(&mut rng, shape);
        tally.count(compare(&mut rng, &program));
    }
    tally.assert_only(&[0, 24]);
    tally.assert_seen(&[0, 24], 500);
}

/// A smaller entry set: some programs stay acceptable, some don't.
fn entry_sets<S: Set>() {
    let mut rng = Rng::new(502);
    let mut tally = Tally::new();
    for _ in 0..3_000 {
        let mut program = short::<S>(&mut rng);
        let less = program.entry & !S::ALL.member(&mut rng);
        for entry in [S::NONE, S::ALL, less, program.entry & S::random(&mut rng)] {
            program.entry = entry;
            tally.count(compare(&mut rng, &program));
        }
    }
    tally.assert_only(&[0, 24]);
    tally.assert_seen(&[0, 24], 1_000);
}

/// 24 for a branch, reached or not, to a place outside, or for an end that is missing.
fn successors_outside_the_program<S: Set>() {
    let mut rng = Rng::new(503);
    let (mut ends, mut targets) = (0, 0);
    while ends < 500 || targets < 3_000 {
        let mut program = short::<S>(&mut rng);
        let count = program.count();
        let branches: Vec<usize> = (0..count).filter(|i| program.successors(*i).count() == 2).collect();
        if branches.is_empty() {
            program.instructions[count - 1].flow = 0;
            ends += 1;
        } else {
            let index = rng.pick(&branches);
            let (first, count) = (-(index as i32) - 1, count as i32);
            program.instructions[index].offset = match rng.below(6) {
                0 => first - 1,
                1 => first + count,
                2 => -67_108_864,
                3 => 67_108_863,
                4 => first - 1 - rng.below(70_000) as i32,
                _ => first + count + rng.below(70_000) as i32,
            };
            targets += 1;
        }
        assert_eq!(compare(&mut rng, &program), refused(Refusal::NoNotes), "{program:X?}");
    }
}

fn one_instruction<S: Set>() {
    let mut rng = Rng::new(504);
    let mut tally = Tally::new();
    for row in 0..ROW_COUNT as u8 {
        for _ in 0..60 {
            let mut only = inputs::instruction(&mut rng, row);
            only.flow = rng.pick(&[only.flow, 15]);
            only.offset = if row == BRANCH { rng.pick(&[-2, -1, 0, 1, only.offset]) } else { 0 };
            let entry = S::random(&mut rng) | S::random(&mut rng) | S::random(&mut rng);
            tally.count(compare(&mut rng, &Program { entry, instructions: vec![only] }));
        }
    }
    tally.assert_only(&[0, 24]);
    tally.assert_seen(&[0, 24], 500);
}

/// As many instructions as there may be, and faults at either end.
fn long_programs<S: Set>() {
    let mut rng = Rng::new(505);
    for count in [255, 256, 257, 1024, 2047, 2048] {
        for (branches, ends) in [(0, 0), (10, 0), (10, 3), (50, 1)] {
            let mut program = Program::<S>::safe(&mut rng, Shape { count, branches, ends, registers: 40 });
            let (notes, sweeps) = program.sweeps();
            assert_eq!(compare(&mut rng, &program), proposed(sweeps));
            assert_eq!(proposal(&program), Some(notes));
            let words = program.word_bytes();
            for index in [0, count / 2, count - 1] {
                let (word, refusal) = refused_word(&mut rng, 7);
                let words = with(&words, index, word);
                let answer = compare_infer(&mut rng, &words, program.entry, S::BYTES * count);
                assert_eq!(answer, refused_at(refusal, index));
            }
            program.instructions[count - 1].flow = 0;
            assert_eq!(compare(&mut rng, &program), refused(Refusal::NoNotes));
        }
    }
}

/// The words with another one at an index.
fn with(words: &[u8], index: usize, word: u64) -> Vec<u8> {
    let mut words = words.to_vec();
    words[8 * index..][..8].copy_from_slice(&word.to_le_bytes());
    words
}

/// 2 to 7, at any index, before 24 and later unreadable words.
fn unreadable_words<S: Set>() {
    let mut rng = Rng::new(506);
    for number in 2..=7 {
        for _ in 0..500 {
            let program = short::<S>(&mut rng);
            let entry = rng.pick(&[S::NONE, program.entry]);
            let index = rng.below(program.count());
            let length = S::BYTES * program.count();
            let (word, refusal) = refused_word(&mut rng, number);
            let words = with(&program.word_bytes(), index, word);
            assert_eq!(compare_infer(&mut rng, &words, entry, length), refused_at(refusal, index));
            if index + 1 < program.count() {
                let later = index + 1 + rng.below(program.count() - index - 1);
                let words = with(&words, later, refused_word(&mut rng, 2 + (number + 1) % 6).0);
                assert_eq!(compare_infer(&mut rng, &words, entry, length), refused_at(refusal, index));
            }
        }
    }
}

fn flipped_bits<S: Set>() {
    let mut rng = Rng::new(507);
    let mut tally = Tally::new();
    for _ in 0..10_000 {
        let program = short::<S>(&mut rng);
        let mut words = program.word_bytes();
        for _ in 0..1 + rng.below(3) {
            let at = rng.below(words.len());
            words[at] ^= 1 << rng.below(8);
        }
        tally.count(compare_infer(&mut rng, &words, program.entry, S::BYTES * program.count()));
    }
    tally.assert_only(&[0, 2, 3, 4, 5, 6, 7, 24]);
    tally.assert_seen(&[0, 2, 3, 4, 5, 6, 7, 24], 10);
}

/// 12 before all else, whatever the words are.
fn wrong_lengths<S: Set>() {
    let mut rng = Rng::new(508);
    let end = 0x7800_0000_0000_0000_u64.to_le_bytes();
    let size = refused(Refusal::Size);
    for filler in [end, [0; 8], [0xFF; 8]] {
        let words = filler.repeat(4096);
        let mut lengths: Vec<usize> = (0..40).filter(|length| *length == 0 || length % 8 != 0).collect();
        lengths.extend([2047 * 8 + 1, 2048 * 8 - 1, 2048 * 8 + 1, 2049 * 8, 2050 * 8, 4096 * 8]);
        for length in lengths {
            for notes in [length * S::BYTES / 8, length.div_ceil(8) * S::BYTES] {
                assert_eq!(compare_infer(&mut rng, &words[..length], S::NONE, notes), size, "{length}");
            }
        }
        for count in [1, 2, 3, 17, 2047, 2048] {
            let (length, right) = (8 * count, S::BYTES * count);
            // The other version's among them.
            let near = [0, 1, 7, right - 8, right - 1, right + 1, right + 8, 2 * right, 8 * count, 16 * count];
            for notes in near.into_iter().chain([16 + 16 * count, 24 + 24 * count]).filter(|notes| *notes != right) {
                assert_eq!(compare_infer(&mut rng, &words[..length], S::NONE, notes), size, "{length} {notes}");
            }
        }
    }
    for count in [1, 2, 2048] {
        // No instruction has a predecessor, so nothing changes.
        let answer = compare_infer(&mut rng, &end.repeat(count), S::NONE, S::BYTES * count);
        assert_eq!(answer, proposed(1), "{count}");
    }
}

/// 11 before 12 and all else, for every version but two.
#[test]
fn versions() {
    let mut rng = Rng::new(514);
    let end = 0x7800_0000_0000_0000_u64.to_le_bytes();
    let stray = [end, (1_u64 << 63).to_le_bytes()].concat();
    let mut versions: Vec<u64> = (0..600).filter(|version| !(1..=2).contains(version)).collect();
    versions.extend((9..64).flat_map(|bit| [1 << bit, (1 << bit) + 1, (1 << bit) + 2, u64::MAX << bit]));
    versions.extend([u64::MAX, u64::MAX - 1]);
    for version in versions {
        let cases = [(&end[..], 8), (&end, 16), (&end, 24), (&end, 0), (&end[..7], 8), (&[], 0), (&stray, 32)];
        for (words, length) in cases {
            let entry = [rng.bits(), rng.bits()];
            let answer = compare_version(&mut rng, version, words, entry, length);
            assert_eq!(answer, (refused(Refusal::Version), None), "version {version}");
        }
    }
    let [low, high] = [5_u64, 9].map(|set| set.to_le_bytes().to_vec());
    assert_eq!(compare_version(&mut rng, 1, &end, [5, 9], 8), (proposed(1), Some(low.clone())));
    assert_eq!(compare_version(&mut rng, 2, &end, [5, 9], 16), (proposed(1), Some([low, high].concat())));
}

/// In version 1 the set of high halves plays no part; in version 2 it does.
#[test]
fn second_entry_set() {
    let mut rng = Rng::new(515);
    let (mut proposals, mut others) = (0, 0);
    for _ in 0..2_000 {
        let program = short::<u64>(&mut rng);
        let words = program.word_bytes();
        let less = program.entry & rng.bits();
        let low = rng.pick(&[program.entry, less]);
        let first = compare_version(&mut rng, 1, &words, [low, 0], words.len());
        let both = compare_version(&mut rng, 2, &words, [low, low], 2 * words.len());
        for high in [low, !low, u64::MAX, rng.bits()] {
            let second = compare_version(&mut rng, 1, &words, [low, high], words.len());
            assert_eq!(second, first, "{program:X?}");
            proposals += u32::from(first.1.is_some());
            others += u32::from(compare_version(&mut rng, 2, &words, [low, high], 2 * words.len()) != both);
        }
    }
    assert!(proposals > 2_000 && others > 2_000, "{proposals} {others}");
}

/// Registers that are filled in two half writes: notes in version 2, and none in version 1 where
/// one of them is read.
#[test]
fn filled_in_two_writes() {
    let mut rng = Rng::new(516);
    let mut tally = Tally::new();
    for _ in 0..3_000 {
        let shape = Shape { count: 6 + rng.below(30), branches: rng.pick(&[0, 10]), ends: 0, registers: 3 };
        let program = Program::<u128>::in_halves(&mut rng, shape);
        let (notes, sweeps) = program.sweeps();
        assert_eq!(compare(&mut rng, &program), proposed(sweeps), "{program:X?}");
        assert_eq!(proposal(&program), Some(notes), "{program:X?}");
        let reads = (0..program.count()).any(|index| program.reads(index) != u128::NONE);
        let old = Program { entry: 0_u64, instructions: program.instructions };
        let answer = compare(&mut rng, &old);
        assert_eq!(answer as u8, if reads { 24 } else { 0 }, "{old:X?}");
        tally.count(answer);
    }
    tally.assert_seen(&[0, 24], 100);
}

/// One half that the entry set lacks goes one instruction further each sweep.
#[test]
fn sweeps_go_on_for_either_half() {
    let mut rng = Rng::new(517);
    for count in [1, 2, 17, 2048] {
        let mut program = Program::<u128>::nops(count);
        program.entry = u128::ALL;
        assert_eq!(compare(&mut rng, &program), proposed(1));
        for half_mask in [1, 2] {
            program.entry = !u128::filled(rng.below(64) as u8, half_mask);
            assert_eq!(compare(&mut rng, &program), proposed(count as u32));
            assert_eq!(proposal(&program), Some(vec![program.entry; count]));
        }
    }
}

/// Words that start at any address.
fn any_alignment<S: Set>() {
    let mut rng = Rng::new(509);
    for _ in 0..200 {
        let program = short::<S>(&mut rng);
        let words = program.word_bytes();
        let sweeps = program.sweeps().1;
        for start in 0..8 {
            let moved = [&[0xFF; 8][..start], &words].concat();
            let length = S::BYTES * program.count();
            assert_eq!(compare_infer(&mut rng, &moved[start..], program.entry, length), proposed(sweeps));
        }
    }
}

/// NOPs, only the last with `end`: the empty entry set goes one instruction further each sweep.
fn as_many_sweeps_as_instructions<S: Set>() {
    let mut rng = Rng::new(510);
    for count in [1, 2, 17, 2048] {
        let program = Program::<S>::nops(count);
        assert_eq!(compare(&mut rng, &program), proposed(count as u32));
        assert_eq!(proposal(&program), Some(vec![S::NONE; count]));
    }
}

/// One sweep more than instructions: 24, since the branch reads what it has released.
fn a_loop_that_releases<S: Set>() {
    let mut rng = Rng::new(511);
    for count in [1, 2, 17, 2048] {
        let program = Program::<S>::releasing_loop(count, 9);
        assert_eq!(program.sweeps().1, count as u32 + 1);
        assert_eq!(compare(&mut rng, &program), refused(Refusal::NoNotes));
    }
}

/// Every tiny program with every choice of notes: 24 exactly if the library's check accepts
/// none, else the proposal is all that accepted notes name.
fn every_choice_of_notes<S: Tiny>() {
    let mut rng = Rng::new(512);
    for count in 1..=2 {
        let choices = all_notes::<S>(count);
        let mut tally = Tally::new();
        for program in tiny_programs(count) {
            let union = union_of_accepted(&program, &choices, |bytes| vsp::check(bytes) == vsp::Verdict::Accepted);
            assert_eq!(proposal(&program), union, "{program:X?}");
            tally.count(compare(&mut rng, &program));
        }
        tally.assert_only(&[0, 24]);
        tally.assert_seen(&[0, 24], 16);
    }
}

/// The reference's notes for these have been tried against every choice.
fn tiny_programs_of_three<S: Tiny>() {
    let mut rng = Rng::new(513);
    let mut tally = Tally::new();
    for program in tiny_programs::<S>(3) {
        tally.count(compare(&mut rng, &program));
    }
    tally.assert_only(&[0, 24]);
    tally.assert_seen(&[0, 24], 1_000);
}
