//! The reference's maker of notes, in both versions: every choice of notes on tiny programs, the
//! sweeps one by one, and the order of its refusals.

use inputs::{
    Program, Rng, Set, Shape, Tiny, all_notes, both_versions, refused_word, tiny_programs, union_of_accepted,
};
use reference::{Fault, Narrowed, Refusal, Verdict, check, infer, narrow};

const NO_NOTES: Fault = Fault { refusal: Refusal::NoNotes, index: 0, register: 64 };
const SIZE: Fault = Fault { refusal: Refusal::Size, index: 0, register: 64 };

both_versions! {
    every_choice_of_notes
    sweeps_and_notes
    long_programs
    accepted_notes_lie_inside
    as_many_sweeps_as_instructions
    one_sweep_more_is_refused
    order_of_refusals
    lengths
}

/// The notes and the number of sweeps, or the refusal, which leaves the buffer as it was.
fn propose<S: Set>(words: &[u8], entry: S) -> Result<(Vec<S>, u32), Fault> {
    let before: Vec<u8> = (0..words.len() / 8 * S::BYTES).map(|k| k as u8 ^ 0xA5).collect();
    let mut buffer = before.clone();
    let answer = infer(S::VERSION.into(), words, entry.halves(), &mut buffer);
    if answer.is_err() {
        assert_eq!(buffer, before);
    }
    answer.map(|sweeps| (buffer.chunks_exact(S::BYTES).map(S::load).collect(), sweeps))
}

/// The maker's sweeps alone.
fn swept<S: Set>(words: &[u8], entry: S) -> Result<Narrowed, Fault> {
    narrow(S::VERSION.into(), words, entry.halves())
}

/// A random program, at times with a successor that doesn't exist.
fn program<S: Set>(rng: &mut Rng, count: usize) -> Program<S> {
    let shape = Shape {
        count,
        branches: rng.pick(&[0, 10, 30, 60]),
        ends: rng.pick(&[0, 5, 20]),
        registers: rng.pick(&[1, 3, 10, 64]),
    };
    let mut program = if rng.percent(60) { Program::safe(rng, shape) } else { Program::random(rng, shape) };
    if rng.percent(10) {
        let index = rng.below(count);
        program.instructions[index].flow = 0;
    }
    program
}

/// 24 exactly if no notes are accepted; else the proposal is all that accepted notes name.
fn every_choice_of_notes<S: Tiny>() {
    for count in 1..=3 {
        let choices = all_notes::<S>(count);
        let (mut proposed, mut refused) = (0, 0);
        for program in tiny_programs(count) {
            let union = union_of_accepted(&program, &choices, |bytes| check(bytes) == Verdict::Accepted);
            let answer = propose(&program.word_bytes(), program.entry);
            match &answer {
                Ok((_, sweeps)) => {
                    assert!((1..=count as u32).contains(sweeps), "{sweeps} sweeps: {program:X?}");
                    proposed += 1;
                }
                Err(fault) => {
                    assert_eq!(*fault, NO_NOTES, "{program:X?}");
                    refused += 1;
                }
            }
            assert_eq!(answer.ok().map(|(notes, _)| notes), union, "{program:X?}");
        }
        // For one instruction of version 1: NOP with all entry sets, MOV and BRANCHZ with half of
        // them each.
        assert!(proposed >= 16 && refused >= 16, "{proposed} proposed, {refused} refused");
    }
}

/// Against the sweeps note by note, also where the notes are refused in the end.
fn sweeps_and_notes<S: Set>() {
    let mut rng = Rng::new(20);
    let (mut proposed, mut refused) = (0, 0);
    for _ in 0..20_000 {
        let count = 1 + rng.below(24);
        let program = program::<S>(&mut rng, count);
        let words = program.word_bytes();
        let (notes, sweeps) = program.sweeps();
        assert_eq!(notes, program.exact(), "{program:X?}");
        assert!((1..=count as u32 + 1).contains(&sweeps), "{sweeps} sweeps: {program:X?}");
        let bytes = notes.iter().flat_map(|note| note.bytes()).collect();
        assert_eq!(swept(&words, program.entry), Ok(Narrowed { notes: bytes, sweeps }), "{program:X?}");
        let answer = propose(&words, program.entry);
        if check(&program.parcel(&notes)) == Verdict::Accepted {
            assert!(sweeps <= count as u32, "{sweeps} sweeps: {program:X?}");
            assert_eq!(answer, Ok((notes, sweeps)), "{program:X?}");
            proposed += 1;
        } else {
            assert_eq!(answer, Err(NO_NOTES), "{program:X?}");
            refused += 1;
        }
    }
    assert!(proposed > 5_000 && refused > 5_000, "{proposed} proposed, {refused} refused");
}

fn long_programs<S: Set>() {
    let mut rng = Rng::new(23);
    for count in [255, 256, 1024, 2047, 2048] {
        for (branches, ends) in [(0, 0), (10, 0), (10, 5), (50, 2)] {
            let program = Program::<S>::safe(&mut rng, Shape { count, branches, ends, registers: 40 });
            let expected = program.sweeps();
            assert!(expected.1 <= count as u32);
            assert_eq!(propose(&program.word_bytes(), program.entry), Ok(expected));
        }
    }
}

/// Accepted notes over all there is lie inside the proposal.
fn accepted_notes_lie_inside<S: Set>() {
    let mut rng = Rng::new(21);
    let (mut accepted, mut smaller) = (0, 0);
    for _ in 0..20_000 {
        let count = 1 + rng.below(12);
        let program = program::<S>(&mut rng, count);
        let answer = propose(&program.word_bytes(), program.entry);
        for keep in 0..4 {
            // What is read is kept, or hardly any notes would be accepted.
            let mut notes = program.exact();
            for (index, note) in notes.iter_mut().enumerate() {
                *note = match keep {
                    0 => *note & (S::random(&mut rng) | program.reads(index)),
                    1 => program.reads(index),
                    2 => *note | S::ALL.member(&mut rng),
                    _ => *note & !S::ALL.member(&mut rng),
                };
            }
            if check(&program.parcel(&notes)) != Verdict::Accepted {
                continue;
            }
            let Ok((proposal, _)) = &answer else {
                panic!("refused, but {notes:X?} are accepted: {program:X?}");
            };
            let inside = notes.iter().zip(proposal).all(|(note, all)| *note & !*all == S::NONE);
            assert!(inside, "{notes:X?}: {program:X?}");
            accepted += 1;
            smaller += u32::from(notes != *proposal);
        }
    }
    assert!(accepted > 2_000 && smaller > 1_000, "{accepted} accepted, {smaller} smaller");
}

fn as_many_sweeps_as_instructions<S: Set>() {
    for count in [1, 2, 17, 2048] {
        let program = Program::<S>::nops(count);
        assert_eq!(propose(&program.word_bytes(), S::NONE), Ok((vec![S::NONE; count], count as u32)));
    }
}

/// One half that the entry set lacks takes as many sweeps as all of them.
#[test]
fn sweeps_go_on_for_either_half() {
    for count in [1, 2, 17, 2048] {
        let words = Program::<u128>::nops(count).word_bytes();
        assert_eq!(propose(&words, u128::ALL), Ok((vec![u128::ALL; count], 1)));
        for half_mask in [1, 2] {
            let entry = !u128::filled(63, half_mask);
            assert_eq!(propose(&words, entry), Ok((vec![entry; count], count as u32)));
        }
    }
}

/// Programs that fill registers in two half writes: notes in version 2, none in version 1 where
/// such a register is read.
#[test]
fn filled_in_two_writes() {
    let mut rng = Rng::new(24);
    let mut reading = 0;
    for _ in 0..5_000 {
        let shape = Shape { count: 6 + rng.below(30), branches: rng.pick(&[0, 10]), ends: 0, registers: 3 };
        let program = Program::<u128>::in_halves(&mut rng, shape);
        let words = program.word_bytes();
        assert_eq!(propose(&words, u128::NONE), Ok(program.sweeps()), "{program:X?}");
        let reads = (0..program.count()).any(|index| program.reads(index) != u128::NONE);
        let refusal = propose(&words, 0_u64).err();
        assert_eq!(refusal, reads.then_some(NO_NOTES), "{program:X?}");
        reading += u32::from(reads);
    }
    assert!((1_000..5_000).contains(&reading), "{reading}");
}

/// One sweep more: note 0 loses the register in the first sweep, each other note one sweep after
/// the note before it, and one more sweep changes nothing. The branch then reads what isn't held.
fn one_sweep_more_is_refused<S: Set>() {
    for count in [1, 2, 17, 2048] {
        for register in [0, 5, 63] {
            let program = Program::<S>::releasing_loop(count, register);
            let words = program.word_bytes();
            assert_eq!(propose(&words, program.entry), Err(NO_NOTES));
            assert_eq!(swept(&words, program.entry).map(|narrowed| narrowed.sweeps), Ok(count as u32 + 1));
        }
    }
}

/// 12, then the lowest unreadable word, then 24.
fn order_of_refusals<S: Set>() {
    let mut rng = Rng::new(22);
    for number in 2..=7 {
        for (count, entry) in [(1, S::NONE), (2, S::register(7)), (9, S::NONE), (2048, S::register(7))] {
            let mut words = Program::<S>::releasing_loop(count, 7).word_bytes();
            assert_eq!(propose(&words, entry), Err(NO_NOTES));
            for index in [count - 1, count / 2, 0] {
                let (word, refusal) = refused_word(&mut rng, number);
                words[8 * index..][..8].copy_from_slice(&word.to_le_bytes());
                assert_eq!(propose(&words, entry), Err(Fault { refusal, index: index as u16, register: 64 }));
            }
            assert_eq!(propose(&words[1..], entry), Err(SIZE));
        }
    }
}

fn lengths<S: Set>() {
    for length in [0, 1, 7, 9, 15, 17, 8 * 2048 + 1, 8 * 2049, 8 * 2050] {
        assert_eq!(propose(&vec![0; length], S::NONE), Err(SIZE), "{length}");
    }
    for count in [1, 2, 2048] {
        let words = Program::<S>::nops(count).word_bytes();
        let right = S::BYTES * count;
        // The other version's length among them.
        for length in [0, 1, right - 8, right - 1, right + 1, right + 8, (24 - S::BYTES) * count] {
            let mut notes = vec![0xA5; length];
            let answer = infer(S::VERSION.into(), &words, [0, 0], &mut notes);
            assert_eq!(answer, Err(SIZE), "{count} {length}");
            assert_eq!(notes, vec![0xA5; length], "{count} {length}");
        }
    }
}
