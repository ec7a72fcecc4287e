//! Refusals, verdicts and runs in words.

use inputs::{parcel, parcel_2, with_version};
use std::error::Error;
use vsp::{Half, Inference, NotRun, Refusal, Replayed, Side, Unread, Verdict};

/// MOV.i32 r1, r2 without and with flow `end`; one with a bit too many.
const MOV: u64 = 0x0091_C100_0000_0002;
const LAST: u64 = MOV | 15 << 59;
const STRAY: u64 = MOV | 1 << 63;

fn check(entry: u64, words: &[u64], notes: &[u64]) -> String {
    vsp::check(&parcel(entry, words, notes)).to_string()
}

#[test]
fn refusals() {
    let examples = [
        (1, 0, "refused with 1: the word isn't 8 bytes long"),
        (2, 0, "refused with 2: the word is no instruction of the table, or the row is above 76"),
        (3, 40, "refused with 3: a bit is 1 that the instruction has no use for (bit 40)"),
        (4, 0, "refused with 4: the flow is a reserved one"),
        (5, 0, "refused with 5: no half of the destination is written"),
        (6, 32, "refused with 6: a modifier has an illegal value (bit 32)"),
        (7, 3, "refused with 7: a source is a word of a reserved constant (source 3)"),
        (8, 0, "refused with 8: the room to write a word to isn't 8 bytes long"),
        (9, 0, "refused with 9: the row has no room for a value of the form, or the offset is beyond its limits"),
        (14, 0, "refused with 14: this number is never given"),
        (255, 0, "refused with 255: this number is never given"),
    ];
    for (number, place, sentence) in examples {
        assert_eq!(Refusal { number, place }.to_string(), sentence);
    }
}

/// As words and forms are refused.
#[test]
fn refusals_that_are_given() {
    let read = |word: u64| vsp::read(&word.to_le_bytes()).unwrap_err().to_string();
    assert_eq!(read(0x00F0_C006_0002_0100), "refused with 6: a modifier has an illegal value (bit 32)");
    assert_eq!(read(0x0091_C100_0000_00E2), "refused with 7: a source is a word of a reserved constant (source 0)");
    assert_eq!(read(STRAY), "refused with 3: a bit is 1 that the instruction has no use for (bit 63)");
    assert_eq!(vsp::read(&[0; 9]).unwrap_err().to_string(), "refused with 1: the word isn't 8 bytes long");
    let sentence = "refused with 2: the word is no instruction of the table, or the row is above 76";
    assert_eq!(read(0x0091_C100_0001_0002), sentence);
    assert_eq!(vsp::fresh(77).unwrap_err().to_string(), sentence);
}

#[test]
fn verdicts() {
    let examples: [(u64, &[u64], &[u64], &str); 7] = [
        (4, &[LAST], &[4], "accepted"),
        (4, &[LAST], &[0], "refused with 20 at instruction 0: it reads r2L, which its note doesn't name"),
        (4, &[MOV], &[4], "refused with 21 at instruction 0: it can go on to a place outside the program"),
        (
            4,
            &[MOV, LAST],
            &[4, 12],
            "refused with 22 at instruction 0: it can go on to an instruction whose note names r3L, which by its \
             own note it doesn't leave filled",
        ),
        (
            4,
            &[LAST],
            &[6],
            "refused with 23 at instruction 0: it has a note that names r1L, which the parcel doesn't say is filled \
             before the start",
        ),
        (
            4,
            &[MOV, STRAY],
            &[4, 4],
            "refused with 3 at instruction 1: a bit is 1 that the instruction has no use for (bit 63)",
        ),
        (4, &[1 << 48], &[4], "refused with 2 at instruction 0: the word is no instruction of the table"),
    ];
    for (entry, words, notes, sentence) in examples {
        assert_eq!(check(entry, words, notes), sentence);
    }
    let verdict = Verdict::Refused { number: 20, place: 0, index: 3, register: 5, half: Some(Half::Low) };
    assert_eq!(verdict.to_string(), "refused with 20 at instruction 3: it reads r5L, which its note doesn't name");
}

/// In version 2 the half can be the high one.
#[test]
fn verdicts_on_halves() {
    type Sets = [u64; 2];
    let examples: [(Sets, &[u64], &[Sets], &str); 5] = [
        ([4, 4], &[LAST], &[[4, 4]], "accepted"),
        ([4, 4], &[LAST], &[[4, 0]], "refused with 20 at instruction 0: it reads r2H, which its note doesn't name"),
        ([4, 4], &[LAST], &[[0, 4]], "refused with 20 at instruction 0: it reads r2L, which its note doesn't name"),
        (
            [4, 4],
            &[MOV, LAST],
            &[[4, 4], [4, 12]],
            "refused with 22 at instruction 0: it can go on to an instruction whose note names r3H, which by its \
             own note it doesn't leave filled",
        ),
        (
            [6, 4],
            &[LAST],
            &[[6, 6]],
            "refused with 23 at instruction 0: it has a note that names r1H, which the parcel doesn't say is filled \
             before the start",
        ),
    ];
    for (entry, words, notes, sentence) in examples {
        assert_eq!(vsp::check(&parcel_2(entry, words, notes)).to_string(), sentence);
    }
}

/// No instruction is at fault where the parcel doesn't open.
#[test]
fn verdicts_on_what_does_not_open() {
    let good = parcel(4, &[LAST], &[4]);
    let examples = [
        (0, b'v', "refused with 10: the mark isn't VSP"),
        (3, 3, "refused with 11: the version is neither 1 nor 2"),
        (5, 1, "refused with 13: byte 5 isn't 0"),
        (6, 2, "refused with 12: the count of instructions or the length is wrong"),
    ];
    for (at, byte, sentence) in examples {
        let mut bytes = good.clone();
        bytes[at] = byte;
        assert_eq!(vsp::check(&bytes).to_string(), sentence);
    }
    let other = vsp::check(&with_version(&good, 2)).to_string();
    assert_eq!(other, "refused with 12: the count of instructions or the length is wrong");
}

#[test]
fn inferences() {
    let infer_for = |version, words: &[u64], low, high, room: usize| {
        let words: Vec<u8> = words.iter().flat_map(|word| word.to_le_bytes()).collect();
        vsp::infer(version, &words, low, high, &mut vec![0; room]).to_string()
    };
    let infer = |words: &[u64], entry, room| infer_for(1, words, entry, 0, room);
    assert_eq!(infer(&[LAST], 4, 8), "notes proposed, sweeps: 1");
    assert_eq!(infer(&[MOV, LAST], 4, 16), "notes proposed, sweeps: 2");
    let lengths = "refused with 12: the length of the words or of the room for notes is wrong";
    assert_eq!(infer(&[LAST], 4, 9), lengths);
    assert_eq!(infer(&[], 4, 0), lengths);
    let none = "refused with 24: with these words and this entry set no notes at all would be accepted";
    assert_eq!(infer(&[MOV], 4, 8), none);
    let stray = "refused with 3 at instruction 1: a bit is 1 that the instruction has no use for (bit 63)";
    assert_eq!(infer(&[MOV, STRAY], 4, 16), stray);
    assert_eq!(infer_for(2, &[MOV, LAST], 4, 4, 32), "notes proposed, sweeps: 2");
    assert_eq!(infer_for(2, &[LAST], 4, 0, 16), none);
    assert_eq!(infer_for(2, &[LAST], 4, 4, 8), lengths);
    assert_eq!(infer_for(3, &[LAST], 4, 4, 16), "refused with 11: the version is neither 1 nor 2");
    let large = Inference::Refused { number: 6, place: 36, index: 2047, register: 64 };
    let sentence = "refused with 6 at instruction 2047: a modifier has an illegal value (bit 36)";
    assert_eq!(large.to_string(), sentence);
}

#[test]
fn comparisons() {
    let good = parcel(4, &[MOV, LAST], &[4, 4]);
    let stray = parcel(4, &[MOV, STRAY], &[4, 4]);
    let unread = vsp::differences(&good, &stray).unwrap_err();
    let sentence =
        "the second parcel is refused with 3 at instruction 1: a bit is 1 that the instruction has no use for (bit 63)";
    assert_eq!(unread.to_string(), sentence);
    let unread = vsp::difference(&good[1..], &stray, 0).unwrap_err();
    assert_eq!(unread.to_string(), "the first parcel is refused with 10: the mark isn't VSP");
}

#[test]
fn replays() {
    let examples = [
        (Replayed::Ended { steps: 5 }, 5, "END after 5 steps"),
        (Replayed::Ended { steps: 1 }, 1, "END after 1 step"),
        (Replayed::Limit { steps: 1 }, 1, "LIMIT after 1 step"),
        (Replayed::Limit { steps: 0 }, 0, "LIMIT after 0 steps"),
        (Replayed::Limit { steps: u32::MAX }, u32::MAX, "LIMIT after 4294967295 steps"),
        (Replayed::Differs { step: 3, register: 2 }, 4, "DIFFERS at step 3, r2"),
        (Replayed::Differs { step: 0, register: 63 }, 1, "DIFFERS at step 0, r63"),
    ];
    for (replayed, steps, sentence) in examples {
        assert_eq!((replayed.to_string().as_str(), replayed.steps()), (sentence, steps));
    }
}

/// As runs come to their stop, and as they are refused.
#[test]
fn replays_that_are_given() {
    let replay = |words: &[u64], notes: &[u64], trace: &[u32]| {
        let replayed = vsp::replay(&parcel(4, words, notes), &mut [0; 64], &[], trace, 1);
        replayed.map_or_else(|refusal| refusal.to_string(), |replayed| replayed.to_string())
    };
    // MOV.i32 r1, u0 and FRCP.f32 r4, u2.
    let (uniform, other) = (0x0091_C100_0000_0080, 0x009C_C400_0000_0082);
    assert_eq!(replay(&[LAST], &[4], &[]), "END after 1 step");
    assert_eq!(replay(&[MOV, LAST], &[4, 4], &[]), "LIMIT after 1 step");
    assert_eq!(replay(&[LAST], &[4], &[1; 64]), "DIFFERS at step 0, r0");
    let sentence = "refused with 30 at instruction 1: replay doesn't run such an instruction";
    assert_eq!(replay(&[MOV, other, LAST], &[4; 3], &[]), sentence);
    let sentence = "refused with 31 at instruction 0: it has a uniform that the list doesn't have";
    assert_eq!(replay(&[uniform, other, LAST], &[4; 3], &[]), sentence);
    let sentence = "refused with 32: the trace isn't 64 numbers for each step";
    assert_eq!(replay(&[uniform, LAST], &[4; 2], &[0; 63]), sentence);
    let sentence = "refused with 20 at instruction 0: it reads r2L, which its note doesn't name";
    assert_eq!(replay(&[LAST], &[0], &[0; 63]), sentence);
}

/// All kinds of refusal that a `Result` has can be handed on as errors.
#[test]
fn errors() {
    let read = || -> Result<vsp::Form, Box<dyn Error>> { Ok(vsp::read(&[])?) };
    assert_eq!(read().unwrap_err().to_string(), "refused with 1: the word isn't 8 bytes long");
    let unread = Unread { side: Side::First, number: 13, place: 0, index: 0, register: 64 };
    let error: Box<dyn Error + Send + Sync> = unread.into();
    assert_eq!(error.to_string(), "the first parcel is refused with 13: byte 5 isn't 0");
    let not_run = NotRun { number: 20, place: 0, index: 3, register: 5, half: Some(Half::High) };
    let error: Box<dyn Error + Send + Sync> = not_run.into();
    let sentence = "refused with 20 at instruction 3: it reads r5H, which its note doesn't name";
    assert_eq!(error.to_string(), sentence);
}
