//! Instructions (the paper's records) written by the library and by the reference, and read
//! back: over half a million. Fresh instructions.

mod common;

use common::{Tally, compare_fresh, compare_write, form};
use inputs::{BRANCH, Rng, instruction, misfit, parcel, parcel_2};
use reference::{ROW_COUNT, ROWS};
use vsp::{Form, Half, Verdict};

fn rows() -> std::ops::Range<u8> {
    0..ROW_COUNT as u8
}

#[test]
fn legal_instructions_of_every_row() {
    let mut rng = Rng::new(200);
    let mut tally = Tally::new();
    for row in rows() {
        for _ in 0..1_000 {
            let legal = form(&instruction(&mut rng, row));
            tally.count(compare_write(&mut rng, &legal, 8).into());
        }
    }
    tally.assert_only(&[0]);
    tally.assert_seen(&[0], 77_000);
}

/// Every byte of the form, padding included, takes every value.
#[test]
fn one_byte_of_any_value() {
    let mut rng = Rng::new(201);
    let mut tally = Tally::new();
    for row in rows() {
        let legal = form(&instruction(&mut rng, row));
        for at in 0..legal.len() {
            for byte in 0..=255 {
                let mut other = legal;
                other[at] = byte;
                tally.count(compare_write(&mut rng, &other, 8).into());
            }
        }
    }
    tally.assert_seen(&[0, 2, 4, 5, 6, 7, 9], 50);
    assert_eq!(tally.total(), 77 * 32 * 256);
}

/// One byte a little too large, or all of a row's fields with illegal values that fit.
#[test]
fn near_misses() {
    let mut rng = Rng::new(202);
    let mut tally = Tally::new();
    for row in rows() {
        for _ in 0..1_000 {
            let mut other = form(&misfit(&mut rng, row));
            if rng.percent(50) {
                let at = 1 + rng.below(other.len() - 1);
                other[at] = other[at].wrapping_add(rng.pick(&[1, 1, 2, 4, 8, 16, 64, 255]));
            }
            tally.count(compare_write(&mut rng, &other, 8).into());
        }
    }
    tally.assert_seen(&[0, 4, 5, 6, 7, 9], 1_000);
}

#[test]
fn random_forms() {
    let mut rng = Rng::new(203);
    let mut tally = Tally::new();
    for _ in 0..50_000 {
        let mut any = [0; 32];
        for byte in &mut any {
            *byte = rng.byte() & rng.pick(&[0, 0, 1, 3, 255]);
        }
        any[0] = rng.below(90) as u8;
        tally.count(compare_write(&mut rng, &any, 8).into());
    }
    tally.assert_seen(&[2, 9], 1_000);
}

#[test]
fn branch_offsets() {
    const LOWEST: i32 = -67_108_864;
    const HIGHEST: i32 = 67_108_863;
    let mut rng = Rng::new(204);
    let mut tally = Tally::new();
    let mut offsets = vec![i32::MIN, i32::MIN + 1, i32::MAX];
    for centre in [LOWEST, 0, HIGHEST, 1 << 27, -1 << 27, 1 << 16, -1 << 16] {
        offsets.extend(centre - 40..centre + 40);
    }
    offsets.extend((0..10_000).map(|_| rng.bits() as i32 >> rng.below(8)));
    for offset in offsets {
        let mut branch = instruction(&mut rng, BRANCH);
        branch.offset = offset;
        let inside = (LOWEST..=HIGHEST).contains(&offset);
        let answer = compare_write(&mut rng, &form(&branch), 8);
        assert_eq!(answer, if inside { 0 } else { 9 }, "{offset}");
        tally.count(answer.into());
        let row = rng.below(ROW_COUNT) as u8;
        let mut other = instruction(&mut rng, row);
        other.offset = offset;
        tally.count(compare_write(&mut rng, &form(&other), 8).into());
    }
    tally.assert_seen(&[0, 9], 1_000);
}

/// The length comes before the row, the row before everything else.
#[test]
fn order_of_length_and_row() {
    let mut rng = Rng::new(205);
    for length in 0..40 {
        for row in 0..=255 {
            let mut any = form(&instruction(&mut rng, row % ROW_COUNT as u8));
            any[0] = row;
            for wrong in [false, true] {
                if wrong {
                    any[rng.pick(&[1, 2, 3, 4, 23, 28, 31])] = 255;
                }
                let expected = match (length, row as usize) {
                    (8, ROW_COUNT..) => 2,
                    (8, _) if wrong => 9,
                    (8, _) => 0,
                    _ => 8,
                };
                assert_eq!(compare_write(&mut rng, &any, length), expected, "{length} {any:02X?}");
            }
        }
    }
}

#[test]
fn fresh_instructions() {
    let mut rng = Rng::new(206);
    for row in 0..70_000 {
        assert_eq!(compare_fresh(&mut rng, row), if row < 77 { 0 } else { 2 }, "{row}");
    }
    for shift in 7..64 {
        for low in 0..77 {
            assert_eq!(compare_fresh(&mut rng, (1 << shift) + low), 2, "2^{shift} + {low}");
            assert_eq!(compare_fresh(&mut rng, u64::MAX - low), 2);
        }
    }
}

/// The verdict on an instruction alone, with flow `end`, an empty entry set and an empty note; it
/// is the same in both versions.
fn trial(form: Form) -> Verdict {
    let mut word = [0; 8];
    vsp::write(&Form { flow: 15, ..form }, &mut word).unwrap();
    let word = u64::from_le_bytes(word);
    let verdict = vsp::check(&parcel(0, &[word], &[0]));
    assert_eq!(vsp::check(&parcel_2([0, 0], &[word], &[[0, 0]])), verdict);
    verdict
}

/// Constant entry 0 in each source that the row has, 0 in the others; nothing is read. On r0 rows
/// with a source are refused with 20.
#[test]
fn fresh_instructions_are_accepted() {
    let refused = Verdict::Refused { number: 20, place: 0, index: 0, register: 0, half: Some(Half::Low) };
    for (number, row) in ROWS.iter().enumerate() {
        let fresh = vsp::fresh(number as u64).unwrap();
        let mut sources = [0xC0; 4];
        sources[row.sources..].fill(0);
        assert_eq!(fresh.sources, sources, "{}", row.name);
        assert_eq!(trial(fresh), Verdict::Accepted, "{}", row.name);
        let expected = if row.sources == 0 { Verdict::Accepted } else { refused };
        assert_eq!(trial(Form { sources: [0; 4], ..fresh }), expected, "{}", row.name);
    }
}
