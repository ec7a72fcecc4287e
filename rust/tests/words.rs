//! Words read by the library and by the reference, and written back: over a million.

mod common;

use common::{Tally, compare_read, compare_word};
use inputs::{Rng, assigned, encode, instruction, misfit, on_r0, pack, refused_word};
use reference::{MODIFIER_BITS, ROW_COUNT, ROWS};

fn rows() -> std::ops::Range<u8> {
    0..ROW_COUNT as u8
}

#[test]
fn legal_words_of_every_row() {
    let mut rng = Rng::new(100);
    let mut tally = Tally::new();
    for row in rows() {
        for _ in 0..4_000 {
            let word = encode(&instruction(&mut rng, row));
            tally.count(compare_word(&mut rng, word).into());
        }
    }
    tally.assert_only(&[0]);
    tally.assert_seen(&[0], 308_000);
}

#[test]
fn legal_words_with_one_bit_flipped() {
    let mut rng = Rng::new(101);
    let mut tally = Tally::new();
    for row in rows() {
        for _ in 0..40 {
            let word = encode(&instruction(&mut rng, row));
            for bit in 0..64 {
                tally.count(compare_word(&mut rng, word ^ 1 << bit).into());
            }
        }
    }
    tally.assert_seen(&[0, 2, 3, 4, 5, 6, 7], 500);
    assert_eq!(tally.total(), 197_120);
}

#[test]
fn words_on_r0_with_two_bits_flipped() {
    let mut rng = Rng::new(102);
    let mut tally = Tally::new();
    for row in rows() {
        let word = encode(&on_r0(row));
        for high in 0..64 {
            for low in 0..high {
                tally.count(compare_word(&mut rng, word ^ 1 << high ^ 1 << low).into());
            }
        }
    }
    tally.assert_seen(&[0, 2, 3, 4, 5, 6], 10);
    assert_eq!(tally.total(), 155_232);
}

#[test]
fn uniformly_random_words() {
    let mut rng = Rng::new(103);
    let mut tally = Tally::new();
    for _ in 0..300_000 {
        let word = rng.bits();
        tally.count(compare_word(&mut rng, word).into());
    }
    tally.assert_seen(&[2, 3], 1_000);
}

/// The row's own bits and nothing else random: no 2 and no 3 hides what follows.
#[test]
fn random_fields_of_every_row() {
    let mut rng = Rng::new(104);
    let mut tally = Tally::new();
    for row in rows() {
        for _ in 0..3_000 {
            let word = pack(&misfit(&mut rng, row));
            tally.count(compare_word(&mut rng, word).into());
        }
        let bits = assigned(&ROWS[row as usize]);
        for _ in 0..500 {
            let word = encode(&on_r0(row)) ^ rng.bits() & rng.bits() & bits & !(0x1FF << 48);
            tally.count(compare_word(&mut rng, word).into());
        }
    }
    tally.assert_seen(&[0, 4, 5, 6, 7], 5_000);
    assert_eq!(tally.total(), 269_500);
}

#[test]
fn words_with_one_fault() {
    let mut rng = Rng::new(105);
    for number in 2..=7 {
        for _ in 0..10_000 {
            let (word, refusal) = refused_word(&mut rng, number);
            assert_eq!(reference::read(&word.to_le_bytes()), Err(refusal), "{word:016X}");
            assert_eq!(refusal.number(), number);
            assert_eq!(compare_word(&mut rng, word), common::code(refusal), "{word:016X}");
        }
    }
}

/// 3 names the lowest bit that the row doesn't own, whichever other one is set with it.
#[test]
fn every_stray_bit() {
    let mut rng = Rng::new(110);
    for row in rows() {
        let word = encode(&on_r0(row));
        let unowned = !assigned(&ROWS[row as usize]);
        let stray: Vec<u32> = (0..64).filter(|bit| unowned >> bit & 1 == 1).collect();
        for &low in &stray {
            for &high in stray.iter().filter(|&&high| high >= low) {
                let code = compare_word(&mut rng, word | 1 << low | 1 << high);
                assert_eq!(code, 3 + 256 * low, "row {row}, bits {low} and {high}");
            }
        }
        assert_eq!(stray.last(), Some(&63));
    }
}

#[test]
fn every_source_byte_on_every_page() {
    let mut rng = Rng::new(106);
    let mut tally = Tally::new();
    for row in rows() {
        let mut instruction = instruction(&mut rng, row);
        for page in 0..4 {
            instruction.page = page;
            for k in 0..ROWS[row as usize].sources {
                instruction.sources = [0; 4];
                for byte in 0..=255 {
                    instruction.sources[k] = byte;
                    tally.count(compare_word(&mut rng, pack(&instruction)).into());
                }
            }
        }
    }
    tally.assert_only(&[0, 7]);
    tally.assert_seen(&[0, 7], 10_000);
}

#[test]
fn every_value_of_every_field() {
    let mut rng = Rng::new(107);
    let mut tally = Tally::new();
    for row in rows() {
        let word = encode(&on_r0(row));
        let mut fields = vec![(40, 8), (48, 9), (57, 2), (59, 5)];
        fields.extend(ROWS[row as usize].secondary.map(|secondary| (secondary.low, secondary.width)));
        fields.extend(MODIFIER_BITS.iter().zip(ROWS[row as usize].modifiers).map(|(low, m)| (*low, m.width)));
        for (low, width) in fields {
            for value in 0..1 << width {
                let other = word & !(((1 << width) - 1) << low) | value << low;
                tally.count(compare_word(&mut rng, other).into());
            }
        }
    }
    tally.assert_seen(&[0, 2, 3, 4, 5, 6], 100);
}

#[test]
fn every_opcode_and_secondary_opcode() {
    let mut rng = Rng::new(108);
    let mut tally = Tally::new();
    for opcode in 0..512 {
        for destination in [0, 0xC0, 0x7F] {
            let word = opcode << 48 | destination << 40;
            for secondary in 0..32 {
                tally.count(compare_word(&mut rng, word | secondary << 16).into());
                tally.count(compare_word(&mut rng, word | secondary << 24).into());
            }
        }
    }
    tally.assert_seen(&[0, 2, 3, 5], 50);
    assert_eq!(tally.total(), 98_304);
}

#[test]
fn lengths_other_than_eight() {
    let mut rng = Rng::new(109);
    for length in (0..300).filter(|length| *length != 8) {
        for _ in 0..4 {
            let bytes: Vec<u8> = (0..length).map(|_| rng.byte()).collect();
            assert_eq!(compare_read(&mut rng, &bytes), 1, "{length} bytes");
        }
    }
    let mut legal = encode(&instruction(&mut rng, 30)).to_le_bytes().to_vec();
    legal.push(0);
    assert_eq!(compare_read(&mut rng, &legal), 1);
    assert_eq!(compare_read(&mut rng, &legal[..7]), 1);
    assert_eq!(compare_read(&mut rng, &legal[..8]), 0);
}
