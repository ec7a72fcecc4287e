//! Texts of instructions and names of rows, from the library and from the reference: over a
//! million, of instructions that are legal and of any others. Mesa's own texts.

mod common;

use common::{compare_name, compare_text, form};
use inputs::{BRANCH, Rng, instruction, mesa, misfit, on_r0};
use reference::{Instruction, MODIFIERS, ROW_COUNT, ROWS};

fn rows() -> std::ops::Range<u8> {
    0..ROW_COUNT as u8
}

fn compare(rng: &mut Rng, instruction: &Instruction) -> String {
    compare_text(rng, &form(instruction))
}

/// The library alone against Mesa's disassembler.
#[test]
fn texts_of_mesa() {
    let mut rng = Rng::new(700);
    let mut seen = [0; ROW_COUNT];
    for (word, expected) in mesa() {
        let form = vsp::read(&word.to_le_bytes()).unwrap();
        assert_eq!(form.to_string(), expected, "{word:016X}");
        assert_eq!(vsp::text(&form), expected, "{word:016X}");
        assert_eq!(compare_text(&mut rng, &form.to_bytes()), expected, "{word:016X}");
        seen[form.row as usize] += 1;
    }
    assert_eq!(seen, [4; ROW_COUNT]);
}

/// The room for texts and names is the same in the header, in the library and here.
#[test]
fn room_for_texts() {
    let file = |name: &str| {
        let path = std::path::Path::new(env!("CARGO_MANIFEST_DIR")).join("..").join(name);
        std::fs::read_to_string(path).unwrap()
    };
    let (header, library) = (file("include/vsp.h"), file("crates/capi/src/lib.rt"));
    for (name, room) in [("TEXT", vsp::TEXT), ("NAME", vsp::NAME)] {
        assert!(header.contains(&format!("#define VSP_{name} {room}\n")), "{name}");
        assert!(library.contains(&format!("const {name}: usize = {room};\n")), "{name}");
    }
}

/// A format's width, as of any text.
#[test]
fn padded_texts() {
    let nop = vsp::fresh(0).unwrap();
    assert_eq!(format!("{nop:6}|{nop:>6}|{nop:-^6}|{nop:2}|{nop:.2}"), "NOP   |   NOP|-NOP--|NOP|NO");
}

#[test]
fn legal_instructions_of_every_row() {
    let mut rng = Rng::new(701);
    for row in rows() {
        for _ in 0..1_000 {
            let legal = instruction(&mut rng, row);
            assert!(compare(&mut rng, &legal).starts_with(ROWS[row as usize].name), "{legal:?}");
        }
    }
}

/// In the fresh instruction on r0 and in one with all kinds of values.
#[test]
fn every_value_of_every_modifier() {
    let mut rng = Rng::new(702);
    for row in rows() {
        for plain in [on_r0(row), misfit(&mut rng, row)] {
            for k in 0..MODIFIERS {
                for value in 0..=255 {
                    let mut other = plain;
                    other.modifiers[k] = value;
                    compare(&mut rng, &other);
                }
            }
        }
    }
}

#[test]
fn modifiers_together() {
    let mut rng = Rng::new(703);
    for row in rows() {
        for _ in 0..1_000 {
            let mut other = on_r0(row);
            let largest = rng.pick(&[1, 3, 15, 31, 255]);
            other.modifiers = other.modifiers.map(|_| rng.byte() & largest);
            compare(&mut rng, &other);
        }
    }
}

#[test]
fn every_flow_and_destination() {
    let mut rng = Rng::new(704);
    for row in rows() {
        let plain = instruction(&mut rng, row);
        for value in 0..=255 {
            compare(&mut rng, &Instruction { flow: value, ..plain });
            compare(&mut rng, &Instruction { register: value, ..plain });
            compare(&mut rng, &Instruction { half_mask: value, ..plain });
        }
    }
}

/// Every byte on every page in each source, those that the row doesn't have included.
#[test]
fn every_source() {
    let mut rng = Rng::new(705);
    for row in rows() {
        let plain = misfit(&mut rng, row);
        for page in 0..4 {
            for k in 0..4 {
                for byte in 0..=255 {
                    let mut other = Instruction { page, ..plain };
                    other.sources[k] = byte;
                    compare(&mut rng, &other);
                }
            }
        }
    }
}

/// Pages that no word has room for.
#[test]
fn every_page() {
    let mut rng = Rng::new(706);
    let mov = ROWS.iter().position(|row| row.name == "MOV.i32").unwrap() as u8;
    for page in 0..=255 {
        for byte in 0..=255 {
            compare(&mut rng, &Instruction { page, sources: [byte, 0, 0, 0], ..on_r0(mov) });
        }
        for row in rows() {
            let sources = [rng.byte(), rng.byte(), rng.byte(), rng.byte()];
            compare(&mut rng, &Instruction { page, sources, ..on_r0(row) });
        }
    }
}

#[test]
fn offsets() {
    let mut rng = Rng::new(707);
    let mut offsets = vec![i32::MIN, i32::MIN + 1, i32::MAX - 1, i32::MAX];
    for centre in [-67_108_864, 0, 67_108_863] {
        offsets.extend(centre - 200..=centre + 200);
    }
    for power in (0..10).map(|digits| 10_i32.pow(digits)) {
        offsets.extend([power - 1, power, -power, 1 - power]);
    }
    offsets.extend((0..10_000).map(|_| rng.bits() as i32 >> rng.below(32)));
    for offset in offsets {
        let text = compare(&mut rng, &Instruction { offset, ..on_r0(BRANCH) });
        assert_eq!(text, format!("BRANCHZ r0, offset:{offset}"));
        let row = rng.pick(&[0, 2, 3, 30, 53, 76, 77, 255]);
        let other = Instruction { row, ..on_r0(0) };
        assert_eq!(compare(&mut rng, &Instruction { offset, ..other }), compare(&mut rng, &other));
    }
}

/// Rows that the table doesn't have: nothing but the flow shows.
#[test]
fn every_row() {
    let mut rng = Rng::new(708);
    for row in 0..=255 {
        for flow in 0..=255 {
            let mut any = [0; 32].map(|_: u8| rng.byte());
            any[..3].copy_from_slice(&[row, rng.byte(), flow]);
            let text = compare_text(&mut rng, &any);
            if usize::from(row) >= ROW_COUNT {
                let nop = compare(&mut rng, &Instruction { flow, ..on_r0(0) });
                assert_eq!(text, nop.replace("NOP", "?"));
            }
        }
    }
}

/// Random bytes, padding included, which doesn't show.
#[test]
fn random_forms() {
    let mut rng = Rng::new(709);
    for _ in 0..200_000 {
        let mut any = [0; 32].map(|_: u8| rng.byte() & rng.pick(&[0, 1, 3, 7, 15, 255, 255]));
        any[0] = rng.below(80) as u8;
        let text = compare_text(&mut rng, &any);
        for at in [23, 28, 29, 30, 31] {
            any[at] = rng.byte();
        }
        assert_eq!(compare_text(&mut rng, &any), text);
    }
}

#[test]
fn names() {
    let mut rng = Rng::new(710);
    for row in 0..70_000 {
        assert_eq!(compare_name(&mut rng, row).is_some(), row < 77, "{row}");
    }
    for shift in 7..usize::BITS {
        for low in 0..77 {
            assert_eq!(compare_name(&mut rng, (1 << shift) + low), None, "2^{shift} + {low}");
            assert_eq!(compare_name(&mut rng, usize::MAX - low), None);
        }
    }
    let examples = [(0, "NOP"), (1, "BRANCHZ"), (51, "FSINCOS_OFFSET.u6"), (76, "ICMP_OR.v4s8")];
    for (row, name) in examples {
        assert_eq!(vsp::name(row).as_deref(), Some(name));
    }
}
