//! The rows of an opcode, from the library, from the C example and from the reference.

mod common;

use common::compile;
use reference::{ROW_COUNT, ROWS};
use std::process::Command;

/// The opcode and k of each row that is found among all opcodes to 1023 and all k to 30.
fn found() -> Vec<(u64, u64, u8)> {
    let mut found = Vec::new();
    for opcode in 0..=1023 {
        for k in 0..=30 {
            let row = vsp::row_of(opcode, k);
            assert_eq!(row, reference::row_of(opcode, k), "opcode {opcode:#x}, k {k}");
            found.extend(row.map(|row| (opcode, k, row)));
        }
    }
    found
}

/// Every row is found once, under its own opcode, and k counts from 0 without a gap in row order.
#[test]
fn every_opcode_and_k() {
    let found = found();
    assert_eq!(found.len(), ROW_COUNT);
    for (row, line) in ROWS.iter().enumerate() {
        let before = ROWS[..row].iter().filter(|other| other.opcode == line.opcode).count();
        assert!(found.contains(&(line.opcode.into(), before as u64, row as u8)), "row {row}, {}", line.name);
    }
}

/// The conversions have the most rows.
#[test]
fn at_most_25() {
    let found = found();
    let most = found.iter().max_by_key(|(_, k, _)| *k).expect("some row is found");
    assert_eq!(*most, (0x90, 24, 29));
}

/// A row's opcode with one higher bit as well; large k.
#[test]
fn large_numbers() {
    for low in ROWS.iter().map(|row| u64::from(row.opcode)) {
        for bit in 9..64 {
            assert_eq!(vsp::row_of(low | 1 << bit, 0), None);
        }
        for k in (5..64).map(|bit| 1 << bit).chain([25, 255, 256, u64::MAX]) {
            assert_eq!(vsp::row_of(low, k), None);
        }
    }
    assert_eq!(vsp::row_of(u64::MAX, 0), None);
    assert_eq!(vsp::row_of(u64::MAX, u64::MAX), None);
}

/// The C example: the same by the header.
#[test]
fn listed_by_the_c_example() {
    let mut expected = String::new();
    for opcode in 0..512 {
        let rows: Vec<String> =
            (0..).map_while(|k| reference::row_of(opcode, k)).map(|row| format!(" {row}")).collect();
        if !rows.is_empty() {
            expected += &format!("{opcode:03X}:{}\n", rows.concat());
        }
    }
    let output = Command::new(compile("rows.c", "rows")).output().unwrap();
    assert!(output.status.success());
    assert_eq!(String::from_utf8_lossy(&output.stdout), expected);
}
