//! The C example: compiled, run, and its output compared with what the reference says, and with
//! listings of samples by hand.

mod common;

use common::compile;
use inputs::{Program, Rng, Set, Shape, both_versions, parcel, parcel_2, refused_word, with_version, with_word};
use reference::{Half, Parcel, Verdict, check, read, text};
use std::path::{Path, PathBuf};
use std::process::{Command, Output};

both_versions! {
    lists_parcels
}

/// A file with these bytes beside the program.
fn input(program: &Path, bytes: &[u8]) -> PathBuf {
    let file = program.with_extension("input");
    std::fs::write(&file, bytes).unwrap();
    file
}

fn list(program: &Path, bytes: &[u8]) -> Output {
    Command::new(program).arg(input(program, bytes)).output().unwrap()
}

/// Lists with standard output as the shell's redirection makes it.
fn list_to(redirection: &str, program: &Path, bytes: &[u8]) -> Output {
    let script = format!("exec \"$0\" \"$1\" {redirection}");
    Command::new("sh").arg("-c").arg(script).arg(program).arg(input(program, bytes)).output().unwrap()
}

/// The listing by the reference.
fn expected(bytes: &[u8]) -> String {
    let mut listing = String::new();
    if let Ok(opened) = Parcel::open(bytes) {
        for (index, word) in opened.words().enumerate() {
            listing += &match read(&word.to_le_bytes()) {
                Ok(instruction) => format!("{index:04} {word:016X} {}\n", text(&instruction)),
                Err(refusal) => {
                    format!("{index:04} {word:016X} refused {} place {}\n", refusal.number(), refusal.place())
                }
            };
        }
    }
    listing
        + &match check(bytes) {
            Verdict::Accepted => "ACCEPTED\n".to_string(),
            Verdict::Refused { refusal, index, register, half } => {
                let (number, place) = (refusal.number(), refusal.place());
                let half = match half {
                    None => "",
                    Some(Half::Low) => " low",
                    Some(Half::High) => " high",
                };
                format!("REFUSED {number} place {place} index {index} register {register}{half}\n")
            }
        }
}

fn lists_parcels<S: Set>() {
    let program = compile("list.c", &format!("list-{}", S::VERSION));
    let mut rng = Rng::new(400);
    let mut cases = vec![parcel(4, &[0x7891_C100_0000_0002], &[4]), Vec::new(), vec![0; 16], vec![1; 60_000]];
    for count in [1, 2, 50, 2048] {
        let shape = Shape { count, branches: 10, ends: 0, registers: 16 };
        let accepted = Program::<S>::safe(&mut rng, shape);
        let bytes = accepted.parcel(&accepted.exact());
        let unheld = accepted.parcel(&vec![S::NONE; count]);
        let unreadable = with_word(&bytes, count / 2, refused_word(&mut rng, 6).0);
        let versions = [1, 2, 3].map(|version| with_version(&bytes, version));
        cases.extend([bytes[1..].to_vec(), [&bytes[..], &[0]].concat(), unheld, unreadable, bytes]);
        cases.extend(versions);
    }
    for bytes in cases {
        let output = list(&program, &bytes);
        let accepted = check(&bytes) == Verdict::Accepted;
        assert_eq!(String::from_utf8_lossy(&output.stdout), expected(&bytes), "listing {}", common::hex(&bytes));
        assert_eq!(output.status.code(), Some(if accepted { 0 } else { 1 }), "listing {}", common::hex(&bytes));
    }
    let missing = Command::new(&program).arg(program.with_file_name("no such file")).output().unwrap();
    assert_eq!((missing.status.code(), missing.stdout.len()), (Some(2), 0));
    let nameless = Command::new(&program).output().unwrap();
    assert_eq!((nameless.status.code(), nameless.stdout.len()), (Some(2), 0));
}

/// The sample's listing, worked out from its source.
fn lists_sample(program: &Path, name: &str, listing: &str, status: i32) {
    let sample = Path::new(env!("CARGO_MANIFEST_DIR")).join("../samples").join(name);
    let output = Command::new(program).arg(sample).output().unwrap();
    assert_eq!(String::from_utf8_lossy(&output.stdout), listing, "{name}");
    assert_eq!((output.status.code(), output.stderr.len()), (Some(status), 0), "{name}");
}

#[test]
fn lists_samples() {
    let program = compile("list.c", "list-samples");
    let listing = "0000 0091C100000000C0 MOV.i32 r1, 0x0\n\
                   0001 00A4C10000008001 FADD.f32 r1, r1, u0\n\
                   0002 00A4C00000008100 FADD.f32 r0, r0, u1\n\
                   0003 001F0007FFFFFD00 BRANCHZ r0, offset:-3\n\
                   0004 7891C20000000041 MOV.i32.end r2, ^r1\n\
                   ACCEPTED\n";
    lists_sample(&program, "loop.vsp", listing, 0);
    let listing = "0000 0091C000000000E4 MOV.i32 r0, warp_id.w0\n\
                   0001 7891C100000000E5 MOV.i32.end r1, warp_id.w1\n\
                   ACCEPTED\n";
    lists_sample(&program, "special.vsp", listing, 0);
    let listing = "0000 00A4C20000008040 FADD.f32 r2, ^r0, u0\n\
                   0001 00A4C30000008141 FADD.f32 r3, ^r1, u1\n\
                   0002 009CC40000000182 refused 3 place 8\n\
                   0003 00A4C20000000342 FADD.f32 r2, ^r2, r3\n\
                   0004 7891C00000000042 MOV.i32.end r0, ^r2\n\
                   REFUSED 3 place 8 index 2 register 64\n";
    lists_sample(&program, "stray.vsp", listing, 1);
}

/// Halves by hand: a write of the high half of r1 and one of its low half, then a read of r1.
#[test]
fn lists_halves() {
    let program = compile("list.c", "list-halves");
    let words = [0x0091_8100_0000_00C0, 0x0091_4100_0000_00C0, 0x7891_C200_0000_0041];
    let listing = "0000 00918100000000C0 MOV.i32 r1.h1, 0x0\n\
                   0001 00914100000000C0 MOV.i32 r1.h0, 0x0\n\
                   0002 7891C20000000041 MOV.i32.end r2, ^r1\n";
    let cases = [
        (parcel(0, &words, &[0, 0, 2]), "REFUSED 22 place 0 index 1 register 1 low"),
        (parcel(0, &words, &[0, 0, 0]), "REFUSED 20 place 0 index 2 register 1 low"),
        (parcel_2([0, 0], &words, &[[0, 0], [0, 2], [2, 2]]), "ACCEPTED"),
        (parcel_2([0, 0], &words, &[[0, 0], [0, 0], [2, 2]]), "REFUSED 22 place 0 index 1 register 1 high"),
        (parcel_2([0, 0], &words, &[[0, 0], [0, 2], [0, 2]]), "REFUSED 20 place 0 index 2 register 1 low"),
        (parcel_2([0, 4], &words, &[[4, 4], [0, 2], [2, 2]]), "REFUSED 23 place 0 index 0 register 2 low"),
        (parcel_2([4, 0], &words, &[[4, 4], [0, 2], [2, 2]]), "REFUSED 23 place 0 index 0 register 2 high"),
    ];
    for (bytes, verdict) in cases {
        let output = list(&program, &bytes);
        assert_eq!(String::from_utf8_lossy(&output.stdout), format!("{listing}{verdict}\n"));
        assert_eq!(output.status.code(), Some(i32::from(verdict != "ACCEPTED")), "{verdict}");
    }
}

/// A standard output that is full or closed: status 2 and a sentence, whatever the verdict. The
/// longest listing fails while it is printed, the short ones only when they are flushed.
#[test]
fn tells_what_is_not_written() {
    let program = compile("list.c", "list-unwritten");
    let accepted = parcel(4, &[0x7891_C100_0000_0002], &[4]);
    let long = parcel(0, &[0x7800_0000_0000_0000; 2048], &[0; 2048]);
    for bytes in [accepted, long, Vec::new()] {
        for redirection in [">/dev/full", ">&-"] {
            let output = list_to(redirection, &program, &bytes);
            assert_eq!(String::from_utf8_lossy(&output.stderr), "list: can't write standard output\n");
            assert_eq!((output.status.code(), output.stdout.len()), (Some(2), 0), "{redirection}");
        }
        let whole = list_to("", &program, &bytes);
        assert_eq!(String::from_utf8_lossy(&whole.stdout), expected(&bytes));
        assert_eq!((whole.status.code(), whole.stderr.len()), (Some(i32::from(bytes.is_empty())), 0));
    }
}
