//! The reference's check against a search through all walks of small programs, in both versions.

use inputs::{Program, Rng, Set, Shape, both_versions};
use reference::{Verdict, check};
use std::collections::BTreeSet;

both_versions! {
    accepted_exactly_when_all_walks_are_safe
    accepted_notes_hold_on_all_walks
}

/// What all walks together show.
struct Walks<S> {
    /// No walk reads what isn't held or leaves the program.
    safe: bool,
    /// By instruction, what is held on the walks that arrive.
    arrivals: Vec<BTreeSet<S>>,
}

/// A walk's future depends only on where it is and what is held there.
fn walks<S: Set>(program: &Program<S>) -> Walks<S> {
    let mut found = Walks { safe: true, arrivals: vec![BTreeSet::new(); program.count()] };
    let mut open = vec![(0, program.entry)];
    while let Some((index, held)) = open.pop() {
        if !found.arrivals[index].insert(held) {
            continue;
        }
        found.safe &= program.reads(index) & !held == S::NONE;
        for successor in program.successors(index) {
            match usize::try_from(successor) {
                Ok(next) if next < program.count() => open.push((next, program.after(index, held))),
                _ => found.safe = false,
            }
        }
    }
    found
}

/// A random program, at times with a successor that doesn't exist.
fn program<S: Set>(rng: &mut Rng) -> Program<S> {
    let shape =
        Shape { count: 1 + rng.below(7), branches: 30, ends: rng.pick(&[0, 10]), registers: 1 + rng.below(4) as u8 };
    let mut program = if rng.percent(50) { Program::safe(rng, shape) } else { Program::random(rng, shape) };
    if rng.percent(10) {
        let index = rng.below(program.count());
        program.instructions[index].flow = 0;
    }
    program
}

fn accepted_exactly_when_all_walks_are_safe<S: Set>() {
    let mut rng = Rng::new(1);
    let (mut accepted, mut refused) = (0, 0);
    for _ in 0..40_000 {
        let program = program::<S>(&mut rng);
        let found = walks(&program);
        let exact = program.exact();
        let verdict = check(&program.parcel(&exact));
        let all_reached = found.arrivals.iter().all(|sets| !sets.is_empty());
        if verdict == Verdict::Accepted {
            assert!(found.safe, "accepted, but a walk is unsafe: {program:X?}");
            accepted += 1;
        } else {
            assert!(!(found.safe && all_reached), "refused, but all walks are safe: {program:X?}");
            refused += 1;
        }
        for (note, sets) in exact.iter().zip(&found.arrivals) {
            let held = sets.iter().fold(S::ALL, |all, set| all & *set);
            assert!(*note & !held == S::NONE, "{program:X?}");
            assert!(!all_reached || *note == held, "{program:X?}");
        }
    }
    assert!(accepted > 10_000 && refused > 5_000, "{accepted} accepted, {refused} refused");
}

/// Any notes that are accepted stay below what all walks bring, and make them safe.
fn accepted_notes_hold_on_all_walks<S: Set>() {
    let mut rng = Rng::new(2);
    let mut accepted = 0;
    for _ in 0..40_000 {
        let program = program::<S>(&mut rng);
        let mut some = || S::random(&mut rng) | S::random(&mut rng) | S::random(&mut rng);
        let notes: Vec<S> = program.exact().iter().map(|set| *set & some()).collect();
        if check(&program.parcel(&notes)) != Verdict::Accepted {
            continue;
        }
        accepted += 1;
        let found = walks(&program);
        assert!(found.safe, "{program:X?}");
        for (note, sets) in notes.iter().zip(&found.arrivals) {
            assert!(sets.iter().all(|set| *note & !*set == S::NONE), "{program:X?}");
        }
    }
    assert!(accepted > 1_000, "{accepted} accepted");
}
