//! The check of a parcel.

use crate::codec::{flow, offset, validate};
use crate::layout::Layout;
use crate::parcel::Contents;
use crate::sets::Set;
use crate::{Half, Parcel, Refusal, Version};

/// The flow that ends the program.
pub(crate) const END: u8 = 15;

/// The answer of a check.
#[derive(Clone, Copy, Debug, PartialEq, Eq)]
pub enum Verdict {
    Accepted,
    Refused {
        refusal: Refusal,
        /// The instruction at fault, 0 where the parcel doesn't open.
        index: u16,
        /// The lowest register of which something is at fault, 64 where none is.
        register: u8,
        /// The half of it at fault, the low one first; none where no register is at fault. In
        /// version 1 always the low one.
        half: Option<Half>,
    },
}

/// What an instruction does to what is held, and where control goes after it.
pub(crate) struct Effect<S> {
    pub reads: S,
    pub releases: S,
    pub fills: S,
    pub ends: bool,
    pub branch: Option<i32>,
}

/// What a source does to registers, by its byte.
#[derive(Clone, Copy)]
struct Use {
    reads: u64,
    releases: u64,
}

static USES: [Use; 256] = uses();

/// Opens the parcel, reads its words and checks its notes.
pub fn check(bytes: &[u8]) -> Verdict {
    match Parcel::open(bytes) {
        Ok(parcel) => match parcel.version {
            Version::One => check_contents::<u64>(&parcel.contents()),
            Version::Two => check_contents::<u128>(&parcel.contents()),
        },
        Err(refusal) => refused(refusal, 0),
    }
}

/// The check of what a parcel holds.
#[inline]
pub(crate) fn check_contents<S: Set>(contents: &Contents<S>) -> Verdict {
    let entry = check_entry(contents);
    if entry != Verdict::Accepted {
        return unreadable_from(contents, 0).unwrap_or(entry);
    }
    for (index, word) in contents.words() {
        let layout = match validate(word) {
            Ok(layout) => layout,
            Err(refusal) => return refused(refusal, index),
        };
        let verdict = check_instruction(contents, index, &effect(word, layout));
        if verdict != Verdict::Accepted {
            return unreadable_from(contents, index + 1).unwrap_or(verdict);
        }
    }
    Verdict::Accepted
}

/// The refusal of the first unreadable word from an index on: it comes before any refusal of
/// a note.
#[cold]
fn unreadable_from<S: Set>(contents: &Contents<S>, start: usize) -> Option<Verdict> {
    contents.words().skip(start).find_map(|(index, word)| validate(word).err().map(|refusal| refused(refusal, index)))
}

/// A refusal that blames no register.
#[cold]
fn refused(refusal: Refusal, index: usize) -> Verdict {
    Verdict::Refused { refusal, index: index as u16, register: 64, half: None }
}

/// A refusal that blames the lowest of what is missing.
#[cold]
fn unheld<S: Set>(refusal: Refusal, index: usize, missing: S) -> Verdict {
    let (register, half) = missing.lowest();
    Verdict::Refused { refusal, index: index as u16, register, half }
}

fn check_entry<S: Set>(contents: &Contents<S>) -> Verdict {
    let missing = contents.note(0).unwrap_or(S::NONE) & !contents.entry;
    if missing != S::NONE {
        return unheld(Refusal::UnheldAtEntry, 0, missing);
    }
    Verdict::Accepted
}

/// Refusal 20, then 21 and 22 for the fall-through and for the branch target.
#[inline]
fn check_instruction<S: Set>(contents: &Contents<S>, index: usize, effect: &Effect<S>) -> Verdict {
    let before = contents.note(index).unwrap_or(S::NONE);
    let missing = effect.reads & !before;
    if missing != S::NONE {
        return unheld(Refusal::UnheldRead, index, missing);
    }
    if effect.ends {
        return Verdict::Accepted;
    }
    let after = before & !effect.releases | effect.fills;
    let next = index as i64 + 1;
    let verdict = check_successor(contents, index, next, after);
    match effect.branch {
        Some(offset) if verdict == Verdict::Accepted => {
            check_successor(contents, index, next + i64::from(offset), after)
        }
        _ => verdict,
    }
}

#[inline]
fn check_successor<S: Set>(contents: &Contents<S>, index: usize, successor: i64, after: S) -> Verdict {
    let Some(note) = usize::try_from(successor).ok().and_then(|at| contents.note(at)) else {
        return refused(Refusal::LeavesProgram, index);
    };
    let missing = note & !after;
    if missing != S::NONE {
        return unheld(Refusal::UnheldAfter, index, missing);
    }
    Verdict::Accepted
}

/// The effect of a word that reads with this layout.
#[inline]
pub(crate) fn effect<S: Set>(word: u64, layout: &Layout) -> Effect<S> {
    // An absent source counts as constant 0, byte 192, which is no register.
    let sources = word as u32 & layout.sources | 0xC0C0_C0C0 & !layout.sources;
    let [a, b, c, d] = sources.to_le_bytes().map(|byte| USES[byte as usize]);
    Effect {
        reads: S::whole(a.reads | b.reads | c.reads | d.reads),
        releases: S::whole(a.releases | b.releases | c.releases | d.releases),
        // Without a destination these bits are 0, and half mask 0 fills nothing.
        fills: S::written((word >> 40) as u8),
        ends: flow(word) == END,
        branch: layout.offset.then(|| offset(word)),
    }
}

const fn uses() -> [Use; 256] {
    let mut uses = [Use { reads: 0, releases: 0 }; 256];
    let mut register = 0;
    while register < 64 {
        uses[register] = Use { reads: 1 << register, releases: 0 };
        uses[64 + register] = Use { reads: 1 << register, releases: 1 << register };
        register += 1;
    }
    uses
}
