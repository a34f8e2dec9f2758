// Cases made from a seed, the same in every run.

mod damage;
mod edges;
mod maker;
mod relayout;
mod rng;
mod sheets;

pub use damage::{damage_blob, damage_table};
pub use edges::edges;
pub use maker::{chain, grammar_made, locals, put_number};
pub use relayout::relayout;
pub use rng::Rng;
pub use sheets::{line, longest_sheet, naming, sheet, sheet_of};

use crate::reference::{Counts, MOST_ROWS};

/// What a call of the reader gets, records apart.
#[derive(Clone, Debug)]
pub struct Case {
    pub kind: u32,
    pub counts: Counts,
    pub blob: Vec<u8>,
}

/// Row counts within bounds: none, few, the bench's, as real modules have, and the largest.
pub fn good_counts(rng: &mut Rng) -> Counts {
    let one = |rng: &mut Rng| match rng.below(8) {
        0 => 0,
        1 => 1,
        2..=4 => rng.below(64) as u32,
        5 => rng.below(4000) as u32,
        6 => rng.below(MOST_ROWS as usize + 1) as u32,
        _ => MOST_ROWS,
    };
    match rng.below(16) {
        0 => Counts {
            type_defs: 0,
            type_refs: 0,
            type_specs: 0,
        },
        1..=4 => Counts {
            type_defs: 0,
            type_refs: 18,
            type_specs: 1,
        },
        5 => Counts {
            type_defs: MOST_ROWS,
            type_refs: MOST_ROWS,
            type_specs: MOST_ROWS,
        },
        _ => Counts {
            type_defs: one(rng),
            type_refs: one(rng),
            type_specs: one(rng),
        },
    }
}

/// Row counts of which some are above the bound.
pub fn any_counts(rng: &mut Rng) -> Counts {
    let mut counts = good_counts(rng);
    for count in [
        &mut counts.type_defs,
        &mut counts.type_refs,
        &mut counts.type_specs,
    ] {
        match rng.below(8) {
            0 => *count = MOST_ROWS + 1,
            1 => *count = u32::MAX - rng.below(3) as u32,
            2 => *count = rng.next() as u32,
            _ => {}
        }
    }
    counts
}

/// A kind that has no meaning.
pub fn bad_kind(rng: &mut Rng) -> u32 {
    match rng.below(4) {
        0 => 5,
        1 => u32::MAX,
        2 => 5 + rng.below(300) as u32,
        _ => (rng.next() as u32).max(5),
    }
}

/// Bytes at random; the first often one that the kind begins with.
pub fn noise(rng: &mut Rng) -> Case {
    let kind = rng.below(5) as u32;
    let counts = good_counts(rng);
    let length = match rng.below(50) {
        0 => rng.below(4200),
        1..=5 => rng.below(200),
        _ => rng.below(24),
    };
    let mut blob: Vec<u8> = (0..length).map(|_| rng.next() as u8).collect();
    lead(rng, kind, &mut blob);
    Case { kind, counts, blob }
}

/// Bytes at random, most of them element bytes and small numbers.
pub fn element_noise(rng: &mut Rng) -> Case {
    const LINKS: [u8; 8] = [0x0F, 0x1D, 0x10, 0x45, 0x1F, 0x20, 0x1B, 0x14];
    let kind = rng.below(5) as u32;
    let counts = good_counts(rng);
    let length = match rng.below(50) {
        0 => rng.below(4200),
        1..=9 => rng.below(120),
        _ => rng.below(24),
    };
    let mut blob: Vec<u8> = (0..length)
        .map(|_| match rng.below(16) {
            0..=4 => rng.below(0x21) as u8,
            5..=7 => 2 + rng.below(13) as u8,
            8..=9 => LINKS[rng.below(LINKS.len())],
            10..=12 => rng.below(5) as u8,
            13 => 0x11 + rng.below(5) as u8,
            14 => 0x80 + rng.below(0x60) as u8,
            _ => rng.next() as u8,
        })
        .collect();
    lead(rng, kind, &mut blob);
    Case { kind, counts, blob }
}

/// Most often makes the first byte one that the kind can begin with, and a count behind it small.
fn lead(rng: &mut Rng, kind: u32, blob: &mut [u8]) {
    const METHODS: [u8; 9] = [0x00, 0x05, 0x20, 0x25, 0x60, 0x65, 0x10, 0x30, 0x70];
    if blob.is_empty() || rng.below(8) == 0 {
        return;
    }
    match kind {
        0 => return,
        1 => blob[0] = 0x06,
        2 => blob[0] = 0x07,
        3 => blob[0] = if rng.below(2) == 0 { 0x08 } else { 0x28 },
        _ => blob[0] = METHODS[rng.below(METHODS.len())],
    }
    if blob.len() > 1 && kind > 1 && rng.below(4) > 0 {
        blob[1] = rng.below(6) as u8;
    }
}
