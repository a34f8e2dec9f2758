// Deposit sheets: most of them good, with rows that name each other; some of hundreds of rows, some damaged.

use super::maker::{grammar_made_as, put_number};
use super::{damage_blob, Rng};
use crate::reference::{Counts, MOST_ROWS};
use crate::sheet::{MOST_SHEET, MOST_SIZE};

pub fn sheet(rng: &mut Rng) -> Vec<u8> {
    let large = rng.below(10) == 0;
    let size = match (large, rng.below(8)) {
        (true, 0..=2) => MOST_SIZE,
        (true, _) => 65 + rng.below(MOST_SIZE as usize - 64) as u32,
        (_, 0) => 64,
        (_, 1) => 1,
        _ => 1 + rng.below(8) as u32,
    };
    let counts = Counts {
        type_defs: [0, 3, MOST_ROWS][rng.below(3)],
        type_refs: [0, 18, MOST_ROWS][rng.below(3)],
        type_specs: size,
    };
    let shape = (large && rng.below(4) > 0).then(|| shape(rng, size));
    let blobs: Vec<Vec<u8>> = (1..=size)
        .map(|number| match &shape {
            Some(shape) => shape.blob(rng, number),
            None => row(rng, counts),
        })
        .collect();
    let acks = acks(rng, size as usize);
    let mut bytes = sheet_of(counts.type_defs, counts.type_refs, &blobs, &acks);
    match rng.below(200) {
        0..=30 => damage_blob(rng, &mut bytes),
        31 => bytes.resize(MOST_SHEET + rng.below(2), 0x00),
        _ => {}
    }
    bytes
}

/// The sheet of these counts, blobs and acknowledgements.
pub fn sheet_of(type_defs: u32, type_refs: u32, blobs: &[Vec<u8>], acks: &[u32]) -> Vec<u8> {
    let mut bytes = vec![0x02];
    put_number(&mut bytes, type_defs);
    put_number(&mut bytes, type_refs);
    put_number(&mut bytes, blobs.len() as u32);
    for blob in blobs {
        put_number(&mut bytes, blob.len() as u32);
        bytes.extend(blob);
    }
    put_number(&mut bytes, acks.len() as u32);
    for &row in acks {
        put_number(&mut bytes, row);
    }
    bytes
}

/// The longest sheet with these blobs, which are short: the rest are acknowledgements on the rows 1 to 127 in turn.
pub fn longest_sheet(blobs: &[Vec<u8>]) -> Vec<u8> {
    // The number of acknowledgements takes four bytes in place of one.
    let rest = MOST_SHEET - sheet_of(0, 0, blobs, &[]).len() - 3;
    let acks: Vec<u32> = (0..rest as u32).map(|turn| turn % 127 + 1).collect();
    sheet_of(0, 0, blobs, &acks)
}

/// An I4 behind modifiers that name these rows.
pub fn naming(rows: &[u32]) -> Vec<u8> {
    let mut blob = Vec::new();
    for row in rows {
        blob.push(0x20);
        put_number(&mut blob, row * 4 + 2);
    }
    blob.push(0x08);
    blob
}

/// The blobs of so many rows: each names the next row, and the last is given.
pub fn line(size: u32, last: &[u8]) -> Vec<Vec<u8>> {
    let named = (2..=size).map(|next| naming(&[next]));
    named.chain([last.to_vec()]).collect()
}

/// Rows there are, the two beside them, and any number at all.
fn acks(rng: &mut Rng, size: usize) -> Vec<u32> {
    (0..rng.below(2 * size + 2))
        .map(|_| match rng.below(12) {
            0 => rng.next() as u32 >> 3,
            _ => rng.below(size + 2) as u32,
        })
        .collect()
}

/// A row's blob: good or bad, with none, one or a few modifiers that name rows.
fn row(rng: &mut Rng, counts: Counts) -> Vec<u8> {
    let mut blob = Vec::new();
    for _ in 0..rng.below(3) {
        blob.push(0x1F + rng.below(2) as u8);
        let row = 1 + rng.below(counts.type_specs as usize) as u32;
        put_number(&mut blob, row * 4 + 2);
    }
    match rng.below(24) {
        0 => blob.push(0x10),
        1 => blob.extend(grammar_made_as(rng, 0, counts, 15)),
        2..=4 => blob.extend(grammar_made_as(rng, 0, counts, 0)),
        5 if rng.below(20) == 0 => blob.resize(4095 + rng.below(4), 0x1D),
        6 => blob.extend([0x1B, 0x00, 0x01, 0x01, 0x20, 0x06, 0x08]),
        _ => blob.push(0x08),
    }
    blob
}

/// How the rows of a large sheet name each other.
struct Shape {
    size: u32,
    /// Runs of so many rows in which each row names the next; a cycle's last row names its first.
    run: u32,
    cycles: bool,
    /// In place of runs, names at random, up to so many for each row.
    random: Option<usize>,
    /// Of a thousand rows so many are bad, half of them by a row above the size.
    bad: usize,
}

fn shape(rng: &mut Rng, size: u32) -> Shape {
    let most = [size as usize, 20][rng.below(2)];
    Shape {
        size,
        run: [size, 1 + rng.below(most) as u32][rng.below(2)],
        cycles: rng.below(2) == 0,
        random: [None, Some(1 + rng.below(4))][rng.below(2)],
        bad: [0, 4, 40][rng.below(3)],
    }
}

impl Shape {
    fn blob(&self, rng: &mut Rng, row: u32) -> Vec<u8> {
        let last = row == self.size || row.is_multiple_of(self.run);
        let mut names = match self.random {
            Some(most) => (0..rng.below(most + 1)).map(|_| self.any(rng)).collect(),
            None if !last => vec![row + 1],
            None if self.cycles => vec![row - (row - 1) % self.run],
            None => vec![],
        };
        if rng.odds(self.bad) {
            if rng.below(2) == 0 {
                return vec![0x10];
            }
            names.push(self.size + self.any(rng));
        }
        naming(&names)
    }

    fn any(&self, rng: &mut Rng) -> u32 {
        1 + rng.below(self.size as usize) as u32
    }
}
