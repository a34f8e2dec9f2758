// Document 01's reader and writer, written from the document alone: what is called, and what is shared.

mod number;
mod place;
mod reader;
mod writer;

pub use number::{decode, encode, width, LARGEST};

/// The panel's number and its place.
pub type Answer = (u32, u32);

/// The row counts of the three tables a token can name.
#[derive(Clone, Copy, Debug, PartialEq, Eq)]
pub struct Counts {
    pub type_defs: u32,
    pub type_refs: u32,
    pub type_specs: u32,
}

/// One node: kind, a, b, children, at, after.
pub type Record = [u32; 6];

pub const MOST_BYTES: usize = 4096;
pub const MOST_ROWS: u32 = 0xFF_FFFF;
pub const MOST_NODES: usize = 1024;
pub const MOST_DEPTH: u32 = 32;

pub const METHOD: u32 = 0x100;
pub const FIELD: u32 = 0x101;
pub const LOCALS: u32 = 0x102;
pub const PROPERTY: u32 = 0x103;
pub const SIZE: u32 = 0x104;
pub const LOW: u32 = 0x105;

/// Judges a blob: 0 with its node count, or the first fault.
pub fn judge(kind: u32, counts: Counts, blob: &[u8]) -> Answer {
    match gate(kind, counts) {
        0 => reader::judge(kind, counts, blob),
        code => (code, 0),
    }
}

/// Judges a blob, and only if all is well fills one record per node.
pub fn read(kind: u32, counts: Counts, blob: &[u8], table: &mut [u32]) -> Answer {
    let (code, place) = judge(kind, counts, blob);
    if code != 0 {
        return (code, place);
    }
    let (records, _tail) = table.as_chunks_mut::<6>();
    match records.get_mut(..place as usize) {
        None => (11, place),
        Some(records) => {
            reader::fill(kind, counts, blob, records);
            (0, place)
        }
    }
}

/// Writes the one blob that has this table: 0 with its length, or 12, 13, 14, 15.
pub fn write(kind: u32, counts: Counts, table: &[u32], out: &mut [u8]) -> Answer {
    let code = gate(kind, counts);
    if code != 0 {
        return (code, 0);
    }
    let (records, tail) = table.as_chunks::<6>();
    let needed = match writer::measure(kind, counts, records) {
        Some(needed) if tail.is_empty() => needed,
        _ => return (14, 0),
    };
    match out.get_mut(..needed) {
        None => (15, needed as u32),
        Some(out) => {
            writer::emit(kind, counts, records, out);
            (0, needed as u32)
        }
    }
}

/// 12 for an unknown kind, then 13 for a count out of bounds, else 0.
fn gate(kind: u32, counts: Counts) -> u32 {
    let largest = counts
        .type_defs
        .max(counts.type_refs)
        .max(counts.type_specs);
    match (kind, largest) {
        (5.., _) => 12,
        (_, rows) if rows > MOST_ROWS => 13,
        _ => 0,
    }
}
