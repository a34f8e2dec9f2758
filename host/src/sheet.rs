// The deposit sheet: read, filed and acknowledged in the model, and printed.

mod model;

pub use model::{Asked, Model, BAD, CLEAN, EMPTY, LEANS, LOOP, MOST_SIZE};

use crate::reference::{decode, MOST_ROWS};
use std::fmt::Write;

pub const MOST_SHEET: usize = 65_536;
const NAMES: [&str; 5] = ["EMPTY", "BAD", "LOOP", "LEANS", "CLEAN"];

/// The printed text of a sheet.
pub fn run_sheet(bytes: &[u8]) -> Vec<u8> {
    let text = match parse(bytes) {
        Ok(sheet) => print(&sheet),
        Err(at) => format!("sheet refused at {at}\n"),
    };
    text.into_bytes()
}

struct Sheet<'s> {
    type_defs: u32,
    type_refs: u32,
    blobs: Vec<&'s [u8]>,
    acks: Vec<u32>,
}

struct Cursor<'s> {
    bytes: &'s [u8],
    pos: usize,
}

impl<'s> Cursor<'s> {
    fn number(&mut self) -> Result<u32, usize> {
        let (value, next) = decode(self.bytes, self.pos).map_err(|_| self.pos)?;
        self.pos = next;
        Ok(value)
    }

    fn ruled(&mut self, least: u32, most: u32) -> Result<u32, usize> {
        let at = self.pos;
        match self.number()? {
            value if value >= least && value <= most => Ok(value),
            _ => Err(at),
        }
    }

    fn blob(&mut self) -> Result<&'s [u8], usize> {
        let at = self.pos;
        let length = self.number()? as usize;
        let end = self.pos + length;
        let blob = self.bytes.get(self.pos..end).ok_or(at)?;
        self.pos = end;
        Ok(blob)
    }
}

/// The sheet, or the place of its first fault.
fn parse(bytes: &[u8]) -> Result<Sheet<'_>, usize> {
    if bytes.len() > MOST_SHEET {
        return Err(MOST_SHEET);
    }
    let mut cursor = Cursor { bytes, pos: 0 };
    cursor.ruled(2, 2)?;
    let type_defs = cursor.ruled(0, MOST_ROWS)?;
    let type_refs = cursor.ruled(0, MOST_ROWS)?;
    let mut blobs = Vec::new();
    for _ in 0..cursor.ruled(1, MOST_SIZE)? {
        blobs.push(cursor.blob()?);
    }
    let mut acks = Vec::new();
    for _ in 0..cursor.number()? {
        acks.push(cursor.number()?);
    }
    if cursor.pos < bytes.len() {
        return Err(cursor.pos);
    }
    Ok(Sheet {
        type_defs,
        type_refs,
        blobs,
        acks,
    })
}

/// All filings come before all acknowledgements, so that one check serves every acknowledgement and every row.
fn print(sheet: &Sheet) -> String {
    let mut rows = Model::filed(sheet.type_defs, sheet.type_refs, &sheet.blobs).ask_all();
    let mut acknowledge = |row: u32| match rows.get_mut((row as usize).wrapping_sub(1)) {
        Some(asked) => asked.acknowledge(),
        None => 16,
    };
    let answers: Vec<u32> = sheet.acks.iter().map(|&row| acknowledge(row)).collect();
    let mut text = String::from("row standing code place mark\n");
    for (row, asked) in (1..).zip(&rows) {
        let standing = NAMES[asked.standing as usize];
        let (finding, place, mark) = (asked.finding, asked.place, asked.mark);
        writeln!(text, "{row} {standing} {finding} {place} {mark}").expect("a string takes all");
    }
    for (row, answer) in sheet.acks.iter().zip(answers) {
        writeln!(text, "ack {row} {answer}").expect("a string takes all");
    }
    text
}
