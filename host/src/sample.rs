// The sample file: signature blobs of real and made modules, a line each.

use crate::gen::Case;
use crate::reference::Counts;
use std::io::Write;
use std::path::PathBuf;

pub struct Line {
    pub module: u32,
    pub case: Case,
}

/// The sample's lines, or none where the file cannot be read, which is said on standard error.
pub fn load() -> Option<Vec<Line>> {
    let path = match std::env::var_os("SIGNATURES") {
        Some(path) => PathBuf::from(path),
        None => PathBuf::from(env!("CARGO_MANIFEST_DIR")).join("../../shared/data/signatures.txt"),
    };
    let Ok(text) = std::fs::read_to_string(&path) else {
        // Not by eprintln!, which says nothing in a test that passes.
        writeln!(
            std::io::stderr(),
            "sample skipped: {} cannot be read",
            path.display()
        )
        .ok();
        return None;
    };
    let lines: Option<Vec<Line>> = text.lines().map(line).collect();
    Some(lines.expect("each line of the sample is `module kind typedefs typerefs typespecs hex`"))
}

fn line(text: &str) -> Option<Line> {
    let mut words = text.split(' ');
    let mut number = || words.next()?.parse::<u32>().ok();
    let (module, kind) = (number()?, number()?);
    let counts = Counts {
        type_defs: number()?,
        type_refs: number()?,
        type_specs: number()?,
    };
    let blob = unhex(words.next()?)?;
    let case = Case { kind, counts, blob };
    Some(Line { module, case })
}

fn unhex(text: &str) -> Option<Vec<u8>> {
    let digit = |c: u8| (c as char).to_digit(16);
    text.as_bytes()
        .chunks(2)
        .map(|pair| match *pair {
            [high, low] => Some((digit(high)? * 16 + digit(low)?) as u8),
            _ => None,
        })
        .collect()
}
