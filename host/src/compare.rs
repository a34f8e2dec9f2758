// One case, given to the archive and to the reference: answers, lent memory and guards must agree.

use crate::ffi;
use crate::gen::{Case, Rng};
use crate::lent::Lent;
use crate::reference::{self, Answer, Counts, MOST_NODES};

const MOST_NUMBERS: usize = (MOST_NODES + 8) * 6;
const SHOWN: u64 = 20;

pub struct Compare {
    pub cases: u64,
    pub differences: u64,
    /// How often each of the panel's numbers was answered by the reference's reader and writer.
    pub read_codes: [u64; 16],
    pub write_codes: [u64; 16],
    ours: Lent<u32>,
    theirs: Lent<u32>,
    out: (Lent<u8>, Lent<u8>),
}

impl Default for Compare {
    fn default() -> Compare {
        Compare {
            cases: 0,
            differences: 0,
            read_codes: [0; 16],
            write_codes: [0; 16],
            ours: Lent::new(MOST_NUMBERS),
            theirs: Lent::new(MOST_NUMBERS),
            out: (Lent::new(16_384), Lent::new(16_384)),
        }
    }
}

impl Compare {
    fn differs(
        &mut self,
        what: &str,
        kind: u32,
        counts: Counts,
        input: &str,
        answers: [Answer; 2],
    ) {
        self.differences += 1;
        if self.differences > SHOWN {
            return;
        }
        let [ours, theirs] = answers;
        println!("DIFFERENCE {what}: kind {kind} {counts:?} {input}");
        println!("  reference {ours:?}  archive {theirs:?}");
    }

    /// Judges a blob and reads it into records of some length; gives what judging answers.
    pub fn reader(&mut self, rng: &mut Rng, kind: u32, counts: Counts, blob: &[u8]) -> Answer {
        let judged = self.judged(kind, counts, blob);
        let nodes = if judged.0 == 0 { judged.1 as usize } else { 2 };
        let records = match rng.below(8) {
            0 => 0,
            1 => rng.below(nodes),
            2 => nodes - 1,
            3 | 4 => nodes + rng.below(6),
            5 if rng.below(64) == 0 => MOST_NODES + 1,
            _ => nodes,
        };
        let tail = rng.below(6);
        self.read(kind, counts, blob, records * 6 + tail);
        judged
    }

    pub fn case(&mut self, rng: &mut Rng, case: &Case) -> Answer {
        self.reader(rng, case.kind, case.counts, &case.blob)
    }

    fn judged(&mut self, kind: u32, counts: Counts, blob: &[u8]) -> Answer {
        self.cases += 1;
        let ours = reference::judge(kind, counts, blob);
        let theirs = ffi::judge(kind, counts, blob);
        if ours != theirs {
            self.differs("judge", kind, counts, &hex(blob), [ours, theirs]);
        }
        self.read_codes[ours.0 as usize] += 1;
        ours
    }

    /// Reads into so many numbers, filled with a pattern before.
    pub fn read(&mut self, kind: u32, counts: Counts, blob: &[u8], numbers: usize) {
        let ours = reference::read(kind, counts, blob, self.ours.lend(numbers));
        let theirs = ffi::read(kind, counts, blob, self.theirs.lend(numbers));
        self.read_codes[ours.0 as usize] += u64::from(ours.0 == 11);
        let used = if ours.0 == 0 { ours.1 as usize * 6 } else { 0 };
        let fault = if ours != theirs {
            "read"
        } else if self.ours.lent() != self.theirs.lent() {
            "records"
        } else if !self.ours.kept_beyond(used) {
            "reference writes where it must not"
        } else if !self.theirs.kept_beyond(used) {
            "archive writes where it must not"
        } else {
            ""
        };
        if !fault.is_empty() {
            let input = format!("{} numbers lent, blob {}", numbers, hex(blob));
            self.differs(fault, kind, counts, &input, [ours, theirs]);
        }
        self.ours.restore();
        self.theirs.restore();
    }
}

impl Compare {
    /// Reads an accepted blob, writes its table and expects the blob back; gives the table.
    pub fn back(&mut self, rng: &mut Rng, case: &Case) -> Option<Vec<u32>> {
        let Case { kind, counts, blob } = case;
        let mut table = vec![0; MOST_NODES * 6];
        let (code, nodes) = ffi::read(*kind, *counts, blob, &mut table);
        if code != 0 {
            return None;
        }
        table.truncate(nodes as usize * 6);
        let room = blob.len() + rng.below(9);
        let written = self.writer(*kind, *counts, &table, room, Some(blob));
        if written != (0, blob.len() as u32) {
            let input = format!("comes back otherwise: {}", hex(blob));
            self.differs("there and back", *kind, *counts, &input, [written; 2]);
        }
        if !blob.is_empty() {
            self.writer(*kind, *counts, &table, rng.below(blob.len()), None);
        }
        Some(table)
    }

    /// Writes a table into so many bytes, filled with a pattern before.
    pub fn writer(
        &mut self,
        kind: u32,
        counts: Counts,
        table: &[u32],
        room: usize,
        expected: Option<&[u8]>,
    ) -> Answer {
        self.cases += 1;
        let ours = reference::write(kind, counts, table, self.out.0.lend(room));
        let theirs = ffi::write(kind, counts, table, self.out.1.lend(room));
        self.write_codes[ours.0 as usize] += 1;
        let used = if ours.0 == 0 { ours.1 as usize } else { 0 };
        let fault = if ours != theirs {
            "write"
        } else if self.out.0.lent() != self.out.1.lent() {
            "bytes"
        } else if expected.is_some_and(|blob| self.out.1.lent().get(..used) != Some(blob)) {
            "other bytes than were read"
        } else if !self.out.0.kept_beyond(used) {
            "reference writes where it must not"
        } else if !self.out.1.kept_beyond(used) {
            "archive writes where it must not"
        } else {
            ""
        };
        if !fault.is_empty() {
            let input = format!("{room} bytes lent, table {table:X?}");
            self.differs(fault, kind, counts, &input, [ours, theirs]);
        }
        self.out.0.restore();
        self.out.1.restore();
        ours
    }
}

fn hex(bytes: &[u8]) -> String {
    let shown = &bytes[..bytes.len().min(200)];
    let mut text: String = shown.iter().map(|byte| format!("{byte:02X} ")).collect();
    if shown.len() < bytes.len() {
        text += &format!("... {} bytes", bytes.len());
    }
    text
}
