// The model (document 01's night book): for each row the last blob filed and a mark; everything else is found out afresh when asked.

use crate::reference::{read, Counts, MOST_NODES, MOST_ROWS};

pub const EMPTY: u32 = 0;
pub const BAD: u32 = 1;
pub const LOOP: u32 = 2;
pub const LEANS: u32 = 3;
pub const CLEAN: u32 = 4;

pub const MOST_SIZE: u32 = 512;
/// How many numbers are to be lent for each row's set of references, whatever the size.
const SET: usize = 16;

#[derive(Clone, Copy, Debug, Default, PartialEq, Eq)]
pub struct Asked {
    pub code: u32,
    pub standing: u32,
    pub finding: u32,
    pub place: u32,
    pub mark: u32,
}

impl Asked {
    /// An acknowledgement of a row that is there: 17, 18, or 0 and the row has a mark.
    pub fn acknowledge(&mut self) -> u32 {
        match (self.standing, self.mark) {
            (EMPTY | CLEAN, _) => 17,
            (_, 1) => 18,
            _ => {
                self.mark = 1;
                0
            }
        }
    }
}

#[derive(Clone, Debug)]
pub struct Model {
    type_defs: u32,
    type_refs: u32,
    rows: Vec<Row>,
}

#[derive(Clone, Debug, Default)]
struct Row {
    blob: Option<Vec<u8>>,
    mark: bool,
}

/// What a fresh check finds of one row's blob.
enum Finding {
    Empty,
    Bad { code: u32, place: u32 },
    Names(Vec<usize>),
}

impl Finding {
    fn names(&self) -> &[usize] {
        match self {
            Finding::Names(names) => names,
            _ => &[],
        }
    }
}

impl Model {
    /// The model and what its opening answers, with so many numbers lent for the sets: 13, 19, 27 or 0.
    pub fn open(type_defs: u32, type_refs: u32, size: u32, lent: usize) -> (Model, u32) {
        let code = match size {
            _ if type_defs.max(type_refs) > MOST_ROWS => 13,
            1..=MOST_SIZE if lent < size as usize * SET => 27,
            1..=MOST_SIZE => 0,
            _ => 19,
        };
        let rows = if code == 0 { size as usize } else { 0 };
        let model = Model {
            type_defs,
            type_refs,
            rows: vec![Row::default(); rows],
        };
        (model, code)
    }

    /// A model as large as there are blobs, with memory enough, after each row was filed once: no filing finds a mark.
    pub fn filed(type_defs: u32, type_refs: u32, blobs: &[impl AsRef<[u8]>]) -> Model {
        let size = blobs.len();
        let (mut model, _) = Model::open(type_defs, type_refs, size as u32, size * SET);
        for (row, blob) in model.rows.iter_mut().zip(blobs) {
            row.blob = Some(blob.as_ref().to_vec());
        }
        model
    }

    pub fn file(&mut self, row: u32, blob: &[u8]) -> u32 {
        let Some(row) = self.index(row) else {
            return 16;
        };
        let reaching = reaching(&self.check(), row);
        for (other, kept) in self.rows.iter_mut().enumerate() {
            if other == row || reaching[other] {
                kept.mark = false;
            }
        }
        self.rows[row].blob = Some(blob.to_vec());
        0
    }

    /// The mark of a row that is there, to be set whatever its standing: no call does so, but a benchmark of filings wants a mark in any register.
    pub fn mark_mut(&mut self, row: u32) -> &mut bool {
        &mut self.rows[row as usize - 1].mark
    }

    pub fn acknowledge(&mut self, row: u32) -> u32 {
        let Some(index) = self.index(row) else {
            return 16;
        };
        let mut asked = self.ask(row);
        let answer = asked.acknowledge();
        self.rows[index].mark = asked.mark == 1;
        answer
    }

    pub fn ask(&self, row: u32) -> Asked {
        let Some(row) = self.index(row) else {
            return Asked {
                code: 16,
                ..Asked::default()
            };
        };
        let findings = self.check();
        self.asked(&findings, row, |from| reached(&findings, from))
    }

    /// What asking each row gives, from one fresh check.
    pub fn ask_all(&self) -> Vec<Asked> {
        let findings = self.check();
        let rows = 0..findings.len();
        let reach: Vec<_> = rows.clone().map(|row| reached(&findings, row)).collect();
        rows.map(|row| self.asked(&findings, row, |from| &reach[from]))
            .collect()
    }

    fn asked<R>(&self, findings: &[Finding], row: usize, reach: impl Fn(usize) -> R) -> Asked
    where
        R: AsRef<[bool]>,
    {
        let (finding, place) = match findings[row] {
            Finding::Bad { code, place } => (code, place),
            _ => (0, 0),
        };
        Asked {
            code: 0,
            standing: standing(findings, row, reach),
            finding,
            place,
            mark: self.rows[row].mark.into(),
        }
    }

    fn index(&self, row: u32) -> Option<usize> {
        let index = (row as usize).checked_sub(1)?;
        (index < self.rows.len()).then_some(index)
    }

    /// A fresh check of every row's blob.
    fn check(&self) -> Vec<Finding> {
        let counts = Counts {
            type_defs: self.type_defs,
            type_refs: self.type_refs,
            type_specs: self.rows.len() as u32,
        };
        let mut table = vec![0; MOST_NODES * 6];
        self.rows
            .iter()
            .map(|row| match &row.blob {
                None => Finding::Empty,
                Some(blob) => match read(0, counts, blob, &mut table) {
                    (0, nodes) => Finding::Names(named(&table[..nodes as usize * 6])),
                    (code, place) => Finding::Bad { code, place },
                },
            })
            .collect()
    }
}

/// The TypeSpec rows, from 0, that a table's modifiers name.
fn named(table: &[u32]) -> Vec<usize> {
    let (records, _) = table.as_chunks::<6>();
    records
        .iter()
        .filter(|[kind, token, ..]| matches!(kind, 0x1F | 0x20) && token & 3 == 2)
        .map(|[_, token, ..]| (token >> 2) as usize - 1)
        .collect()
}

/// For each row, whether a chain of one or more references leads to it from this one.
fn reached(findings: &[Finding], from: usize) -> Vec<bool> {
    walk(findings.len(), from, |row| findings[row].names())
}

/// For each row, whether a chain of one or more references leads from it to this one.
fn reaching(findings: &[Finding], to: usize) -> Vec<bool> {
    let mut namers = vec![Vec::new(); findings.len()];
    for (row, finding) in findings.iter().enumerate() {
        for &name in finding.names() {
            namers[name].push(row);
        }
    }
    walk(findings.len(), to, |row| &namers[row])
}

/// For each of so many rows, whether one or more steps lead to it from the first.
fn walk<'s>(rows: usize, first: usize, steps: impl Fn(usize) -> &'s [usize]) -> Vec<bool> {
    let mut seen = vec![false; rows];
    let mut open = vec![first];
    while let Some(row) = open.pop() {
        for &next in steps(row) {
            if !seen[next] {
                seen[next] = true;
                open.push(next);
            }
        }
    }
    seen
}

/// How a row stands, where `reach` tells for each row what it reaches.
fn standing<R>(findings: &[Finding], row: usize, reach: impl Fn(usize) -> R) -> u32
where
    R: AsRef<[bool]>,
{
    match findings[row] {
        Finding::Empty => return EMPTY,
        Finding::Bad { .. } => return BAD,
        Finding::Names(_) => {}
    }
    let reached = reach(row);
    let reached = reached.as_ref();
    if reached[row] {
        return LOOP;
    }
    let shaky = (0..findings.len()).any(|other| {
        reached[other]
            && (!matches!(findings[other], Finding::Names(_)) || reach(other).as_ref()[other])
    });
    if shaky {
        LEANS
    } else {
        CLEAN
    }
}
