// Holds the proved archive against the reference, over made, damaged and real blobs; fails on any difference.

use host::compare::Compare;
use host::gen::{
    any_counts, bad_kind, damage_blob, edges, element_noise, good_counts, grammar_made, noise,
    Case, Rng,
};
use host::reference::Counts;
use host::sample;
use std::process::ExitCode;
use std::time::Instant;

const SEED: u64 = 335;
const MADE: usize = 1_000_000;
const SLIPPED: usize = 1_000_000;
const DAMAGED: usize = 1_500_000;
const NOISE: usize = 500_000;
const ELEMENT_NOISE: usize = 1_000_000;
const GATES: usize = 100_000;
const SEEDS: usize = 300;

struct Run {
    compare: Compare,
    rng: Rng,
    sample: Vec<Case>,
}

fn main() -> ExitCode {
    let seed = match std::env::args().nth(1).map(|word| word.parse()) {
        None => SEED,
        Some(Ok(seed)) => seed,
        Some(Err(_)) => {
            eprintln!("usage: differential [seed]");
            return ExitCode::from(2);
        }
    };
    let lines = sample::load().unwrap_or_default();
    let mut run = Run {
        compare: Compare::default(),
        rng: Rng::new(seed),
        sample: lines.into_iter().map(|line| line.case).collect(),
    };
    println!("seed {seed}");
    run.part("limits", limits);
    run.part("sample", of_sample);
    run.part("every short blob", short);
    run.part("grammar-made", |run| made(run, MADE, 0));
    run.part("with slips", |run| made(run, SLIPPED, 15));
    run.part("damaged", damaged);
    run.part("noise", |run| noisy(run, NOISE, noise));
    run.part("element noise", |run| {
        noisy(run, ELEMENT_NOISE, element_noise)
    });
    run.part("kinds and counts", gates);
    run.part("every cut", every_cut);
    run.part("every byte changed", every_change);
    run.part("records lent", records_lent);
    run.part("there and back", writing::there_and_back);
    run.part("damaged tables", writing::damaged_tables);
    run.part("tables of noise", writing::noise_tables);
    verdict(&run.compare)
}

impl Run {
    fn part(&mut self, name: &str, work: impl Fn(&mut Run)) {
        let (cases, differences) = (self.compare.cases, self.compare.differences);
        let start = Instant::now();
        work(self);
        let cases = self.compare.cases - cases;
        let differences = self.compare.differences - differences;
        let seconds = start.elapsed().as_secs_f64();
        println!("{name:<20} {cases:>9} cases {differences:>3} differences {seconds:>6.2} s");
    }

    fn check(&mut self, case: &Case) {
        self.compare.case(&mut self.rng, case);
    }

    /// A few hundred blobs, most of them good, of every kind: made ones and some of the sample's.
    fn seeds(&mut self) -> Vec<Case> {
        let mut seeds = Vec::new();
        while seeds.len() < SEEDS {
            let case = if !self.sample.is_empty() && self.rng.below(3) == 0 {
                self.sample[self.rng.below(self.sample.len())].clone()
            } else {
                grammar_made(&mut self.rng, 0)
            };
            if case.kind < 5 && (3..80).contains(&case.blob.len()) {
                seeds.push(case);
            }
        }
        seeds
    }
}

fn limits(run: &mut Run) {
    for case in edges() {
        for _ in 0..3 {
            run.check(&case);
        }
    }
}

fn of_sample(run: &mut Run) {
    for case in run.sample.clone() {
        for kind in 0..5 {
            let Case { counts, blob, .. } = case.clone();
            run.check(&Case { kind, counts, blob });
        }
        for _ in 0..20 {
            run.check(&case);
            let mut case = case.clone();
            damage_blob(&mut run.rng, &mut case.blob);
            run.check(&case);
        }
    }
}

/// Every blob of up to two bytes, and every blob of three or four bytes out of those that mean something.
fn short(run: &mut Run) {
    const TELLING: [u8; 25] = [
        0x00, 0x01, 0x02, 0x05, 0x06, 0x07, 0x08, 0x0F, 0x10, 0x11, 0x12, 0x13, 0x14, 0x15, 0x16,
        0x17, 0x1B, 0x1D, 0x1F, 0x20, 0x21, 0x45, 0x80, 0xC0, 0xE0,
    ];
    let every: Vec<u8> = (0..=0xFF).collect();
    let counts = Counts {
        type_defs: 1,
        type_refs: 1,
        type_specs: 1,
    };
    for (length, bytes) in [
        (0, &every[..]),
        (1, &every),
        (2, &every),
        (3, &TELLING),
        (4, &TELLING),
    ] {
        for index in 0..bytes.len().pow(length) {
            let digit = |place| bytes[index / bytes.len().pow(place) % bytes.len()];
            let blob: Vec<u8> = (0..length).map(digit).collect();
            for kind in 0..5 {
                run.compare.reader(&mut run.rng, kind, counts, &blob);
            }
        }
    }
}

fn made(run: &mut Run, cases: usize, slips: usize) {
    for _ in 0..cases {
        let case = grammar_made(&mut run.rng, slips);
        run.check(&case);
    }
}

fn damaged(run: &mut Run) {
    let mut case = grammar_made(&mut run.rng, 0);
    for turn in 0..DAMAGED {
        if turn % 4 == 0 {
            case = grammar_made(&mut run.rng, 0);
        }
        let mut hurt = case.clone();
        damage_blob(&mut run.rng, &mut hurt.blob);
        run.check(&hurt);
    }
}

fn noisy(run: &mut Run, cases: usize, make: fn(&mut Rng) -> Case) {
    for _ in 0..cases {
        let case = make(&mut run.rng);
        run.check(&case);
    }
}

/// Unknown kinds, counts out of bounds, and good blobs under other kinds and counts.
fn gates(run: &mut Run) {
    for turn in 0..GATES {
        let mut case = grammar_made(&mut run.rng, 0);
        match turn % 4 {
            0 => case.kind = bad_kind(&mut run.rng),
            1 => case.counts = any_counts(&mut run.rng),
            2 => case.kind = run.rng.below(5) as u32,
            _ => case.counts = good_counts(&mut run.rng),
        }
        run.check(&case);
        if turn % 16 == 0 {
            case.blob.resize(4097, 0x08);
            run.check(&case);
        }
    }
}

fn every_cut(run: &mut Run) {
    for _ in 0..10 {
        for Case { kind, counts, blob } in run.seeds() {
            for end in 0..=blob.len() {
                let cut = &blob[..end];
                run.compare.reader(&mut run.rng, kind, counts, cut);
            }
        }
    }
}

fn every_change(run: &mut Run) {
    for mut case in run.seeds() {
        for at in 0..case.blob.len() {
            let kept = case.blob[at];
            for byte in 0..=0xFF {
                case.blob[at] = byte;
                run.check(&case);
            }
            case.blob[at] = kept;
        }
    }
}

/// Every number of numbers lent, from none to more than enough.
fn records_lent(run: &mut Run) {
    for Case { kind, counts, blob } in run.seeds() {
        let (code, nodes) = run.compare.reader(&mut run.rng, kind, counts, &blob);
        let most = if code == 0 { nodes as usize + 2 } else { 3 };
        for numbers in 0..=most * 6 {
            run.compare.cases += 1;
            run.compare.read(kind, counts, &blob, numbers);
        }
    }
}

/// The table of numbers, and whether all went as it should.
fn verdict(compare: &Compare) -> ExitCode {
    let mut missing = Vec::new();
    println!("number      reader      writer");
    for code in 0..16 {
        let (read, write) = (compare.read_codes[code], compare.write_codes[code]);
        println!("{code:>6} {read:>11} {write:>11}");
        let due_from_reader = code < 14 && read == 0;
        let due_from_writer = (code == 0 || code > 11) && write == 0;
        if due_from_reader || due_from_writer {
            missing.push(code);
        }
    }
    if !missing.is_empty() {
        println!("these numbers never occurred: {missing:?}");
    }
    let (cases, differences) = (compare.cases, compare.differences);
    println!("differential: {cases} cases, {differences} differences");
    if missing.is_empty() && differences == 0 {
        ExitCode::SUCCESS
    } else {
        ExitCode::FAILURE
    }
}

mod writing {
    use super::*;
    use host::gen::{damage_table, relayout};

    const BACK: usize = 400_000;
    const HURT: usize = 1_200_000;
    const RAW: usize = 200_000;

    pub fn there_and_back(run: &mut Run) {
        for case in edges().iter().chain(&run.sample.clone()) {
            run.compare.back(&mut run.rng, case);
        }
        for _ in 0..BACK {
            let case = grammar_made(&mut run.rng, 0);
            run.compare.back(&mut run.rng, &case);
        }
    }

    pub fn damaged_tables(run: &mut Run) {
        let mut hurts = 0;
        while hurts < HURT {
            let case = grammar_made(&mut run.rng, 0);
            let Some(table) = run.compare.back(&mut run.rng, &case) else {
                continue;
            };
            for turn in 0..8 {
                let (mut kind, mut counts, mut table) = (case.kind, case.counts, table.clone());
                match turn {
                    0 => kind = run.rng.below(6) as u32,
                    1 => counts = any_counts(&mut run.rng),
                    2 => counts = good_counts(&mut run.rng),
                    _ => damage_table(&mut run.rng, &mut table),
                }
                if run.rng.below(2) == 0 {
                    relayout(&mut table);
                }
                let room = match run.rng.below(4) {
                    0 => run.rng.below(case.blob.len() + 1),
                    1 => 0,
                    _ => case.blob.len() + run.rng.below(12),
                };
                run.compare.writer(kind, counts, &table, room, None);
                hurts += 1;
            }
        }
        too_much(run);
    }

    /// Tables of the right shape beyond a limit: bytes, nodes or depth.
    fn too_much(run: &mut Run) {
        use host::reference::MOST_ROWS;
        let counts = Counts {
            type_defs: MOST_ROWS,
            type_refs: MOST_ROWS,
            type_specs: MOST_ROWS,
        };
        for locals in 810..=1030_u32 {
            for token in [0x3FF_FFFC, 4] {
                let width = if token == 4 { 2 } else { 5 };
                let mut table = vec![0x102, 0, 0, locals, 0, locals + 1];
                for local in 0..locals {
                    table.extend([0x11, token, 0, 0, 3 + width * local, local + 2]);
                }
                run.compare.writer(2, counts, &table, 6000, None);
                run.compare.writer(2, counts, &table, 100, None);
            }
        }
        for depth in 1..=40_u32 {
            let mut table: Vec<u32> = (0..depth - 1)
                .flat_map(|at| [0x1D, 0, 0, 1, at, depth])
                .collect();
            table.extend([8, 0, 0, 0, depth - 1, depth]);
            run.compare.writer(0, counts, &table, 100, None);
            run.compare.writer(0, counts, &table, 0, None);
        }
    }

    pub fn noise_tables(run: &mut Run) {
        for _ in 0..RAW {
            let records = run.rng.below(5);
            let mut table = Vec::new();
            for index in 0..records as u32 {
                let kind = [0x100, 0x101, 0x102, 0x103, 0x14, 0x15, 0x1B, 8][run.rng.below(8)];
                let a = run.rng.below(3) as u32;
                let b = [0, 0, 0x11, 0x20][run.rng.below(4)];
                let children = match run.rng.below(8) {
                    0 => u32::MAX,
                    1 => run.rng.next() as u32,
                    _ => run.rng.below(3) as u32,
                };
                let after = [records as u32, index + 1][run.rng.below(2)];
                table.extend([kind, a, b, children, index, after]);
            }
            let kind = run.rng.below(5) as u32;
            let counts = good_counts(&mut run.rng);
            run.compare.writer(kind, counts, &table, 64, None);
        }
    }
}
