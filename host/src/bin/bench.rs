// How fast the archive and the programs are, side by side with the reference, in one run: prints tables, writes them as Markdown, and the points
// of the plot as lines of numbers.

use host::ffi;
use host::gen::{chain, grammar_made, locals, Case, Rng};
use host::reference::{self, Answer, Counts, MOST_NODES};
use host::sample;
use std::fmt::Write;
use std::hint::black_box;
use std::path::Path;
use std::process::ExitCode;
use std::time::Instant;

const PASSES: usize = 300;
/// Each pass goes over a set until about so many bytes were read: short, so that some passes are undisturbed.
const BYTES: usize = 1 << 15;

type Judge = fn(u32, Counts, &[u8]) -> Answer;
type Read = fn(u32, Counts, &[u8], &mut [u32]) -> Answer;

struct Set {
    name: String,
    cases: Vec<Case>,
}

/// Nanoseconds for each blob: the archive's and the reference's best pass.
struct Pair {
    archive: f64,
    reference: f64,
}

fn main() -> ExitCode {
    let words: Vec<String> = std::env::args().skip(1).collect();
    let [report_to, points_to, programs] = &words[..] else {
        eprintln!("usage: bench <file.md> <points.csv> <directory of the programs>");
        return ExitCode::from(2);
    };
    let done = jobs::report(Path::new(programs)).and_then(|jobs| {
        let report = format!("{}\n{}\n{jobs}", machine(), report());
        print!("{report}");
        std::fs::write(report_to, &report)?;
        std::fs::write(points_to, points())
    });
    match done {
        Ok(()) => ExitCode::SUCCESS,
        Err(error) => {
            eprintln!("{error}");
            ExitCode::FAILURE
        }
    }
}

/// The kind of machine, as far as it says so.
fn machine() -> String {
    let info = std::fs::read_to_string("/proc/cpuinfo").unwrap_or_default();
    let model = info
        .lines()
        .find_map(|line| line.strip_prefix("model name")?.split_once(": "))
        .map_or("unknown", |(_, model)| model);
    let cores = std::thread::available_parallelism().map_or(1, usize::from);
    format!("Machine: {model}, {cores} cores.\n")
}

/// What one reading takes against the blob's length and against the depth: series, x, archive's and reference's nanoseconds.
fn points() -> String {
    let mut text = String::from("series,x,archive,reference\n");
    let mut table = vec![0; MOST_NODES * 6];
    let mut add = |series: &str, x: usize, case: Case| {
        let pair = read(&[case], &mut table);
        writeln!(
            text,
            "{series},{x},{:.1},{:.1}",
            pair.archive, pair.reference
        )
        .expect("a string takes all");
    };
    for items in (64..=960).step_by(64) {
        let blob = locals(items, &[0x11, 0x80, 0x84]);
        add("length", blob.len(), case(2, blob));
    }
    for depth in (2..=32).step_by(2) {
        let blob = chain(depth - 1, &[&[0x1D]]);
        add("depth", depth, case(0, blob));
    }
    text
}

fn report() -> String {
    let mut text = String::from(
        "| blobs | number | bytes each | judge, archive ns | reference ns | ratio | read, archive ns | reference ns | ratio |\n\
         |---|--:|--:|--:|--:|--:|--:|--:|--:|\n",
    );
    let mut table = vec![0; MOST_NODES * 6];
    for set in sets() {
        let judged = judged(&set.cases);
        let read = read(&set.cases, &mut table);
        let bytes: usize = set.cases.iter().map(|case| case.blob.len()).sum();
        let each = bytes as f64 / set.cases.len() as f64;
        writeln!(
            text,
            "| {} | {} | {each:.1} | {:.1} | {:.1} | {:.2} | {:.1} | {:.1} | {:.2} |",
            set.name,
            set.cases.len(),
            judged.archive,
            judged.reference,
            judged.archive / judged.reference,
            read.archive,
            read.reference,
            read.archive / read.reference,
        )
        .expect("a string takes all");
    }
    text.push_str(&writing::report());
    writeln!(
        text,
        "\nNanoseconds for one call, the best of {PASSES} passes; the passes of archive and reference alternate in one process. \
         Ratio is archive over reference. Both judge first and fill only then. \
         The same {MOST_NODES} records are lent to every call and are not cleared between calls."
    )
    .expect("a string takes all");
    text
}

fn sets() -> Vec<Set> {
    let mut sets = Vec::new();
    let lines = sample::load().unwrap_or_default();
    let known: Vec<_> = lines.iter().filter(|line| line.case.kind < 5).collect();
    let (real, other): (Vec<_>, Vec<_>) = known.iter().partition(|line| line.module < 8000);
    let names = [
        "TypeSpec",
        "FieldSig",
        "LocalVarSig",
        "PropertySig",
        "MethodDefSig",
    ];
    let mut add = |name: String, cases: Vec<Case>| {
        if !cases.is_empty() {
            sets.push(Set { name, cases });
        }
    };
    let cases = |lines: &[&sample::Line]| lines.iter().map(|line| line.case.clone()).collect();
    for (kind, name) in (0..).zip(names) {
        let mut cases: Vec<Case> = cases(&real);
        cases.retain(|case| case.kind == kind);
        add(format!("real, {name}"), cases);
    }
    add("real, all kinds".into(), cases(&real));
    add("sample's made and changed".into(), cases(&other));
    add("the whole sample".into(), cases(&known));
    for length in [4, 16, 64, 256, 1024, 4096] {
        add(format!("made, {length} bytes"), of_length(length));
    }
    for depth in [1, 2, 4, 8, 16, 32] {
        let blob = chain(depth - 1, &[&[0x1D], &[0x0F], &[0x20, 0x06]]);
        add(format!("chain, depth {depth}"), vec![case(0, blob)]);
    }
    for depth in [3, 9, 31] {
        let blob = chain((depth - 1) / 2, &[&[0x1B, 0x00, 0x00]]);
        add(format!("FNPTR, depth {depth}"), vec![case(0, blob)]);
    }
    sets
}

fn case(kind: u32, blob: Vec<u8>) -> Case {
    let counts = Counts {
        type_defs: 4000,
        type_refs: 4000,
        type_specs: 4000,
    };
    Case { kind, counts, blob }
}

/// Accepted blobs of about this length: grammar-made where there are such, else locals.
fn of_length(length: usize) -> Vec<Case> {
    let mut rng = Rng::new(length as u64);
    let mut cases = Vec::new();
    for _ in 0..400_000 {
        let case = grammar_made(&mut rng, 0);
        let near = case.blob.len() * 8 >= length * 7 && case.blob.len() * 8 <= length * 9;
        if near && reference::judge(case.kind, case.counts, &case.blob).0 == 0 {
            cases.push(case);
        }
        if cases.len() == 200 {
            return cases;
        }
    }
    let local = [0x15, 0x12, 0x80, 0x81, 0x01, 0x11, 0x80, 0x84];
    cases.push(case(2, locals((length - 3) / local.len(), &local)));
    cases
}

fn rounds(cases: &[Case]) -> usize {
    let bytes: usize = cases.iter().map(|case| case.blob.len() + 8).sum();
    1 + BYTES / bytes
}

/// The best of several passes of two works, one pass of each in turn.
fn alternate(cases: &[Case], mut archive: impl FnMut(), mut reference: impl FnMut()) -> Pair {
    let calls = (rounds(cases) * cases.len()) as f64;
    let mut best = [f64::INFINITY; 2];
    for _ in 0..PASSES {
        for (best, work) in best
            .iter_mut()
            .zip([&mut archive as &mut dyn FnMut(), &mut reference])
        {
            let start = Instant::now();
            work();
            *best = best.min(start.elapsed().as_nanos() as f64 / calls);
        }
    }
    Pair {
        archive: best[0],
        reference: best[1],
    }
}

fn judged(cases: &[Case]) -> Pair {
    let pass = |judge: Judge| {
        for _ in 0..rounds(cases) {
            for case in cases {
                black_box(judge(case.kind, case.counts, black_box(&case.blob)));
            }
        }
    };
    alternate(cases, || pass(ffi::judge), || pass(reference::judge))
}

fn read(cases: &[Case], table: &mut [u32]) -> Pair {
    let table = std::cell::RefCell::new(table);
    let pass = |read: Read| {
        let mut table = table.borrow_mut();
        for _ in 0..rounds(cases) {
            for case in cases {
                let blob = black_box(&case.blob);
                black_box(read(case.kind, case.counts, blob, &mut table));
            }
        }
    };
    alternate(cases, || pass(ffi::read), || pass(reference::read))
}

mod writing {
    use super::*;

    type Writer = fn(u32, Counts, &[u32], &mut [u8]) -> Answer;

    pub fn report() -> String {
        let mut text = String::from(
            "\n| tables of | number | write, archive ns | reference ns | ratio |\n|---|--:|--:|--:|--:|\n",
        );
        for mut set in sets() {
            set.cases
                .retain(|case| reference::judge(case.kind, case.counts, &case.blob).0 == 0);
            let written = written(&set.cases);
            writeln!(
                text,
                "| {} | {} | {:.1} | {:.1} | {:.2} |",
                set.name,
                set.cases.len(),
                written.archive,
                written.reference,
                written.archive / written.reference,
            )
            .expect("a string takes all");
        }
        text
    }

    fn written(cases: &[Case]) -> Pair {
        let tables: Vec<Vec<u32>> = cases.iter().map(table).collect();
        let out = std::cell::RefCell::new(vec![0; 4096]);
        let pass = |write: Writer| {
            let mut out = out.borrow_mut();
            for _ in 0..rounds(cases) {
                for (case, table) in cases.iter().zip(&tables) {
                    let table = black_box(table);
                    black_box(write(case.kind, case.counts, table, &mut out));
                }
            }
        };
        alternate(cases, || pass(ffi::write), || pass(reference::write))
    }

    /// The table of a blob that is accepted.
    fn table(case: &Case) -> Vec<u32> {
        let mut table = vec![0; MOST_NODES * 6];
        let (_, nodes) = reference::read(case.kind, case.counts, &case.blob, &mut table);
        table.truncate(nodes as usize * 6);
        table
    }
}

/// Jobs that the programs do: their time is a run's less a run's that does no job.
mod jobs {
    use super::*;
    use host::gen::{line, longest_sheet, naming};
    use host::reference::decode;
    use host::sheet::{run_sheet, Model, MOST_SIZE};
    use std::io;
    use std::process::{Command, Output, Stdio};

    const RUNS: usize = 20;
    const NUMBERS: usize = 10_000;
    const NUMBER_ROUNDS: u32 = 10_000;
    /// The row that has a mark while rows are filed.
    const MARKED: u32 = 32;

    /// Registers of so many rows: the program's word for them, and how often each row is asked or filed.
    struct Size {
        word: &'static str,
        rows: u32,
        rounds: u32,
    }

    const SIZES: [Size; 2] = [
        Size {
            word: "small",
            rows: 64,
            rounds: 1_000,
        },
        Size {
            word: "",
            rows: MOST_SIZE,
            rounds: 1,
        },
    ];

    /// How the rows of a register name each other: the program's word for it, and the table's.
    struct Shape {
        word: &'static str,
        name: &'static str,
        blobs: Vec<Vec<u8>>,
    }

    pub fn report(programs: &Path) -> io::Result<String> {
        let timed = programs.join("timed");
        let mut text = String::from("| job | ours | reference | ratio |\n|---|--:|--:|--:|\n");
        text += &numbers(&timed)?;
        for size in SIZES {
            for shape in shapes(size.rows) {
                text += &asks(&timed, &size, &shape)?;
            }
            for shape in shapes(size.rows) {
                text += &files(&timed, &size, &shape)?;
            }
        }
        text += &worst(&programs.join("panel"))?;
        writeln!(
            text,
            "\nThe best of {RUNS} runs in turn. Ours are whole processes, less the time of one that does no job. Each row is asked, or filed once more with its \
             own blob while row 32 has a mark, so that the rows that reach the filed one are looked for: of 512 rows once, of 64 rows 1,000 times. Building the \
             register, a filing for each row with no mark anywhere, is in our time too, and less than a hundredth of it. The worst sheet has 512 rows in a \
             cycle, the rest are acknowledgements; our time has its file read and its text written to nowhere in it. The reference's are calls in this process: it keeps \
             blobs and marks alone, and judges all blobs afresh in each call, or once for a sheet."
        )
        .expect("a string takes all");
        Ok(text)
    }

    /// A line of the table.
    fn line_of(name: &str, unit: &str, [ours, reference]: [f64; 2]) -> String {
        let ratio = ours / reference;
        format!("| {name} | {ours:.2} {unit} | {reference:.2} {unit} | {ratio:.2} |\n")
    }

    fn microseconds(times: [f64; 2], calls: u32) -> [f64; 2] {
        times.map(|ns| ns / 1e3 / f64::from(calls))
    }

    fn numbers(timed: &Path) -> io::Result<String> {
        let bytes = [5; NUMBERS];
        let times = best(timed, &["numbers"], || {
            let sums = (0..NUMBER_ROUNDS).map(|_| sum(black_box(&bytes)));
            line_with(sums.sum())
        })?;
        let name = "10,000 numbers of one byte, summed";
        Ok(line_of(name, "µs", microseconds(times, NUMBER_ROUNDS)))
    }

    fn asks(timed: &Path, size: &Size, shape: &Shape) -> io::Result<String> {
        let model = Model::filed(0, 0, &shape.blobs);
        let times = best(timed, &["asks", shape.word, size.word], || {
            let asked = (0..size.rounds * size.rows)
                .map(|call| black_box(&model).ask(call % size.rows + 1));
            line_with(asked.map(|asked| u64::from(asked.standing)).sum())
        })?;
        Ok(register_line("asked", size, shape, times))
    }

    fn files(timed: &Path, size: &Size, shape: &Shape) -> io::Result<String> {
        let mut model = Model::filed(0, 0, &shape.blobs);
        let times = best(timed, &["files", shape.word, size.word], || {
            let mut kept = 0;
            for _ in 0..size.rounds {
                for (row, blob) in (1..).zip(&shape.blobs) {
                    *model.mark_mut(MARKED) = true;
                    black_box(black_box(&mut model).file(row, blob));
                    kept += u64::from(*model.mark_mut(MARKED));
                }
            }
            line_with(kept)
        })?;
        Ok(register_line("filed", size, shape, times))
    }

    fn register_line(done: &str, size: &Size, shape: &Shape, times: [f64; 2]) -> String {
        let name = format!("a row {done}, {} rows {}", size.rows, shape.name);
        line_of(&name, "µs", microseconds(times, size.rounds * size.rows))
    }

    fn worst(panel: &Path) -> io::Result<String> {
        let file = std::env::temp_dir().join(format!("worst-{}.sheet", std::process::id()));
        let sheet = longest_sheet(&cycle(MOST_SIZE));
        std::fs::write(&file, &sheet)?;
        let times = best(panel, &[&file.to_string_lossy()], || {
            run_sheet(black_box(&sheet))
        })?;
        std::fs::remove_file(&file)?;
        let name = "the worst sheet, 65,536 bytes";
        Ok(line_of(name, "ms", times.map(|ns| ns / 1e6)))
    }

    /// Nanoseconds of a program's job and of the reference's, which have to print the same.
    fn best(
        program: &Path,
        words: &[&str],
        mut reference: impl FnMut() -> Vec<u8>,
    ) -> io::Result<[f64; 2]> {
        if run(program, words, Stdio::piped())?.stdout != reference() {
            return Err(io::Error::other(format!("{words:?}: another answer")));
        }
        let mut best = [f64::INFINITY; 3];
        for _ in 0..RUNS {
            best[0] = best[0].min(process(program, words)?);
            best[1] = best[1].min(process(program, &[])?);
            let start = Instant::now();
            black_box(reference());
            best[2] = best[2].min(start.elapsed().as_nanos() as f64);
        }
        Ok([best[0] - best[1], best[2]])
    }

    fn process(program: &Path, words: &[&str]) -> io::Result<f64> {
        let start = Instant::now();
        run(program, words, Stdio::null())?;
        Ok(start.elapsed().as_nanos() as f64)
    }

    fn run(program: &Path, words: &[&str], stdout: Stdio) -> io::Result<Output> {
        let output = Command::new(program)
            .args(words)
            .stdin(Stdio::null())
            .stdout(stdout)
            .output()?;
        if !output.status.success() {
            return Err(io::Error::other(format!("{words:?}: {}", output.status)));
        }
        Ok(output)
    }

    /// What a program prints of a job.
    fn line_with(number: u64) -> Vec<u8> {
        format!("{number}\n").into_bytes()
    }

    /// The sum of the numbers that stand one after the other.
    fn sum(bytes: &[u8]) -> u64 {
        let mut sum = 0;
        let mut at = 0;
        while let Ok((value, next)) = decode(bytes, at) {
            sum += u64::from(value);
            at = next;
        }
        sum
    }

    fn shapes(rows: u32) -> [Shape; 3] {
        [
            Shape {
                word: "line",
                name: "in a line",
                blobs: line(rows, &[0x08]),
            },
            Shape {
                word: "cycle",
                name: "in a cycle",
                blobs: cycle(rows),
            },
            Shape {
                word: "random",
                name: "that each name 4 at random",
                blobs: random(rows),
            },
        ]
    }

    /// Each row names the next, and the last the first.
    fn cycle(size: u32) -> Vec<Vec<u8>> {
        line(size, &naming(&[1]))
    }

    /// Each row names four, found by a generator that the programs have too.
    fn random(rows: u32) -> Vec<Vec<u8>> {
        let mut x: u32 = 1;
        let mut any = || {
            x = x.wrapping_mul(1_664_525).wrapping_add(1_013_904_223);
            (x >> 16) % rows + 1
        };
        (0..rows)
            .map(|_| naming(&[any(), any(), any(), any()]))
            .collect()
    }
}
