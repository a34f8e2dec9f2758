// Holds the panel program against the model: each sheet goes to the program, by a file or by its standard input, and its print has to be
// the model's, byte for byte.

use host::gen::{line, longest_sheet, naming, sheet, sheet_of, Rng};
use host::sheet::{run_sheet, MOST_SHEET, MOST_SIZE};
use std::io::{self, Write};
use std::path::{Path, PathBuf};
use std::process::{Command, ExitCode, Stdio};

const SEED: u64 = 335;
const RANDOM: usize = 3_000;
/// Document 01's sheet.
const SAMPLE: &[u8] = include_bytes!("../../../examples/sample.sheet");

fn main() -> ExitCode {
    let words: Vec<String> = std::env::args().skip(1).collect();
    let (panel, seed) = match &words[..] {
        [panel] => (panel, Some(SEED)),
        [panel, seed] => (panel, seed.parse().ok()),
        _ => return usage(),
    };
    let Some(seed) = seed else { return usage() };
    let mut run = Run {
        panel: PathBuf::from(panel),
        file: std::env::temp_dir().join(format!("dawnclavier-{}.sheet", std::process::id())),
        sheets: 0,
        refused: 0,
        differences: 0,
    };
    let done = run.all(seed);
    std::fs::remove_file(&run.file).ok();
    if let Err(error) = done {
        eprintln!("{panel}: {error}");
        return ExitCode::FAILURE;
    }
    let Run {
        sheets,
        refused,
        differences,
        ..
    } = run;
    println!("sheets: {sheets} run, {refused} of them refused, {differences} differences");
    if differences == 0 && refused > 0 && refused < sheets {
        ExitCode::SUCCESS
    } else {
        ExitCode::FAILURE
    }
}

fn usage() -> ExitCode {
    eprintln!("usage: sheets <panel program> [seed]");
    ExitCode::from(2)
}

struct Run {
    panel: PathBuf,
    file: PathBuf,
    sheets: u64,
    refused: u64,
    differences: u64,
}

impl Run {
    fn all(&mut self, seed: u64) -> io::Result<()> {
        self.neighbours(SAMPLE)?;
        for sheet in edges() {
            self.case(&sheet)?;
        }
        let mut rng = Rng::new(seed);
        for _ in 0..RANDOM {
            self.case(&sheet(&mut rng))?;
        }
        Ok(())
    }

    /// A sheet, every cut of it, every change of one byte to some other values, and a byte more.
    fn neighbours(&mut self, sheet: &[u8]) -> io::Result<()> {
        for end in 0..=sheet.len() {
            self.case(&sheet[..end])?;
        }
        for at in 0..sheet.len() {
            for value in [0x00, 0x01, 0x02, 0x41, 0x7F, 0x80, 0x82, 0xC0, 0xE0, 0xFF] {
                let mut changed = sheet.to_vec();
                changed[at] = value;
                self.case(&changed)?;
            }
        }
        self.case(&[sheet, &[0x00]].concat())
    }

    fn case(&mut self, sheet: &[u8]) -> io::Result<()> {
        let expected = run_sheet(sheet);
        let by_file = self.sheets.is_multiple_of(2);
        let printed = if by_file {
            self.by_file(sheet)?
        } else {
            by_input(&self.panel, sheet)?
        };
        self.sheets += 1;
        self.refused += u64::from(expected.starts_with(b"sheet refused"));
        if printed != expected {
            self.differences += 1;
            if self.differences <= 5 {
                println!("sheet {sheet:02X?}");
                println!("printed  {}", String::from_utf8_lossy(&printed));
                println!("expected {}", String::from_utf8_lossy(&expected));
            }
        }
        Ok(())
    }

    fn by_file(&self, sheet: &[u8]) -> io::Result<Vec<u8>> {
        std::fs::write(&self.file, sheet)?;
        let output = Command::new(&self.panel).arg(&self.file).output()?;
        Ok(output.stdout)
    }
}

fn by_input(panel: &Path, sheet: &[u8]) -> io::Result<Vec<u8>> {
    let mut child = Command::new(panel)
        .stdin(Stdio::piped())
        .stdout(Stdio::piped())
        .spawn()?;
    let mut input = child.stdin.take().expect("it is piped");
    let bytes = sheet.to_vec();
    // A sheet that is too long is not read to its end, so that the pipe may break.
    let writer = std::thread::spawn(move || input.write_all(&bytes).ok());
    let output = child.wait_with_output()?;
    writer.join().expect("the writer does not panic");
    Ok(output.stdout)
}

/// The longest sheets, one of them all acknowledgements, one that is longer by far than any may be, and those with the most rows.
fn edges() -> Vec<Vec<u8>> {
    let mut acks = vec![0x02, 0x00, 0x00, 0x01, 0x01, 0x10, 0xC0, 0x00, 0xFF, 0xF6];
    acks.resize(MOST_SHEET, 0x7F);
    let one_more = [&acks[..], &[0x7F]].concat();
    let rows = sheet_of(0, 0, &vec![naming(&[1]); 64], &[]);
    let mut sheets = vec![acks, one_more, rows, vec![0x02; 1_000_000]];
    sheets.extend(most_rows());
    sheets.extend(counts_of_blobs());
    sheets
}

/// As many rows as there may be: in one cycle, in a line that ends well or badly, and in as many bytes as there may be or more.
fn most_rows() -> Vec<Vec<u8>> {
    let cycle = line(MOST_SIZE, &naming(&[1]));
    let twice: Vec<u32> = (0..=MOST_SIZE + 1).flat_map(|row| [row, row]).collect();
    let mut sheets = vec![longest_sheet(&cycle), sheet_of(0, 0, &cycle, &twice)];
    for last in [&[0x08][..], &[0x10], &naming(&[MOST_SIZE + 1])] {
        sheets.push(sheet_of(0, 0, &line(MOST_SIZE, last), &twice));
    }
    // 5 bytes of head, 512 blobs of 126 bytes behind their lengths, and no acknowledgements: 506 bytes are left.
    for longer in [506, 507, 512] {
        let mut blobs = vec![vec![0x1D; 127]; longer];
        blobs.resize(512, vec![0x1D; 126]);
        sheets.push(sheet_of(0, 0, &blobs, &[]));
    }
    sheets
}

/// Numbers of blobs at the limits, with none of them there, one, or all.
fn counts_of_blobs() -> Vec<Vec<u8>> {
    let mut sheets = Vec::new();
    for count in [
        &[0x40][..],
        &[0x41],
        &[0x7F],
        &[0x80, 0x41],
        &[0x80, 0x7F],
        &[0x80, 0x80],
        &[0x82, 0x00],
        &[0x82, 0x01],
        &[0xC0, 0x00, 0x02, 0x00],
    ] {
        let head = [&[0x02, 0x00, 0x00], count].concat();
        sheets.push([&head[..], &[0x01, 0x08, 0x00]].concat());
        sheets.push(head);
    }
    for rows in [65, 127, 128, 511, 512, 513] {
        sheets.push(sheet_of(0, 0, &vec![vec![0x08]; rows], &[]));
    }
    sheets
}
