// The sheet example, the register's worked row, what openings answer, and the sheet's refusals.

use host::gen::{line, longest_sheet, naming, sheet_of, Rng};
use host::sheet::{run_sheet, Asked, Model, BAD, CLEAN, EMPTY, LEANS, LOOP, MOST_SHEET};
use std::fmt::Write;

const SHEET: [u8; 17] = [
    0x02, 0x00, 0x00, 0x03, 0x04, 0x0F, 0x20, 0x0A, 0x08, 0x01, 0x10, 0x03, 0x20, 0x0E, 0x08, 0x01,
    0x01,
];

fn text(sheet: &[u8]) -> String {
    String::from_utf8(run_sheet(sheet)).unwrap()
}

fn refused(sheet: &[u8], at: usize) {
    assert_eq!(text(sheet), format!("sheet refused at {at}\n"));
}

fn standing_and_mark(model: &Model, row: u32) -> (u32, u32) {
    let asked = model.ask(row);
    assert_eq!(asked.code, 0);
    (asked.standing, asked.mark)
}

/// What asking gives, as code, standing, finding, place, mark.
fn asked(model: &Model, row: u32) -> [u32; 5] {
    let Asked {
        code,
        standing,
        finding,
        place,
        mark,
    } = model.ask(row);
    [code, standing, finding, place, mark]
}

#[test]
fn example() {
    let printed =
        "row standing code place mark\n1 LEANS 0 0 1\n2 BAD 5 0 0\n3 LOOP 0 0 0\nack 1 0\n";
    assert_eq!(text(&SHEET), printed);
}

#[test]
fn bench_row() {
    let (mut model, code) = Model::open(0, 0, 3, 48);
    assert_eq!(code, 0);
    assert_eq!(standing_and_mark(&model, 1), (EMPTY, 0));
    assert_eq!(model.file(1, &[0x0F, 0x20, 0x0A, 0x08]), 0);
    assert_eq!(model.file(2, &[0x10]), 0);
    assert_eq!(model.file(3, &[0x20, 0x0E, 0x08]), 0);
    assert_eq!(model.acknowledge(1), 0);
    assert_eq!(model.acknowledge(1), 18);
    assert_eq!(model.acknowledge(3), 0);
    assert_eq!(standing_and_mark(&model, 1), (LEANS, 1));
    assert_eq!(standing_and_mark(&model, 2), (BAD, 0));
    assert_eq!(standing_and_mark(&model, 3), (LOOP, 1));
    assert_eq!(model.file(2, &[0x1D, 0x08]), 0);
    assert_eq!(standing_and_mark(&model, 1), (CLEAN, 0));
    assert_eq!(standing_and_mark(&model, 2), (CLEAN, 0));
    assert_eq!(standing_and_mark(&model, 3), (LOOP, 1));
    assert_eq!(model.acknowledge(1), 17);
    assert_eq!(model.file(4, &[]), 16);
    assert_eq!(model.ask(0).code, 16);
}

/// 13 before 19 before 27, and 16 numbers for each row whatever the size.
#[test]
fn openings() {
    let cases = [
        (0x100_0000, 0, 0, 0, 13),
        (0, 0x100_0000, 3, 48, 13),
        (0x100_0000, 0, 513, 0, 13),
        (0, 0x100_0000, 513, 0, 13),
        (0, 0, 0, 0, 19),
        (0, 0, 513, 0, 19),
        (0, 0, 513, usize::MAX, 19),
        (0, 0, u32::MAX, usize::MAX, 19),
        (0, 0, 1, 15, 27),
        (0, 0, 1, 16, 0),
        (0, 0, 3, 47, 27),
        (0, 0, 3, 48, 0),
        (0, 0, 65, 1039, 27),
        (0, 0, 65, 1040, 0),
        (0, 0, 512, 0, 27),
        (0, 0, 512, 8191, 27),
        (0, 0, 512, 8192, 0),
        (0xFF_FFFF, 0xFF_FFFF, 512, usize::MAX, 0),
    ];
    for (type_defs, type_refs, size, lent, answer) in cases {
        let (model, code) = Model::open(type_defs, type_refs, size, lent);
        assert_eq!(code, answer, "{size} rows, {lent} lent");
        let first = if code == 0 { 0 } else { 16 };
        assert_eq!(asked(&model, 1), [first, 0, 0, 0, 0]);
    }
}

/// After its opening a model that has no rows answers 16, never 27.
#[test]
fn refused_openings_have_no_rows() {
    for (size, lent) in [(3, 47), (513, 0), (0, 0)] {
        let (mut model, _) = Model::open(0, 0, size, lent);
        assert_eq!(asked(&model, 1), [16, 0, 0, 0, 0]);
        assert_eq!(model.file(1, &[0x08]), 16);
        assert_eq!(model.acknowledge(1), 16);
        assert_eq!(model.ask_all(), []);
    }
}

#[test]
fn the_last_of_512_rows() {
    let (mut model, _) = Model::open(0, 0, 512, 8192);
    assert_eq!(model.file(512, &[0x20, 0x88, 0x02, 0x08]), 0);
    assert_eq!(asked(&model, 512), [0, LOOP, 0, 0, 0]);
    assert_eq!(asked(&model, 513), [16, 0, 0, 0, 0]);
    assert_eq!(model.acknowledge(512), 0);
    assert_eq!(asked(&model, 512), [0, LOOP, 0, 0, 1]);
    assert_eq!(model.file(513, &[0x08]), 16);
    assert_eq!(model.acknowledge(513), 16);
}

#[test]
fn a_row_above_the_size_is_no_row() {
    for (size, answer) in [(2, [0, BAD, 8, 1, 0]), (3, [0, LEANS, 0, 0, 0])] {
        let (mut model, _) = Model::open(0, 0, size, size as usize * 16);
        assert_eq!(model.file(1, &[0x20, 0x0E, 0x08]), 0);
        assert_eq!(asked(&model, 1), answer);
    }
}

/// A filing that is bad is a filing: the row has no references any more.
#[test]
fn a_bad_blob_names_nothing() {
    let (mut model, _) = Model::open(0, 0, 2, 32);
    assert_eq!(model.file(1, &[0x20, 0x06, 0x08]), 0);
    assert_eq!(asked(&model, 1), [0, LOOP, 0, 0, 0]);
    assert_eq!(model.file(1, &[0x10]), 0);
    assert_eq!(asked(&model, 1), [0, BAD, 5, 0, 0]);
    assert_eq!(model.file(2, &[0x20, 0x06, 0x08]), 0);
    assert_eq!(asked(&model, 2), [0, LEANS, 0, 0, 0]);
}

#[test]
fn a_row_that_leads_into_a_cycle_leans() {
    let (mut model, _) = Model::open(0, 0, 4, 64);
    for (row, named) in [(1, 2), (2, 3), (3, 2), (4, 4)] {
        model.file(row, &[0x1F, named * 4 + 2, 0x08]);
    }
    let standings: Vec<u32> = (1..=4).map(|row| model.ask(row).standing).collect();
    assert_eq!(standings, [LEANS, LOOP, LOOP, LOOP]);
}

#[test]
fn refusals() {
    refused(&[0x08; 65_537], 65_536);
    refused(&[0xFF; 65_537], 65_536);
    refused(&[0xFF; 65_536], 0);
    refused(&[], 0);
    refused(&[0x03], 0);
    refused(&[0x02, 0xE0], 1);
    refused(&[0x02, 0xC1, 0x00, 0x00, 0x00], 1);
    refused(&[0x02, 0x00, 0x80, 0x01], 2);
    refused(&[0x02, 0x00, 0x00, 0x00], 3);
    refused(&[0x02, 0x00, 0x00, 0x00, 0x00], 3);
    refused(&[0x02, 0x00, 0x00, 0x41], 4);
    refused(&[0x02, 0x00, 0x00, 0x80, 0x41], 3);
    refused(&[0x02, 0x00, 0x00, 0x82, 0x00], 5);
    refused(&[0x02, 0x00, 0x00, 0x82, 0x01], 3);
    refused(&sheet_of(0, 0, &vec![vec![0x08]; 513], &[]), 3);
    refused(&[0x02, 0x00, 0x00, 0x01, 0x02, 0x08], 4);
    refused(&[0x02, 0x00, 0x00, 0x01, 0x01, 0x08], 6);
    refused(&[0x02, 0x00, 0x00, 0x01, 0x01, 0x08, 0x01], 7);
    refused(&[0x02, 0x00, 0x00, 0x01, 0x01, 0x08, 0x00, 0x00], 7);
}

#[test]
fn a_long_blob_is_bad_and_no_sheet_fault() {
    let mut sheet = vec![0x02, 0x00, 0x00, 0x01, 0x90, 0x01];
    sheet.extend(vec![0x08; 4097]);
    sheet.extend([0x02, 0x01, 0xDF, 0xFF, 0xFF, 0xFF]);
    let printed = "row standing code place mark\n1 BAD 1 0 1\nack 1 0\nack 536870911 16\n";
    assert_eq!(text(&sheet), printed);
}

/// The sheet's answers come from one check: they are those of the calls made one by one.
#[test]
fn one_check_serves_all_acknowledgements() {
    let mut rng = Rng::new(8);
    for size in [1, 2, 5, 64, 65, 130] {
        let any = |rng: &mut Rng| rng.below(size) as u32 + 1;
        let blobs: Vec<Vec<u8>> = (0..size)
            .map(|_| match rng.below(12) {
                0 => vec![0x10],
                1..=6 => naming(&[any(&mut rng)]),
                _ => naming(&[]),
            })
            .collect();
        let acks: Vec<u32> = (0..3 * size).map(|_| rng.below(size + 2) as u32).collect();
        let (mut model, _) = Model::open(0, 0, size as u32, size * 16);
        for (row, blob) in (1..).zip(&blobs) {
            assert_eq!(model.file(row, blob), 0);
        }
        let answers: Vec<u32> = acks.iter().map(|&row| model.acknowledge(row)).collect();
        let mut printed = String::from("row standing code place mark\n");
        for row in 1..=size as u32 {
            let [_, standing, finding, place, mark] = asked(&model, row);
            let standing = ["EMPTY", "BAD", "LOOP", "LEANS", "CLEAN"][standing as usize];
            writeln!(printed, "{row} {standing} {finding} {place} {mark}").unwrap();
        }
        for (row, answer) in acks.iter().zip(answers) {
            writeln!(printed, "ack {row} {answer}").unwrap();
        }
        assert_eq!(text(&sheet_of(0, 0, &blobs, &acks)), printed);
    }
}

#[test]
fn the_longest_sheet_of_512_rows() {
    let sheet = longest_sheet(&line(512, &naming(&[1])));
    assert_eq!(sheet.len(), MOST_SHEET);
    let printed = text(&sheet);
    assert!(printed.contains("\n127 LOOP 0 0 1\n128 LOOP 0 0 0\n"));
    assert!(printed.contains("\n512 LOOP 0 0 0\nack 1 0\n"));
    assert_eq!(
        printed.lines().filter(|line| line.ends_with(" 18")).count(),
        printed.lines().count() - 1 - 512 - 127
    );
    refused(&[&sheet[..], &[0x01]].concat(), MOST_SHEET);
}

/// Each example of the repository prints what stands beside it.
#[test]
fn examples() {
    let mut sheets = 0;
    for entry in std::fs::read_dir("../examples").unwrap() {
        let path = entry.unwrap().path();
        if path
            .extension()
            .is_some_and(|extension| extension == "sheet")
        {
            let printed = std::fs::read_to_string(path.with_extension("txt")).unwrap();
            assert_eq!(text(&std::fs::read(&path).unwrap()), printed, "{path:?}");
            sheets += 1;
        }
    }
    assert!(sheets > 5);
}
