// Document 01's "Blobs on the bench", row by row, against the reference and, where it is linked, the archive.

use host::reference::{judge, read, write, Answer, Counts};

const BENCH: Counts = Counts {
    type_defs: 0,
    type_refs: 18,
    type_specs: 1,
};

/// Judges, reads with records enough, and writes back what was accepted.
fn run(kind: u32, counts: Counts, blob: &[u8]) -> (Answer, Vec<u32>) {
    let mut table = vec![0xAAAA_AAAA; 1030 * 6 + 3];
    let untouched = table.clone();
    let answer = read(kind, counts, blob, &mut table);
    assert_eq!(answer, judge(kind, counts, blob));
    let used = if answer.0 == 0 {
        answer.1 as usize * 6
    } else {
        0
    };
    assert_eq!(table[used..], untouched[used..]);
    #[cfg(feature = "archive")]
    {
        let mut lent = untouched;
        assert_eq!(host::ffi::read(kind, counts, blob, &mut lent), answer);
        assert_eq!(host::ffi::judge(kind, counts, blob), answer);
        assert_eq!(lent, table);
    }
    table.truncate(used);
    if answer.0 == 0 {
        let mut out = vec![0x5A; blob.len() + 2];
        let written = write(kind, counts, &table, &mut out);
        assert_eq!(written, (0, blob.len() as u32));
        assert_eq!(out, [blob, &[0x5A, 0x5A]].concat());
        #[cfg(feature = "archive")]
        {
            let mut lent = vec![0x5A; blob.len() + 2];
            assert_eq!(host::ffi::write(kind, counts, &table, &mut lent), written);
            assert_eq!(lent, out);
        }
    }
    (answer, table)
}

fn gives(kind: u32, blob: &[u8], records: &[[u32; 6]]) {
    let (answer, table) = run(kind, BENCH, blob);
    assert_eq!(answer, (0, records.len() as u32));
    assert_eq!(table, records.as_flattened());
}

fn accepted(kind: u32, blob: &[u8], nodes: u32) {
    assert_eq!(run(kind, BENCH, blob).0, (0, nodes), "{blob:02X?}");
}

fn refused(kind: u32, blob: &[u8], code: u32, place: u32) {
    assert_eq!(run(kind, BENCH, blob).0, (code, place), "{blob:02X?}");
}

#[test]
fn fields() {
    gives(
        1,
        &[0x06, 0x08],
        &[[0x101, 0, 0, 1, 0, 2], [8, 0, 0, 0, 1, 2]],
    );
    refused(1, &[0x06], 2, 1);
    refused(1, &[0x06, 0x08, 0x08], 9, 2);
    refused(1, &[0x06, 0x10, 0x08], 5, 1);
}

#[test]
fn type_specs() {
    gives(
        0,
        &[0x0F, 0x20, 0x06, 0x08],
        &[
            [0xF, 0, 0, 1, 0, 3],
            [0x20, 6, 0, 1, 1, 3],
            [8, 0, 0, 0, 3, 3],
        ],
    );
    refused(0, &[], 2, 0);
    refused(0, &[0x12, 0x09], 5, 0);
    accepted(0, &[0x20, 0x06, 0x12, 0x09], 2);
}

#[test]
fn arrays() {
    gives(
        0,
        &[0x14, 0x08, 0x01, 0x01, 0x03, 0x00],
        &[
            [0x14, 1, 1, 2, 0, 3],
            [8, 0, 0, 0, 1, 2],
            [0x104, 3, 0, 0, 4, 3],
        ],
    );
    refused(0, &[0x14, 0x08, 0x00, 0x00, 0x00], 4, 2);
    refused(0, &[0x14, 0x08, 0x01, 0x02], 4, 3);
}

#[test]
fn instances() {
    accepted(0, &[0x15, 0x12, 0x09, 0x01, 0x0E], 2);
    refused(0, &[0x15, 0x12, 0x09, 0x00], 4, 3);
}

#[test]
fn numbers() {
    gives(0, &[0x13, 0x80, 0x80], &[[0x13, 128, 0, 0, 0, 1]]);
    refused(0, &[0x13, 0x80, 0x7F], 3, 1);
    refused(0, &[0x13, 0x80], 2, 1);
    refused(0, &[0x13, 0xE0], 3, 1);
}

#[test]
fn methods() {
    let blob = [0x20, 0x01, 0x01, 0x12, 0x49];
    accepted(4, &blob, 3);
    let fewer = Counts {
        type_refs: 17,
        ..BENCH
    };
    assert_eq!(run(4, fewer, &blob).0, (8, 4));
}

#[test]
fn depth() {
    let chain = |links: usize| [vec![0x1D; links], vec![0x08]].concat();
    accepted(0, &chain(31), 32);
    refused(0, &chain(32), 6, 32);
}

#[test]
fn nodes() {
    let locals = |lead: [u8; 3], count: usize| [lead.to_vec(), vec![0x08; count]].concat();
    accepted(2, &locals([0x07, 0x83, 0xFF], 1023), 1024);
    refused(2, &locals([0x07, 0x84, 0x00], 1024), 10, 1026);
}
