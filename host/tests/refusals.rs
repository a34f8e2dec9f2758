// The order of refusals and the promises about lent memory, beyond the bench rows.

use host::gen::{damage_table, edges, grammar_made, relayout, Rng};
use host::reference::{decode, encode, judge, read, write, Counts, LARGEST};

const BENCH: Counts = Counts {
    type_defs: 0,
    type_refs: 18,
    type_specs: 1,
};

#[test]
fn kind_then_counts_then_length() {
    let high = Counts {
        type_specs: 0x100_0000,
        ..BENCH
    };
    assert_eq!(judge(5, high, &[0; 4097]), (12, 0));
    assert_eq!(judge(1, high, &[0; 4097]), (13, 0));
    assert_eq!(judge(1, BENCH, &[0; 4097]), (1, 0));
    assert_eq!(judge(1, BENCH, &[0; 4096]), (5, 0));
}

#[test]
fn standard_number_examples() {
    let examples: [(u32, &[u8]); 9] = [
        (0x03, &[0x03]),
        (0x7F, &[0x7F]),
        (0x80, &[0x80, 0x80]),
        (0x2E57, &[0xAE, 0x57]),
        (0x3FFF, &[0xBF, 0xFF]),
        (0x4000, &[0xC0, 0x00, 0x40, 0x00]),
        (0x1FFF_FFFF, &[0xDF, 0xFF, 0xFF, 0xFF]),
        (0x12_3456, &[0xC0, 0x12, 0x34, 0x56]),
        (0, &[0x00]),
    ];
    for (value, bytes) in examples {
        assert_eq!(decode(bytes, 0), Ok((value, bytes.len())));
        let (written, width) = encode(value).unwrap();
        assert_eq!(&written[..width], bytes);
    }
    assert_eq!(encode(LARGEST + 1), None);
}

#[test]
fn first_byte_before_cut_before_length() {
    assert_eq!(decode(&[0xE0], 0), Err(3));
    assert_eq!(decode(&[0xC0, 0x00, 0x00], 0), Err(2));
    assert_eq!(decode(&[0xC0, 0x00, 0x3F, 0xFF], 0), Err(3));
    assert_eq!(decode(&[0x80], 0), Err(2));
    assert_eq!(decode(&[], 0), Err(2));
}

#[test]
fn settled_places() {
    let cases: [(u32, &[u8], (u32, u32)); 17] = [
        (2, &[0x07, 0x01, 0x45, 0x20, 0x06, 0x10, 0x08], (5, 5)),
        (2, &[0x07, 0x01, 0x45, 0x10, 0x20, 0x06, 0x08], (0, 5)),
        (2, &[0x07, 0x01, 0x20, 0x06, 0x45, 0x08], (0, 4)),
        (2, &[0x07, 0x01, 0x45, 0x16], (5, 3)),
        (2, &[0x07, 0x00], (4, 1)),
        (4, &[0x00, 0xDF, 0xFF, 0xFF, 0xFF], (2, 5)),
        (4, &[0x10, 0x00], (4, 1)),
        (4, &[0x00, 0x00, 0x20, 0x06, 0x10, 0x08], (0, 4)),
        (4, &[0x00, 0x01, 0x08, 0x01], (5, 3)),
        (4, &[0x00, 0x00, 0x10, 0x01], (5, 3)),
        (0, &[0x1B, 0x10, 0x01, 0x00, 0x01], (5, 1)),
        (0, &[0x1B, 0x00, 0x00, 0x01], (0, 3)),
        (0, &[0x0F, 0x20, 0x06, 0x01], (0, 3)),
        (0, &[0x20, 0x07, 0x08], (7, 1)),
        (0, &[0x20, 0x02, 0x08], (8, 1)),
        (0, &[0x1D, 0x12, 0x06], (7, 2)),
        (0, &[0x15, 0x13, 0x09], (5, 1)),
    ];
    for (kind, blob, answer) in cases {
        assert_eq!(judge(kind, BENCH, blob), answer, "{blob:02X?}");
    }
}

#[test]
fn too_few_records_change_nothing() {
    for numbers in 0..18 {
        let mut table = vec![7; numbers];
        let answer = read(0, BENCH, &[0x0F, 0x20, 0x06, 0x08], &mut table);
        assert_eq!(answer, (11, 3));
        assert_eq!(table, vec![7; numbers]);
    }
}

#[test]
fn writer_order() {
    let field = [0x101, 0, 0, 1, 0, 2, 8, 0, 0, 0, 1, 2];
    let high = Counts {
        type_defs: 0x100_0000,
        ..BENCH
    };
    let mut out = [9; 4];
    assert_eq!(write(5, high, &[], &mut out), (12, 0));
    assert_eq!(write(1, high, &[], &mut out), (13, 0));
    assert_eq!(write(1, BENCH, &[], &mut out), (14, 0));
    assert_eq!(write(0, BENCH, &field, &mut []), (14, 0));
    assert_eq!(write(1, BENCH, &field[..11], &mut []), (14, 0));
    assert_eq!(write(1, BENCH, &field, &mut out[..1]), (15, 2));
    assert_eq!(out, [9; 4]);
    assert_eq!(write(1, BENCH, &field, &mut out), (0, 2));
    assert_eq!(out, [6, 8, 9, 9]);
}

/// The writer's field by field check against the definition: a table is good if the blob it would emit has it.
#[test]
fn writer_refuses_only_what_no_blob_has() {
    let mut rng = Rng::new(14);
    let mut good = 0;
    for _ in 0..60_000 {
        let case = grammar_made(&mut rng, 0);
        let mut table = vec![0; 1024 * 6];
        let (code, nodes) = read(case.kind, case.counts, &case.blob, &mut table);
        if code != 0 {
            continue;
        }
        table.truncate(nodes as usize * 6);
        damage_table(&mut rng, &mut table);
        if rng.below(2) == 0 {
            relayout(&mut table);
        }
        let mut out = vec![0; 8192];
        let (code, length) = write(case.kind, case.counts, &table, &mut out);
        if code == 0 {
            good += 1;
            let mut again = vec![0; table.len()];
            let blob = &out[..length as usize];
            let answer = read(case.kind, case.counts, blob, &mut again);
            assert_eq!(answer, (0, table.len() as u32 / 6));
            assert_eq!(again, table);
        } else {
            assert_eq!((code, length), (14, 0));
        }
    }
    assert!(good > 1000, "only {good} changed tables were still good");
}

/// A good table's `at` and `after` are what its other fields give.
#[test]
fn relayout_keeps_good_tables() {
    let mut rng = Rng::new(6);
    for _ in 0..20_000 {
        let case = grammar_made(&mut rng, 0);
        let mut table = vec![0; 1024 * 6];
        let (code, nodes) = read(case.kind, case.counts, &case.blob, &mut table);
        if code == 0 {
            table.truncate(nodes as usize * 6);
            let kept = table.clone();
            relayout(&mut table);
            assert_eq!(table, kept);
        }
    }
}

#[test]
fn limits() {
    let mut seen = [0; 14];
    for case in edges() {
        seen[judge(case.kind, case.counts, &case.blob).0 as usize] += 1;
    }
    for code in [0, 1, 2, 3, 4, 5, 6, 7, 8, 9, 10, 12, 13] {
        assert!(seen[code] > 0, "{code} never occurs at the limits");
    }
}

#[test]
fn grammar_made_blobs_are_good() {
    let mut rng = Rng::new(1);
    let mut good = 0;
    for _ in 0..20_000 {
        let case = grammar_made(&mut rng, 0);
        match judge(case.kind, case.counts, &case.blob).0 {
            0 => good += 1,
            code => assert!(matches!(code, 1 | 6 | 8 | 10), "{code} {case:02X?}"),
        }
    }
    assert!(good > 18_000, "only {good} of 20000 accepted");
}
