// Cases at each limit of document 01 and one step beyond.

use super::maker::{chain, locals, put_number};
use super::Case;
use crate::reference::{Counts, LARGEST, MOST_ROWS};

const BENCH: Counts = Counts {
    type_defs: 0,
    type_refs: 18,
    type_specs: 1,
};
const WIDE: Counts = Counts {
    type_defs: MOST_ROWS,
    type_refs: MOST_ROWS,
    type_specs: MOST_ROWS,
};

/// Ends with one or two faults in them, to be met at a limit.
const ENDS: [&[u8]; 14] = [
    &[],
    &[0x00],
    &[0x16],
    &[0x11, 0x03],
    &[0x12, 0xE0],
    &[0x13, 0xE0],
    &[0x13],
    &[0x14],
    &[0x15],
    &[0x1B],
    &[0x1B, 0x00],
    &[0x1B, 0x10],
    &[0x20, 0x03],
    &[0x20, 0xE0],
];

/// What stands before a number, or would in a blob of another kind.
const LEADS: [&[u8]; 19] = [
    &[],
    &[0x13],
    &[0x1E],
    &[0x07],
    &[0x08],
    &[0x00],
    &[0x10],
    &[0x10, 0x02],
    &[0x14, 0x08],
    &[0x14, 0x08, 0x20],
    &[0x14, 0x08, 0x20, 0x00],
    &[0x14, 0x08, 0x20, 0x01],
    &[0x15, 0x12, 0x09],
    &[0x15, 0x12],
    &[0x1F],
    &[0x1B, 0x00],
    &[0x06, 0x13],
    &[0x06, 0x12],
    &[0x06, 0x20],
];

pub fn edges() -> Vec<Case> {
    let mut cases = Vec::new();
    depths(&mut cases);
    nodes(&mut cases);
    two_faults(&mut cases);
    faults_in_bounds(&mut cases);
    lengths(&mut cases);
    numbers(&mut cases);
    first_bytes(&mut cases);
    counts(&mut cases);
    cases
}

fn add(cases: &mut Vec<Case>, kind: u32, counts: Counts, blob: Vec<u8>) {
    cases.push(Case { kind, counts, blob });
}

fn depths(cases: &mut Vec<Case>) {
    let modifier: &[u8] = &[0x20, 0x06];
    let patterns: [&[&[u8]]; 6] = [
        &[&[0x1D]],
        &[&[0x0F]],
        &[modifier],
        &[&[0x0F], modifier, &[0x1D]],
        &[&[0x15, 0x12, 0x09, 0x01]],
        &[&[0x1B, 0x00, 0x00]],
    ];
    for pattern in patterns {
        for links in 14..=34 {
            let chain = chain(links, pattern);
            add(cases, 0, BENCH, chain.clone());
            let leads: [(u32, &[u8]); 4] = [
                (1, &[0x06]),
                (2, &[0x07, 0x01]),
                (3, &[0x08, 0x00]),
                (4, &[0x00, 0x00]),
            ];
            for (kind, lead) in leads {
                add(cases, kind, BENCH, [lead, &chain].concat());
                let byref = [lead, &[0x10], &chain].concat();
                add(cases, kind, BENCH, byref);
                let pinned = [lead, &[0x45, 0x10], &chain].concat();
                add(cases, kind, BENCH, pinned);
            }
        }
    }
    for levels in 29..=33 {
        let mut blob = vec![0x14; levels];
        blob.push(0x08);
        for _ in 0..levels {
            blob.extend_from_slice(&[0x02, 0x01, 0x05, 0x02, 0x00, 0x80, 0x80]);
        }
        add(cases, 0, BENCH, blob);
    }
}

fn nodes(cases: &mut Vec<Case>) {
    for count in 1021..=1026_usize {
        add(cases, 2, BENCH, locals(count, &[0x08]));
        for lead in [&[0x08][..], &[0x28], &[0x20], &[0x10, 0x01]] {
            let kind = if lead[0] & 0x0F == 8 { 3 } else { 4 };
            let mut blob = lead.to_vec();
            put_number(&mut blob, count as u32 - 1);
            blob.extend(vec![0x0E; count]);
            add(cases, kind, BENCH, blob);
        }
        let mut generic = vec![0x15, 0x11, 0x05];
        put_number(&mut generic, count as u32);
        generic.extend(vec![0x1C; count]);
        add(cases, 0, BENCH, generic);
        let mut before = vec![0x07];
        put_number(&mut before, count as u32 - 59);
        before.extend(vec![0x08; count - 60]);
        for (sizes, lows) in [(32, 26), (32, 27), (32, 28), (32, 32), (26, 32), (0, 32)] {
            let mut blob = before.clone();
            blob.extend_from_slice(&[0x14, 0x02, 0x20, sizes]);
            blob.extend(vec![0x03; sizes.into()]);
            blob.push(lows);
            blob.extend(vec![0x00; lows.into()]);
            add(cases, 2, BENCH, blob);
        }
    }
    add(cases, 2, BENCH, locals(400, &[0x1F, 0x06, 0x1D, 0x08]));
    add(cases, 2, BENCH, locals(341, &[0x1F, 0x06, 0x1D, 0x08]));
    add(cases, 2, BENCH, locals(342, &[0x1F, 0x06, 0x1D, 0x08]));
}

/// Two faults at one place: which of them is given is the order's.
fn two_faults(cases: &mut Vec<Case>) {
    for links in 29..=33 {
        for end in ENDS {
            add(cases, 0, BENCH, [&vec![0x1D; links], end].concat());
        }
    }
    for leaves in 1019..=1024 {
        for end in ENDS {
            add(cases, 2, BENCH, [&but_the_last(leaves), end].concat());
        }
    }
    for leaves in 990..=994 {
        for end in ENDS.into_iter().chain([&[0x08][..]]) {
            for links in 30..=32 {
                let links = vec![0x1D; links];
                add(
                    cases,
                    2,
                    BENCH,
                    [&but_the_last(leaves), &links, end].concat(),
                );
            }
        }
    }
}

/// The same in the sizes and the lower bounds of an array.
fn faults_in_bounds(cases: &mut Vec<Case>) {
    for leaves in 1017..=1021 {
        for counts in [&[0x02, 0x02, 0x05][..], &[0x02, 0x00, 0x02, 0x05]] {
            for bound in [
                &[][..],
                &[0x05],
                &[0x80],
                &[0x80, 0x01],
                &[0xC0, 0, 0, 1],
                &[0xE0],
            ] {
                let array = [&[0x14, 0x08], counts, bound].concat();
                add(cases, 2, BENCH, [but_the_last(leaves), array].concat());
            }
        }
    }
}

/// A LocalVarSig of so many leaves and a last local that is still to come.
fn but_the_last(leaves: usize) -> Vec<u8> {
    let mut blob = locals(leaves + 1, &[0x08]);
    blob.pop();
    blob
}

fn lengths(cases: &mut Vec<Case>) {
    for length in 4090..=4100_usize {
        let wide = (length - 3) / 5;
        let small = length - 3 - 5 * wide;
        let mut blob = vec![0x07];
        put_number(&mut blob, (wide + small) as u32);
        for _ in 0..wide {
            blob.extend_from_slice(&[0x11, 0xC3, 0xFF, 0xFF, 0xFC]);
        }
        blob.extend(vec![0x08; small]);
        assert_eq!(blob.len(), length);
        add(cases, 2, WIDE, blob.clone());
        add(cases, 9, WIDE, blob.clone());
        for kind in 0..5 {
            add(cases, kind, WIDE, vec![0x06; length]);
            add(cases, kind, BENCH, vec![0x1D; length]);
            add(cases, kind, BENCH, vec![0x07; length]);
        }
    }
    for length in [65_536, 100_000] {
        for kind in 0..6 {
            add(cases, kind, BENCH, vec![0x08; length]);
        }
    }
}

fn numbers(cases: &mut Vec<Case>) {
    let values = [
        0, 1, 0x7F, 0x80, 0xFF, 0x3FFF, 0x4000, 0x1_0000, 0xFF_FFFF, LARGEST,
    ];
    for value in values {
        let mut bytes = Vec::new();
        put_number(&mut bytes, value);
        for end in 0..=bytes.len() {
            let bytes = &bytes[..end];
            for kind in 0..5 {
                for lead in LEADS {
                    for tail in [&[][..], &[0x08], &[0x01], &[0x00, 0x08]] {
                        add(cases, kind, BENCH, [lead, bytes, tail].concat());
                        add(cases, kind, WIDE, [lead, bytes, tail].concat());
                    }
                }
            }
        }
    }
}

/// Every first byte of a number of two bytes or more.
fn first_bytes(cases: &mut Vec<Case>) {
    for first in 0x80..=0xFF_u8 {
        for second in [0x00, 0x7F, 0x80, 0xFF] {
            for tail in [&[][..], &[0x00], &[0x40, 0x00], &[0x3F, 0xFF], &[0, 0, 0]] {
                let blob = [&[0x13, first, second], tail].concat();
                add(cases, 0, BENCH, blob);
            }
        }
        add(cases, 0, BENCH, vec![0x13, first]);
    }
}

fn counts(cases: &mut Vec<Case>) {
    let rows = [0, 1, 17, 18, 0x3F_FFFF, MOST_ROWS, MOST_ROWS + 1, u32::MAX];
    for type_defs in rows {
        for type_refs in rows {
            for type_specs in rows {
                let counts = Counts {
                    type_defs,
                    type_refs,
                    type_specs,
                };
                add(cases, 4, counts, vec![0x20, 0x01, 0x01, 0x12, 0x49]);
                add(cases, 0, counts, vec![0x20, 0x06, 0x12, 0x09]);
                add(cases, 1, counts, vec![0x06, 0x11, 0x48]);
                add(cases, 5, counts, vec![0x06, 0x08]);
                add(cases, 0, counts, vec![]);
                let last = [0x0F, 0x1F, 0xC3, 0xFF, 0xFF, 0xFE, 0x01];
                add(cases, 0, counts, last.to_vec());
            }
        }
    }
}
