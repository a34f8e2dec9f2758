// Damage to a blob or to a node table.

use super::Rng;

/// One to three changes: a byte changed, inserted, deleted or appended, or the end cut off.
pub fn damage_blob(rng: &mut Rng, blob: &mut Vec<u8>) {
    for _ in 0..1 + rng.below(3) / 2 {
        let at = rng.below(blob.len() + 1);
        let byte = match rng.below(3) {
            0 => rng.next() as u8,
            1 => rng.below(0x21) as u8,
            _ => [0x00, 0x01, 0x45, 0x7F, 0x80, 0xBF, 0xC0, 0xDF, 0xE0, 0xFF][rng.below(10)],
        };
        match (rng.below(6), blob.get_mut(at)) {
            (0..=1, Some(old)) => *old = byte,
            (2, Some(old)) => *old ^= 1 << rng.below(8),
            (3, Some(_)) => {
                blob.remove(at);
            }
            (4, _) => blob.truncate(at),
            _ => blob.insert(at, byte),
        }
    }
}

/// One change to a table: a field, two fields, a record dropped, doubled or moved, a leaf taken out or put in, or a tail.
pub fn damage_table(rng: &mut Rng, table: &mut Vec<u32>) {
    if table.is_empty() {
        table.push(rng.next() as u32);
        return;
    }
    let records = table.len() / 6;
    let field = rng.below(table.len());
    let record = rng.below(records.max(1)) * 6;
    match rng.below(16) {
        0 if records > 0 => take_out(table, record),
        1 if records > 0 => double(table, record),
        2 if records > 1 => {
            let other = rng.below(records) * 6;
            for step in 0..6 {
                table.swap(record + step, other + step);
            }
        }
        3 => table.extend(vec![0; 1 + rng.below(5)]),
        4 => table.truncate(field),
        5 => {
            change(rng, &mut table[field]);
            let second = rng.below(table.len());
            change(rng, &mut table[second]);
        }
        choice @ 6..=10 if records > 0 => {
            damage_record(rng, choice, &mut table[record..record + 6]);
        }
        11 | 12 if records > 0 && table[record + 3] == 0 => damage_leaf(rng, table, record),
        _ => change(rng, &mut table[field]),
    }
}

/// One or two fields of a record, set to what stands there in some good table.
fn damage_record(rng: &mut Rng, choice: usize, record: &mut [u32]) {
    match choice {
        6 => record[0] = kind(rng),
        7 => {
            record[1] = [0, 1, 4, 5, 6, 7, 0x7F, 0x80, 0x1FFF_FFFF, 0x2000_0000][rng.below(10)];
        }
        8 => record[2] = [0, 1, 0x08, 0x11, 0x12, 0x28][rng.below(6)],
        9 => {
            record[1] = rng.below(3) as u32;
            record[2] = [0x00, 0x05, 0x20, 0x10, 0x30, 0x70, 0x15, 0x40][rng.below(8)];
        }
        _ => record[3] = rng.below(5) as u32,
    }
}

/// A leaf taken out or doubled, and its parent's count of children with it.
fn damage_leaf(rng: &mut Rng, table: &mut Vec<u32>, record: usize) {
    let parent = parent(table, record / 6).unwrap_or(0);
    let children = table[parent * 6 + 3];
    if rng.below(2) == 0 {
        table[parent * 6 + 3] = children.wrapping_sub(1);
        take_out(table, record);
    } else {
        table[parent * 6 + 3] = children.wrapping_add(1);
        double(table, record);
    }
}

fn take_out(table: &mut Vec<u32>, record: usize) {
    table.drain(record..record + 6);
}

fn double(table: &mut Vec<u32>, record: usize) {
    let copy = table[record..record + 6].to_vec();
    table.splice(record..record, copy);
}

/// The record whose child this one is.
fn parent(table: &[u32], record: usize) -> Option<usize> {
    (0..record)
        .rev()
        .find(|before| table[before * 6 + 5] as usize > record)
}

fn kind(rng: &mut Rng) -> u32 {
    match rng.below(4) {
        0 => 0x100 + rng.below(7) as u32,
        1 => 0x45,
        2 => [0x01, 0x10, 0x16, 0x11, 0x12, 0x108, 0x111][rng.below(7)],
        _ => rng.below(0x22) as u32,
    }
}

fn change(rng: &mut Rng, field: &mut u32) {
    *field = match rng.below(8) {
        0..=1 => field.wrapping_add(1),
        2..=3 => field.wrapping_sub(1),
        4 => 0,
        5 => *field ^ 1 << rng.below(32),
        6 => rng.next() as u32,
        _ => rng.below(40) as u32,
    };
}
