// Sets `at` and `after` anew in a damaged table, so that what is wrong with it lies elsewhere.

use crate::reference::{width, LOCALS, LOW, METHOD, PROPERTY, SIZE};

pub fn relayout(table: &mut [u32]) {
    let (records, _) = table.as_chunks_mut::<6>();
    let mut layout = Layout {
        records,
        next: 0,
        pos: 0,
    };
    layout.subtree();
}

struct Layout<'t> {
    records: &'t mut [[u32; 6]],
    next: usize,
    pos: u32,
}

/// The bytes of a number; a value too large for one is given any width.
fn bytes(value: u32) -> u32 {
    width(value).unwrap_or(4) as u32
}

impl Layout<'_> {
    fn subtree(&mut self) {
        let node = self.next;
        let Some(&[kind, a, b, children, _, _]) = self.records.get(node) else {
            return;
        };
        self.next += 1;
        self.records[node][4] = self.pos;
        self.pos += match kind {
            METHOD if a > 0 || matches!(b, 0x10 | 0x30 | 0x70) => {
                1 + bytes(a) + bytes(children.wrapping_sub(1))
            }
            METHOD | PROPERTY => 1 + bytes(children.wrapping_sub(1)),
            LOCALS => 1 + bytes(children),
            SIZE | LOW => bytes(a),
            0x11..=0x13 | 0x1E..=0x20 => 1 + bytes(a),
            0x15 => 2 + bytes(a) + bytes(children),
            _ => 1,
        };
        for child in 0..children {
            if self.next == self.records.len() {
                break;
            }
            self.subtree();
            if kind == 0x14 && child == 0 {
                self.pos += bytes(a) + bytes(b);
            }
            if kind == 0x14 && child == b {
                self.pos += bytes(children - 1 - b);
            }
        }
        self.records[node][5] = self.next as u32;
    }
}
