// Blobs made along the grammar, with a few slips where they are asked for.

use super::{good_counts, Case, Rng};
use crate::reference::{encode, Counts, LARGEST};

/// A blob made along the grammar; `slips` of a thousand choices break it.
pub fn grammar_made(rng: &mut Rng, slips: usize) -> Case {
    let kind = rng.below(5) as u32;
    let counts = good_counts(rng);
    let blob = grammar_made_as(rng, kind, counts, slips);
    Case { kind, counts, blob }
}

/// The same, of this kind and under these counts.
pub fn grammar_made_as(rng: &mut Rng, kind: u32, counts: Counts, slips: usize) -> Vec<u8> {
    let room = match rng.below(64) {
        0 => 1100,
        1..=3 => 300,
        4..=15 => 60,
        _ => 14,
    };
    let depth = match rng.below(16) {
        0 => 34,
        1..=3 => 12,
        _ => 5,
    };
    let mut maker = Maker {
        rng,
        counts,
        slips,
        room,
        blob: Vec::new(),
    };
    maker.root(kind, depth);
    maker.blob
}

/// A TypeSpec of so many links, those of the pattern in turn, and an I4 at the end.
pub fn chain(links: usize, pattern: &[&[u8]]) -> Vec<u8> {
    let mut blob: Vec<u8> = (0..links)
        .flat_map(|link| pattern[link % pattern.len()].iter().copied())
        .collect();
    blob.push(0x08);
    blob
}

/// A LocalVarSig of so many times the same local.
pub fn locals(count: usize, local: &[u8]) -> Vec<u8> {
    let mut blob = vec![0x07];
    put_number(&mut blob, count as u32);
    for _ in 0..count {
        blob.extend_from_slice(local);
    }
    blob
}

pub fn put_number(blob: &mut Vec<u8>, value: u32) {
    let (bytes, width) = encode(value).expect("a value of at most 29 bits");
    blob.extend_from_slice(&bytes[..width]);
}

#[derive(Clone, Copy, PartialEq)]
enum Spot {
    Type,
    Target,
    Param,
    Return,
    Local,
    Pinned,
    Spec,
}

struct Maker<'r> {
    rng: &'r mut Rng,
    counts: Counts,
    slips: usize,
    /// Nodes that are still to be made before only leaves are.
    room: usize,
    blob: Vec<u8>,
}

impl Maker<'_> {
    fn slip(&mut self) -> bool {
        self.rng.odds(self.slips)
    }

    fn byte(&mut self, byte: u8) {
        let byte = if self.slip() {
            self.rng.next() as u8
        } else {
            byte
        };
        self.blob.push(byte);
    }

    fn number(&mut self, value: u32) {
        if self.slip() {
            return self.odd_number(value);
        }
        put_number(&mut self.blob, value);
    }

    /// A longer form than the value needs, or a first byte that begins no number, or another value.
    fn odd_number(&mut self, value: u32) {
        let [_, second, third, fourth] = value.to_be_bytes();
        match self.rng.below(4) {
            0 => self.blob.extend_from_slice(&[0x80 | third & 0x3F, fourth]),
            1 => self.blob.extend_from_slice(&[0xC0, second, third, fourth]),
            2 => self.blob.push(0xE0 + self.rng.below(0x20) as u8),
            _ => put_number(&mut self.blob, value.wrapping_add(1) & LARGEST),
        }
    }

    fn edge(&mut self) -> u32 {
        const EDGES: [u32; 9] = [
            0,
            1,
            0x7F,
            0x80,
            0x3FFF,
            0x4000,
            0xFF_FFFF,
            0x1FFF_FFFE,
            LARGEST,
        ];
        match self.rng.below(3) {
            0 => EDGES[self.rng.below(EDGES.len())],
            1 => self.rng.below(8) as u32,
            _ => (self.rng.next() as u32 & LARGEST) >> self.rng.below(29),
        }
    }

    /// A token, in range where there is a row at all.
    fn token(&mut self, spec_allowed: bool) {
        let rows = [
            self.counts.type_defs,
            self.counts.type_refs,
            if spec_allowed {
                self.counts.type_specs
            } else {
                0
            },
        ];
        let mut tag = self.rng.below(3);
        for _ in 0..2 {
            if rows[tag] == 0 {
                tag = (tag + 1) % 3;
            }
        }
        let row = match self.rng.below(4) {
            0 => rows[tag],
            1 => rows[tag].min(1),
            _ => rows[tag].min(1 + self.rng.below(rows[tag].max(1) as usize) as u32),
        };
        let token = row * 4 + tag as u32;
        let token = if self.slip() {
            match self.rng.below(4) {
                0 => token + 4,
                1 => token | 3,
                2 => token & 3 | 2,
                _ => self.rng.below(300) as u32,
            }
        } else {
            token
        };
        self.number(token);
    }

    fn nameable(&self) -> bool {
        self.counts.type_defs + self.counts.type_refs > 0
    }

    fn root(&mut self, kind: u32, depth: usize) {
        match kind {
            0 => self.item(Spot::Spec, depth),
            1 => {
                self.byte(0x06);
                self.item(Spot::Type, depth);
            }
            2 => {
                self.byte(0x07);
                let count = self.some(1);
                self.number(count);
                self.items(count, Spot::Local, depth);
            }
            3 => {
                let lead = [0x08, 0x28][self.rng.below(2)];
                self.byte(lead);
                self.signature(depth);
            }
            _ => self.method(depth, true),
        }
    }

    /// How many children; now and then as many as there is room for.
    fn some(&mut self, least: usize) -> u32 {
        let most = match self.rng.below(12) {
            0 => self.room,
            1..=3 => 8,
            _ => 3,
        };
        (least + self.rng.below(most + 1)) as u32
    }

    fn items(&mut self, count: u32, spot: Spot, depth: usize) {
        for _ in 0..count {
            self.item(spot, depth);
        }
    }

    fn signature(&mut self, depth: usize) {
        let params = self.some(0);
        self.number(params);
        self.item(Spot::Return, depth);
        self.items(params, Spot::Param, depth);
    }

    fn method(&mut self, depth: usize, generic_allowed: bool) {
        const LEADS: [u8; 9] = [0x00, 0x05, 0x20, 0x25, 0x60, 0x65, 0x10, 0x30, 0x70];
        let generic = generic_allowed && self.rng.below(3) == 0;
        let lead = if generic || self.slip() {
            LEADS[6 + self.rng.below(3)]
        } else {
            LEADS[self.rng.below(6)]
        };
        self.byte(lead);
        if generic {
            let count = match self.slip() {
                true => 0,
                false => self.edge().max(1),
            };
            self.number(count);
        }
        self.signature(depth.saturating_sub(1));
    }

    fn item(&mut self, spot: Spot, depth: usize) {
        self.room = self.room.saturating_sub(1);
        if self.room == 0 || depth <= 1 {
            return self.small(spot);
        }
        let inner = depth - 1;
        match (self.rng.below(20), spot) {
            (0..=2, _) if self.nameable() => self.modified(spot, inner),
            (3, _) => {
                self.byte(0x0F);
                self.item(Spot::Target, inner);
            }
            (4..=5, _) => {
                self.byte(0x1D);
                self.item(Spot::Type, inner);
            }
            (6..=7, Spot::Param | Spot::Return | Spot::Local | Spot::Pinned) => {
                self.byte(0x10);
                self.item(Spot::Type, inner);
            }
            (8..=9, Spot::Local) => {
                self.byte(0x45);
                self.item(Spot::Pinned, inner);
            }
            (10..=11, _) => self.array(inner),
            (12..=13, _) if self.nameable() => self.instance(inner),
            (14, _) => {
                self.byte(0x1B);
                self.method(inner, false);
            }
            _ => self.small(spot),
        }
    }

    fn modified(&mut self, spot: Spot, inner: usize) {
        let byte = 0x1F + self.rng.below(2) as u8;
        self.byte(byte);
        self.token(true);
        let spot = match spot {
            Spot::Pinned => Spot::Type,
            _ => spot,
        };
        self.item(spot, inner);
    }

    fn instance(&mut self, inner: usize) {
        self.byte(0x15);
        let form = 0x11 + self.rng.below(2) as u8;
        self.byte(form);
        self.token(false);
        let count = if self.slip() { 0 } else { self.some(1) };
        self.number(count);
        self.items(count, Spot::Type, inner);
    }

    fn array(&mut self, inner: usize) {
        self.byte(0x14);
        self.item(Spot::Type, inner);
        let rank = match self.rng.below(8) {
            0 => 32,
            1 if self.slips > 0 => 33,
            _ => 1 + self.rng.below(4) as u32,
        };
        self.number(rank);
        for _ in 0..2 {
            let count = match self.rng.below(16) {
                0 => rank,
                1 if self.slips > 0 => rank + 1,
                _ => self.rng.below(rank.min(4) as usize + 1) as u32,
            };
            self.number(count);
            for _ in 0..count {
                let value = self.edge();
                self.number(value);
            }
        }
    }

    /// A node without children.
    fn small(&mut self, spot: Spot) {
        let first = self.blob.is_empty() && spot == Spot::Spec;
        match (self.rng.below(12), spot) {
            (0, Spot::Return | Spot::Target | Spot::Spec) => self.byte(0x01),
            (1, Spot::Param | Spot::Return | Spot::Local | Spot::Spec) => self.byte(0x16),
            (2..=4, _) if self.nameable() && !first => {
                let byte = 0x11 + self.rng.below(2) as u8;
                self.byte(byte);
                self.token(false);
            }
            (5, _) => {
                let byte = [0x13, 0x1E][self.rng.below(2)];
                self.byte(byte);
                let value = self.edge();
                self.number(value);
            }
            (6, _) => {
                let byte = [0x18, 0x19, 0x1C][self.rng.below(3)];
                self.byte(byte);
            }
            _ => {
                let byte = 2 + self.rng.below(13) as u8;
                self.byte(byte);
            }
        }
    }
}
