// The writer: one walk over the records that checks every field where it stands, made once to measure and once to emit.

use super::number::{encode, judge_token};
use super::place::Place;
use super::{
    Counts, Record, FIELD, LOCALS, LOW, METHOD, MOST_BYTES, MOST_DEPTH, MOST_NODES, PROPERTY, SIZE,
};

/// The length of the blob that has these records; none if no blob of this kind has them.
pub fn measure(kind: u32, counts: Counts, records: &[Record]) -> Option<usize> {
    if records.len() > MOST_NODES {
        return None;
    }
    let bytes = walk(kind, counts, records, Tally(0))?.0;
    (bytes <= MOST_BYTES).then_some(bytes)
}

/// Emits the blob of records that were measured before; `out` is as long as it.
pub fn emit(kind: u32, counts: Counts, records: &[Record], out: &mut [u8]) {
    let emitted = walk(kind, counts, records, Lent { out, used: 0 });
    debug_assert!(emitted.is_some());
}

/// Where the bytes go.
trait Sink {
    fn used(&self) -> usize;
    fn put(&mut self, bytes: &[u8]);
}

struct Tally(usize);

impl Sink for Tally {
    fn used(&self) -> usize {
        self.0
    }
    fn put(&mut self, bytes: &[u8]) {
        self.0 += bytes.len();
    }
}

struct Lent<'o> {
    out: &'o mut [u8],
    used: usize,
}

impl Sink for Lent<'_> {
    fn used(&self) -> usize {
        self.used
    }
    fn put(&mut self, bytes: &[u8]) {
        self.out[self.used..self.used + bytes.len()].copy_from_slice(bytes);
        self.used += bytes.len();
    }
}

fn walk<S: Sink>(kind: u32, counts: Counts, records: &[Record], sink: S) -> Option<S> {
    let mut walk = Walk {
        records,
        next: 0,
        counts,
        sink,
    };
    match kind {
        0 => walk.item(Place::SPEC, 1)?,
        1 => walk.field()?,
        2 => walk.locals()?,
        3 => walk.property()?,
        _ => walk.method(1, true)?,
    }
    (walk.next == records.len()).then_some(walk.sink)
}

struct Walk<'t, S> {
    records: &'t [Record],
    next: usize,
    counts: Counts,
    sink: S,
}

fn demand(holds: bool) -> Option<()> {
    holds.then_some(())
}

impl<S: Sink> Walk<'_, S> {
    /// The next record: it must start here and not too deep.
    fn record(&mut self, depth: u32) -> Option<Record> {
        let record = *self.records.get(self.next)?;
        demand(depth <= MOST_DEPTH)?;
        demand(record[4] as usize == self.sink.used())?;
        self.next += 1;
        Some(record)
    }

    /// The record's subtree must end here.
    fn close(&self, record: Record) -> Option<()> {
        demand(record[5] as usize == self.next)
    }

    fn byte(&mut self, byte: u32) -> Option<()> {
        self.sink.put(&[u8::try_from(byte).ok()?]);
        Some(())
    }

    fn number(&mut self, value: u32) -> Option<()> {
        let (bytes, width) = encode(value)?;
        self.sink.put(&bytes[..width]);
        Some(())
    }

    fn token(&mut self, token: u32, spec_allowed: bool) -> Option<()> {
        demand(judge_token(token, self.counts, spec_allowed) == 0)?;
        self.number(token)
    }

    fn item(&mut self, place: Place, depth: u32) -> Option<()> {
        let record = self.record(depth)?;
        let [kind, a, b, children, _, _] = record;
        match kind {
            0x02..=0x0E | 0x18 | 0x19 | 0x1C => self.leaf(record)?,
            0x01 if place.void() => self.leaf(record)?,
            0x16 if place.typed() => self.leaf(record)?,
            0x1F | 0x20 => {
                demand(b == 0 && children == 1)?;
                self.byte(kind)?;
                self.token(a, true)?;
                self.item(place.behind_modifier(), depth + 1)?;
            }
            0x0F => self.link(record, Place::TARGET, depth)?,
            0x1D => self.link(record, Place::TYPE, depth)?,
            0x10 if place.byref() => self.link(record, Place::TYPE, depth)?,
            0x45 if place.pinned() => self.link(record, Place::PINNED, depth)?,
            0x11 | 0x12 if place.named() => {
                demand(b == 0 && children == 0)?;
                self.byte(kind)?;
                self.token(a, false)?;
            }
            0x13 | 0x1E => {
                demand(b == 0 && children == 0)?;
                self.byte(kind)?;
                self.number(a)?;
            }
            0x14 => self.array(record, depth)?,
            0x15 => self.instance(record, depth)?,
            0x1B => {
                demand(a == 0 && b == 0 && children == 1)?;
                self.byte(kind)?;
                self.method(depth + 1, false)?;
            }
            _ => return None,
        }
        self.close(record)
    }

    fn leaf(&mut self, [kind, a, b, children, _, _]: Record) -> Option<()> {
        demand(a == 0 && b == 0 && children == 0)?;
        self.byte(kind)
    }

    fn link(
        &mut self,
        [kind, a, b, children, _, _]: Record,
        inner: Place,
        depth: u32,
    ) -> Option<()> {
        demand(a == 0 && b == 0 && children == 1)?;
        self.byte(kind)?;
        self.item(inner, depth + 1)
    }

    fn instance(&mut self, [kind, a, b, children, _, _]: Record, depth: u32) -> Option<()> {
        demand((b == 0x11 || b == 0x12) && children >= 1)?;
        self.byte(kind)?;
        self.byte(b)?;
        self.token(a, false)?;
        self.number(children)?;
        for _ in 0..children {
            self.item(Place::TYPE, depth + 1)?;
        }
        Some(())
    }

    fn array(&mut self, [kind, rank, sizes, children, _, _]: Record, depth: u32) -> Option<()> {
        demand((1..=32).contains(&rank) && sizes <= rank)?;
        let lows = children.checked_sub(1 + sizes)?;
        demand(lows <= rank)?;
        self.byte(kind)?;
        self.item(Place::TYPE, depth + 1)?;
        self.number(rank)?;
        self.number(sizes)?;
        self.bounds(SIZE, sizes, depth + 1)?;
        self.number(lows)?;
        self.bounds(LOW, lows, depth + 1)
    }

    fn bounds(&mut self, kind: u32, count: u32, depth: u32) -> Option<()> {
        for _ in 0..count {
            let record = self.record(depth)?;
            let [found, value, b, children, _, _] = record;
            demand(found == kind && b == 0 && children == 0)?;
            self.number(value)?;
            self.close(record)?;
        }
        Some(())
    }

    /// ParamCount, the return and the parameters of a record with so many children.
    fn signature(&mut self, children: u32, depth: u32) -> Option<()> {
        let params = children.checked_sub(1)?;
        self.number(params)?;
        self.item(Place::RETURN, depth)?;
        for _ in 0..params {
            self.item(Place::PARAM, depth)?;
        }
        Some(())
    }

    fn method(&mut self, depth: u32, generic_allowed: bool) -> Option<()> {
        let record = self.record(depth)?;
        let [kind, generics, lead, children, _, _] = record;
        demand(kind == METHOD)?;
        self.byte(lead)?;
        match lead {
            0x00 | 0x05 | 0x20 | 0x25 | 0x60 | 0x65 => demand(generics == 0)?,
            0x10 | 0x30 | 0x70 if generic_allowed => {
                demand(generics >= 1)?;
                self.number(generics)?;
            }
            _ => return None,
        }
        self.signature(children, depth + 1)?;
        self.close(record)
    }

    fn field(&mut self) -> Option<()> {
        let record = self.record(1)?;
        let [kind, a, b, children, _, _] = record;
        demand(kind == FIELD && a == 0 && b == 0 && children == 1)?;
        self.byte(0x06)?;
        self.item(Place::TYPE, 2)?;
        self.close(record)
    }

    fn locals(&mut self) -> Option<()> {
        let record = self.record(1)?;
        let [kind, a, b, children, _, _] = record;
        demand(kind == LOCALS && a == 0 && b == 0 && children >= 1)?;
        self.byte(0x07)?;
        self.number(children)?;
        for _ in 0..children {
            self.item(Place::LOCAL, 2)?;
        }
        self.close(record)
    }

    fn property(&mut self) -> Option<()> {
        let record = self.record(1)?;
        let [kind, a, lead, children, _, _] = record;
        demand(kind == PROPERTY && a == 0 && (lead == 0x08 || lead == 0x28))?;
        self.byte(lead)?;
        self.signature(children, 2)?;
        self.close(record)
    }
}
