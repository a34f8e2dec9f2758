// The reader: one walk over the blob, made once to judge and once more to fill the records.

use super::number::{decode, judge_token};
use super::place::Place;
use super::{
    Answer, Counts, Record, FIELD, LOCALS, LOW, METHOD, MOST_BYTES, MOST_DEPTH, MOST_NODES,
    PROPERTY, SIZE,
};

pub fn judge(kind: u32, counts: Counts, blob: &[u8]) -> Answer {
    if blob.len() > MOST_BYTES {
        return (1, 0);
    }
    match walk(kind, counts, blob, Nothing) {
        Ok(nodes) => (0, nodes),
        Err(Fault { code, place }) => (code, place),
    }
}

/// Fills the records of a blob that was judged before; there are as many as it has nodes.
pub fn fill(kind: u32, counts: Counts, blob: &[u8], records: &mut [Record]) {
    let filled = walk(kind, counts, blob, Lent(records));
    debug_assert!(filled.is_ok());
}

struct Fault {
    code: u32,
    place: u32,
}

type Step<T> = Result<T, Fault>;

#[cold]
fn fault<T>(code: u32, place: usize) -> Step<T> {
    Err(Fault {
        code,
        place: place as u32,
    })
}

/// Where the nodes go. `open` takes a node for childless, `close` corrects `after` for those that are not.
trait Sink {
    fn open(&mut self, node: usize, kind: u32, a: u32, b: u32, children: u32, at: usize);
    fn close(&mut self, first: usize, last: usize, after: usize);
}

struct Nothing;

impl Sink for Nothing {
    #[inline]
    fn open(&mut self, _: usize, _: u32, _: u32, _: u32, _: u32, _: usize) {}
    #[inline]
    fn close(&mut self, _: usize, _: usize, _: usize) {}
}

struct Lent<'t>(&'t mut [Record]);

impl Sink for Lent<'_> {
    #[inline]
    fn open(&mut self, node: usize, kind: u32, a: u32, b: u32, children: u32, at: usize) {
        self.0[node] = [kind, a, b, children, at as u32, node as u32 + 1];
    }

    #[inline]
    fn close(&mut self, first: usize, last: usize, after: usize) {
        for record in &mut self.0[first..=last] {
            record[5] = after as u32;
        }
    }
}

fn walk<S: Sink>(kind: u32, counts: Counts, blob: &[u8], sink: S) -> Step<u32> {
    let mut walk = Walk {
        blob,
        pos: 0,
        nodes: 0,
        counts,
        sink,
    };
    match kind {
        0 => walk.item(Place::SPEC, 1)?,
        1 => walk.field()?,
        2 => walk.locals()?,
        3 => walk.property()?,
        _ => walk.method(1, true)?,
    }
    if walk.pos < blob.len() {
        return fault(9, walk.pos);
    }
    Ok(walk.nodes as u32)
}

struct Walk<'b, S> {
    blob: &'b [u8],
    pos: usize,
    nodes: usize,
    counts: Counts,
    sink: S,
}

impl<S: Sink> Walk<'_, S> {
    /// A code byte: 2 where there is none.
    #[inline]
    fn code(&mut self) -> Step<u8> {
        match self.blob.get(self.pos) {
            Some(&byte) => {
                self.pos += 1;
                Ok(byte)
            }
            None => fault(2, self.pos),
        }
    }

    /// A new node that starts at `at`: 6, then 10.
    #[inline]
    fn node(&mut self, at: usize, depth: u32) -> Step<usize> {
        if depth > MOST_DEPTH {
            return fault(6, at);
        }
        if self.nodes == MOST_NODES {
            return fault(10, at);
        }
        self.nodes += 1;
        Ok(self.nodes - 1)
    }

    #[inline]
    fn number(&mut self) -> Step<u32> {
        match decode(self.blob, self.pos) {
            Ok((value, next)) => {
                self.pos = next;
                Ok(value)
            }
            Err(code) => fault(code, self.pos),
        }
    }

    /// A number with a rule: 4 outside it.
    #[inline]
    fn ruled(&mut self, least: u32, most: u32) -> Step<u32> {
        let at = self.pos;
        let value = self.number()?;
        if value < least || value > most {
            return fault(4, at);
        }
        Ok(value)
    }

    #[inline]
    fn token(&mut self, spec_allowed: bool) -> Step<u32> {
        let at = self.pos;
        let token = self.number()?;
        match judge_token(token, self.counts, spec_allowed) {
            0 => Ok(token),
            code => fault(code, at),
        }
    }

    /// Whatever may stand in a place. Nodes with one child form a chain that is walked in a loop.
    fn item(&mut self, mut place: Place, mut depth: u32) -> Step<()> {
        let first = self.nodes;
        loop {
            let at = self.pos;
            let byte = self.code()?;
            let kind = u32::from(byte);
            let next = match byte {
                0x1F | 0x20 => place.behind_modifier(),
                0x0F => Place::TARGET,
                0x1D => Place::TYPE,
                0x10 if place.byref() => Place::TYPE,
                0x45 if place.pinned() => Place::PINNED,
                _ => {
                    let last = self.end_of_chain(byte, place, at, depth)?;
                    if self.nodes > first + 1 {
                        self.sink.close(first, last, self.nodes);
                    }
                    return Ok(());
                }
            };
            let node = self.node(at, depth)?;
            let a = match byte {
                0x1F | 0x20 => self.token(true)?,
                _ => 0,
            };
            self.sink.open(node, kind, a, 0, 1, at);
            place = next;
            depth += 1;
        }
    }

    /// A node that is no chain's link, with all its children; gives its index.
    #[inline]
    fn end_of_chain(&mut self, byte: u8, place: Place, at: usize, depth: u32) -> Step<usize> {
        let kind = u32::from(byte);
        match byte {
            0x02..=0x0E | 0x18 | 0x19 | 0x1C => self.leaf(kind, at, depth),
            0x01 if place.void() => self.leaf(kind, at, depth),
            0x16 if place.typed() => self.leaf(kind, at, depth),
            0x11 | 0x12 if place.named() => {
                let node = self.node(at, depth)?;
                let token = self.token(false)?;
                self.sink.open(node, kind, token, 0, 0, at);
                Ok(node)
            }
            0x13 | 0x1E => {
                let node = self.node(at, depth)?;
                let number = self.number()?;
                self.sink.open(node, kind, number, 0, 0, at);
                Ok(node)
            }
            0x14 => self.array(at, depth),
            0x15 => self.instance(at, depth),
            0x1B => {
                let node = self.node(at, depth)?;
                self.sink.open(node, kind, 0, 0, 1, at);
                self.method(depth + 1, false)?;
                Ok(node)
            }
            _ => fault(5, at),
        }
    }

    #[inline]
    fn leaf(&mut self, kind: u32, at: usize, depth: u32) -> Step<usize> {
        let node = self.node(at, depth)?;
        self.sink.open(node, kind, 0, 0, 0, at);
        Ok(node)
    }

    fn array(&mut self, at: usize, depth: u32) -> Step<usize> {
        let node = self.node(at, depth)?;
        self.item(Place::TYPE, depth + 1)?;
        let rank = self.ruled(1, 32)?;
        let sizes = self.ruled(0, rank)?;
        self.bounds(SIZE, sizes, depth + 1)?;
        let lows = self.ruled(0, rank)?;
        self.bounds(LOW, lows, depth + 1)?;
        self.sink
            .open(node, 0x14, rank, sizes, 1 + sizes + lows, at);
        Ok(node)
    }

    fn bounds(&mut self, kind: u32, count: u32, depth: u32) -> Step<()> {
        for _ in 0..count {
            let at = self.pos;
            let value = self.number()?;
            let node = self.node(at, depth)?;
            self.sink.open(node, kind, value, 0, 0, at);
        }
        Ok(())
    }

    fn instance(&mut self, at: usize, depth: u32) -> Step<usize> {
        let node = self.node(at, depth)?;
        let form_at = self.pos;
        let form = match self.code()? {
            form @ (0x11 | 0x12) => u32::from(form),
            _ => return fault(5, form_at),
        };
        let token = self.token(false)?;
        let count = self.ruled(1, u32::MAX)?;
        self.sink.open(node, 0x15, token, form, count, at);
        for _ in 0..count {
            self.item(Place::TYPE, depth + 1)?;
        }
        Ok(node)
    }

    /// The return, then that many parameters.
    fn signature(&mut self, params: u32, depth: u32) -> Step<()> {
        self.item(Place::RETURN, depth)?;
        for _ in 0..params {
            self.item(Place::PARAM, depth)?;
        }
        Ok(())
    }

    fn method(&mut self, depth: u32, generic_allowed: bool) -> Step<()> {
        let at = self.pos;
        let lead = self.code()?;
        let generic = match lead {
            0x00 | 0x05 | 0x20 | 0x25 | 0x60 | 0x65 => false,
            0x10 | 0x30 | 0x70 if generic_allowed => true,
            _ => return fault(5, at),
        };
        let node = self.node(at, depth)?;
        let generics = if generic { self.ruled(1, u32::MAX)? } else { 0 };
        let params = self.number()?;
        self.sink
            .open(node, METHOD, generics, lead.into(), 1 + params, at);
        self.signature(params, depth + 1)?;
        self.sink.close(node, node, self.nodes);
        Ok(())
    }

    /// The first byte of a root that has a wrapper.
    fn root(&mut self, allowed: &[u8]) -> Step<(usize, u32)> {
        let byte = self.code()?;
        if !allowed.contains(&byte) {
            return fault(5, 0);
        }
        Ok((self.node(0, 1)?, byte.into()))
    }

    fn field(&mut self) -> Step<()> {
        let (node, _) = self.root(&[0x06])?;
        self.sink.open(node, FIELD, 0, 0, 1, 0);
        self.item(Place::TYPE, 2)?;
        self.sink.close(node, node, self.nodes);
        Ok(())
    }

    fn locals(&mut self) -> Step<()> {
        let (node, _) = self.root(&[0x07])?;
        let count = self.ruled(1, u32::MAX)?;
        self.sink.open(node, LOCALS, 0, 0, count, 0);
        for _ in 0..count {
            self.item(Place::LOCAL, 2)?;
        }
        self.sink.close(node, node, self.nodes);
        Ok(())
    }

    fn property(&mut self) -> Step<()> {
        let (node, lead) = self.root(&[0x08, 0x28])?;
        let params = self.number()?;
        self.sink.open(node, PROPERTY, 0, lead, 1 + params, 0);
        self.signature(params, 2)?;
        self.sink.close(node, node, self.nodes);
        Ok(())
    }
}
