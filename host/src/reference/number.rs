// Compressed numbers: one, two or four bytes, shortest form only; and tokens.

use super::Counts;

pub const LARGEST: u32 = 0x1FFF_FFFF;

/// The number that starts at `at` and the offset behind it, or 2 or 3.
#[inline]
pub fn decode(bytes: &[u8], at: usize) -> Result<(u32, usize), u32> {
    match bytes.get(at) {
        Some(&first @ 0x00..=0x7F) => Ok((first.into(), at + 1)),
        Some(_) => decode_long(bytes, at),
        None => Err(2),
    }
}

fn decode_long(bytes: &[u8], at: usize) -> Result<(u32, usize), u32> {
    match bytes[at..] {
        [0xE0..=0xFF, ..] => Err(3),
        [first @ 0x80..=0xBF, second, ..] => {
            let value = u32::from_be_bytes([0, 0, first & 0x3F, second]);
            if value < 0x80 {
                return Err(3);
            }
            Ok((value, at + 2))
        }
        [first @ 0xC0..=0xDF, second, third, fourth, ..] => {
            let value = u32::from_be_bytes([first & 0x1F, second, third, fourth]);
            if value < 0x4000 {
                return Err(3);
            }
            Ok((value, at + 4))
        }
        _ => Err(2),
    }
}

/// How many bytes a value takes; a value above `LARGEST` has no form.
pub fn width(value: u32) -> Option<usize> {
    match value {
        0..=0x7F => Some(1),
        0x80..=0x3FFF => Some(2),
        0x4000..=LARGEST => Some(4),
        _ => None,
    }
}

/// The bytes of a value, of which the first `width` count.
pub fn encode(value: u32) -> Option<([u8; 4], usize)> {
    let [first, second, third, fourth] = value.to_be_bytes();
    match width(value)? {
        1 => Some(([fourth, 0, 0, 0], 1)),
        2 => Some(([0x80 | third, fourth, 0, 0], 2)),
        _ => Some(([0xC0 | first, second, third, fourth], 4)),
    }
}

/// 0 for a good token, 7 for its tag, 8 for its row.
#[inline]
pub fn judge_token(token: u32, counts: Counts, spec_allowed: bool) -> u32 {
    let rows = match token & 3 {
        0 => counts.type_defs,
        1 => counts.type_refs,
        2 if spec_allowed => counts.type_specs,
        _ => return 7,
    };
    match token >> 2 {
        row if row >= 1 && row <= rows => 0,
        _ => 8,
    }
}
