//! From the bytes of a line to its call.

use super::LONGEST_LINE;

/// A well-formed line.
#[derive(Clone, Copy, Debug, PartialEq, Eq)]
pub(super) enum Line {
    Configure { offset: u8, value: u8 },
    Get { offset: u8 },
    Write { address: u32, bytes: Bytes },
    Read { address: u32, count: u8 },
    Flip { address: u32, bit: u8 },
    Scrub { address: u32 },
}

/// One to eight bytes of a w line.
#[derive(Clone, Copy, Debug, PartialEq, Eq)]
pub(super) struct Bytes {
    bytes: [u8; 8],
    count: usize,
}

impl Bytes {
    pub(super) fn as_slice(&self) -> &[u8] {
        &self.bytes[..self.count]
    }
}

/// LINE-2: the fields of a line, or nothing if it is malformed. Inlined by name
/// in its one caller, which is in another file.
#[inline]
pub(super) fn parse(line: &[u8]) -> Option<Line> {
    if line.len() > LONGEST_LINE {
        return None;
    }
    let mut fields = line.split(|&byte| byte == b',');
    let letter = fields.next()?;
    let parsed = match letter {
        b"c" => Line::Configure {
            offset: hex_byte(fields.next()?)?,
            value: hex_byte(fields.next()?)?,
        },
        b"g" => Line::Get {
            offset: hex_byte(fields.next()?)?,
        },
        b"w" => Line::Write {
            address: hex_address(fields.next()?)?,
            bytes: hex_bytes(fields.next()?)?,
        },
        b"r" => Line::Read {
            address: hex_address(fields.next()?)?,
            count: decimal(fields.next()?)?,
        },
        b"f" => Line::Flip {
            address: hex_address(fields.next()?)?,
            bit: decimal(fields.next()?)?,
        },
        b"s" => Line::Scrub {
            address: hex_address(fields.next()?)?,
        },
        _ => return None,
    };
    fields.next().is_none().then_some(parsed)
}

/// Hexadecimal digits are lower case.
fn hex_digit(digit: u8) -> Option<u8> {
    match digit {
        b'0'..=b'9' => Some(digit - b'0'),
        b'a'..=b'f' => Some(digit - b'a' + 10),
        _ => None,
    }
}

/// LINE-3: two hexadecimal digits.
fn hex_byte(field: &[u8]) -> Option<u8> {
    let &[high, low] = field else {
        return None;
    };
    Some(hex_digit(high)? << 4 | hex_digit(low)?)
}

/// LINE-7: an address.
fn hex_address(field: &[u8]) -> Option<u32> {
    if field.len() != 8 {
        return None;
    }
    field.iter().try_fold(0, |address, &digit| {
        Some(address << 4 | u32::from(hex_digit(digit)?))
    })
}

/// LINE-4: the bytes of a write.
fn hex_bytes(field: &[u8]) -> Option<Bytes> {
    if !matches!(field.len(), 2 | 4 | 6 | 8 | 10 | 12 | 14 | 16) {
        return None;
    }
    let mut bytes = [0; 8];
    for (byte, digits) in bytes.iter_mut().zip(field.chunks_exact(2)) {
        *byte = hex_byte(digits)?;
    }
    Some(Bytes {
        bytes,
        count: field.len() / 2,
    })
}

/// LINE-8: a count or a bit.
fn decimal(field: &[u8]) -> Option<u8> {
    match *field {
        [digit @ b'0'..=b'9'] => Some(digit - b'0'),
        [tens @ b'1'..=b'9', units @ b'0'..=b'9'] => Some((tens - b'0') * 10 + (units - b'0')),
        _ => None,
    }
}
