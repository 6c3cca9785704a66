//! UTF-8 by RFC 3629, from its definition: a sequence is the encoding of a code point if it has the shape of one, stands
//! for no number that a shorter one holds, for no surrogate, and for none above 10FFFF.

/// "UTF-8 (RFC 3629)".
pub fn is_text(part: &[u8]) -> bool {
    let mut rest = part;
    while let Some(first) = rest.first() {
        let (length, start, least) = match first {
            0x00..=0x7F => (1, u32::from(*first), 0),
            0xC0..=0xDF => (2, u32::from(*first & 0x1F), 0x80),
            0xE0..=0xEF => (3, u32::from(*first & 0x0F), 0x800),
            0xF0..=0xF7 => (4, u32::from(*first & 0x07), 0x1_0000),
            _ => return false,
        };
        let Some(tail) = rest.get(1..length) else { return false };
        let mut point = start;
        for byte in tail {
            if byte & 0xC0 != 0x80 {
                return false;
            }
            point = point << 6 | u32::from(byte & 0x3F);
        }
        if point < least || (0xD800..=0xDFFF).contains(&point) || point > 0x10_FFFF {
            return false;
        }
        rest = &rest[length..];
    }
    true
}
