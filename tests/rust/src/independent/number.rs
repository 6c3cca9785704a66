//! "Numbers and the VarUInt": reading, the minimal form, longer forms, and fixed-width big-endian numbers.

/// A VarUInt as it stands at the front of some bytes.
#[derive(Clone, Copy, Debug, PartialEq, Eq)]
pub struct VarUInt {
    pub value: u64,
    /// The bytes that it takes, 1 to 9.
    pub taken: usize,
    /// "It is minimal if no shorter form holds the value."
    pub minimal: bool,
}

/// "A VarUInt takes one byte more than the number of leading one bits in the first byte, so 1 to 9. The value is the rest
/// of the first byte followed by the others, big-endian." If the bytes end before it does, document 02, M-107: "how many of
/// the bytes its first byte calls for are still missing (one for an empty rest)".
pub fn read_varuint(part: &[u8]) -> Result<VarUInt, usize> {
    let Some(first) = part.first() else { return Err(1) };
    let others = first.leading_ones() as usize;
    let taken = others + 1;
    let Some(rest) = part.get(1..taken) else { return Err(taken - part.len()) };
    // The bits after the leading ones; the zero that ends them adds nothing.
    let mut value = if others >= 8 { 0 } else { u64::from(*first) & ((1 << (8 - others)) - 1) };
    for byte in rest {
        value = value << 8 | u64::from(*byte);
    }
    Ok(VarUInt { value, taken, minimal: taken == minimal_length(value) })
}

/// What the library's call has to answer, and the numbers at the front of those that it is lent, if they are three or more.
pub fn varuint_in_numbers(part: &[u8]) -> (u32, Vec<u64>) {
    match read_varuint(part) {
        Ok(number) => (0, vec![number.value, number.taken as u64, u64::from(number.minimal)]),
        Err(missing) => (1, vec![missing as u64]),
    }
}

/// "The bound for n bytes, n from 1 to 8, is 2^(7n) - 1; nine bytes reach 2^64 - 1."
pub fn minimal_length(value: u64) -> usize {
    (1..=8).find(|n| value < 1 << (7 * n)).unwrap_or(9)
}

/// The value in its minimal form.
pub fn push_varuint(output: &mut Vec<u8>, value: u64) {
    push_varuint_of_length(output, value, minimal_length(value));
}

/// The value in so many bytes, or in the minimal form if they do not hold it.
pub fn push_varuint_of_length(output: &mut Vec<u8>, value: u64, length: usize) {
    let length = length.clamp(minimal_length(value), 9);
    let ones = length - 1;
    let prefix = if ones >= 8 { 0xFF } else { !(0xFF_u8 >> ones) };
    let bytes = value.to_be_bytes();
    if ones >= 8 {
        output.push(prefix);
        output.extend_from_slice(&bytes);
    } else {
        output.push(prefix | bytes[7 - ones]);
        output.extend_from_slice(&bytes[8 - ones..]);
    }
}

/// "Fixed-width numbers are big-endian." None if the part has more than 8 bytes.
pub fn read_big_endian(part: &[u8]) -> Option<u64> {
    if part.len() > 8 {
        return None;
    }
    Some(part.iter().fold(0, |value, byte| value << 8 | u64::from(*byte)))
}
