//! The search for equal names in one object as the library has it, simulated in plain Rust for objects of any size: a name is one
//! number, an entry, and the entries stand in a table. If the table holds them all, they are divided by one digit of their names
//! after another, the key and then the bytes, until few are left; else those that it holds are divided first, and then the names
//! are taken in passes. What is asked of both is only whether two names are equal.

/// An entry: marks of the name's last bytes, its length and where it begins. What stands above the beginning is its key.
const BEGIN_BITS: u32 = 24;
const LENGTH_BITS: u32 = 24;
const BEGIN_MASK: u64 = (1 << BEGIN_BITS) - 1;
const LENGTH_MASK: u64 = (1 << LENGTH_BITS) - 1;
/// So many entries or fewer are compared in pairs.
const FEW: usize = 4;

/// The entry of the name from one place to another. The marks are the low four bits of each of its last four bytes.
#[inline(always)]
fn entry(part: &[u8], begin: usize, end: usize) -> u64 {
    let mut marks = 0;
    let first = begin.max(end.saturating_sub(4));
    for byte in &part[first..end] {
        marks = marks << 4 | u64::from(byte & 15);
    }
    (marks << LENGTH_BITS | (end - begin) as u64) << BEGIN_BITS | begin as u64
}

#[inline(always)]
fn key(x: u64) -> u64 {
    x >> BEGIN_BITS
}

#[inline(always)]
fn begin(x: u64) -> usize {
    (x & BEGIN_MASK) as usize
}

#[inline(always)]
fn length(x: u64) -> usize {
    (key(x) & LENGTH_MASK) as usize
}

/// Walks the names of an object's contents, of which each is a length byte and the name behind so many bytes of type.
#[inline(always)]
fn walk(part: &[u8], types: usize, mut each: impl FnMut(u64)) {
    let mut at = 0;
    while at < part.len() {
        let begin = at + types + 1;
        let end = begin + usize::from(part[at + types]);
        each(entry(part, begin, end));
        at = end;
    }
}

#[inline(always)]
fn digit(part: &[u8], x: u64, at: usize) -> u64 {
    if at == 0 {
        key(x)
    } else {
        u64::from(part[begin(x) + at - 1])
    }
}

/// Whether two of a few entries have the same name.
fn in_pairs(part: &[u8], entries: &[u64]) -> bool {
    (1..entries.len()).any(|i| entries[..i].iter().any(|&y| compare(part, entries[i], y).is_eq()))
}

/// Puts those with a digit up to a bound in front, or those above it, and says how many they are. No branch goes by an entry.
#[inline(always)]
fn split(part: &[u8], entries: &mut [u64], at: usize, bound: u64, lows: bool) -> usize {
    let mut count = 0;
    for i in 0..entries.len() {
        entries.swap(i, count);
        count += usize::from((digit(part, entries[count], at) <= bound) == lows);
    }
    count
}

/// Whether two entries have the same name. Their names are alike up to a digit.
fn are_divided(part: &[u8], mut entries: &mut [u64], mut at: usize) -> bool {
    loop {
        if entries.len() <= FEW {
            return in_pairs(part, entries);
        }
        if length(entries[0]) < at {
            return true;
        }
        let (mut low, mut high) = (u64::MAX, 0);
        for x in entries.iter() {
            let digit = digit(part, *x, at);
            (low, high) = (low.min(digit), high.max(digit));
        }
        if low == high {
            at += 1;
            continue;
        }
        let middle = low + (high - low) / 2;
        let mut count = split(part, entries, at, middle, true);
        if count < entries.len() - count {
            count = split(part, entries, at, middle, false);
        }
        let (larger, smaller) = entries.split_at_mut(count);
        if are_divided(part, smaller, at) {
            return true;
        }
        entries = larger;
    }
}

/// Whether two names of an object's contents are equal, and in how many passes that was found; none if the table holds them all.
pub fn has_twins(part: &[u8], types: usize, table: &mut [u64]) -> (bool, u32) {
    let mut count = 0;
    let mut more = false;
    walk(part, types, |x| {
        if count < table.len() {
            table[count] = x;
            count += 1;
        } else {
            more = true;
        }
    });
    if are_divided(part, &mut table[..count], 0) {
        return (true, 0);
    }
    if more {
        in_passes(part, types, table)
    } else {
        (false, 0)
    }
}

/// The order of two names: by their keys, then by their bytes.
#[inline(always)]
fn compare(part: &[u8], x: u64, y: u64) -> std::cmp::Ordering {
    key(x).cmp(&key(y)).then_with(|| {
        let (a, b, n) = (begin(x), begin(y), length(x));
        part[a..a + n].cmp(&part[b..b + n])
    })
}

#[inline(always)]
fn is_upto(part: &[u8], x: u64, y: u64) -> bool {
    compare(part, x, y).then(x.cmp(&y)).is_le()
}

/// Sorts by halves, with as much room.
fn sort(part: &[u8], entries: &mut [u64], room: &mut [u64]) {
    let n = entries.len();
    if n < 2 {
        return;
    }
    let m = n / 2;
    sort(part, &mut entries[..m], room);
    sort(part, &mut entries[m..], room);
    if is_upto(part, entries[m - 1], entries[m]) {
        return;
    }
    room[..m].copy_from_slice(&entries[..m]);
    let (mut i, mut j) = (0, m);
    while i < m {
        let x = room[i];
        if j < n && !is_upto(part, x, entries[j]) {
            entries[i + j - m] = entries[j];
            j += 1;
        } else {
            entries[i + j - m] = x;
            i += 1;
        }
    }
}

/// Sorts the first entries of a table whose other half is room, and says whether two neighbours are equal.
fn arrange(part: &[u8], table: &mut [u64], count: usize) -> bool {
    let (entries, room) = table[..2 * count].split_at_mut(count);
    sort(part, entries, room);
    entries.windows(2).any(|pair| compare(part, pair[0], pair[1]).is_eq())
}

/// The same in passes. A pass takes the least names above those of the passes before, as many as half of the table holds; if it is
/// full, it is sorted and its lower half is kept.
fn in_passes(part: &[u8], types: usize, table: &mut [u64]) -> (bool, u32) {
    let full = table.len() / 2;
    let mut low = None;
    let mut passes = 0;
    loop {
        passes += 1;
        let mut high: Option<u64> = None;
        let mut count = 0;
        let mut met = false;
        walk(part, types, |x| {
            if met
                || low.is_some_and(|low| compare(part, x, low).is_le())
                || high.is_some_and(|high| compare(part, x, high).is_gt())
            {
                return;
            }
            if count == full {
                met = arrange(part, table, count);
                count = full / 2;
                high = Some(table[count - 1]);
                if compare(part, x, table[count - 1]).is_gt() {
                    return;
                }
            }
            table[count] = x;
            count += 1;
        });
        if met || arrange(part, table, count) {
            return (true, passes);
        }
        match high {
            None => return (false, passes),
            Some(_) => low = high,
        }
    }
}

#[cfg(test)]
mod tests {
    use std::collections::HashSet;

    use ajuqvane_tests::generate::objects::{object, Value};
    use ajuqvane_tests::generate::Random;

    use super::*;

    #[test]
    fn twins_are_met_where_there_are_some() {
        let mut met = [0, 0];
        for index in 0..40_000 {
            let Value::Object(_, fields) = object(&mut Random::new(47, index)) else { continue };
            if fields.len() > 3_000 || fields.iter().any(|(name, _)| name.len() > 255) {
                continue;
            }
            let names: HashSet<&Vec<u8>> = fields.iter().map(|(name, _)| name).collect();
            let twins = names.len() < fields.len();
            met[usize::from(twins)] += 1;
            let part: Vec<u8> =
                fields.iter().flat_map(|(name, _)| [vec![name.len() as u8], name.clone()].concat()).collect();
            let mut table = vec![0; fields.len() + 4];
            for length in [4, 5, 9, 64, fields.len() + 4] {
                if length * 100 > fields.len() {
                    let length = length.min(table.len());
                    assert_eq!(has_twins(&part, 0, &mut table[..length]).0, twins, "{part:02x?}");
                }
            }
        }
        assert!(met.iter().all(|count| *count > 1_000), "{met:?}");
    }
}
