//! The names of the objects that are open, in a table that the caller lends once. It is used as a stack: an object notes its
//! names behind those of the objects around it, and at its end they are taken off again.
//!
//! A name is compared with the one before it as long as they ascend; else with all before it while they are few; of more
//! names the table's part is sorted when the object ends.

use std::cmp::Ordering;

/// Up to so many names each new one is compared with all before it.
const FEW: usize = 16;
/// No more names can be noted at once: one that is not empty takes two bytes, and there are 65,536.
const NAMES: usize = 32_768;

/// A name: its first 8 bytes as a number, with zeros behind a shorter one, and where it stands.
#[derive(Clone, Copy, Default)]
pub struct Name {
    front: u64,
    start: u32,
    length: u32,
}

/// 512 KiB, which the caller has.
pub type Table = [Name; NAMES];

/// A table for the calls, made once.
pub fn table() -> Box<Table> {
    vec![Name::default(); NAMES].into_boxed_slice().try_into().unwrap_or_else(|_| unreachable!())
}

impl Name {
    #[inline(always)]
    fn new(bytes: &[u8], start: usize, length: usize) -> Name {
        let mut front = [0; 8];
        match bytes.get(start..start + 8) {
            Some(eight) => front.copy_from_slice(eight),
            None => front[..bytes.len() - start].copy_from_slice(&bytes[start..]),
        }
        let unused = 64 - 8 * length.clamp(1, 8);
        Name { front: u64::from_be_bytes(front) >> unused << unused, start: start as u32, length: length as u32 }
    }

    fn of<'a>(&self, bytes: &'a [u8]) -> &'a [u8] {
        &bytes[self.start as usize..][..self.length as usize]
    }

    #[inline(always)]
    fn is_equal(&self, other: &Name, bytes: &[u8]) -> bool {
        self.front == other.front
            && self.length == other.length
            && (self.length <= 8 || self.of(bytes) == other.of(bytes))
    }

    #[inline(always)]
    fn compare(&self, other: &Name, bytes: &[u8]) -> Ordering {
        self.front.cmp(&other.front).then_with(|| match self.length.max(other.length) {
            0..=8 => self.length.cmp(&other.length),
            _ => self.of(bytes).cmp(other.of(bytes)),
        })
    }
}

/// The names that are noted.
pub struct Names<'t> {
    table: &'t mut Table,
    count: usize,
}

/// An object whose names are noted.
pub struct Open {
    first: usize,
    ascend: bool,
    compared: bool,
}

impl<'t> Names<'t> {
    pub fn new(table: &'t mut Table) -> Names<'t> {
        Names { table, count: 0 }
    }

    pub fn open(&self) -> Open {
        Open { first: self.count, ascend: true, compared: true }
    }

    /// Notes a name that is not empty. True if it is already known to be that of an earlier field.
    #[inline(always)]
    pub fn note(&mut self, object: &mut Open, bytes: &[u8], start: usize, length: usize) -> bool {
        let name = Name::new(bytes, start, length);
        let others = &self.table[object.first..self.count];
        if object.ascend {
            match others.last().map_or(Ordering::Less, |last| last.compare(&name, bytes)) {
                Ordering::Less => {}
                Ordering::Equal => return true,
                Ordering::Greater => object.ascend = false,
            }
        }
        if !object.ascend {
            if others.len() >= FEW {
                object.compared = false;
            } else if others.iter().fold(false, |met, other| met | (other.front == name.front))
                && others.iter().any(|other| other.is_equal(&name, bytes))
            {
                return true;
            }
        }
        let entry = &mut self.table[self.count];
        entry.front = name.front;
        entry.start = name.start;
        entry.length = name.length;
        self.count += 1;
        false
    }

    /// Takes an object's names off. If one of them is that of an earlier field, where the first such stands and how long it is.
    pub fn close(&mut self, object: Open, bytes: &[u8]) -> Option<(usize, usize)> {
        let names = &mut self.table[object.first..self.count];
        self.count = object.first;
        if object.compared {
            return None;
        }
        names.sort_unstable_by(|a, b| a.compare(b, bytes).then(a.start.cmp(&b.start)));
        let twins = names.windows(2).filter(|pair| pair[0].is_equal(&pair[1], bytes)).map(|pair| pair[1]);
        twins.min_by_key(|name| name.start).map(|name| (name.start as usize, name.length as usize))
    }
}

#[cfg(test)]
mod tests {
    use ajuqvane_tests::generate::Random;

    use super::super::{table, validator, writer};

    /// An object of names that are few or many, in order or not, some of them equal, some only up to their last byte.
    fn names(random: &mut Random) -> Vec<Vec<u8>> {
        let longest = *random.pick(&[3, 9, 20]);
        let front = vec![b'f'; random.below(longest)];
        let count = random.below(48);
        let mut names: Vec<Vec<u8>> = (0..count)
            .map(|_| {
                let end = (0..random.between(1, 6)).map(|_| b'a' + random.below(4) as u8);
                front.iter().copied().chain(end).collect()
            })
            .collect();
        match random.below(4) {
            0 => names.sort(),
            1 => {
                names.sort();
                names.dedup();
                let again = random.below(names.len().max(1));
                names.extend(names.get(again).cloned());
            }
            _ => {}
        }
        names
    }

    #[test]
    fn many_names_as_by_the_straightforward_versions() {
        let mut table = table();
        for index in 0..100_000 {
            let names = names(&mut Random::new(41, index));
            let contents: usize = names.iter().map(|name| 2 + name.len()).sum();
            let mut payload = vec![0x02, 0xC0 | (contents >> 16) as u8, (contents >> 8) as u8, contents as u8];
            let mut list = vec![0x02];
            for name in &names {
                payload.extend([0xC1, name.len() as u8]);
                payload.extend(name);
                list.extend([0x01, name.len() as u8]);
                list.extend(name);
            }
            list.push(0);
            let mask = crate::validator::validate(1, &payload);
            assert_eq!(validator::validate(1, &payload, &mut table), mask, "{payload:02x?}");
            check_list(&list, &mut table);
        }
    }

    fn check_list(list: &[u8], table: &mut super::Table) {
        let (mut output, mut work) = (vec![7; 8_192], vec![7; 64]);
        let (mut other_output, mut other_work) = (output.clone(), work.clone());
        let answer = writer::write(list, &mut output, &mut work, table);
        let other = crate::writer::write(list, &mut other_output, &mut other_work);
        assert_eq!(answer, other, "{list:02x?}");
        assert!(output == other_output && work == other_work, "{list:02x?}");
    }

    /// The frames of such an object, some of them such objects, here and there one that is cut.
    fn push_frames(random: &mut Random, list: &mut Vec<u8>, depth: u32) {
        for name in names(random) {
            let kind = if depth < 3 && random.per_mille(40) { 0x02 } else { *random.pick(&[0x01, 0x0C, 0x0D]) };
            let bad = random.per_mille(2);
            list.extend([if bad { 0x09 } else { kind }, name.len() as u8]);
            list.extend(name);
            match (bad, kind) {
                (true, _) => list.push(0xFF),
                (false, 0x02) => push_frames(random, list, depth + 1),
                (false, _) => {}
            }
        }
        list.push(0);
    }

    #[test]
    fn the_first_refusal_of_objects_in_objects() {
        let mut table = table();
        for index in 0..100_000 {
            let mut list = vec![0x02];
            push_frames(&mut Random::new(43, index), &mut list, 0);
            check_list(&list, &mut table);
        }
    }
}
