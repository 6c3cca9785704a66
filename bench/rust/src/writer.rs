//! The writer as one would write it in Rust without further thought, in two passes. The first reads the frames by slices that get
//! shorter, checks them and measures every container into a `Vec`, with a `HashSet` of names for each object; the second reads
//! them again and writes into the lent output.

use std::collections::HashSet;

use crate::parts::{fixed, is_bare, narrow, split};

/// A refusal's number and its place.
pub type Refused = (u32, usize);

#[derive(Default)]
struct Container {
    size: usize,
    count: usize,
    /// The ID that all share, if the container is to be uniform.
    shared: Option<u8>,
}

impl Container {
    fn id(&self, named: bool) -> u8 {
        match (named, self.shared) {
            (true, None) => 0x02,
            (true, Some(_)) => 0x03,
            (false, None) => 0x04,
            (false, Some(_)) => 0x05,
        }
    }
}

pub fn write(list: &[u8], output: &mut [u8], work: &mut [u32]) -> Result<usize, Refused> {
    work.fill(0);
    if list.len() > 65_536 {
        return Err((9, 0));
    }
    let mut measurer = Measurer { list, rest: list, containers: Vec::new() };
    match list.first() {
        None => return Err((1, 0)),
        Some(0) => return Err((7, 0)),
        Some(_) => {}
    }
    let (_, payload) = measurer.field(None, 1)?;
    if !measurer.rest.is_empty() {
        return Err((8, measurer.at()));
    }
    let containers = measurer.containers;
    if containers.len() > work.len() {
        return Err((10, 0));
    }
    let length = 1 + payload;
    if length > output.len() || length > 65_536 {
        return Err((11, 0));
    }
    for (number, container) in work.iter_mut().zip(&containers) {
        *number = container.size as u32;
    }
    Writer { rest: list, output: &mut output[..length], containers: containers.iter() }.field(Some(0), false);
    Ok(length)
}

pub fn varuint_length(value: u64) -> usize {
    (1..9).find(|length| value < 1 << (7 * length)).unwrap_or(9)
}

/// The VarUInt at the front of a part, if it is there and minimal, and what follows it.
fn varuint(part: &[u8]) -> Option<(u64, &[u8])> {
    let (value, minimal, rest) = crate::parts::varuint(part)?;
    minimal.then_some((value, rest))
}

/// The first pass.
struct Measurer<'a> {
    list: &'a [u8],
    rest: &'a [u8],
    containers: Vec<Container>,
}

impl<'a> Measurer<'a> {
    fn at(&self) -> usize {
        self.list.len() - self.rest.len()
    }

    /// A field, which is no close: its ID as encoded, and the length of its name and payload.
    fn field(&mut self, names: Option<&mut HashSet<&'a [u8]>>, depth: u32) -> Result<(u8, usize), Refused> {
        let frame = self.at();
        let (kind, rest) = self.rest.split_first().ok_or((1, frame))?;
        if depth > 32 {
            return Err((6, frame));
        }
        if !matches!(kind, 0x01 | 0x02 | 0x04 | 0x06..=0x14 | 0x1E | 0x1F) {
            return Err((2, frame));
        }
        self.rest = rest;
        let mut length = 0;
        if let Some(names) = names {
            let (number, rest) = varuint(self.rest).ok_or((2, frame))?;
            let (name, rest) = split(rest, number).ok_or((2, frame))?;
            self.rest = rest;
            if name.is_empty() {
                return Err((3, frame));
            }
            if core::str::from_utf8(name).is_err() {
                return Err((5, frame));
            }
            if !names.insert(name) {
                return Err((4, frame));
            }
            length = varuint_length(number) + name.len();
        }
        let (id, payload) = match kind {
            0x02 => self.container(true, depth)?,
            0x04 => self.container(false, depth)?,
            _ => self.leaf(*kind, frame)?,
        };
        Ok((id, length + payload))
    }

    fn container(&mut self, named: bool, depth: u32) -> Result<(u8, usize), Refused> {
        let index = self.containers.len();
        self.containers.push(Container::default());
        let mut names = HashSet::new();
        let (mut one, mut several) = (None, false);
        let (mut count, mut length) = (0, 0);
        loop {
            match self.rest.split_first() {
                None => return Err((1, self.list.len())),
                Some((0, rest)) => {
                    self.rest = rest;
                    break;
                }
                Some(_) => {}
            }
            let (id, field) = self.field(named.then_some(&mut names), depth + 1)?;
            several |= *one.get_or_insert(id) != id;
            count += 1;
            length += field;
        }
        let shared = one.filter(|id| !several && (named || !is_bare(*id)));
        let counted = if named { 0 } else { varuint_length(count as u64) };
        let size = counted + if shared.is_some() { 1 } else { count } + length;
        let container = Container { size, count, shared };
        let id = container.id(named);
        self.containers[index] = container;
        Ok((id, varuint_length(size as u64) + size))
    }

    fn leaf(&mut self, kind: u8, frame: usize) -> Result<(u8, usize), Refused> {
        let cut = (2, frame);
        let before = self.rest;
        if let Some(length) = fixed(kind) {
            let (part, rest) = split(self.rest, length).ok_or(cut)?;
            self.rest = rest;
            return Ok(match kind {
                0x0B if narrow(part).is_some() => (0x0A, 4),
                _ => (kind, part.len()),
            });
        }
        let (number, rest) = varuint(self.rest).ok_or(cut)?;
        self.rest = rest;
        if kind == 0x09 && number >= 1 << 63 {
            return Err(cut);
        }
        if !matches!(kind, 0x08 | 0x09) {
            let (part, rest) = split(self.rest, number).ok_or(cut)?;
            self.rest = rest;
            let text = match kind {
                0x07 => part,
                0x1E => varuint(part).map(|_| <&[u8]>::default()).ok_or(cut)?,
                0x1F => varuint(part).and_then(|(length, rest)| split(rest, length)).ok_or(cut)?.0,
                _ => &[],
            };
            if core::str::from_utf8(text).is_err() {
                return Err((5, frame));
            }
        }
        Ok((kind, before.len() - self.rest.len()))
    }
}

/// The second pass. The list was checked by the first, so that what is looked for is there.
struct Writer<'a, 'b> {
    rest: &'a [u8],
    output: &'b mut [u8],
    containers: std::slice::Iter<'b, Container>,
}

impl<'a> Writer<'a, '_> {
    fn put(&mut self, bytes: &[u8]) {
        let (front, rest) = std::mem::take(&mut self.output).split_at_mut(bytes.len());
        front.copy_from_slice(bytes);
        self.output = rest;
    }

    fn put_varuint(&mut self, value: u64) {
        let length = varuint_length(value);
        let mut bytes = [0; 9];
        bytes[1..].copy_from_slice(&value.to_be_bytes());
        let bytes = &mut bytes[9 - length..];
        bytes[0] |= !(0xFF_u16 >> (length - 1)) as u8;
        self.put(bytes);
    }

    fn take(&mut self, length: usize) -> &'a [u8] {
        let (part, rest) = self.rest.split_at(length);
        self.rest = rest;
        part
    }

    fn number(&mut self) -> u64 {
        let (value, rest) = varuint(self.rest).unwrap_or_default();
        self.rest = rest;
        value
    }

    /// A field: its type byte with these flags, if it has one, its name and its payload.
    fn field(&mut self, flags: Option<u8>, named: bool) {
        let kind = self.take(1)[0];
        let frame = self.rest;
        if named {
            let length = self.number();
            self.take(length as usize);
        }
        let name = &frame[..frame.len() - self.rest.len()];
        let container = match kind {
            0x02 | 0x04 => self.containers.next(),
            _ => None,
        };
        let narrow = if kind == 0x0B { narrow(&self.rest[..8]) } else { None };
        let id = match (container, narrow) {
            (Some(container), _) => container.id(kind == 0x02),
            (None, Some(_)) => 0x0A,
            (None, None) => kind,
        };
        if let Some(flags) = flags {
            self.put(&[id | flags]);
        }
        self.put(name);
        if let Some(container) = container {
            return self.contents(container, kind == 0x02);
        }
        if let Some(bytes) = narrow {
            self.take(8);
            return self.put(&bytes);
        }
        let start = self.rest;
        match fixed(kind) {
            Some(length) => drop(self.take(length as usize)),
            None => {
                let number = self.number();
                if !matches!(kind, 0x08 | 0x09) {
                    self.take(number as usize);
                }
            }
        }
        self.put(&start[..start.len() - self.rest.len()]);
    }

    fn contents(&mut self, container: &Container, named: bool) {
        self.put_varuint(container.size as u64);
        if !named {
            self.put_varuint(container.count as u64);
        }
        let flags = match container.shared {
            None => Some(if named { 0xC0 } else { 0x40 }),
            Some(id) => {
                self.put(&[if named { id | 0x80 } else { id }]);
                None
            }
        };
        for _ in 0..container.count {
            self.field(flags, named);
        }
        self.take(1);
    }
}

#[cfg(test)]
mod tests {
    use ajuqvane_tests::cases::Question;
    use ajuqvane_tests::generate::{lists, Random};
    use ajuqvane_tests::independent::write::write;

    /// What is measured does what the library does: it agrees with the independent implementation.
    #[test]
    fn agrees_with_the_independent_implementation() {
        for index in 0..20_000 {
            let mut random = Random::new(31, index);
            let list = lists::list(&mut random);
            for question in lists::questions(&mut random, &list) {
                let Question::Write { output_length, work_length, .. } = question else { continue };
                let (mut output, mut work) = (vec![7; output_length], vec![7; work_length]);
                let (mut other_output, mut other_work) = (output.clone(), work.clone());
                let answer = super::write(&list, &mut output, &mut work);
                let other = write(&list, &mut other_output, &mut other_work);
                assert_eq!(answer, other.map_err(|refusal| (refusal.number, refusal.place)), "{question}");
                assert!(output == other_output && work == other_work, "{question}");
            }
        }
    }
}
