//! The writer, in two passes by positions. The first checks the frames and measures the containers; the lent work numbers hold
//! what the second has to know of each, so that there is no heap. The second copies a leaf's frame as it stands.

use super::is_ascii;
use super::names::{Names, Open, Table};
use crate::parts::{fixed, is_bare, narrow};
use crate::writer::{varuint_length, Refused};

/// What is known of a container, in a work number: the size, the bytes that its count takes, the ID that all share or 0.
#[derive(Clone, Copy)]
struct Container {
    size: usize,
    width: usize,
    shared: u8,
}

impl Container {
    fn packed(self) -> u32 {
        (self.size << 8 | self.width << 5) as u32 | u32::from(self.shared)
    }

    fn of(packed: u32) -> Container {
        Container { size: (packed >> 8) as usize, width: (packed >> 5 & 7) as usize, shared: (packed & 31) as u8 }
    }

    /// The ID as encoded.
    fn id(self, kind: u8) -> u8 {
        kind + u8::from(self.shared != 0)
    }
}

pub fn write(list: &[u8], output: &mut [u8], work: &mut [u32], table: &mut Table) -> Result<usize, Refused> {
    work.fill(0);
    let measured = measure(list, output.len(), work, table);
    match measured {
        Ok((kind, length)) => {
            let mut writer = Writer { list, at: 1, output: &mut output[..length], put: 0, work, containers: 0 };
            writer.field(kind, Some(0), 1);
        }
        Err(_) => work.fill(0),
    }
    measured.map(|(_, length)| length)
}

/// The first pass: the top's kind and the length of the encoding.
fn measure(list: &[u8], room: usize, work: &mut [u32], table: &mut Table) -> Result<(u8, usize), Refused> {
    if list.len() > 65_536 {
        return Err((9, 0));
    }
    let kind = match list.first() {
        None => return Err((1, 0)),
        Some(0) => return Err((7, 0)),
        Some(kind) => *kind,
    };
    let lent = work.len();
    let mut measurer = Measurer { list, at: 1, work, containers: 0, names: Names::new(table) };
    let (_, payload) = measurer.payload(kind, 0, 1)?;
    if measurer.at < list.len() {
        return Err((8, measurer.at));
    }
    if measurer.containers > lent {
        return Err((10, 0));
    }
    let length = 1 + payload;
    if length > room.min(65_536) {
        return Err((11, 0));
    }
    Ok((kind, length))
}

struct Measurer<'l, 'w, 't> {
    list: &'l [u8],
    at: usize,
    work: &'w mut [u32],
    containers: usize,
    names: Names<'t>,
}

/// What the fields of a container come to.
#[derive(Default)]
struct Contents {
    first: u8,
    several: bool,
    count: usize,
    length: usize,
}

impl Measurer<'_, '_, '_> {
    #[inline(always)]
    fn number(&mut self) -> Option<u64> {
        let (value, length) = number(self.list, self.at)?;
        self.at += length;
        Some(value)
    }

    /// A VarUInt and so many bytes behind it: where they begin; they end where reading goes on.
    #[inline(always)]
    fn sized(&mut self) -> Option<usize> {
        let size = self.number()?;
        if size > (self.list.len() - self.at) as u64 {
            return None;
        }
        let start = self.at;
        self.at += size as usize;
        Some(start)
    }

    #[inline(always)]
    fn is_text(&self, start: usize, end: usize) -> bool {
        let text = &self.list[start..end];
        is_ascii(text) || core::str::from_utf8(text).is_ok()
    }

    /// What stands in a frame behind its name: the ID and the length as encoded.
    fn payload(&mut self, kind: u8, frame: usize, depth: u32) -> Result<(u8, usize), Refused> {
        let cut = (2, frame);
        let start = self.at;
        if let Some(length) = fixed(kind) {
            let length = length as usize;
            if length > self.list.len() - start {
                return Err(cut);
            }
            self.at += length;
            return Ok(match kind {
                0x0B if narrow(&self.list[start..self.at]).is_some() => (0x0A, 4),
                _ => (kind, length),
            });
        }
        match kind {
            0x02 | 0x04 => return self.container(kind, depth),
            0x08 => drop(self.number().ok_or(cut)?),
            0x09 => drop(self.number().filter(|number| *number < 1 << 63).ok_or(cut)?),
            0x06 => drop(self.sized().ok_or(cut)?),
            0x07 => {
                let text = self.sized().ok_or(cut)?;
                if !self.is_text(text, self.at) {
                    return Err((5, frame));
                }
            }
            0x1E | 0x1F => {
                let part = self.sized().ok_or(cut)?;
                let whole = &self.list[..self.at];
                let (value, length) = number(whole, part).ok_or(cut)?;
                let name = part + length;
                if kind == 0x1F {
                    if value > (whole.len() - name) as u64 {
                        return Err(cut);
                    }
                    if !self.is_text(name, name + value as usize) {
                        return Err((5, frame));
                    }
                }
            }
            _ => return Err(cut),
        }
        Ok((kind, self.at - start))
    }

    fn container(&mut self, kind: u8, depth: u32) -> Result<(u8, usize), Refused> {
        let index = self.containers;
        self.containers += 1;
        let named = kind == 0x02;
        let mut object = self.names.open();
        let mut contents = Contents::default();
        let mut refused = self.contents(&mut object, &mut contents, named, depth).err();
        if let Some((start, length)) = self.names.close(object, self.list) {
            let frame = start - varuint_length(length as u64) - 1;
            if refused.is_none_or(|(_, place)| frame <= place) {
                refused = Some((4, frame));
            }
        }
        if let Some(refused) = refused {
            return Err(refused);
        }
        let Contents { first, several, count, length } = contents;
        let shared = if several || !named && is_bare(first) { 0 } else { first };
        let width = if named { 0 } else { varuint_length(count as u64) };
        let size = width + if shared != 0 { 1 } else { count } + length;
        let container = Container { size, width, shared };
        if let Some(number) = self.work.get_mut(index) {
            *number = container.packed();
        }
        Ok((container.id(kind), varuint_length(size as u64) + size))
    }

    fn contents(&mut self, object: &mut Open, contents: &mut Contents, named: bool, depth: u32) -> Result<(), Refused> {
        loop {
            let frame = self.at;
            let kind = *self.list.get(frame).ok_or((1, frame))?;
            self.at += 1;
            if kind == 0 {
                return Ok(());
            }
            if depth == 32 {
                return Err((6, frame));
            }
            if !matches!(kind, 0x01 | 0x02 | 0x04 | 0x06..=0x14 | 0x1E | 0x1F) {
                return Err((2, frame));
            }
            if named {
                let name = self.sized().ok_or((2, frame))?;
                let length = self.at - name;
                if length == 0 {
                    return Err((3, frame));
                }
                if !self.is_text(name, self.at) {
                    return Err((5, frame));
                }
                if self.names.note(object, self.list, name, length) {
                    return Err((4, frame));
                }
                contents.length += self.at - frame - 1;
            }
            let (id, length) = self.payload(kind, frame, depth + 1)?;
            contents.several |= contents.first != 0 && contents.first != id;
            contents.first = id;
            contents.count += 1;
            contents.length += length;
        }
    }
}

/// The VarUInt at a position, if it is there and minimal, and its length.
#[inline(always)]
fn number(list: &[u8], at: usize) -> Option<(u64, usize)> {
    let part = &list[at..];
    let first = *part.first()?;
    if first < 0x80 {
        return Some((first.into(), 1));
    }
    let (value, minimal, rest) = crate::parts::varuint(part)?;
    minimal.then_some((value, part.len() - rest.len()))
}

/// The second pass. The list was checked by the first, so that what is looked for is there.
struct Writer<'l, 'o, 'w> {
    list: &'l [u8],
    at: usize,
    output: &'o mut [u8],
    put: usize,
    work: &'w mut [u32],
    containers: usize,
}

impl Writer<'_, '_, '_> {
    fn number(&mut self) -> usize {
        let (value, length) = number(self.list, self.at).unwrap_or_default();
        self.at += length;
        value as usize
    }

    #[inline(always)]
    fn put(&mut self, bytes: &[u8]) {
        self.output[self.put..self.put + bytes.len()].copy_from_slice(bytes);
        self.put += bytes.len();
    }

    fn put_number(&mut self, value: usize, length: usize) {
        let prefix = !(0xFF_u32 >> (length - 1)) as usize & 0xFF;
        let bytes = (value | prefix << (8 * (length - 1))).to_be_bytes();
        self.put(&bytes[8 - length..]);
    }

    /// A field of which the kind was read: its type byte with these flags, if it has one, then its name from a position on, and
    /// its payload.
    fn field(&mut self, kind: u8, flags: Option<u8>, name: usize) {
        let start = self.at;
        if matches!(kind, 0x02 | 0x04) {
            let container = Container::of(self.work[self.containers]);
            self.work[self.containers] = container.size as u32;
            self.containers += 1;
            self.front(container.id(kind), flags, name);
            return self.contents(container, kind == 0x02);
        }
        match fixed(kind) {
            Some(length) => self.at += length as usize,
            None => {
                let number = self.number();
                if !matches!(kind, 0x08 | 0x09) {
                    self.at += number;
                }
            }
        }
        if kind == 0x0B {
            if let Some(bytes) = narrow(&self.list[start..self.at]) {
                let next = std::mem::replace(&mut self.at, start);
                self.front(0x0A, flags, name);
                self.at = next;
                return self.put(&bytes);
            }
        }
        self.front(kind, flags, name);
    }

    /// The type byte and what was read of the frame from a position on.
    #[inline(always)]
    fn front(&mut self, id: u8, flags: Option<u8>, from: usize) {
        if let Some(flags) = flags {
            self.output[self.put] = id | flags;
            self.put += 1;
        }
        self.put(&self.list[from..self.at]);
    }

    fn contents(&mut self, container: Container, named: bool) {
        self.put_number(container.size, varuint_length(container.size as u64));
        // The count is known after the items.
        let count_at = self.put;
        self.put += container.width;
        let flags = match container.shared {
            0 => Some(if named { 0xC0 } else { 0x40 }),
            id => {
                self.put(&[if named { id | 0x80 } else { id }]);
                None
            }
        };
        let mut count = 0;
        loop {
            let kind = self.list[self.at];
            self.at += 1;
            if kind == 0 {
                break;
            }
            let name = self.at;
            if named {
                let length = self.number();
                self.at += length;
            }
            self.field(kind, flags, name);
            count += 1;
        }
        if !named {
            let end = std::mem::replace(&mut self.put, count_at);
            self.put_number(count, container.width);
            self.put = end;
        }
    }
}

#[cfg(test)]
mod tests {
    use ajuqvane_tests::cases::Question;
    use ajuqvane_tests::generate::{lists, Random};
    use ajuqvane_tests::independent::write::write;

    /// What is measured does what the library does: it agrees with the independent implementation.
    #[test]
    fn agrees_with_the_independent_implementation() {
        let mut table = super::super::table();
        for index in 0..20_000 {
            let mut random = Random::new(37, index);
            let list = lists::list(&mut random);
            for question in lists::questions(&mut random, &list) {
                let Question::Write { output_length, work_length, .. } = question else { continue };
                let (mut output, mut work) = (vec![7; output_length], vec![7; work_length]);
                let (mut other_output, mut other_work) = (output.clone(), work.clone());
                let answer = super::write(&list, &mut output, &mut work, &mut table);
                let other = write(&list, &mut other_output, &mut other_work);
                assert_eq!(answer, other.map_err(|refusal| (refusal.number, refusal.place)), "{question}");
                assert!(output == other_output && work == other_work, "{question}");
            }
        }
    }
}
