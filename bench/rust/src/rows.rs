//! The rows: what is measured, and on which inputs.

use std::rc::Rc;

use ajuqvane_tests::independent::encode::encode;
use ajuqvane_tests::independent::places::Place;
use ajuqvane_tests::independent::write::tree_of_list;
use ajuqvane_tests::library;

use crate::harness::Row;
use crate::{careful, inputs, plain, reader};

/// 64 KiB.
const WHOLE: usize = 65_536;
/// How many inputs near its own a row of careful Rust is checked on.
const CHANGES: usize = 64;

pub fn rows() -> Vec<Row> {
    let mut rows = Vec::new();
    if library::HAS_VARUINT {
        rows.push(varuint_row());
    }
    if library::HAS_IS_TEXT {
        rows.push(text_row("UTF-8, 64 KiB of ASCII", inputs::ascii(WHOLE)));
        rows.push(text_row("UTF-8, 64 KiB of European text", inputs::european(WHOLE)));
        rows.push(text_row("UTF-8, 64 KiB of CJK", inputs::cjk(WHOLE)));
    }
    if library::HAS_FLOAT32_HOLDS {
        rows.push(float_row());
    }
    if library::HAS_VALIDATE {
        let nulls = |names| encode(&inputs::nulls(names)).bytes;
        let payloads = [
            ("manifest, 64 KiB", inputs::manifest()),
            ("16,000 Float32", inputs::floats(16_000)),
            ("10 names", inputs::names(10)),
            ("10 names, shuffled", inputs::shuffled_names(10)),
            ("400 names, 6 KiB", inputs::names(400)),
            ("400 names, 6 KiB, shuffled", inputs::shuffled_names(400)),
            ("1,000 names, 16 KiB", inputs::names(1_000)),
            ("1,000 names, 16 KiB, shuffled", inputs::shuffled_names(1_000)),
            ("2,000 names, 32 KiB", inputs::names(2_000)),
            ("4,000 names, 64 KiB", inputs::names(4_000)),
            ("4,000 names, 64 KiB, shuffled", inputs::shuffled_names(4_000)),
            ("most names, 16 KiB", inputs::most_names(WHOLE / 4)),
            ("most names, 32 KiB", inputs::most_names(WHOLE / 2)),
            ("most names, 64 KiB", inputs::most_names(WHOLE)),
            ("names of 3 bytes, 64 KiB", nulls(inputs::short_names(WHOLE, 1))),
            ("names of 3 bytes, 16 KiB, shuffled", nulls(inputs::shuffled_short_names(WHOLE / 4, 1))),
            ("names of 3 bytes, 32 KiB, shuffled", nulls(inputs::shuffled_short_names(WHOLE / 2, 1))),
            ("names of 3 bytes, 64 KiB, shuffled", nulls(inputs::shuffled_short_names(WHOLE, 1))),
            ("the same last 8 bytes, 64 KiB, shuffled", nulls(inputs::same_ends(WHOLE, 1))),
            ("the same first 60 bytes, 64 KiB, shuffled", nulls(inputs::same_fronts(WHOLE, 1))),
            ("depth 32, 64 KiB", inputs::deep()),
        ];
        for (name, payload) in payloads {
            let payload: Rc<[u8]> = payload.into();
            for modes in [0, 7] {
                rows.push(validate_row(name, modes, payload.clone()));
            }
            if name.starts_with("manifest") {
                rows.push(yardstick_row(name, payload));
            }
        }
    }
    if library::HAS_PLACES {
        rows.push(walk_row("manifest, 64 KiB", inputs::manifest()));
        for (text, count) in [("10", 10), ("400", 400), ("4,000", 4_000)] {
            rows.push(lookup_row(text, count));
        }
        rows.push(floats_row());
    }
    if library::HAS_WRITE {
        let lists = [
            ("manifest, 64 KiB", inputs::manifest_list()),
            ("20,000 integers in an array", inputs::integer_list(20_000)),
            ("depth 32, 64 KiB", inputs::deep_list()),
            ("10 names", inputs::name_list(10)),
            ("10 names, shuffled", inputs::shuffled_name_list(10)),
            ("400 names, 6 KiB", inputs::name_list(400)),
            ("400 names, 6 KiB, shuffled", inputs::shuffled_name_list(400)),
            ("1,000 names, 16 KiB", inputs::name_list(1_000)),
            ("1,000 names, 16 KiB, shuffled", inputs::shuffled_name_list(1_000)),
            ("2,000 names, 32 KiB", inputs::name_list(2_000)),
            ("4,000 names, 64 KiB", inputs::name_list(4_000)),
            ("4,000 names, 64 KiB, shuffled", inputs::shuffled_name_list(4_000)),
            ("names of 3 bytes, 64 KiB", inputs::null_list(inputs::short_names(WHOLE, 2))),
            ("names of 3 bytes, 16 KiB, shuffled", inputs::null_list(inputs::shuffled_short_names(WHOLE / 4, 2))),
            ("names of 3 bytes, 32 KiB, shuffled", inputs::null_list(inputs::shuffled_short_names(WHOLE / 2, 2))),
            ("names of 3 bytes, 64 KiB, shuffled", inputs::null_list(inputs::shuffled_short_names(WHOLE, 2))),
            ("the same last 8 bytes, 64 KiB, shuffled", inputs::null_list(inputs::same_ends(WHOLE, 2))),
            ("the same first 60 bytes, 64 KiB, shuffled", inputs::null_list(inputs::same_fronts(WHOLE, 2))),
        ];
        rows.extend(lists.map(|(name, list)| write_row(name, list)));
    }
    rows
}

fn varuint_row() -> Row {
    let (bytes, starts) = inputs::varuints(10_000);
    let (bytes, starts): (Rc<[u8]>, Rc<[usize]>) = (bytes.into(), starts.into());
    let (our_bytes, our_starts) = (bytes.clone(), starts.clone());
    Row {
        name: "VarUInt, 10,000 of every length".to_string(),
        ours: Box::new(move || {
            let mut answer = [0; 3];
            our_starts.iter().fold(0, |sum, start| {
                library::varuint(&our_bytes[*start..], &mut answer);
                sum.wrapping_add(answer[0] ^ answer[1] ^ answer[2])
            })
        }),
        rust: Box::new(move || {
            starts.iter().fold(0, |sum, start| {
                let answer = plain::varuint(&bytes[*start..]).unwrap_or_default();
                sum.wrapping_add(answer.0 ^ answer.1 as u64 ^ u64::from(answer.2))
            })
        }),
        careful: None,
        same: true,
    }
}

fn text_row(name: &str, text: Vec<u8>) -> Row {
    let text: Rc<[u8]> = text.into();
    let our_text = text.clone();
    Row {
        name: name.to_string(),
        ours: Box::new(move || library::is_text(&our_text).unwrap_or(2).into()),
        rust: Box::new(move || plain::is_text(&text).into()),
        careful: None,
        same: true,
    }
}

fn float_row() -> Row {
    let patterns: Rc<[u64]> = inputs::patterns(10_000).into();
    let our_patterns = patterns.clone();
    Row {
        name: "Float rule, 10,000 patterns".to_string(),
        ours: Box::new(move || our_patterns.iter().map(|p| u64::from(library::float32_holds(*p).unwrap_or(2))).sum()),
        rust: Box::new(move || patterns.iter().map(|p| u64::from(plain::float32_holds(*p))).sum()),
        careful: None,
        same: true,
    }
}

/// A payload or list with one byte changed, at some places from front to back.
fn changed(bytes: &[u8]) -> impl Iterator<Item = Vec<u8>> + '_ {
    (0..CHANGES).map(|change| {
        let mut other = bytes.to_vec();
        other[bytes.len() * change / CHANGES] ^= 1 << (change % 8);
        other
    })
}

/// The straightforward and the careful validator agree on a payload with all modes, and strictly on some that are near it.
fn check_careful_validate(payload: &[u8], table: &mut careful::Table) -> bool {
    let mut agree = |modes, payload: &[u8]| plain::validate(modes, payload) == careful::validate(modes, payload, table);
    (0..8).all(|modes| agree(modes, payload)) && changed(payload).all(|other| agree(7, &other))
}

fn validate_row(name: &str, modes: u32, payload: Rc<[u8]>) -> Row {
    let (our_payload, careful_payload) = (payload.clone(), payload.clone());
    let mut table = careful::table();
    assert!(check_careful_validate(&payload, &mut table), "validate: {name}: the careful Rust answers otherwise");
    Row {
        name: format!("validate, modes {modes}: {name}"),
        ours: Box::new(move || library::validate(modes, &our_payload).unwrap_or(u32::MAX).into()),
        rust: Box::new(move || plain::validate(modes, &payload).into()),
        careful: Some(Box::new(move || careful::validate(modes, &careful_payload, &mut table).into())),
        same: true,
    }
}

/// The validator beside the time to sum the bytes.
fn yardstick_row(name: &str, payload: Rc<[u8]>) -> Row {
    let our_payload = payload.clone();
    Row {
        name: format!("validate, modes 0 : sum of the bytes: {name}"),
        ours: Box::new(move || library::validate(0, &our_payload).unwrap_or(u32::MAX).into()),
        rust: Box::new(move || plain::sum(&payload)),
        careful: None,
        same: false,
    }
}

/// What a place and a name say, so that a walk's number depends on every field.
fn mixed(sum: u64, kind: u64, start: u64, end: u64, depth: u64, name: u64) -> u64 {
    sum.rotate_left(5) ^ kind ^ start << 8 ^ end << 24 ^ depth << 40 ^ name << 46
}

/// A place as the library's calls answer it.
fn place_of(answer: &[u64]) -> Place {
    Place { kind: answer[0] as u8, start: answer[1], end: answer[2], depth: answer[3] as u32 }
}

/// Every field of every container, by the library's steps.
fn our_walk(payload: &[u8], place: Place, mut sum: u64) -> u64 {
    let mut answer = [0; 5];
    let (mut some, mut last) = (0, 0);
    while library::step(payload, place, some, last, &mut answer) == Some(0) {
        let field = place_of(&answer);
        sum = mixed(sum, answer[0], answer[1], answer[2], answer[3], answer[4]);
        if matches!(field.kind, 0x02..=0x05) {
            sum = our_walk(payload, field, sum);
        }
        (some, last) = (1, field.end);
    }
    sum
}

/// The same by the straightforward steps.
fn rust_walk(payload: &[u8], place: reader::Place, mut sum: u64) -> u64 {
    let mut last = None;
    while let Ok((field, name)) = plain::step(payload, place, last) {
        sum = mixed(sum, field.kind.into(), field.start as u64, field.end as u64, field.depth.into(), name as u64);
        if matches!(field.kind, 0x02..=0x05) {
            sum = rust_walk(payload, field, sum);
        }
        last = Some(field.end);
    }
    sum
}

fn walk_row(name: &str, payload: Vec<u8>) -> Row {
    let payload: Rc<[u8]> = payload.into();
    let our_payload = payload.clone();
    Row {
        name: format!("walk by steps: {name}"),
        ours: Box::new(move || {
            let mut answer = [0; 4];
            match library::top(&our_payload, &mut answer) {
                Some(0) => our_walk(&our_payload, place_of(&answer), 0),
                _ => u64::MAX,
            }
        }),
        rust: Box::new(move || plain::top(&payload).map_or(u64::MAX - 1, |top| rust_walk(&payload, top, 0))),
        careful: None,
        same: true,
    }
}

/// Lookup of the last of so many names.
fn lookup_row(text: &str, count: usize) -> Row {
    let payload: Rc<[u8]> = inputs::names(count).into();
    let name: Rc<[u8]> = inputs::measure_name(count - 1).into();
    let (our_payload, our_name) = (payload.clone(), name.clone());
    let mut answer = [0; 4];
    library::top(&payload, &mut answer);
    let our_top = place_of(&answer);
    let top = reader::Place {
        kind: our_top.kind,
        start: our_top.start as usize,
        end: our_top.end as usize,
        depth: our_top.depth,
    };
    Row {
        name: format!("lookup, the last of {text} names"),
        ours: Box::new(move || {
            let mut answer = [0; 4];
            match library::lookup(&our_payload, our_top, &our_name, &mut answer) {
                Some(0) => mixed(0, answer[0], answer[1], answer[2], answer[3], 0),
                _ => u64::MAX,
            }
        }),
        rust: Box::new(move || {
            plain::lookup(&payload, top, &name).map_or(u64::MAX - 1, |field| {
                mixed(0, field.kind.into(), field.start as u64, field.end as u64, field.depth.into(), 0)
            })
        }),
        careful: None,
        same: true,
    }
}

/// Every Float32 of an array, each by a step and read as a double.
fn floats_row() -> Row {
    let payload: Rc<[u8]> = inputs::floats(16_000).into();
    let our_payload = payload.clone();
    Row {
        name: "step and double: 16,000 Float32".to_string(),
        ours: Box::new(move || {
            let (mut answer, mut bits) = ([0; 5], [0; 1]);
            if library::top(&our_payload, &mut answer) != Some(0) {
                return u64::MAX;
            }
            let top = place_of(&answer);
            let (mut sum, mut some, mut last) = (0_u64, 0, 0);
            while library::step(&our_payload, top, some, last, &mut answer) == Some(0) {
                let field = place_of(&answer);
                if library::double(&our_payload, field, &mut bits) == Some(0) {
                    sum = sum.rotate_left(5) ^ bits[0];
                }
                (some, last) = (1, field.end);
            }
            sum
        }),
        rust: Box::new(move || {
            let Ok(top) = plain::top(&payload) else { return u64::MAX - 1 };
            let (mut sum, mut last) = (0_u64, None);
            while let Ok((field, _)) = plain::step(&payload, top, last) {
                if let Ok(bits) = plain::double(&payload, field) {
                    sum = sum.rotate_left(5) ^ bits;
                }
                last = Some(field.end);
            }
            sum
        }),
        careful: None,
        same: true,
    }
}

/// What a write's row says of its output: the length, the last byte and the first work number.
fn mixed_write(length: usize, output: &[u8], work: &[u32]) -> u64 {
    let last = length.checked_sub(1).and_then(|last| output.get(last)).copied().unwrap_or(0);
    (length as u64) << 40 ^ u64::from(last) << 32 ^ u64::from(work.first().copied().unwrap_or(0))
}

/// The straightforward and the careful writer agree on a list.
fn check_careful_write(list: &[u8], containers: usize, table: &mut careful::Table) -> bool {
    let (mut output, mut work) = (vec![7; WHOLE], vec![7; containers]);
    let (mut other_output, mut other_work) = (output.clone(), work.clone());
    let answer = plain::write(list, &mut output, &mut work);
    let other = careful::write(list, &mut other_output, &mut other_work, table);
    answer == other && output == other_output && work == other_work
}

/// The encoding of a list, with 64 KiB of output and as many work numbers as there are containers; each side has its own.
fn write_row(name: &str, list: Vec<u8>) -> Row {
    let list: Rc<[u8]> = list.into();
    let (our_list, careful_list) = (list.clone(), list.clone());
    let containers = tree_of_list(&list).map_or(0, |tree| encode(&tree).sizes.len());
    let (mut our_output, mut our_work) = (vec![0; WHOLE], vec![0; containers]);
    let (mut output, mut work) = (our_output.clone(), our_work.clone());
    let (mut careful_output, mut careful_work, mut table) = (output.clone(), work.clone(), careful::table());
    let mut answer = [0; 1];
    let ours = library::write(&list, &mut our_output, &mut our_work, &mut answer);
    let rust = plain::write(&list, &mut output, &mut work);
    let same = ours == Some(0) && rust == Ok(answer[0] as usize) && our_output == output && our_work == work;
    assert!(same, "write: {name}: {ours:?} {answer:?}, Rust {rust:?}");
    let mut agree = |list: &[u8]| check_careful_write(list, containers, &mut table);
    let same = agree(&list) && changed(&list).all(|other| agree(&other));
    assert!(same, "write: {name}: the careful Rust answers otherwise");
    Row {
        name: format!("write: {name}"),
        ours: Box::new(move || {
            let mut answer = [0; 1];
            match library::write(&our_list, &mut our_output, &mut our_work, &mut answer) {
                Some(0) => mixed_write(answer[0] as usize, &our_output, &our_work),
                _ => u64::MAX,
            }
        }),
        rust: Box::new(move || match plain::write(&list, &mut output, &mut work) {
            Ok(length) => mixed_write(length, &output, &work),
            Err(_) => u64::MAX - 1,
        }),
        careful: Some(Box::new(move || {
            match careful::write(&careful_list, &mut careful_output, &mut careful_work, &mut table) {
                Ok(length) => mixed_write(length, &careful_output, &careful_work),
                Err(_) => u64::MAX - 1,
            }
        })),
        same: true,
    }
}
