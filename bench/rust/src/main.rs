//! bench [--tsv] [WORD..]: measures the library beside straightforward Rust and, where there is one, careful Rust, each row on
//! the same input in the same run, and prints a table, or with --tsv a line
//! `ROW<tab>OURS_NS<tab>RUST_NS<tab>RATIO<tab>CAREFUL_NS<tab>RATIO` for each row; where there is no careful Rust, the last two
//! are `-`. A row is there if the library has its call and, where words are given, its name has one of them. The exit status is
//! 1 if the sides of a row do not answer the same, 2 if there is no row.

mod careful;
mod harness;
mod inputs;
mod parts;
mod plain;
mod reader;
mod rows;
mod validator;
mod writer;

use std::process::ExitCode;

use harness::{measure, Measured};

fn main() -> ExitCode {
    let mut tsv = false;
    let mut words = Vec::new();
    for word in std::env::args().skip(1) {
        match word.as_str() {
            "--tsv" => tsv = true,
            _ => words.push(word),
        }
    }
    let mut rows = rows::rows();
    rows.retain(|row| words.is_empty() || words.iter().any(|word| row.name.contains(word.as_str())));
    if rows.is_empty() {
        eprintln!("there is no row to measure");
        return ExitCode::from(2);
    }
    if !tsv {
        let titles = ["this library", "plain Rust", "ratio", "careful Rust", "ratio"];
        println!(
            "{:<60} {:>13} {:>12} {:>8} {:>13} {:>8}",
            "row (medians, ns)", titles[0], titles[1], titles[2], titles[3], titles[4]
        );
    }
    let mut wrong = false;
    for row in rows {
        match measure(row) {
            Ok(measured) => print(&measured, tsv),
            Err(difference) => {
                eprintln!("{difference}");
                wrong = true;
            }
        }
    }
    ExitCode::from(u8::from(wrong))
}

fn print(row: &Measured, tsv: bool) {
    let (ours, rust, ratio) = (format!("{:.0}", row.ours), format!("{:.0}", row.rust), row.ours / row.rust);
    let (careful, careful_ratio) = match row.careful {
        Some(careful) => (format!("{careful:.0}"), Some(row.ours / careful)),
        None => ("-".to_string(), None),
    };
    if tsv {
        let careful_ratio = careful_ratio.map_or("-".to_string(), |ratio| format!("{ratio:.3}"));
        println!("{}\t{ours}\t{rust}\t{ratio:.3}\t{careful}\t{careful_ratio}", row.name);
    } else {
        let careful_ratio = careful_ratio.map_or("-".to_string(), |ratio| format!("{ratio:.2}"));
        println!("{:<60} {ours:>13} {rust:>12} {ratio:>8.2} {careful:>13} {careful_ratio:>8}", row.name);
    }
}
