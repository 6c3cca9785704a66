//! answer [--independent] FILE..: answers the questions of case files through the library, the program's through the program
//! if that is built, or all with the independent implementation, and holds the answers to the files'. Prints each line whose answer differs, with the answer given, and
//! last `answered N, skipped S, differences M`. The exit status is 1 if M is not 0, 2 if a file or a line cannot be read.

use std::collections::BTreeMap;
use std::process::ExitCode;

use ajuqvane_tests::cases::{Answers, Independent, Question};
use ajuqvane_tests::library::Library;

fn main() -> ExitCode {
    let mut files = Vec::new();
    let mut independent = false;
    for word in std::env::args().skip(1) {
        match word.as_str() {
            "--independent" => independent = true,
            _ => files.push(word),
        }
    }
    if files.is_empty() {
        eprintln!("usage: answer [--independent] FILE..");
        return ExitCode::from(2);
    }
    let answers: &dyn Answers = if independent { &Independent } else { &Library };
    let (mut answered, mut differences) = (0_u64, 0_u64);
    let mut skipped: BTreeMap<&str, u64> = BTreeMap::new();
    for file in &files {
        let text = match std::fs::read_to_string(file) {
            Ok(text) => text,
            Err(error) => {
                eprintln!("{file}: {error}");
                return ExitCode::from(2);
            }
        };
        for (index, line) in text.lines().enumerate().filter(|(_, line)| !line.is_empty()) {
            let place = index + 1;
            let Some((question_text, expected)) = line.split_once('\t') else {
                eprintln!("{file}:{place}: no tab");
                return ExitCode::from(2);
            };
            let question = match Question::parse(question_text) {
                Ok(question) => question,
                Err(wrong) => {
                    eprintln!("{file}:{place}: {wrong}");
                    return ExitCode::from(2);
                }
            };
            match answers.answer(&question) {
                None => *skipped.entry(question.kind()).or_default() += 1,
                Some(answer) => {
                    answered += 1;
                    let given = answer.to_string();
                    if given != expected {
                        differences += 1;
                        println!("{file}:{place}: {line}\tanswered: {given}");
                    }
                }
            }
        }
    }
    for (kind, count) in &skipped {
        println!("skipped {kind}: {count}, there is no such call or program");
    }
    println!("answered {answered}, skipped {}, differences {differences}", skipped.values().sum::<u64>());
    ExitCode::from(u8::from(differences != 0))
}
