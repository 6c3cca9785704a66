//! The program that writes a list from its standard input: target/native/write_list, a process for each question.
//!
//! The scripts say by the environment where it is: WRITE_LIST. Without it there is no program.

use std::io::Write;
use std::process::{Command, Stdio};

use crate::cases::Answer;

fn command() -> Option<Command> {
    std::env::var_os("WRITE_LIST").map(Command::new)
}

/// Whether there is a program.
pub fn is_there() -> bool {
    command().is_some()
}

/// What the program prints for an input, without its line end, which has to be there. The exit status has to be 1 for a refusal and
/// 0 for anything else. None if there is no program.
pub fn answer(input: &[u8]) -> Option<Answer> {
    let mut command = command()?;
    Some(printed(&mut command, input).unwrap_or_else(|error| Answer::Broken(format!("{command:?}: {error}"))))
}

fn printed(command: &mut Command, input: &[u8]) -> std::io::Result<Answer> {
    let mut child = command.stdin(Stdio::piped()).stdout(Stdio::piped()).stderr(Stdio::piped()).spawn()?;
    let pipe = child.stdin.take();
    // By a thread of its own, so that neither side waits for the other. A program that does not read all of its input is seen
    // by what it prints.
    let output = std::thread::scope(|scope| {
        scope.spawn(move || pipe.map(|mut pipe| pipe.write_all(input)));
        child.wait_with_output()
    })?;
    Ok(match output.stdout.split_last() {
        Some((b'\n', line))
            if output.stderr.is_empty() && output.status.code() == Some(i32::from(line.starts_with(b"refused "))) =>
        {
            Answer::Printed(String::from_utf8_lossy(line).into_owned())
        }
        _ => Answer::Broken(format!("{output:?}")),
    })
}
