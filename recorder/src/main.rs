//! Reads rows on standard input, makes their calls on the Rust crate `headers`, and writes the rows
//! with the answers that it gives.

mod calls;
mod getters;
mod words;

use std::error::Error;
use std::io::{self, BufWriter, Write};
use std::panic;
use std::process::ExitCode;

use words::{Answer, Arguments, Failure};

/// What the crate answers to a call, or `None` if it is no call.
fn answer_of(call: &str) -> Option<String> {
    let (name, arguments) = call.split_once(' ').unwrap_or((call, ""));
    let made = panic::catch_unwind(|| {
        let mut arguments = Arguments::new(arguments);
        let mut answer = Answer::default();
        calls::call(name, &mut arguments, &mut answer)?;
        if arguments.is_empty() {
            Ok(answer.to_string())
        } else {
            Err(Failure::NoCall)
        }
    });
    match made {
        Ok(Ok(answer)) => Some(answer),
        Ok(Err(Failure::Refused)) => Some("(refused)".into()),
        Ok(Err(Failure::NoCall)) => None,
        Err(_) => Some("(panic)".into()),
    }
}

/// The row with the crate's answer. What the port has to answer otherwise is kept.
fn answered(row: &str) -> Result<String, String> {
    let (call, answers) = row.split_once(" = ").unwrap_or((row, ""));
    let answer = answer_of(call).ok_or("no such call")?;
    let Some((_, difference)) = answers.split_once(" ! ") else {
        return Ok(format!("{call} = {answer}"));
    };
    match difference.split_once(' ') {
        Some((_, wanted)) if wanted != answer => Ok(format!("{call} = {answer} ! {difference}")),
        Some(_) => Err("the crate answers as the port has to".into()),
        None => Err("a kind without an answer".into()),
    }
}

fn run() -> Result<(), Box<dyn Error>> {
    let text = io::read_to_string(io::stdin())?;
    let mut output = BufWriter::new(io::stdout().lock());
    for (index, line) in text.lines().enumerate() {
        if line.is_empty() || line.starts_with('#') {
            writeln!(output, "{line}")?;
        } else {
            let row = answered(line).map_err(|error| format!("{}: {line}: {error}", index + 1))?;
            writeln!(output, "{row}")?;
        }
    }
    Ok(output.flush()?)
}

fn main() -> ExitCode {
    // A panic is an answer.
    panic::set_hook(Box::new(|_| ()));
    match run() {
        Ok(()) => ExitCode::SUCCESS,
        Err(error) => {
            eprintln!("{error}");
            ExitCode::FAILURE
        }
    }
}
