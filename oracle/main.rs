//! Asks the crate: carries out lists of calls on it, or makes up such lists.
//!
//!     oracle run FILE              each call of the file, with the crate's answer
//!     oracle generate SEED COUNT   lists of calls, without answers
//!     oracle findings              calls that lists may not hold, and what comes of them

mod author;
mod calls;
mod desk;
mod findings;
mod generate;
mod mapping;
mod random;
mod storage;
mod store;
mod subject;
mod themes;

use std::io::Write;
use std::process::ExitCode;

use calls::Call;
use desk::Desk;
use store::Placement;

const USAGE: &str = "usage: oracle run FILE | oracle generate SEED COUNT | oracle findings";

fn main() -> ExitCode {
    let arguments: Vec<String> = std::env::args().skip(1).collect();
    let words: Vec<&str> = arguments.iter().map(String::as_str).collect();
    let printed = match words[..] {
        ["run", file] => run(file),
        ["generate", seed, count] => generated(seed, count),
        ["findings"] => Ok(findings::report()),
        _ => Err(USAGE.to_string()),
    };
    match printed.and_then(|text| write(&text)) {
        Ok(()) => ExitCode::SUCCESS,
        Err(fault) => {
            eprintln!("{fault}");
            ExitCode::FAILURE
        }
    }
}

fn write(text: &str) -> Result<(), String> {
    std::io::stdout().write_all(text.as_bytes()).map_err(|error| error.to_string())
}

fn generated(seed: &str, count: &str) -> Result<String, String> {
    let seed = seed.parse().map_err(|_| USAGE)?;
    let count = count.parse().map_err(|_| USAGE)?;
    Ok(generate::lists(seed, count))
}

/// A file may have answers already; they are not looked at.
fn run(file: &str) -> Result<String, String> {
    let text = std::fs::read_to_string(file).map_err(|error| format!("{file}: {error}"))?;
    let mut desk = Desk::new(Placement::First);
    let mut answered = String::new();
    for (number, line) in text.lines().enumerate() {
        let call = line.split(" = ").next().unwrap_or_default();
        if call.starts_with("list ") {
            drop(std::mem::replace(&mut desk, Desk::new(Placement::First)));
            answered += &format!("{call}\n");
        } else if !call.is_empty() {
            let answer = answer(&mut desk, call).map_err(|fault| format!("{file}:{}: {fault}", number + 1))?;
            answered += &format!("{call} = {answer}\n");
        }
    }
    Ok(answered)
}

fn answer(desk: &mut Desk, call: &str) -> Result<String, String> {
    let call: Call = call.parse()?;
    Ok(desk.perform(&call)?.to_string())
}
