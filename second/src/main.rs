//! The second implementation, run against the first.

mod cases;
mod exhaustive;
mod frame;
mod generate;
mod listing;
mod message;
mod operations;
mod plug;
mod random;
mod rows;
mod samples;
mod sheet;
mod tally;
mod text;
mod tracker;
mod trials;
mod unit;

use std::fs::{self, File};
use std::io::{self, BufReader, BufWriter, Read, Write};
use std::process::ExitCode;

use tally::Kind;

const USE: &str = "use: second operations | listing | trials | rows | generate SEED COUNT OPS \
| exhaustive OPS | runs SEED COUNT OPS | plug SEED COUNT RUNS OUTPUT OPS EXPECTED";

fn main() -> ExitCode {
    let arguments: Vec<String> = std::env::args_os()
        .skip(1)
        .map(|argument| argument.to_string_lossy().into_owned())
        .collect();
    let arguments: Vec<&str> = arguments.iter().map(String::as_str).collect();
    match run(&arguments) {
        Ok(code) => code,
        Err(wrong) => {
            eprintln!("second: {wrong}");
            ExitCode::from(2)
        }
    }
}

fn run(arguments: &[&str]) -> Result<ExitCode, String> {
    match *arguments {
        ["operations"] => operations(),
        ["listing"] => listing(),
        ["trials"] => trials(),
        ["rows"] => {
            print(&rows::table())?;
            Ok(ExitCode::SUCCESS)
        }
        ["generate", seed, count, ops] => generate(number(seed)?, count_of(count)?, ops),
        ["exhaustive", ops] => {
            exhaustive::exhaustive(create(ops)?).map_err(|error| format!("{ops}: {error}"))?;
            Ok(ExitCode::SUCCESS)
        }
        ["runs", seed, count, ops] => {
            save(ops, &plug::runs(number(seed)?, count_of(count)?))?;
            Ok(ExitCode::SUCCESS)
        }
        ["plug", seed, count, runs, output, ops, expected] => {
            let found = plug::plug(
                number(seed)?,
                count_of(count)?,
                &load(runs)?,
                &load(output)?,
            );
            plug(found, ops, expected)
        }
        _ => Err(USE.to_string()),
    }
}

fn operations() -> Result<ExitCode, String> {
    let input = BufReader::with_capacity(1 << 18, io::stdin().lock());
    let output = BufWriter::with_capacity(1 << 18, io::stdout().lock());
    operations::run_all(input, output).map_err(|error| error.to_string())?;
    Ok(ExitCode::SUCCESS)
}

fn listing() -> Result<ExitCode, String> {
    // One byte over the limit tells enough.
    let most = 2 + frame::CAPTURE_LIMIT as u64 + 1;
    let mut input = Vec::new();
    io::stdin()
        .lock()
        .take(most)
        .read_to_end(&mut input)
        .map_err(|error| error.to_string())?;
    print(&listing::program(&input))?;
    Ok(ExitCode::SUCCESS)
}

fn trials() -> Result<ExitCode, String> {
    trials::run_all(io::stdin().lock(), io::stdout().lock()).map_err(|error| error.to_string())?;
    Ok(ExitCode::SUCCESS)
}

fn generate(seed: u64, count: usize, ops: &str) -> Result<ExitCode, String> {
    let (text, missing) =
        generate::generate(seed, count, create(ops)?).map_err(|error| format!("{ops}: {error}"))?;
    print(&text)?;
    tell_missing(&missing, count >= generate::ENOUGH)
}

/// Tells the kinds that never occurred, a failure where there were enough cases.
fn tell_missing(missing: &[Kind], enough: bool) -> Result<ExitCode, String> {
    if missing.is_empty() {
        return Ok(ExitCode::SUCCESS);
    }
    let missing: Vec<String> = missing.iter().map(|kind| kind.to_string()).collect();
    print(&format!("never occurred: {}\n", missing.join("; ")))?;
    Ok(match enough {
        true => ExitCode::FAILURE,
        false => ExitCode::SUCCESS,
    })
}

fn plug(
    found: Result<plug::Outcome, plug::Failure>,
    ops: &str,
    expected: &str,
) -> Result<ExitCode, String> {
    match found {
        Ok(outcome) => {
            save(ops, &outcome.ops)?;
            save(expected, &outcome.expected)?;
            print(&format!(
                "sheets {} cuts {} bytes {} cells {} minus zeros {} last frame cuts {} stops {}\n",
                outcome.sheets,
                outcome.cuts,
                outcome.bytes,
                outcome.cells,
                outcome.minus_zeros(),
                outcome.last_frame_cuts(),
                outcome.stops()
            ))?;
            tell_missing(&outcome.missing(), outcome.sheets >= plug::ENOUGH)
        }
        Err(plug::Failure::Wrong(wrong)) => {
            print(&format!("wrong: {wrong}\n"))?;
            Ok(ExitCode::FAILURE)
        }
        Err(plug::Failure::WrongUse(wrong)) => Err(wrong),
    }
}

fn number(argument: &str) -> Result<u64, String> {
    argument
        .parse()
        .map_err(|_| format!("'{argument}' is no number"))
}

fn count_of(argument: &str) -> Result<usize, String> {
    argument
        .parse()
        .map_err(|_| format!("'{argument}' is no number"))
}

fn print(text: &str) -> Result<(), String> {
    let mut output = io::stdout().lock();
    output
        .write_all(text.as_bytes())
        .and_then(|()| output.flush())
        .map_err(|error| error.to_string())
}

fn load(path: &str) -> Result<String, String> {
    fs::read_to_string(path).map_err(|error| format!("{path}: {error}"))
}

fn save(path: &str, text: &str) -> Result<(), String> {
    fs::write(path, text).map_err(|error| format!("{path}: {error}"))
}

fn create(path: &str) -> Result<BufWriter<File>, String> {
    let file = File::create(path).map_err(|error| format!("{path}: {error}"))?;
    Ok(BufWriter::new(file))
}
