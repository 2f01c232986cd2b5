//! The commands of the model.

use model::generate::{self, Size};
use model::{compare, console, encode, others, script, tells, vectors};
use std::fs;
use std::io::{self, BufReader, BufWriter, Read, Write};
use std::process::ExitCode;

const USAGE: &str = "usage:
  model answer < SCRIPT > ANSWERS
  model generate SEED CALLS > SCRIPT
  model compare REPLAY FROM TO CALLS
  model others REPLAY FROM TO CALLS    document 02, (i), on its answers
  model tells FROM TO CALLS            what a client's file tells, on the model
  model tally FROM TO CALLS
  model encode < READABLE > SCRIPT
  model vectors > SCRIPT
  model console SHEET < INPUT          what the console prints
  model entries SHEET < INPUT          the same, with each line and the number of its call
";

fn main() -> ExitCode {
    let arguments: Vec<String> = std::env::args().skip(1).collect();
    let words: Vec<&str> = arguments.iter().map(String::as_str).collect();
    match run(&words) {
        Ok(true) => ExitCode::SUCCESS,
        Ok(false) => ExitCode::FAILURE,
        Err(error) => {
            eprintln!("model: {error}");
            ExitCode::from(2)
        }
    }
}

/// Runs a command; false when a comparison found a difference.
fn run(words: &[&str]) -> Result<bool, Box<dyn std::error::Error>> {
    match *words {
        ["answer"] => script::answer_all(BufReader::new(io::stdin()), BufWriter::new(io::stdout()))?,
        ["generate", seed, calls] => {
            let lines = generate::script(seed.parse()?, Size::full(calls.parse()?));
            write_lines(&lines)?;
        }
        ["compare", replay, from, to, calls] => {
            return Ok(compare::compare(replay, from.parse()?..to.parse()?, calls.parse()?)?);
        }
        ["others", replay, from, to, calls] => {
            return Ok(others::compare(replay, from.parse()?..to.parse()?, calls.parse()?)?);
        }
        ["tells", from, to, calls] => {
            return Ok(tells::check(from.parse()?..to.parse()?, calls.parse()?));
        }
        ["tally", from, to, calls] => {
            print!("{}", compare::tally(from.parse()?..to.parse()?, calls.parse()?).text());
        }
        ["encode"] => {
            let mut text = String::new();
            io::stdin().read_to_string(&mut text)?;
            print!("{}", encode::encode(&text)?);
        }
        ["console", sheet] => {
            console::serve(&fs::read(sheet)?, false, BufReader::new(io::stdin()), io::stdout())?
        }
        ["entries", sheet] => {
            console::serve(&fs::read(sheet)?, true, BufReader::new(io::stdin()), io::stdout())?
        }
        ["vectors"] => io::stdout().write_all(&vectors::stored()?)?,
        _ => return Err(USAGE.into()),
    }
    Ok(true)
}

/// Writes the lines of a script.
fn write_lines(lines: &[Vec<u8>]) -> io::Result<()> {
    let mut output = BufWriter::new(io::stdout());
    for line in lines {
        output.write_all(line)?;
        output.write_all(b"\n")?;
    }
    output.flush()
}
