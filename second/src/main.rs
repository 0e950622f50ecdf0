//! The binary: `report`, `kinds`, `generate`, `answer`, `compare` and `ask`.

use second::ask::Program;
use second::bitmap::MOST_BYTES;
use second::compare::{compare, next_line, Stop};
use second::counts::Counts;
use second::form::Request;
use second::generate::{Requests, KINDS};
use second::program;
use std::fs::File;
use std::io::{self, BufReader, BufWriter, Read, Write};
use std::process::ExitCode;

const USAGE: &str = "usage:
  second report                            a bitmap from standard input to CSV
  second kinds                             the kinds of generated requests
  second generate SEED COUNT [KIND]        requests, COUNT for each call
  second answer                            requests from standard input to answers
  second compare REQUESTS ANSWERS          another program's answers against ours
  second ask SEED COUNT [KIND] -- PROGRAM  asks another program, and compares";

fn main() -> ExitCode {
    let words: Vec<String> = std::env::args().skip(1).collect();
    let words: Vec<&str> = words.iter().map(String::as_str).collect();
    let outcome = match words[..] {
        ["report"] => report(),
        ["kinds"] => kinds(),
        ["generate", seed, count] => generate(seed, count, None),
        ["generate", seed, count, kind] => generate(seed, count, Some(kind)),
        ["answer"] => answer(),
        ["compare", requests, answers] => compare_files(requests, answers),
        ["ask", seed, count, "--", ref program @ ..] => ask(seed, count, None, program),
        ["ask", seed, count, kind, "--", ref program @ ..] => ask(seed, count, Some(kind), program),
        _ => Err(io::Error::other(USAGE)),
    };
    match outcome {
        Ok(code) => code,
        Err(fault) if fault.kind() == io::ErrorKind::BrokenPipe => ExitCode::SUCCESS,
        Err(fault) => {
            eprintln!("{fault}");
            ExitCode::from(2)
        }
    }
}

/// "The report program reads the bitmap from standard input." One byte beyond
/// the limit tells a bitmap that is too long from one that is not.
fn report() -> io::Result<ExitCode> {
    let mut bytes = Vec::new();
    io::stdin()
        .lock()
        .take(MOST_BYTES as u64 + 1)
        .read_to_end(&mut bytes)?;
    io::stdout().write_all(program::output(&bytes).as_bytes())?;
    Ok(ExitCode::SUCCESS)
}

fn kinds() -> io::Result<ExitCode> {
    let mut out = BufWriter::new(io::stdout().lock());
    for kind in KINDS {
        writeln!(out, "{}", kind.name)?;
    }
    out.flush()?;
    Ok(ExitCode::SUCCESS)
}

fn number(word: &str) -> io::Result<u64> {
    word.parse()
        .map_err(|_| io::Error::other(format!("{word:?} is no number")))
}

fn requests_of(seed: &str, kind: Option<&str>) -> io::Result<Requests> {
    Requests::new(number(seed)?, kind)
        .ok_or_else(|| io::Error::other("no such kind; see `second kinds`"))
}

fn generate(seed: &str, count: &str, kind: Option<&str>) -> io::Result<ExitCode> {
    let requests = requests_of(seed, kind)?;
    let mut out = BufWriter::new(io::stdout().lock());
    for made in requests.at(0..number(count)?) {
        writeln!(out, "{}", made.request.line())?;
    }
    out.flush()?;
    Ok(ExitCode::SUCCESS)
}

fn answer() -> io::Result<ExitCode> {
    let mut source = BufReader::new(io::stdin().lock());
    let mut out = BufWriter::new(io::stdout().lock());
    let mut number = 0;
    while let Some(line) = next_line(&mut source)? {
        number += 1;
        let request = Request::read(&line)
            .map_err(|fault| io::Error::other(format!("request line {number}: {fault}")))?;
        writeln!(out, "{}", request.answer().line())?;
    }
    out.flush()?;
    Ok(ExitCode::SUCCESS)
}

fn compare_files(requests: &str, answers: &str) -> io::Result<ExitCode> {
    let open = |path: &str| {
        File::open(path)
            .map(BufReader::new)
            .map_err(|fault| io::Error::other(format!("{path}: {fault}")))
    };
    let mut counts = Counts::default();
    let outcome = compare(open(requests)?, open(answers)?, &mut counts);
    tell(&counts, outcome, None)
}

fn ask(seed: &str, count: &str, kind: Option<&str>, words: &[&str]) -> io::Result<ExitCode> {
    let [name, words @ ..] = words else {
        return Err(io::Error::other(USAGE));
    };
    let program = Program {
        name: name.to_string(),
        words: words.iter().map(|word| word.to_string()).collect(),
    };
    let requests = requests_of(seed, kind)?;
    let (counts, outcome) = program.compare_generated(&requests, number(count)?);
    tell(&counts, outcome, Some(&program))
}

/// What was compared, and what stopped it. A program that differs is asked again
/// for a smaller request that shows it.
fn tell(
    counts: &Counts,
    outcome: Result<(), Stop>,
    program: Option<&Program>,
) -> io::Result<ExitCode> {
    let mut out = io::stdout().lock();
    write!(out, "{}", counts.text())?;
    let difference = match outcome {
        Ok(()) => {
            writeln!(out, "{} compared, 0 different", counts.compared)?;
            return Ok(ExitCode::SUCCESS);
        }
        Err(Stop::Unreadable(fault)) => return Err(io::Error::other(fault)),
        Err(Stop::Different(difference)) => difference,
    };
    let kind = difference.kind.unwrap_or("no known kind");
    writeln!(out, "{} compared, 1 different, of {kind}", counts.compared)?;
    write!(out, "{}", difference.text())?;
    if let Some(smallest) = program.and_then(|program| program.smallest(&difference)) {
        write!(out, "a smaller one\n{}", smallest.text())?;
    }
    Ok(ExitCode::from(1))
}
