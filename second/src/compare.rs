//! Answers of another program against this program's own, one by one up to the
//! first difference.

use crate::counts::Counts;
use crate::form::Request;
use crate::generate::Made;
use std::io::{self, BufRead};

/// A request as it is sent, with the kind that made it if that is known.
pub struct Asked {
    pub request: Request,
    pub line: String,
    pub kind: Option<&'static str>,
}

impl Asked {
    pub fn of(request: Request) -> Asked {
        Asked {
            line: request.line(),
            request,
            kind: None,
        }
    }

    pub fn made(made: Made) -> Asked {
        Asked {
            kind: Some(made.kind.name),
            ..Asked::of(made.request)
        }
    }

    /// The request of a line, or what is wrong with it.
    pub fn read(line: String) -> Result<Asked, String> {
        Ok(Asked {
            request: Request::read(&line)?,
            line,
            kind: None,
        })
    }
}

/// A request that shows a difference; nothing where no request belongs to it.
#[derive(Clone, Debug)]
pub struct Difference {
    pub request: Option<Request>,
    pub kind: Option<&'static str>,
    pub expected: String,
    pub found: String,
    /// Whether the answers end there, before or within this one.
    pub is_end: bool,
}

impl Difference {
    pub fn text(&self) -> String {
        let request = match &self.request {
            Some(request) => request.line(),
            None => "(no request)".to_string(),
        };
        let word = first_different_word(&self.expected, &self.found);
        format!(
            "request:  {request}\nexpected: {}\nfound:    {}\nthe answers differ first in word {word}\n",
            self.expected, self.found
        )
    }
}

/// Counted from 1.
fn first_different_word(expected: &str, found: &str) -> usize {
    let same = |(one, other): &(&str, &str)| one == other;
    let words = expected.split(' ').zip(found.split(' '));
    1 + words.take_while(same).count()
}

/// Why a comparison stopped before the end.
#[derive(Debug)]
pub enum Stop {
    Different(Box<Difference>),
    /// A file cannot be read, a line is no request, a program does not run.
    Unreadable(String),
}

/// Stands where an answer is missing.
const NO_ANSWER: &str = "(no answer)";

/// Compares the files of requests and of answers until the first difference;
/// `counts` holds what agreed so far.
pub fn compare(
    mut requests: impl BufRead,
    mut answers: impl BufRead,
    counts: &mut Counts,
) -> Result<(), Stop> {
    while let Some(line) = next_line(&mut requests)? {
        let number = counts.compared + 1;
        let asked = Asked::read(line)
            .map_err(|fault| Stop::Unreadable(format!("request line {number}: {fault}")))?;
        compare_next(&asked, &mut answers, counts)?;
    }
    compare_end(&mut answers)
}

/// Compares the next answer with this program's own.
pub fn compare_next(
    asked: &Asked,
    answers: &mut impl BufRead,
    counts: &mut Counts,
) -> Result<(), Stop> {
    let mut found = String::new();
    answers.read_line(&mut found)?;
    let is_end = !found.ends_with('\n');
    let answer = asked.request.answer();
    let expected = answer.line();
    if found.trim_end_matches('\n') == expected {
        counts.add(asked, &expected, answer.outcome());
        return Ok(());
    }
    Err(Stop::Different(Box::new(Difference {
        request: Some(asked.request.clone()),
        kind: asked.kind,
        expected,
        found: match found.as_str() {
            "" => NO_ANSWER.to_string(),
            line => line.trim_end_matches('\n').to_string(),
        },
        is_end,
    })))
}

/// No answer is left over.
pub fn compare_end(answers: &mut impl BufRead) -> Result<(), Stop> {
    match next_line(answers)? {
        None => Ok(()),
        Some(found) => Err(left_over(NO_ANSWER, found)),
    }
}

/// Something that belongs to no request.
pub fn left_over(expected: &str, found: String) -> Stop {
    Stop::Different(Box::new(Difference {
        request: None,
        kind: None,
        expected: expected.to_string(),
        found,
        is_end: true,
    }))
}

impl From<io::Error> for Stop {
    fn from(fault: io::Error) -> Stop {
        Stop::Unreadable(fault.to_string())
    }
}

/// The next line without its LF; none at the end of the file.
pub fn next_line(source: &mut impl BufRead) -> io::Result<Option<String>> {
    let mut line = String::new();
    if source.read_line(&mut line)? == 0 {
        return Ok(None);
    }
    if line.ends_with('\n') {
        line.pop();
    }
    Ok(Some(line))
}
