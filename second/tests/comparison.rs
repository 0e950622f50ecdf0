//! Comparison: what is counted, and what each difference is told with. A program
//! that is asked and answers wrongly is this one, with its answers changed on the
//! way.

use second::compare::{compare, Difference, Stop};
use second::counts::Counts;
use second::form::Request;
use second::smaller::smaller;
use std::process::Command;

fn compared(asked: &str, answered: &str) -> (usize, Option<Stop>) {
    let mut counts = Counts::default();
    let outcome = compare(asked.as_bytes(), answered.as_bytes(), &mut counts);
    (counts.compared, outcome.err())
}

fn difference(asked: &str, answered: &str) -> Difference {
    match compared(asked, answered) {
        (_, Some(Stop::Different(difference))) => *difference,
        other => panic!("no difference shown: {other:?}"),
    }
}

const ASKED: &str = "5 2 0 0 0\n1 0 0 5\n";

#[test]
fn equal_answers() {
    assert!(matches!(compared(ASKED, "0 1\n0 0 0 0\n"), (2, None)));
    assert!(matches!(compared(ASKED, "0 1\n0 0 0 0"), (2, None)));
}

#[test]
fn a_wrong_answer_is_shown_with_its_request() {
    let shown = difference(ASKED, "0 1\n0 0 1 0\n");
    assert_eq!(shown.request, Request::read("1 0 0 5").ok());
    assert_eq!(shown.expected, "0 0 0 0");
    assert_eq!(shown.found, "0 0 1 0");
    assert!(shown.text().contains("request:  1 0 0 5\n"));
    assert!(shown.text().ends_with("differ first in word 3\n"));
}

/// A room of 6 numbers, of which the result needs 4: its fifth number, its odd last
/// one, and one that is as before within the result.
#[test]
fn every_number_of_a_room_is_compared() {
    let asked = "1 4 3 1 -2 0 7 1000000\n";
    assert!(matches!(compared(asked, "0 0 2 4 -2 0 3 1\n"), (1, None)));
    for wrong in [
        "0 0 2 5 -2 0 3 1 7",
        "0 0 2 7 -2 0 3 1 1000004 1000005 7",
        "0 0 2 4 -2 0 1000002 1",
        "0 0 2 3 -2 0 3",
    ] {
        assert_eq!(difference(asked, wrong).found, wrong);
    }
    let declined = "1 1 3 7 1000000\n";
    assert!(matches!(compared(declined, "1 0 0 0\n"), (1, None)));
    assert_eq!(difference(declined, "1 0 0 1 9").found, "1 0 0 1 9");
}

#[test]
fn answers_that_are_missing_or_too_many() {
    assert_eq!(difference(ASKED, "0 1\n").found, "(no answer)");
    assert_eq!(difference(ASKED, "").found, "(no answer)");
    let shown = difference(ASKED, "0 1\n0 0 0 0\n0 0\n");
    assert_eq!((shown.request, shown.found.as_str()), (None, "0 0"));
    assert_eq!(difference(ASKED, "0 1\n0 0 0 0 \n").found, "0 0 0 0 ");
    assert_eq!(difference(ASKED, "0 1\n\n0 0 0 0\n").found, "");
}

#[test]
fn lines_that_are_no_requests() {
    let unreadable = compared("5 2 0\n", "0 1\n");
    assert!(matches!(unreadable, (0, Some(Stop::Unreadable(_)))));
}

/// Asks this program, its answers changed by a program of sed: the exit status and
/// all that is printed.
fn ask(words: &[&str], changed: &str) -> (Option<i32>, String) {
    let second = env!("CARGO_BIN_EXE_second");
    let run = Command::new(second)
        .arg("ask")
        .args(words)
        .args([
            "--",
            "sh",
            "-c",
            "\"$0\" answer | sed \"$1\"",
            second,
            changed,
        ])
        .output()
        .unwrap();
    (run.status.code(), String::from_utf8(run.stdout).unwrap())
}

#[test]
fn a_program_that_answers_right() {
    let (status, text) = ask(&["5", "450"], "");
    assert_eq!(status, Some(0));
    assert!(text.ends_with("4050 compared, 0 different\n"), "{text}");
    assert!(text.contains("\nsmall-random "));
    assert!(text.contains("\nrefusal  4 "));
}

/// The line of a text that starts so, without that start.
fn after<'a>(text: &'a str, start: &str) -> &'a str {
    text.lines()
        .find_map(|line| line.strip_prefix(start))
        .unwrap()
}

/// Each fault, and how the answer to the request that shows it was changed.
#[test]
fn faults_are_found_and_shown() {
    for (fault, kind, found) in [
        // The verdict of a grain that is not convex.
        ("s/^\\(0 0 [0-9]* [0-9]*\\) 0 /\\1 1 /", "chipped", "0 0 "),
        // A number behind the result: the room has changed up to there.
        (
            "s/^0 0 3 6 \\(.*\\)$/0 0 3 7 \\1 5/",
            "rebuild-right",
            "0 0 3 7 ",
        ),
        // A place.
        ("s/^4 [0-9]* /4 0 /", "repeats", "4 0 "),
        // A line that is missing: every answer stands for the request before.
        ("7d", "small-dense", ""),
    ] {
        let (status, text) = ask(&["9", "300", kind], fault);
        assert_eq!(status, Some(1), "{fault}");
        assert!(
            text.contains(&format!(" 1 different, of {kind}\n")),
            "{text}"
        );
        let request = Request::read(after(&text, "request:  ")).unwrap();
        assert_eq!(request.answer().line(), after(&text, "expected: "));
        assert!(after(&text, "found:    ").starts_with(found), "{text}");
    }
}

#[test]
fn a_program_that_ends_early_or_is_none() {
    let (status, text) = ask(&["9", "30"], "20q");
    assert_eq!(status, Some(1));
    assert!(text.contains("found:    (no answer)\n"), "{text}");
    let (status, text) = ask(&["9", "3"], "$a 0 0");
    assert_eq!(status, Some(1));
    assert!(text.contains("request:  (no request)\n"), "{text}");
    let (status, _) = ask(&["9", "3"], "no such command");
    assert_eq!(status, Some(1));
    let second = env!("CARGO_BIN_EXE_second");
    let words = ["ask", "9", "3", "--", "/no/such/program"];
    let run = Command::new(second).args(words).output().unwrap();
    assert_eq!(run.status.code(), Some(2));
}

/// A program that a request for Rebuild with two missing points or more ends before it
/// has written any answer.
#[test]
fn the_request_that_ends_a_program_is_found() {
    let second = env!("CARGO_BIN_EXE_second");
    let ends = "all=$(cat); echo \"$all\" | awk '$($2 + 3) > 2 { exit 1 }' &&
        echo \"$all\" | \"$0\" answer";
    let run = Command::new(second)
        .args([
            "ask",
            "4",
            "60",
            "rebuild-stars",
            "--",
            "sh",
            "-c",
            ends,
            second,
        ])
        .output()
        .unwrap();
    assert_eq!(run.status.code(), Some(0));
    let run = Command::new(second)
        .args([
            "ask",
            "4",
            "60",
            "rebuild-right",
            "--",
            "sh",
            "-c",
            ends,
            second,
        ])
        .output()
        .unwrap();
    assert_eq!(run.status.code(), Some(1));
    let text = String::from_utf8(run.stdout).unwrap();
    let Ok(Request::Rebuild { missing, .. }) = Request::read(after(&text, "request:  ")) else {
        panic!("{text}");
    };
    assert!(missing.len() > 2);
    let smallest = text.split("a smaller one\n").nth(1).unwrap();
    assert!(
        after(smallest, "request:  ").starts_with("7 0 4 "),
        "{text}"
    );
}

/// A program that finds no grain of three points or more convex is shown to be
/// wrong by a grain of few points.
#[test]
fn a_smaller_request_is_found() {
    let fault = "s/^\\(0 0 [0-9]* [3-9][0-9]*\\) 1 0 0 /\\1 0 0 0 /";
    let (status, text) = ask(&["2", "300", "shapes"], fault);
    assert_eq!(status, Some(1));
    let smallest = text.split("a smaller one\n").nth(1).unwrap();
    let request = Request::read(after(smallest, "request:  ")).unwrap();
    let Request::Verdict { list, .. } = request else {
        panic!("{text}");
    };
    assert!(list.len() <= 2 * 4, "{text}");
}

#[test]
fn smaller_requests() {
    let lines = |line: &str| -> Vec<String> {
        let requests = smaller(&Request::read(line).unwrap());
        requests.iter().map(Request::line).collect()
    };
    assert_eq!(lines("5 0 3"), Vec::<String>::new());
    assert_eq!(lines("5 3 1 2 3 9"), ["5 1 3 9", "5 2 1 2 9"]);
    assert_eq!(lines("9 2 80 49"), ["9 1 49", "9 1 80"]);
    assert_eq!(
        lines("7 2 1 2 2 3 4 0 9"),
        ["7 0 2 3 4 0 9", "7 2 1 2 0 0 9"]
    );
    for line in lines("1 9 1 2 3 4 5 6 7 8 9 0 5") {
        assert!(Request::read(&line).is_ok());
    }
}
