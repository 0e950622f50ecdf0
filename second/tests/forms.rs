//! The request form and the answer form.

use second::calls::{Figures, Verdict};
use second::form::{Answer, Request};
use second::generate::Requests;
use second::point::point;

fn answered(line: &str) -> String {
    let request = Request::read(line).unwrap();
    assert_eq!(request.line(), line);
    request.answer().line()
}

/// The examples of FORM.md, in its words.
#[test]
fn the_examples_of_the_form() {
    let text = include_str!("../FORM.md");
    let line_after = |text: &str, start: &str| -> Vec<String> {
        text.lines()
            .filter_map(|line| line.strip_prefix(start))
            .map(str::to_string)
            .collect()
    };
    let asked = line_after(text, "    request: ");
    let expected = line_after(text, "    answer:  ");
    assert!(asked.len() >= 12);
    assert_eq!(asked.len(), expected.len());
    for (asked, expected) in asked.iter().zip(&expected) {
        assert_eq!(&answered(asked), expected, "{asked}");
    }
}

#[test]
fn rooms_show_what_changed() {
    // Nothing changes in a room that already begins with the result.
    assert_eq!(answered("1 2 5 6 4 5"), "0 0 1 0");
    assert_eq!(answered("1 2 5 7 4 5"), "0 0 1 2 5 7");
    assert_eq!(answered("1 2 6 6 4 5"), "0 0 1 1 6");
    assert_eq!(answered("1 0 0 5"), "0 0 0 0");
}

#[test]
fn lines_that_are_no_requests() {
    for line in [
        "",
        "1",
        "0 0 0 0",
        "10 0",
        "1 2 0 4 5",
        "1 2 0 0 4 5 6",
        "1 2 0  0 4 5",
        "1 2 0 x 4 5",
        "1 -1 4 5",
        "1 1 2147483648 4 5",
        "1 0 2 2147483647",
        "9 1 256",
        " 1 0 0 5",
        "1 0 0 5 ",
    ] {
        assert!(Request::read(line).is_err(), "{line:?}");
    }
    assert!(Request::read("1 0 1 2147483647").is_ok());
    assert!(Request::read("1 0 0 2147483647").is_ok());
}

#[test]
fn answers_can_be_read_back() {
    for made in Requests::new(11, None).unwrap().at(0..400) {
        let request = made.request;
        let line = request.line();
        assert_eq!(Request::read(&line).as_ref(), Ok(&request));
        let answer = request.answer();
        assert_eq!(Answer::read(&request, &answer.line()).as_ref(), Ok(&answer));
    }
    let request = Request::read("3 4 0 0 2 4 4 9 4 9").unwrap();
    let answer = Answer::read(&request, "0 0 2 2 0 1 2 4 0 0 2 4 4 0 0 2 4").unwrap();
    let Answer::Verdict {
        verdict,
        first_missing,
        ..
    } = answer
    else {
        panic!("no Verdict");
    };
    assert_eq!((verdict, first_missing), (Verdict::No, point(1, 2)));
}

#[test]
fn doubles_are_read_back_by_their_bits() {
    let request = Request::read("8 4 -3 0 2 1 4 9 4 9").unwrap();
    let answer = request.answer();
    let read = Answer::read(&request, &answer.line()).unwrap();
    let Answer::Figures {
        figures: Figures::Doubles { centroid, solidity },
        ..
    } = read
    else {
        panic!("no doubles");
    };
    assert_eq!((centroid.x, centroid.y, solidity), (-0.5, 0.5, 1.0));
}
