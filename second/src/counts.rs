//! What a comparison has met: counts by kind and by outcome, and how long requests
//! and answers were.

use crate::compare::Asked;
use crate::form::{Call, Outcome};
use crate::generate::KINDS;
use std::collections::{BTreeMap, BTreeSet};

#[derive(Default)]
pub struct Counts {
    pub compared: usize,
    by_kind: BTreeMap<&'static str, OfKind>,
    by_outcome: BTreeMap<(Outcome, Call), usize>,
    by_call: BTreeMap<Call, Longest>,
}

#[derive(Default)]
struct OfKind {
    accepted: usize,
    refused: usize,
    /// The most numbers of a request.
    longest: usize,
}

/// The most numbers of a request and of an answer.
#[derive(Clone, Copy, Default)]
struct Longest {
    request: usize,
    answer: usize,
}

impl Longest {
    fn take(&mut self, other: Longest) {
        self.request = self.request.max(other.request);
        self.answer = self.answer.max(other.answer);
    }
}

impl Counts {
    /// One more request that was answered alike.
    pub fn add(&mut self, asked: &Asked, answer: &str, outcome: Outcome) {
        let numbers = |line: &str| line.split(' ').count();
        let longest = Longest {
            request: numbers(&asked.line),
            answer: numbers(answer),
        };
        let call = asked.request.call();
        self.compared += 1;
        *self.by_outcome.entry((outcome, call)).or_default() += 1;
        self.by_call.entry(call).or_default().take(longest);
        if let Some(kind) = asked.kind {
            let of_kind = self.by_kind.entry(kind).or_default();
            of_kind.longest = of_kind.longest.max(longest.request);
            match outcome {
                Outcome::Refused(_) => of_kind.refused += 1,
                _ => of_kind.accepted += 1,
            }
        }
    }

    pub fn add_all(&mut self, other: &Counts) {
        self.compared += other.compared;
        for (&name, more) in &other.by_kind {
            let of_kind = self.by_kind.entry(name).or_default();
            of_kind.accepted += more.accepted;
            of_kind.refused += more.refused;
            of_kind.longest = of_kind.longest.max(more.longest);
        }
        for (&outcome, count) in &other.by_outcome {
            *self.by_outcome.entry(outcome).or_default() += count;
        }
        for (&call, longest) in &other.by_call {
            self.by_call.entry(call).or_default().take(*longest);
        }
    }

    /// A table of kinds, and one of calls and outcomes.
    pub fn text(&self) -> String {
        self.kinds_text() + &self.outcomes_text()
    }

    fn kinds_text(&self) -> String {
        if self.by_kind.is_empty() {
            return String::new();
        }
        let head = ["accepted", "refused", "longest"];
        let mut text = line("kind", head.map(str::to_string));
        for kind in KINDS {
            if let Some(of_kind) = self.by_kind.get(kind.name) {
                let cells = [of_kind.accepted, of_kind.refused, of_kind.longest];
                text += &line(kind.name, cells.map(shown));
            }
        }
        text + "\n"
    }

    fn outcomes_text(&self) -> String {
        let mut text = line("outcome", Call::ALL.map(|call| call.name().to_string()));
        let outcomes: BTreeSet<Outcome> = self.by_outcome.keys().map(|key| key.0).collect();
        for outcome in outcomes {
            let count = |call| *self.by_outcome.get(&(outcome, call)).unwrap_or(&0);
            let cells = Call::ALL.map(|call| shown(count(call)));
            text += &line(&outcome.to_string(), cells);
        }
        let all = |call| {
            let of_call = self.by_outcome.iter().filter(|(key, _)| key.1 == call);
            of_call.map(|(_, count)| count).sum()
        };
        text += &line("all outcomes", Call::ALL.map(|call| shown(all(call))));
        let longest = |call| *self.by_call.get(&call).unwrap_or(&Longest::default());
        let requests = Call::ALL.map(|call| shown(longest(call).request));
        let answers = Call::ALL.map(|call| shown(longest(call).answer));
        text + &line("longest request, numbers", requests)
            + &line("longest answer, numbers", answers)
            + "\n"
    }
}

/// Nothing stands for 0, so that a table shows what was met.
fn shown(count: usize) -> String {
    match count {
        0 => String::new(),
        _ => count.to_string(),
    }
}

fn line<const N: usize>(name: &str, cells: [String; N]) -> String {
    let cells = cells.map(|cell| format!("{cell:>9}"));
    let text = format!("{name:26}{}", cells.join(" "));
    text.trim_end().to_string() + "\n"
}
