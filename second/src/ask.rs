//! Another program, asked generated requests: in slices, several at a time, up to
//! the first difference, of which a smaller one is looked for.

use crate::compare::{compare_end, compare_next, left_over, Asked, Difference, Stop};
use crate::counts::Counts;
use crate::generate::Requests;
use crate::smaller::smaller;
use std::io::{self, BufReader, BufWriter, IsTerminal, Write};
use std::process::{ChildStdin, Command, Stdio};
use std::sync::atomic::{AtomicU64, Ordering};
use std::sync::Mutex;
use std::thread;

/// How many requests for each call one run of the program is asked: a small part,
/// so that memory stays small and a difference is found soon.
const SLICE: u64 = 200;

/// How often a request that shows a difference is made smaller.
const MOST_ROUNDS: usize = 200;

/// A program that reads requests and writes answers, and the words it is run with.
pub struct Program {
    pub name: String,
    pub words: Vec<String>,
}

impl Program {
    /// Asks all, up to the first difference; `counts` holds what agreed so far.
    pub fn compare(&self, asked: &[Asked], counts: &mut Counts) -> Result<(), Stop> {
        let outcome = self.compare_run(asked, counts);
        match &outcome {
            Err(Stop::Different(shown)) if shown.is_end => self
                .last_answerless(&asked[counts.compared..])
                .map_or(outcome, Err),
            _ => outcome,
        }
    }

    /// A program that ends early may take answers with it that it has not yet written.
    /// What ends it is the last one of the fewest requests that it does not answer.
    fn last_answerless(&self, asked: &[Asked]) -> Option<Stop> {
        let agrees = |asked: &[Asked]| self.compare_run(asked, &mut Counts::default());
        let (mut answered, mut not_answered) = (0, asked.len());
        while answered + 1 < not_answered {
            let middle = answered.midpoint(not_answered);
            match agrees(&asked[..middle]) {
                Ok(()) => answered = middle,
                Err(_) => not_answered = middle,
            }
        }
        agrees(&asked[answered..not_answered]).err()
    }

    /// Asks all in one run of the program.
    fn compare_run(&self, asked: &[Asked], counts: &mut Counts) -> Result<(), Stop> {
        let mut run = Command::new(&self.name)
            .args(&self.words)
            .stdin(Stdio::piped())
            .stdout(Stdio::piped())
            .spawn()
            .map_err(|fault| Stop::Unreadable(format!("{}: {fault}", self.name)))?;
        let requests = run.stdin.take().expect("it is piped");
        let mut answers = BufReader::new(run.stdout.take().expect("it is piped"));
        thread::scope(|scope| {
            scope.spawn(|| send(asked, requests));
            let agreed = asked
                .iter()
                .try_for_each(|asked| compare_next(asked, &mut answers, counts))
                .and_then(|()| compare_end(&mut answers));
            // What is left to send and to answer is not wanted after a difference.
            drop(answers);
            if agreed.is_err() {
                run.kill()?;
            }
            let status = run.wait()?;
            match agreed {
                Ok(()) if !status.success() => Err(left_over("(status 0)", status.to_string())),
                _ => agreed,
            }
        })
    }

    /// Compares as many requests as wanted for each call, in slices that are taken
    /// in order. The difference in the first slice that has one is given, whichever
    /// worker is faster.
    pub fn compare_generated(&self, requests: &Requests, count: u64) -> (Counts, Result<(), Stop>) {
        let next = AtomicU64::new(0);
        let so_far = Mutex::new(SoFar::default());
        let workers = thread::available_parallelism().map_or(1, |processors| processors.get());
        thread::scope(|scope| {
            for _ in 0..workers {
                scope.spawn(|| self.work(requests, count, &next, &so_far));
            }
        });
        let so_far = so_far.into_inner().expect("a worker that fails ends all");
        let outcome = so_far.stop.map_or(Ok(()), |(_, stop)| Err(stop));
        (so_far.counts, outcome)
    }

    fn work(&self, requests: &Requests, count: u64, next: &AtomicU64, so_far: &Mutex<SoFar>) {
        let lock = || so_far.lock().expect("a worker that fails ends all");
        loop {
            let first = next.fetch_add(SLICE, Ordering::Relaxed);
            if first >= count || lock().stop.is_some() {
                return;
            }
            let places = first..count.min(first + SLICE);
            let slice: Vec<Asked> = requests.at(places).map(Asked::made).collect();
            let mut counts = Counts::default();
            let outcome = self.compare(&slice, &mut counts);
            lock().take(first, &counts, outcome);
        }
    }

    /// A smaller request that shows a difference, as small as leaving out parts of
    /// its lists makes it; nothing if no part can be left out.
    pub fn smallest(&self, difference: &Difference) -> Option<Box<Difference>> {
        let mut smallest = None;
        let mut request = difference.request.clone()?;
        for _ in 0..MOST_ROUNDS {
            let asked: Vec<Asked> = smaller(&request).into_iter().map(Asked::of).collect();
            let Err(Stop::Different(found)) = self.compare(&asked, &mut Counts::default()) else {
                break;
            };
            let Some(shown) = found.request.clone() else {
                break;
            };
            request = shown;
            smallest = Some(found);
        }
        smallest
    }
}

/// A program that ends early breaks the pipe; its missing answers tell.
fn send(asked: &[Asked], requests: ChildStdin) {
    let mut requests = BufWriter::new(requests);
    for asked in asked {
        if writeln!(requests, "{}", asked.line).is_err() {
            return;
        }
    }
    let _ = requests.flush();
}

/// What the workers have found together.
#[derive(Default)]
struct SoFar {
    counts: Counts,
    /// The first slice that stopped, by its first place.
    stop: Option<(u64, Stop)>,
}

impl SoFar {
    fn take(&mut self, first: u64, counts: &Counts, outcome: Result<(), Stop>) {
        self.counts.add_all(counts);
        let is_first = self.stop.as_ref().is_none_or(|(other, _)| first < *other);
        match outcome {
            Err(stop) if is_first => self.stop = Some((first, stop)),
            _ => {}
        }
        if io::stderr().is_terminal() {
            eprint!("\r{} compared\r", self.counts.compared);
        }
    }
}
