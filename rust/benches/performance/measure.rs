//! Times of a call by the engine and by other functions, its twin or another build, taken in turn in
//! one run.

use super::calls::{Answer, Call, Functions, Query};
use super::lent::{Lent, Written};
use super::outcome::{assert_same, both_list_visits};
use std::hint::black_box;
use std::time::{Duration, Instant};

/// The times of pairs of runs in milliseconds, each pair one query.
pub struct Pairs {
    engine: Vec<f64>,
    other: Vec<f64>,
}

/// The median and the quartiles.
#[derive(Clone, Copy)]
pub struct Spread {
    pub low: f64,
    pub median: f64,
    pub high: f64,
}

impl Pairs {
    /// A row of a table: a name, how many pairs, the engine's times, the other's, and the ratio with
    /// so many places behind the point.
    pub fn row(&self, name: &str, places: usize) -> String {
        let (engine, other) = (self.engine().shown(3), self.other().shown(3));
        let (count, ratio) = (self.engine.len(), self.ratio().shown(places));
        format!("| {name} | {count} | {engine} | {other} | {ratio} |\n")
    }

    pub fn engine(&self) -> Spread {
        spread(self.engine.clone())
    }

    pub fn other(&self) -> Spread {
        spread(self.other.clone())
    }

    /// Of the ratio of each pair, engine to the other.
    pub fn ratio(&self) -> Spread {
        let pairs = self.engine.iter().zip(&self.other);
        spread(pairs.map(|(engine, other)| engine / other).collect())
    }
}

impl Spread {
    /// The median and the quartiles, with so many places behind the point.
    fn shown(self, places: usize) -> String {
        let Self { low, median, high } = self;
        format!("**{median:.places$}** ({low:.places$} to {high:.places$})")
    }
}

fn spread(mut numbers: Vec<f64>) -> Spread {
    numbers.sort_by(f64::total_cmp);
    let at = |part: f64| {
        let place = part * (numbers.len() - 1) as f64;
        let (low, high) = (
            numbers[place.floor() as usize],
            numbers[place.ceil() as usize],
        );
        low + (high - low) * place.fract()
    };
    Spread {
        low: at(0.25),
        median: at(0.5),
        high: at(0.75),
    }
}

/// How long a call is measured.
#[derive(Clone, Copy)]
pub struct Budget {
    /// The rounds of all queries go on until this time is over.
    pub time: Duration,
    pub least_pairs: usize,
    pub most_pairs: usize,
}

/// A call, the engine and what it is timed against, and the arrays from which each run starts.
struct Timed<'a, 'b> {
    call: Call,
    by: [&'a Functions; 2],
    lent: &'a mut Lent<'b>,
    before: Written,
}

/// Compares the outcomes of the first query whole, then times the queries in turn. Behind each pair
/// of runs the answers and all arrays but scratch are compared, visits where both list them. All calls
/// are accepted.
pub fn measure(
    call: Call,
    by: [&Functions; 2],
    lent: &mut Lent<'_>,
    queries: &[Query<'_>],
    budget: Budget,
) -> Pairs {
    let before = lent.written.clone();
    let answer = assert_same(lent, by, call, queries[0], &before);
    assert_eq!(answer.0, 0, "{} is refused", call.name);
    let mut timed = Timed {
        call,
        by,
        lent,
        before,
    };
    let pairs = time_pairs(queries, budget, |query, engine_first| {
        timed.time_pair(query, engine_first)
    });
    timed.lent.written = timed.before;
    pairs
}

/// Times the queries in turn. The function times a pair of runs, the engine's first or the other's, and
/// returns the engine's time and the other's.
pub fn time_pairs<'a>(
    queries: &[Query<'a>],
    budget: Budget,
    mut time_pair: impl FnMut(Query<'a>, bool) -> (f64, f64),
) -> Pairs {
    let mut pairs = Pairs {
        engine: Vec::new(),
        other: Vec::new(),
    };
    let start = Instant::now();
    for (round, &query) in queries.iter().cycle().take(budget.most_pairs).enumerate() {
        if round >= budget.least_pairs && start.elapsed() > budget.time {
            break;
        }
        // a query is timed in the other order when it comes again
        let engine_first = (round + round / queries.len()).is_multiple_of(2);
        let (engine, other) = time_pair(query, engine_first);
        pairs.engine.push(engine);
        pairs.other.push(other);
    }
    pairs
}

impl Timed<'_, '_> {
    /// The times of the engine and of the other, one behind the other.
    fn time_pair(&mut self, query: Query<'_>, engine_first: bool) -> (f64, f64) {
        let [engine, other] = self.by;
        let (first, second) = match engine_first {
            true => (engine, other),
            false => (other, engine),
        };
        let (first_time, first_answer) = self.time(first, query);
        let first_written = self.lent.written.clone();
        let (second_time, second_answer) = self.time(second, query);
        assert_eq!(first_answer, second_answer, "{}", self.call.name);
        let is_same = first_written.is_same(&self.lent.written, both_list_visits(self.by));
        assert!(is_same, "{}", self.call.name);
        match engine_first {
            true => (first_time, second_time),
            false => (second_time, first_time),
        }
    }

    /// The time of one run in milliseconds, and its answer. Bringing the table back is not timed.
    fn time(&mut self, by: &Functions, query: Query<'_>) -> (f64, Answer) {
        self.lent.restore(&self.before);
        let start = Instant::now();
        let answer = black_box((self.call.run)(by, self.lent, black_box(query)));
        (start.elapsed().as_secs_f64() * 1e3, answer)
    }
}
