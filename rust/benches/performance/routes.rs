//! A route beside eager on each of its nodes, both by the engine.

use super::calls::{first_of_route, Query, LONGEST_ROUTE};
use super::lent::Lent;
use super::measure::{time_pairs, Budget, Pairs};
use super::networks::Subject;
use overlap::calls::{eager, eager_scratch_len, route, Listing};
use std::collections::BTreeSet;
use std::hint::black_box;
use std::time::Instant;

/// The words of scratch that eager is lent: S, as the route is, or the 12 × n that it asks for.
#[derive(Clone, Copy, PartialEq)]
pub enum EagerWords {
    S,
    TwelveN,
}

/// What is compared: a route of so many nodes, and eager on each of them.
#[derive(Clone, Copy)]
pub struct Beside {
    pub nodes: usize,
    pub words: EagerWords,
}

/// All that is compared on a network.
pub const ROWS: [Beside; 4] = [
    Beside {
        nodes: 1,
        words: EagerWords::S,
    },
    Beside {
        nodes: 1,
        words: EagerWords::TwelveN,
    },
    Beside {
        nodes: 10,
        words: EagerWords::TwelveN,
    },
    Beside {
        nodes: LONGEST_ROUTE,
        words: EagerWords::TwelveN,
    },
];

/// Times those on a network whose routes have at most so many nodes.
pub fn measure_routes(
    subject: &Subject,
    k: u32,
    longest: usize,
    budget: Budget,
) -> Vec<(Beside, Pairs)> {
    let mut lent = Lent::new(subject.network.lend(), &subject.points, 2, k);
    let queries = subject.queries(k);
    let rows = ROWS.into_iter().filter(|beside| beside.nodes <= longest);
    rows.map(|beside| (beside, beside.measure(&mut lent, &queries, budget)))
        .collect()
}

impl Beside {
    /// Compares the lists of each pair, and times the pairs.
    fn measure(self, lent: &mut Lent<'_>, queries: &[Query<'_>], budget: Budget) -> Pairs {
        time_pairs(queries, self.budget(budget), |query, route_first| {
            let query = first_of_route(self.nodes, query);
            let (mut by_route, mut by_eager) = (Timed::default(), Timed::default());
            if route_first {
                by_route = time_route(lent, query);
            }
            for &node in query.route {
                by_eager.add(self.time_eager(
                    lent,
                    Query {
                        site: node,
                        ..query
                    },
                ));
            }
            if !route_first {
                by_route = time_route(lent, query);
            }
            let stops = query.route.iter().copied().collect();
            assert!(by_eager.list.difference(&stops).eq(&by_route.list));
            (by_route.milliseconds, by_eager.milliseconds)
        })
    }

    /// A pair takes long where it is many calls, and then fewer are enough.
    fn budget(self, budget: Budget) -> Budget {
        let least_pairs = match self.nodes {
            1 => budget.least_pairs,
            10 => 3,
            _ => 1,
        };
        Budget {
            least_pairs,
            ..budget
        }
    }

    fn time_eager(self, lent: &mut Lent<'_>, Query { site, k, limit, .. }: Query<'_>) -> Timed {
        let (network, w) = (lent.network, &mut lent.written);
        let scratch = match self.words {
            EagerWords::S => lent.scratch.of(network, k),
            EagerWords::TwelveN => lent.scratch.of_length(eager_scratch_len(network)),
        };
        let (points, answers, visits) = (&w.points, &mut w.answers, &mut w.visits);
        let start = Instant::now();
        let listing = eager(network, points, site, k, limit, scratch, answers, visits);
        Timed::behind(start, listing, answers)
    }
}

fn time_route(lent: &mut Lent<'_>, query: Query<'_>) -> Timed {
    let (network, w) = (lent.network, &mut lent.written);
    let scratch = lent.scratch.of(network, query.k);
    let (points, answers) = (&w.points, &mut w.answers);
    let start = Instant::now();
    let listing = route(network, points, query.route, query.k, scratch, answers);
    Timed::behind(start, listing, answers)
}

/// The time of calls in milliseconds, and what they list together.
#[derive(Default)]
struct Timed {
    milliseconds: f64,
    list: BTreeSet<u32>,
}

impl Timed {
    /// Of one call that is accepted.
    fn behind(start: Instant, listing: Listing, answers: &[u32]) -> Self {
        let milliseconds = start.elapsed().as_secs_f64() * 1e3;
        assert_eq!(black_box(listing).number, 0);
        Self {
            milliseconds,
            list: answers[..listing.length].iter().copied().collect(),
        }
    }

    fn add(&mut self, other: Self) {
        self.milliseconds += other.milliseconds;
        self.list.extend(other.list);
    }
}
