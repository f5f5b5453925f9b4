//! How far the searches go, and where eager and the sheet go too far.

use super::calls::{Call, Query, EAGER, ENGINE, LAZY, LAZY_EP, SHEET, TWINS};
use super::common::network::{marks, OwnedNetwork};
use super::common::shapes::{chain, figure_12, star, weight_by_product, weighted};
use super::lent::Lent;
use super::measure::{measure, Budget, Pairs};
use super::networks::Subject;
use super::plain;
use overlap::calls::scratch_len;
use std::ops::RangeInclusive;
use std::time::Instant;

/// The nodes that a search settles or expands: the least and the most of all sites.
pub type Range = RangeInclusive<usize>;

/// For each k: what eager expands, what lazy settles and what lazy-EP settles, by their twins.
pub fn reach(subject: &Subject, k: u32) -> [Range; 3] {
    let (network, points) = (subject.network.lend(), &subject.points);
    let mut scratch = vec![0; scratch_len(network, k as usize)];
    let (mut answers, mut visits) = (vec![0; points.len()], vec![0; points.len()]);
    let mut counts = [vec![], vec![], vec![]];
    for Query { site, limit, .. } in subject.queries(k) {
        let (s, a) = (&mut scratch, &mut answers);
        let listing = plain::eager(network, points, site, k, limit, s, a, &mut visits);
        counts[0].push(listing.count as usize);
        counts[1].push(plain::lazy_and_settled(network, points, site, k, s, a).1);
        counts[2].push(plain::lazy_ep_and_settled(network, points, site, k, s, a).1);
    }
    counts.map(|counts| {
        let (least, most) = (counts.iter().min(), counts.iter().max());
        *least.unwrap()..=*most.unwrap()
    })
}

/// The nodes of the line in 000, Fig. 12.
pub const LINE: u32 = 60_000;

/// The searches in 000, Fig. 12, where lazy settles the whole line and lazy-EP none of it.
pub fn figure_12_times(budget: Budget) -> Vec<(Call, Pairs)> {
    let network = figure_12(1, LINE);
    let points = marks(LINE + 4, &[1]);
    let mut lent = Lent::new(network.lend(), &points, 2, 1);
    let query = Query {
        site: 0,
        point: 1,
        k: 1,
        limit: 65_535,
        route: &[],
    };
    let searches = [EAGER, LAZY, LAZY_EP].into_iter();
    let mut times = |call| (call, measure(call, TWINS, &mut lent, &[query], budget));
    searches.map(&mut times).collect()
}

/// The milliseconds of one call: of eager on a star with 3 points from a leaf with k = 3, and on a
/// chain without points from an end with k = 1; of the sheet on a star of equal roads with a site on
/// each leaf.
pub fn slow_times(n: u32) -> [f64; 3] {
    let spokes = weighted(n, &star(n, 0), weight_by_product);
    let line = weighted(n, &chain(n), weight_by_product);
    let even = weighted(n, &star(n, 0), |_, _| 1);
    let leaves: Vec<u32> = (1..n).collect();
    [
        time_of(EAGER, &spokes, &marks(n, &[1, 2, 3]), (n - 1, 3)),
        time_of(EAGER, &line, &marks(n, &[]), (0, 1)),
        time_of(SHEET, &even, &marks(n, &leaves), (0, 1)),
    ]
}

fn time_of(call: Call, network: &OwnedNetwork, points: &[u8], (site, k): (u32, u32)) -> f64 {
    let mut lent = Lent::new(network.lend(), points, 2, k);
    let query = Query {
        site,
        point: 0,
        k,
        limit: 65_535,
        route: &[],
    };
    let start = Instant::now();
    let answer = (call.run)(&ENGINE, &mut lent, query);
    assert_eq!(answer.0, 0);
    start.elapsed().as_secs_f64() * 1e3
}
