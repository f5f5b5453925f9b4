//! The table query, compared with document 01 and with the other searches.

mod common;

use common::all_pairs::AllPairs;
use common::call::{assert_lower_numbers_first, assert_outcome, assert_random_calls};
use common::call::{assert_refused, compare, Call, Outcome, LEAST_OF_EACH};
use common::faults::Fault;
use common::inputs::{no_k, no_node, some_node, some_places, some_points, spoil_points};
use common::largest::{each, largest_grid, largest_star, longest_chain, several_on_each};
use common::largest::{LAST, MOST_NODES};
use common::lent::Lent;
use common::nearest_rows::NearestRows;
use common::network::{marks, network_n, OwnedNetwork, N_NODES, N_POINTS};
use common::numbers::table_query_number;
use common::random::Random;
use common::rows::relaxed_row;
use common::shapes::{grid, random_network, try_all_small_points, weight_by_product, weighted};
use common::site::{Site, EAGER};
use common::table::{OwnedTable, PlainTable};
use common::table_damage::damage;
use common::tally::Tally;
use overlap::calls::{lazy, lazy_ep, table_query, Listing, NONE};

/// Everything that a call is lent.
#[derive(Clone)]
struct Query {
    site: Site,
    table: OwnedTable,
}

impl Query {
    fn exact(site: Site, table: &PlainTable, random: &mut Random) -> Self {
        let table = OwnedTable::holding(table, random);
        Self { site, table }
    }

    /// "Table query (eager-M): the list". There is no count.
    fn accepted(&self, list: &[u32]) -> Outcome<Self> {
        let (listing, site) = self.site.accepted(list, 0);
        let table = self.table.clone();
        (listing, Self { site, table })
    }
}

impl Call for Query {
    type Answer = Listing;

    const OWN_FAULTS: &'static [(u32, Fault<Self>)] = &[
        (6, |c, r| spoil_points(&mut c.site.points, r)),
        (7, |c, r| c.site.q = no_node(&c.site.network, r)),
        (8, |c, r| c.table.spoil_places(r)),
        (8, |c, r| c.table.spoil_lengths(r)),
        (9, |c, r| c.site.k = no_k_by_table(c.table.places, r)),
        (10, |c, r| c.site.shorten_answers(r)),
    ];

    fn random(network: &OwnedNetwork, pairs: &AllPairs, random: &mut Random) -> Self {
        let (points, q) = (some_points(network, random), some_node(network, random));
        let places = some_places(random);
        let k = random.between(1, places - 1);
        let site = Site::exact(network, &points, (q, k), random).lengthen(random);
        Self::exact(site, &PlainTable::of(pairs, &points, places), random)
    }

    fn run(&mut self) -> Listing {
        let site = &mut self.site;
        let (network, table) = (site.network.lend(), self.table.lend());
        let (scratch, answers) = (site.scratch.part_mut(), site.answers.part_mut());
        table_query(
            network,
            &site.points,
            site.q,
            site.k,
            table,
            scratch,
            answers,
        )
    }

    fn number(&self) -> u32 {
        let site = &self.site;
        let lengths = (site.scratch.len(), site.answers.len());
        let (asked, sizes) = ((site.q, site.k), self.table.sizes());
        table_query_number(site.network.lend(), &site.points, asked, sizes, lengths)
    }

    fn accepted_by(&self, pairs: &AllPairs) -> Outcome<Self> {
        self.accepted(&self.site.list(pairs))
    }

    fn network(&self) -> &OwnedNetwork {
        &self.site.network
    }

    fn network_mut(&mut self) -> &mut OwnedNetwork {
        &mut self.site.network
    }

    fn points(&self) -> &[u8] {
        &self.site.points
    }

    fn least_scratch(&self) -> usize {
        self.site.least_scratch()
    }

    fn scratch_mut(&mut self) -> &mut Lent {
        &mut self.site.scratch
    }

    fn arrays(&self) -> Vec<(&'static str, &Lent)> {
        [&self.site.arrays()[..], &self.table.arrays()].concat()
    }

    fn asked(&self) -> String {
        let (q, k, places) = (self.site.q, self.site.k, self.table.places);
        format!("table query, q {q}, k {k}, K {places}")
    }

    /// Lends the table of the network that damage has left.
    fn mend(&mut self) {
        if self.number() == 0 {
            let pairs = AllPairs::of(self.site.network.lend());
            let table = PlainTable::of(&pairs, &self.site.points, self.table.places);
            self.table = self.table.clone().with(&table);
        }
    }

    fn tally(&self, tally: &mut Tally, pairs: &AllPairs) {
        self.site.tally(tally, pairs);
        tally.add_places(self.table.places);
        tally.add_if(self.site.k == self.table.places - 1, "k of K - 1");
    }
}

/// 9: "k is 0 or above 16; by table, above K - 1".
fn no_k_by_table(places: u32, random: &mut Random) -> u32 {
    let above = random.between(places.min(17), 17);
    let other = no_k(random);
    random.pick(&[0, places, places, above, other])
}

/// Sees that the table query with each K that allows k lists these points.
fn assert_list(site: &Site, pairs: &AllPairs, list: &[u32], random: &mut Random) {
    for places in site.k + 1..=17 {
        let table = PlainTable::of(pairs, &site.points, places);
        let call = Query::exact(site.clone(), &table, random);
        let outcome = call.accepted(list);
        assert_outcome(call, &outcome);
    }
}

/// Network N of document 01, by hand.
mod network_n {
    use super::*;

    fn site(q: u32, k: u32) -> Site {
        let points = marks(N_NODES, &N_POINTS);
        let seed = u64::from(q) + u64::from(k);
        Site::exact(&network_n(), &points, (q, k), &mut Random::new(seed))
    }

    fn call(q: u32, k: u32, places: u32) -> Query {
        let site = site(q, k);
        let pairs = AllPairs::of(site.network.lend());
        let table = PlainTable::of(&pairs, &site.points, places);
        Query::exact(site, &table, &mut Random::new(1))
    }

    #[test]
    fn the_lists_of_p1_to_p5() {
        let (pairs, mut random) = (AllPairs::of(network_n().lend()), Random::new(4));
        for (q, k, list) in [
            (0, 1, &[2][..]),
            (0, 2, &[2, 4]),
            (1, 1, &[2]),
            (2, 1, &[4]),
            (5, 1, &[]),
        ] {
            assert_list(&site(q, k), &pairs, list, &mut random);
        }
    }

    #[test]
    fn nothing_is_listed_without_points_in_p6() {
        let mut site = site(0, 1);
        site.points = vec![0; 6];
        let pairs = AllPairs::of(site.network.lend());
        assert_list(&site, &pairs, &[], &mut Random::new(4));
    }

    /// P7: with the road 2-4 of 6, point 4 is nearer to 2 than site 0 is.
    #[test]
    fn nothing_is_listed_in_p7() {
        let roads = [(0, 1, 4), (0, 3, 5), (1, 2, 3), (2, 4, 6), (3, 4, 3)];
        let mut site = site(0, 1);
        site.network = OwnedNetwork::from_roads(N_NODES, &roads);
        let pairs = AllPairs::of(site.network.lend());
        assert_list(&site, &pairs, &[], &mut Random::new(4));
    }

    #[test]
    fn each_condition_of_its_own() {
        let assert_number = |number, change: fn(&mut Query)| {
            let mut call = call(0, 2, 3);
            change(&mut call);
            assert_refused(call, number);
        };
        assert_number(6, |c| c.site.points[3] = 16);
        assert_number(6, |c| c.site.points[5] = 255);
        assert_number(6, |c| c.site.points.truncate(5));
        assert_number(6, |c| c.site.points.push(0));
        assert_number(7, |c| c.site.q = 6);
        assert_number(7, |c| c.site.q = u32::MAX);
        assert_number(8, |c| c.table.places = 1);
        assert_number(8, |c| c.table.places = 2);
        assert_number(8, |c| c.table.places = 18);
        assert_number(8, |c| c.table = OwnedTable::junk(6, 1, &mut Random::new(0)));
        assert_number(8, |c| {
            c.table = OwnedTable::junk(6, 18, &mut Random::new(0))
        });
        assert_number(8, |c| c.table.ids = Lent::junk(17, &mut Random::new(0)));
        assert_number(8, |c| {
            c.table.distances = Lent::junk(19, &mut Random::new(0));
        });
        assert_number(9, |c| c.site.k = 0);
        assert_number(9, |c| c.site.k = 3);
        assert_number(9, |c| c.site.k = 17);
        assert_number(9, |c| c.site.k = u32::MAX);
        assert_number(10, |c| c.site.answers = Lent::junk(5, &mut Random::new(0)));
    }

    /// The table's example of 9: "K = 2, k = 2".
    #[test]
    fn k_is_below_the_places() {
        for places in 2..=17 {
            for k in 0..=18 {
                let mut call = call(0, k.clamp(1, 16), places);
                call.site.k = k;
                let number = if k == 0 || k >= places { 9 } else { 0 };
                assert_eq!(compare(call), number);
            }
        }
    }

    /// S is 16 × 6 + 8 × (10 + 6) × k, whatever K is.
    #[test]
    fn scratch_grows_with_k() {
        for (k, length) in [(1, 224), (2, 352), (16, 2_144)] {
            let lengths = [(0, 10), (length - 1, 10), (length, 0), (length + 1, 0)];
            for (length, number) in lengths.into_iter().chain([(9_999, 0)]) {
                for seed in 0..20 {
                    let mut call = call(0, k, 17);
                    call.site.scratch = Lent::junk(length, &mut Random::new(seed));
                    assert_eq!(compare(call), number);
                }
            }
        }
    }
}

/// "Conditions are tried from 1 upward [...]; the first met is returned".
mod order {
    use super::*;

    #[test]
    fn two_conditions_give_the_lower_number() {
        assert_lower_numbers_first::<Query>();
    }
}

/// Random networks, valid and damaged, against the plain calculation.
mod random {
    use super::*;

    #[test]
    fn engine_and_plain_calculation_agree() {
        let numbers = [0, 1, 2, 3, 4, 5, 6, 7, 8, 9, 10];
        let names = [&Site::TALLIED[..], &["k of K - 1"]].concat();
        let tally = assert_random_calls::<Query>(&numbers, &names);
        tally.assert_each_places(LEAST_OF_EACH);
    }

    /// All k from 1 to K - 1, by one table.
    #[test]
    fn all_searches_and_the_plain_calculation_agree() {
        for seed in 10_000..12_000 {
            let mut random = Random::new(seed);
            let network = random_network(&mut random);
            let pairs = AllPairs::of(network.lend());
            let points = some_points(&network, &mut random);
            let places = some_places(&mut random);
            let table = PlainTable::built(&network, &points, places, &mut random);
            for k in 1..places {
                let q = some_node(&network, &mut random);
                let site = Site::exact(&network, &points, (q, k), &mut random);
                let list = site.list(&pairs);
                for search in [EAGER, lazy, lazy_ep] {
                    let mut site = site.clone();
                    let listing = site.run(search);
                    assert_eq!(listing.number, 0, "{network:?}");
                    assert_eq!(site.answers.part()[..listing.length], list, "{network:?}");
                }
                let call = Query::exact(site, &table, &mut random);
                let outcome = call.accepted(&list);
                assert_outcome(call, &outcome);
            }
        }
    }
}

/// All networks of up to four nodes with roads of weight 1 or 2, and 0 to 2 lockers on each node.
mod exhaustive {
    use super::*;

    #[test]
    fn up_to_four_nodes() {
        let mut random = Random::new(5);
        try_all_small_points(|network, points| {
            let pairs = AllPairs::of(network.lend());
            for (k, places) in [(1, 2), (1, 3), (2, 3), (3, 17)] {
                let table = PlainTable::of(&pairs, points, places);
                for q in 0..points.len() as u32 {
                    let site = Site::exact(network, points, (q, k), &mut random);
                    let call = Query::exact(site, &table, &mut random);
                    let outcome = call.accepted_by(&pairs);
                    assert_outcome(call, &outcome);
                }
            }
        });
    }
}

/// "On one that the check would deny, the list (marked nodes, ascending) [...] are free".
mod damaged_tables {
    use super::*;

    /// Sees that the list is of marked nodes, ascending, a point on q perhaps among them, and all else
    /// as document 01 says.
    fn assert_free_outcome(mut call: Query) {
        let before = call.clone();
        let listing = call.run();
        assert_eq!((listing.number, listing.count), (0, 0));
        assert!(listing.length <= before.site.points.len());
        let list = call.site.answers.part()[..listing.length].to_vec();
        let is_marked = |&p: &u32| before.site.points.get(p as usize) > Some(&0);
        assert!(list.iter().all(is_marked), "{}", before.story());
        assert!(list.windows(2).all(|pair| pair[0] < pair[1]));
        let (_, left) = before.accepted(&list);
        assert_eq!(call.network(), left.network());
        assert_eq!(call.points(), left.points());
        for ((name, is), (_, wanted)) in call.arrays().into_iter().zip(left.arrays()) {
            assert_eq!(is.difference(wanted), None, "{name}, {}", left.story());
        }
    }

    #[test]
    fn the_list_is_of_marked_nodes() {
        for seed in 0..10_000 {
            let mut random = Random::new(seed);
            let network = random_network(&mut random);
            let pairs = AllPairs::of(network.lend());
            for _ in 0..4 {
                let mut call = Query::random(&network, &pairs, &mut random);
                let mut table = call.table.words();
                if random.once_in(4) {
                    let other = some_points(&network, &mut random);
                    table = PlainTable::of(&pairs, &other, table.places);
                }
                damage(&mut table, random.pick(&[0, 1, 2, 5, 20]), &mut random);
                call.table = call.table.with(&table);
                assert_free_outcome(call);
            }
        }
    }

    /// Every row is full of one entry.
    #[test]
    fn all_entries_the_same() {
        let mut random = Random::new(8);
        let network = weighted(40, &grid(5, 8), weight_by_product);
        let pairs = AllPairs::of(network.lend());
        for id in [0, 39, 40, 65_535, 65_536, NONE - 1, NONE] {
            for distance in [0, 1, 4_294_770_690, NONE - 1, NONE] {
                let mut call = Query::random(&network, &pairs, &mut random);
                call.table.ids.part_mut().fill(id);
                call.table.distances.part_mut().fill(distance);
                assert_free_outcome(call);
            }
        }
    }
}

/// Networks at document 01's bounds.
mod limits {
    use super::*;

    /// Sees that the list for each q is what the nearest points of each node say.
    fn assert_lists(network: &OwnedNetwork, points: &[u8], sites: &[u32], k: u32) {
        let mut random = Random::new(6);
        let nearest = NearestRows::of(network.lend(), points, k as usize + 1);
        let table = PlainTable::of_large(network, points, k + 1);
        for &q in sites {
            let list = nearest.listed(&relaxed_row(network.lend(), q), k);
            assert!(!list.is_empty());
            let site = Site::exact(network, points, (q, k), &mut random);
            let call = Query::exact(site, &table, &mut random);
            let outcome = call.accepted(&list);
            assert_outcome(call, &outcome);
        }
    }

    #[test]
    fn the_longest_chain() {
        let network = longest_chain();
        let ends = marks(MOST_NODES, &[0, LAST]);
        assert_lists(&network, &ends, &[0, LAST, LAST / 2], 1);
        assert_lists(&network, &each(1_000), &[0, LAST / 2, LAST], 16);
        assert_lists(&network, &several_on_each(1_000), &[0, LAST / 2], 16);
    }

    #[test]
    fn a_star_of_the_most_nodes() {
        let network = largest_star(7);
        let three = marks(MOST_NODES, &[0, 7, LAST]);
        assert_lists(&network, &three, &[1, 7, LAST], 2);
    }

    #[test]
    fn a_grid_of_255_by_257_nodes() {
        let network = largest_grid(weight_by_product);
        assert_lists(&network, &each(100), &[100, 12_345, MOST_NODES / 2], 1);
        assert_lists(&network, &each(100), &[0, LAST], 16);
        assert_lists(&network, &several_on_each(100), &[1_000, 30_000], 16);
    }
}
