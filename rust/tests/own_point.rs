//! A site on a point, compared with Ask 6 of document 02: "Users enter a standing locker's node as
//! the site and find it on its own list. The lease edition now says that a point on q isn't listed.
//! All four searches and the short query change".
//!
//! The other tests compare each call with a plain calculation of this wording, for any site. Here
//! every site is on a point, and the lists are compared with those of the wording before, and with
//! each other.

mod common;

use common::all_pairs::AllPairs;
use common::eager::SHORT_K;
use common::inputs::{some_k, some_node, some_points};
use common::network::accepted;
use common::random::Random;
use common::searches::assert_site;
use common::shapes::random_network;
use common::tally::Tally;
use overlap::{Engine, Network, Points, Refusal, Table, NONE};

/// A network with its distances and an engine, lockers on it, a site on one of them, and k.
struct Town {
    network: Network,
    pairs: AllPairs,
    engine: Engine,
    marks: Vec<u8>,
    q: u32,
    k: u32,
}

impl Town {
    fn random(random: &mut Random) -> Self {
        let arrays = random_network(random);
        let network = accepted(&arrays).unwrap();
        let (mut marks, q) = (some_points(&arrays, random), some_node(&arrays, random));
        let on_q = &mut marks[q as usize];
        *on_q = random.pick(&[1, 1, 2, 15]).max(*on_q);
        Self {
            pairs: AllPairs::of(arrays.lend()),
            engine: Engine::new(&network),
            network,
            marks,
            q,
            k: some_k(random),
        }
    }

    fn points(&self) -> Points {
        Points::from_marks(&self.network, self.marks.clone()).unwrap()
    }

    /// The table of the lockers, with any K above k.
    fn table(&self, random: &mut Random) -> Table {
        let places = random.between(self.k + 1, 17);
        Table::build(&self.network, self.points(), places).unwrap()
    }

    /// The list for the site by the wording before: "point p is listed if it can be reached from q
    /// and fewer than k other points p' have d(p, p') < d(p, q). The point p itself doesn't count. A
    /// point on q is listed."
    fn old_list(&self, k: u32) -> Vec<u32> {
        let is_listed = |&p: &u32| {
            let to_q = self.pairs.plain_distances(p)[self.q as usize];
            let nearer = self.pairs.plain_nearest(&self.marks, p, to_q, u32::MAX);
            // One locker on p is no other, and it is nearer unless q is on p.
            let others = nearer.len() - usize::from(p != self.q);
            to_q != NONE && others < k as usize
        };
        self.points().iter().filter(is_listed).collect()
    }

    /// The same without the site.
    fn list(&self, k: u32) -> Vec<u32> {
        let mut list = self.old_list(k);
        list.retain(|&p| p != self.q);
        list
    }

    /// Sees that all searches say this list of the site, and these visits.
    fn assert_site(&mut self, table: &mut Table, k: u32, list: &[u32], visits: &[u32]) {
        assert_site(&mut self.engine, table, (self.q, k), list, visits);
    }
}

/// Shows many random towns.
fn try_random(mut see: impl FnMut(&mut Town, &mut Random)) {
    for seed in 0..4_000 {
        let mut random = Random::new(seed);
        see(&mut Town::random(&mut random), &mut random);
    }
}

/// "All four searches and the short query change".
mod lists {
    use super::*;

    /// The names under which things are counted.
    const TALLIED: [&str; 6] = [
        "several lockers on q",
        "a list that was q alone",
        "a list of two or more that began with q",
        "a list of two or more that ended with q",
        "several lockers on q and on a node that is listed",
        "the short query",
    ];

    fn tally(town: &Town, list: &[u32], tally: &mut Tally) {
        let has_several = |&p: &u32| town.marks[p as usize] > 1;
        let happened = [
            has_several(&town.q),
            list.is_empty(),
            list.first() > Some(&town.q),
            list.last().is_some_and(|&p| p < town.q),
            has_several(&town.q) && list.iter().any(has_several),
            town.k == SHORT_K,
        ];
        for (happened, name) in happened.into_iter().zip(TALLIED) {
            tally.add_if(happened, name);
        }
    }

    /// No other point comes or goes. "Expanded counts are untouched", and so are the visits.
    #[test]
    fn are_those_of_the_wording_before_without_q() {
        let mut counts = Tally::default();
        try_random(|town, random| {
            assert!(town.old_list(town.k).contains(&town.q));
            let (k, list) = (town.k, town.list(town.k));
            let visits = town.pairs.plain_visits(&town.marks, town.q, k);
            town.assert_site(&mut town.table(random), k, &list, &visits);
            tally(town, &list, &mut counts);
        });
        counts.print();
        for name in TALLIED {
            counts.assert_at_least(200, name);
        }
    }

    /// From none to 15: no locker on q is nearer to a node than q is.
    #[test]
    fn and_visits_are_the_same_for_any_number_of_lockers_on_q() {
        try_random(|town, random| {
            let (q, k) = (town.q, town.k);
            town.marks[q as usize] = 0;
            let points = town.points();
            let without = town.engine.eager(&points, q, k, 65_535).unwrap();
            let (list, visits) = (without.points.to_vec(), without.visits.to_vec());
            for lockers in 0..=15 {
                town.marks[q as usize] = lockers;
                town.assert_site(&mut town.table(random), k, &list, &visits);
            }
        });
    }

    /// A road of 4 between two nodes, by hand: from a site on node 0, each locker on node 1 has its
    /// companions nearer, and node 1 has all of its lockers nearer.
    #[test]
    fn have_a_node_with_companions_where_fewer_than_k_are_nearer() {
        let network = Network::from_roads(2, &[(0, 1, 4)]).unwrap();
        let mut engine = Engine::new(&network);
        for (on_0, on_1) in (1..=15).flat_map(|a| (1..=15).map(move |b| (a, b))) {
            let points = Points::from_marks(&network, vec![on_0, on_1]).unwrap();
            let mut table = Table::build(&network, points, 17).unwrap();
            for k in 1..=16 {
                let list: &[u32] = if u32::from(on_1) - 1 < k { &[1] } else { &[] };
                let visits: &[u32] = if u32::from(on_1) < k { &[0, 1] } else { &[0] };
                assert_site(&mut engine, &mut table, (0, k), list, visits);
            }
        }
    }
}

/// "Verify of the point on q says no."
mod verify {
    use super::*;

    /// No, and not a refusal: 11 still is for a node without a locker, on q too.
    #[test]
    fn of_each_node_with_the_site_on_it() {
        try_random(|town, _| {
            let points = town.points();
            for node in 0..town.network.nodes() {
                let expected = match points.count(node) {
                    0 => Err(Refusal::Mark),
                    _ => Ok(false),
                };
                let verdict = town.engine.verify(&points, node, node, town.k);
                assert_eq!(verdict, expected, "{node}, {:?}", town.marks);
            }
        });
    }

    /// Each other point has the verdict that it had.
    #[test]
    fn of_the_points_on_other_nodes() {
        try_random(|town, _| {
            let (q, k, points, list) = (town.q, town.k, town.points(), town.list(town.k));
            for p in points.iter().filter(|&p| p != q) {
                let verdict = town.engine.verify(&points, p, q, k);
                assert_eq!(verdict, Ok(list.contains(&p)), "{p}, {:?}", town.marks);
            }
        });
    }
}

/// "[...] and their agreement after any updates is judged by the new wording."
mod updates {
    use super::*;

    /// Adds or takes lockers anywhere, and then adds one on q. At 15 and at none a call is refused
    /// and changes nothing.
    fn change(town: &mut Town, table: &mut Table, random: &mut Random) {
        for _ in 0..random.pick(&[0, 1, 5, 20]) {
            let node = random.below(town.network.nodes());
            let change = random.pick(&[Table::insert, Table::remove]);
            let refused = change(table, node).err();
            assert!(refused.is_none_or(|refusal| refusal == Refusal::Mark));
        }
        if table.points().count(town.q) == 15 {
            table.remove(town.q).unwrap();
        }
        table.insert(town.q).unwrap();
        town.marks = table.points().marks().to_vec();
    }

    #[test]
    fn that_end_with_a_locker_on_q() {
        try_random(|town, random| {
            let mut table = town.table(random);
            change(town, &mut table, random);
            for k in 1..table.places() {
                let visits = town.pairs.plain_visits(&town.marks, town.q, k);
                town.assert_site(&mut table, k, &town.list(k), &visits);
            }
        });
    }

    /// The lockers on q go one by one, and what the site receives stays.
    #[test]
    fn that_take_all_lockers_from_q() {
        try_random(|town, random| {
            let (mut table, k) = (town.table(random), town.k);
            change(town, &mut table, random);
            let list = town.list(k);
            let visits = town.pairs.plain_visits(&town.marks, town.q, k);
            while table.points().contains(town.q) {
                town.assert_site(&mut table, k, &list, &visits);
                table.remove(town.q).unwrap();
            }
            town.assert_site(&mut table, k, &list, &visits);
        });
    }
}
