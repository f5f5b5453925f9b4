//! The sheet of all sites, compared with Ask 1 of document 02.

mod common;

use common::all_pairs::{counted, AllPairs};
use common::call::{assert_lower_numbers_first, assert_outcome, assert_random_calls};
use common::call::{assert_refused, assert_scratch_lengths, Call};
use common::households::Sheet;
use common::inputs::some_points;
use common::largest::{densest, each, largest_grid, largest_star, longest_chain};
use common::largest::{most_roads, several_on_each, DENSEST_NODES, LAST, MOST_NODES};
use common::lent::Lent;
use common::nearest_rows::NearestRows;
use common::network::{marks, network_n, OwnedNetwork, N_NODES, N_POINTS};
use common::random::Random;
use common::rows::{relaxed_row, Row};
use common::shapes::{random_network, try_all_small_points, weight_by_product};

/// A household, two, none, one, none and three.
const HOUSEHOLDS: [u8; 6] = [1, 2, 0, 1, 0, 3];

/// Sees that these are the entries.
fn assert_entries(call: Sheet, entries: &[u32]) {
    let outcome = call.accepted(entries);
    assert_outcome(call, &outcome);
}

/// The entries that the engine writes.
fn entries_of(mut call: Sheet) -> Vec<u32> {
    assert_eq!(call.run(), 0);
    call.lent.answers.part().to_vec()
}

/// Network N of document 01, by hand. The sites are its points, 2, 4 and 5.
mod network_n {
    use super::*;

    fn call(households: &[u8], sites: &[u8]) -> Sheet {
        Sheet::exact(&network_n(), [households, sites], &mut Random::new(0))
    }

    fn call_of_n() -> Sheet {
        call(&HOUSEHOLDS, &marks(N_NODES, &N_POINTS))
    }

    /// 2 wins the household on node 0 and the two on node 1, 4 that on node 3, 5 its own three.
    #[test]
    fn the_sheet_of_its_points() {
        assert_entries(call_of_n(), &[0, 0, 3, 0, 1, 3]);
    }

    /// Nodes 0 and 4 are both 7 from 2.
    #[test]
    fn sites_that_are_equally_near_count_a_household_each() {
        let sites = marks(N_NODES, &[0, 4]);
        assert_entries(call(&[0, 0, 15, 0, 0, 0], &sites), &[15, 0, 0, 0, 15, 0]);
        // Node 0 has node 1 nearer, node 4 has node 3.
        assert_entries(call(&[0, 2, 15, 3, 0, 1], &sites), &[17, 0, 0, 0, 18, 0]);
    }

    /// Another site on a node takes nothing from the first, and has no entry of its own.
    #[test]
    fn several_sites_on_a_node_have_one_entry() {
        for sites in 1..=15 {
            let bytes = [0, 0, sites, 0, 16 - sites, 1];
            assert_entries(call(&HOUSEHOLDS, &bytes), &[0, 0, 3, 0, 1, 3]);
        }
    }

    #[test]
    fn without_sites_or_households_it_is_all_0() {
        assert_entries(call(&HOUSEHOLDS, &[0; 6]), &[0; 6]);
        assert_entries(call(&[0; 6], &[1; 6]), &[0; 6]);
    }

    /// A site on each node keeps its own households.
    #[test]
    fn with_a_site_on_each_node_it_is_the_households() {
        assert_entries(call(&HOUSEHOLDS, &[1; 6]), &HOUSEHOLDS.map(u32::from));
    }

    #[test]
    fn each_condition_of_its_own() {
        let assert_number = |number, change: fn(&mut Sheet)| {
            let mut call = call_of_n();
            change(&mut call);
            assert_refused(call, number);
        };
        assert_number(6, |c| c.lent.households[3] = 16);
        assert_number(6, |c| c.lent.households.truncate(5));
        assert_number(6, |c| c.lent.households.push(0));
        assert_number(6, |c| c.lent.households.clear());
        assert_number(6, |c| c.lent.sites[5] = 255);
        assert_number(6, |c| c.lent.sites.truncate(5));
        assert_number(6, |c| c.lent.sites.push(0));
        assert_number(6, |c| c.lent.sites.clear());
        assert_number(10, |c| c.lent.answers = Lent::junk(5, &mut Random::new(0)));
    }

    /// "the m of 10 is [...] 1 for the sheet."
    #[test]
    fn scratch_is_s_of_1() {
        let mut random = Random::new(0);
        for _ in 0..200 {
            let call = call_of_n();
            assert_scratch_lengths(&call, &mut random, |c| c.accepted(&[0, 0, 3, 0, 1, 3]));
        }
    }
}

/// "Conditions are tried from 1 upward [...]; the first met is returned".
mod order {
    use super::*;

    #[test]
    fn two_conditions_give_the_lower_number() {
        assert_lower_numbers_first::<Sheet>();
    }
}

/// Random networks, valid and damaged, against the plain calculation.
mod random {
    use super::*;

    #[test]
    fn engine_and_plain_calculation_agree() {
        let numbers = [0, 1, 2, 3, 4, 5, 6, 10];
        assert_random_calls::<Sheet>(&numbers, &Sheet::TALLIED);
    }

    /// Each entry is the sum of the households over the engine's own list "of a site there, 0 without
    /// a site".
    #[test]
    fn each_entry_is_the_length_of_a_list() {
        for seed in 0..4_000 {
            let mut random = Random::new(seed);
            let network = random_network(&mut random);
            let pairs = AllPairs::of(network.lend());
            let call = Sheet::random(&network, &pairs, &mut random);
            let entries = entries_of(call.clone());
            for (q, &sites) in (0..).zip(&call.lent.sites) {
                let length = match sites {
                    0 => 0,
                    _ => length_of_list(&call, q, &mut random),
                };
                assert_eq!(entries[q as usize], length, "q {q}, {}", call.story());
            }
        }
    }

    fn length_of_list(call: &Sheet, q: u32, random: &mut Random) -> u32 {
        let mut list = call.list_of(q, random);
        let listing = list.run();
        assert_eq!(listing.number, 0);
        let list = &list.lent.answers.part()[..listing.length];
        counted(&call.lent.households, list)
    }
}

/// All networks of up to four nodes with roads of weight 1 or 2, and 0 to 2 sites on each node.
mod exhaustive {
    use super::*;

    #[test]
    fn up_to_four_nodes() {
        let mut random = Random::new(5);
        try_all_small_points(|network, sites| {
            let pairs = AllPairs::of(network.lend());
            for households in [vec![1; sites.len()], some_points(network, &mut random)] {
                let call = Sheet::exact(network, [&households, sites], &mut random);
                let outcome = call.accepted_by(&pairs);
                assert_outcome(call, &outcome);
            }
        });
    }
}

/// Networks at document 01's bounds.
mod limits {
    use super::*;

    fn call(network: &OwnedNetwork, households: &[u8], sites: &[u8]) -> Sheet {
        Sheet::exact(network, [households, sites], &mut Random::new(6))
    }

    /// The entries of these sites, and 0 everywhere else.
    fn entries(of_sites: &[(u32, u32)]) -> Vec<u32> {
        let mut entries = vec![0; MOST_NODES as usize];
        for &(q, entry) in of_sites {
            entries[q as usize] = entry;
        }
        entries
    }

    /// Sites at each thousandth node share the nodes halfway between them.
    #[test]
    fn the_longest_chain() {
        let network = longest_chain();
        let within = (1..65).map(|i| (1_000 * i, 1_001));
        let of_sites: Vec<_> = within.chain([(0, 501), (65_000, 1_035)]).collect();
        let call = call(&network, &each(1), &each(1_000));
        assert_entries(call, &entries(&of_sites));
    }

    /// All households are the one site's, up to the largest distance of all; two at the ends share the
    /// node in the middle.
    #[test]
    fn the_largest_distances() {
        let network = longest_chain();
        let (households, n) = (each(1), MOST_NODES);
        let sites = marks(n, &[0]);
        assert_entries(call(&network, &households, &sites), &entries(&[(0, n)]));
        let (sites, half) = (marks(n, &[0, LAST]), n / 2 + 1);
        let shared = entries(&[(0, half), (LAST, half)]);
        assert_entries(call(&network, &households, &sites), &shared);
    }

    /// Two leaves share all but their own households; with a site the centre takes them from both.
    #[test]
    fn a_star_of_the_most_nodes() {
        let centre = 7;
        let (network, households) = (largest_star(centre), vec![15; MOST_NODES as usize]);
        let sites = marks(MOST_NODES, &[0, LAST]);
        let most = 15 * (MOST_NODES - 1);
        let shared = entries(&[(0, most), (LAST, most)]);
        assert_entries(call(&network, &households, &sites), &shared);
        let sites = marks(MOST_NODES, &[0, centre, LAST]);
        let of_centre = entries(&[(0, 15), (LAST, 15), (centre, most - 15)]);
        assert_entries(call(&network, &households, &sites), &of_centre);
    }

    /// A site on each node, and a household.
    #[test]
    fn as_many_sites_as_nodes() {
        let network = largest_grid(|_, _| 1);
        let everywhere = vec![15; MOST_NODES as usize];
        let entries = vec![15; MOST_NODES as usize];
        assert_entries(call(&network, &everywhere, &everywhere), &entries);
    }

    #[test]
    fn one_node_without_a_road() {
        let network = OwnedNetwork::from_roads(1, &[]);
        for households in 0..=15 {
            assert_entries(call(&network, &[households], &[0]), &[0]);
            for sites in 1..=15 {
                assert_entries(
                    call(&network, &[households], &[sites]),
                    &[households.into()],
                );
            }
        }
    }

    /// Roads of any weights, and all of weight 1, where many households have several nearest sites.
    #[test]
    fn a_grid_of_255_by_257_nodes() {
        let households = several_on_each(3);
        for network in [largest_grid(weight_by_product), largest_grid(|_, _| 1)] {
            let sites = several_on_each(2_000);
            let entries = entries_by_rows(&network, &households, &sites);
            assert_entries(call(&network, &households, &sites), &entries);
            assert_some_entries(&network, &households, &each(100));
        }
    }

    #[test]
    fn the_most_arcs() {
        let households = several_on_each(3);
        for network in [most_roads(weight_by_product), most_roads(|_, _| 1)] {
            assert_eq!(network.neighbours.len(), 524_288);
            let sites = several_on_each(10_000);
            let entries = entries_by_rows(&network, &households, &sites);
            assert_entries(call(&network, &households, &sites), &entries);
            assert_some_entries(&network, &households, &each(100));
        }
    }

    /// Where all roads are of weight 1, each of the 15 sites has its own household and those of the
    /// 710 nodes without a site, which are 1 from it, but for the node to which it has no road. The
    /// last two sites have a road to all.
    #[test]
    fn the_most_arcs_on_the_fewest_nodes() {
        let n = DENSEST_NODES as usize;
        let network = densest(|_, _| 1);
        assert_eq!(network.neighbours.len(), 524_288);
        let entry = |q| match q {
            650 | 700 => 711,
            _ if q % 50 == 0 => 710,
            _ => 0,
        };
        let entries: Vec<u32> = (0..DENSEST_NODES).map(entry).collect();
        assert_entries(call(&network, &each(1)[..n], &each(50)[..n]), &entries);
        let network = densest(weight_by_product);
        let (households, sites) = (&several_on_each(3)[..n], &several_on_each(7)[..n]);
        let entries = entries_by_rows(&network, households, sites);
        assert_entries(call(&network, households, sites), &entries);
    }

    /// The households of each site whose distance to it is the least of all sites'.
    fn entries_by_rows(network: &OwnedNetwork, households: &[u8], sites: &[u8]) -> Vec<u32> {
        let with_a_site = || (0..sites.len() as u32).filter(|&q| sites[q as usize] > 0);
        let rows: Vec<Row> = with_a_site()
            .map(|q| relaxed_row(network.lend(), q))
            .collect();
        let least: Vec<_> = (0..households.len())
            .map(|h| rows.iter().filter_map(|row| row[h]).min())
            .collect();
        let entry = |row: &Row| {
            let is_nearest = |h: &usize| row[*h].is_some() && row[*h] == least[*h];
            let won = (0..households.len()).filter(is_nearest);
            won.map(|h| u32::from(households[h])).sum()
        };
        let mut entries = vec![0; sites.len()];
        for (q, row) in with_a_site().zip(&rows) {
            entries[q as usize] = entry(row);
        }
        entries
    }

    /// Sees that the entries of some sites of many are what the nearest site of each node says, and
    /// that a node without a site has 0.
    fn assert_some_entries(network: &OwnedNetwork, households: &[u8], sites: &[u8]) {
        let nearest = NearestRows::of(network.lend(), sites, 1);
        let entries = entries_of(call(network, households, sites));
        for q in [0, 100, 32_700, 65_500] {
            let from_q = relaxed_row(network.lend(), q);
            let list = nearest.households(&from_q, households, 1);
            assert!(list.len() > 1);
            assert_eq!(entries[q as usize], counted(households, &list), "q {q}");
        }
        let without = (0..).zip(sites).filter(|of| *of.1 == 0);
        assert!(without
            .into_iter()
            .all(|(q, _): (usize, _)| entries[q] == 0));
    }
}
