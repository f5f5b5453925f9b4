//! Distances from a node, compared with document 01.

mod common;

use common::all_pairs::AllPairs;
use common::call::{
    assert_lower_numbers_first, assert_outcome, assert_random_calls, assert_refused,
};
use common::call::{compare, Call, Outcome};
use common::faults::Fault;
use common::inputs::{enough, no_node, some_node, too_short};
use common::largest::{largest_grid, largest_star, longest_chain, most_roads, MOST_NODES};
use common::lent::Lent;
use common::network::{network_n, OwnedNetwork, N_NODES};
use common::numbers::{distances_number, plain_scratch_len};
use common::random::Random;
use common::rows::{distances_in, relaxed_row, LARGEST_DISTANCE};
use common::shapes::{all_small_networks, far_grid, star, weight_by_product, weighted};
use common::tally::Tally;
use overlap::calls::{distances, NONE};

/// Everything that a call is lent.
#[derive(Clone)]
struct Distances {
    network: OwnedNetwork,
    node: u32,
    scratch: Lent,
    answers: Lent,
}

impl Distances {
    /// A call of an accepted network, with arrays that are just long enough and full of junk.
    fn exact(network: &OwnedNetwork, node: u32, random: &mut Random) -> Self {
        let n = network.starts.len() - 1;
        Self {
            network: network.clone(),
            node,
            scratch: Lent::junk(plain_scratch_len(network.lend(), 1), random),
            answers: Lent::junk(n, random),
        }
    }

    /// "An accepted call with scratch leaves it all zero. Answer arrays hold the answer, then their
    /// old entries."
    fn accepted(&self, distances: &[u32]) -> Outcome<Self> {
        let mut left = self.clone();
        left.scratch = left.scratch.cleared();
        left.answers = left.answers.with_answer(distances);
        (0, left)
    }
}

impl Call for Distances {
    type Answer = u32;

    const HAS_POINTS: bool = false;

    const OWN_FAULTS: &'static [(u32, Fault<Self>)] = &[
        (7, |c, r| c.node = no_node(&c.network, r)),
        (10, shorten_answers),
    ];

    fn random(network: &OwnedNetwork, _: &AllPairs, random: &mut Random) -> Self {
        let mut call = Self::exact(network, some_node(network, random), random);
        call.scratch = Lent::junk(enough(call.scratch.len(), random), random);
        call.answers = Lent::junk(enough(call.answers.len(), random), random);
        call
    }

    fn run(&mut self) -> u32 {
        let (scratch, answers) = (self.scratch.part_mut(), self.answers.part_mut());
        distances(self.network.lend(), self.node, scratch, answers)
    }

    fn number(&self) -> u32 {
        let (scratch, answers) = (self.scratch.len(), self.answers.len());
        distances_number(self.network.lend(), self.node, scratch, answers)
    }

    fn accepted_by(&self, pairs: &AllPairs) -> Outcome<Self> {
        self.accepted(&pairs.plain_distances(self.node))
    }

    fn network(&self) -> &OwnedNetwork {
        &self.network
    }

    fn network_mut(&mut self) -> &mut OwnedNetwork {
        &mut self.network
    }

    fn m(&self) -> u32 {
        1
    }

    fn scratch_mut(&mut self) -> &mut Lent {
        &mut self.scratch
    }

    fn arrays(&self) -> Vec<(&'static str, &Lent)> {
        vec![("scratch", &self.scratch), ("answers", &self.answers)]
    }

    fn asked(&self) -> String {
        format!("node {}", self.node)
    }

    fn tally(&self, tally: &mut Tally, pairs: &AllPairs) {
        let distances = pairs.plain_distances(self.node);
        tally.add_if(self.answers.len() > distances.len(), "longer answers");
        tally.add_if(distances.contains(&NONE), "a node that can't be reached");
    }
}

fn shorten_answers(call: &mut Distances, random: &mut Random) {
    let n = call.network.starts.len() - 1;
    call.answers = Lent::junk(too_short(n, random), random);
}

/// Network N of document 01, by hand.
mod network_n {
    use super::*;

    const DISTANCES: [[u32; 6]; 6] = [
        [0, 4, 7, 5, 8, NONE],
        [4, 0, 3, 9, 10, NONE],
        [7, 3, 0, 10, 7, NONE],
        [5, 9, 10, 0, 3, NONE],
        [8, 10, 7, 3, 0, NONE],
        [NONE, NONE, NONE, NONE, NONE, 0],
    ];

    fn call(node: u32) -> Distances {
        Distances::exact(&network_n(), node, &mut Random::new(u64::from(node)))
    }

    #[test]
    fn each_node_has_its_distances() {
        for (node, distances) in (0..).zip(DISTANCES) {
            let call = call(node);
            let outcome = call.accepted(&distances);
            assert_outcome(call, &outcome);
        }
    }

    #[test]
    fn the_node_6_is_refused() {
        for node in [N_NODES, N_NODES + 1, 65_535, 65_536, u32::MAX] {
            let call = call(node);
            assert_refused(call, 7);
        }
    }

    #[test]
    fn five_answer_places_are_refused() {
        let mut call = call(0);
        call.answers = Lent::junk(5, &mut Random::new(0));
        assert_refused(call, 10);
    }

    /// S is 16 × 6 + 8 × (10 + 6) × 1.
    #[test]
    fn scratch_of_223_words_is_refused_and_of_224_accepted() {
        for (length, number) in [(0, 10), (1, 10), (223, 10), (224, 0), (225, 0)] {
            let mut call = call(0);
            call.scratch = Lent::junk(length, &mut Random::new(0));
            assert_eq!(compare(call), number);
        }
    }

    #[test]
    fn old_entries_behind_the_answer_stay() {
        let mut call = call(3);
        call.answers = Lent::junk(9, &mut Random::new(0));
        let old = call.answers.part()[6..].to_vec();
        assert_eq!(call.run(), 0);
        assert_eq!(call.answers.part()[..6], DISTANCES[3]);
        assert_eq!(call.answers.part()[6..], old);
    }
}

/// "Conditions are tried from 1 upward [...]; the first met is returned".
mod order {
    use super::*;

    #[test]
    fn two_conditions_give_the_lower_number() {
        assert_lower_numbers_first::<Distances>();
    }
}

/// Random networks, valid and damaged, against the plain calculation.
mod random {
    use super::*;

    #[test]
    fn engine_and_plain_calculation_agree() {
        let names = ["a node that can't be reached", "longer answers"];
        assert_random_calls::<Distances>(&[0, 1, 2, 3, 4, 5, 7, 10], &names);
    }
}

/// All networks of up to four nodes with roads of weight 1 or 2.
mod exhaustive {
    use super::*;

    #[test]
    fn up_to_four_nodes() {
        let mut random = Random::new(4);
        for network in all_small_networks() {
            for node in 0..network.starts.len() as u32 - 1 {
                assert_eq!(compare(Distances::exact(&network, node, &mut random)), 0);
            }
        }
    }
}

/// Networks at document 01's bounds.
mod limits {
    use super::*;

    fn assert_distances(network: &OwnedNetwork, node: u32, distance: impl Fn(u32) -> u32) {
        let call = Distances::exact(network, node, &mut Random::new(5));
        let n = network.starts.len() as u32 - 1;
        let distances: Vec<u32> = (0..n).map(distance).collect();
        let outcome = call.accepted(&distances);
        assert_outcome(call, &outcome);
    }

    /// Sees that the answers are the distances by repeated relaxation.
    fn assert_relaxed(network: &OwnedNetwork, node: u32) {
        let distances = distances_in(&relaxed_row(network.lend(), node));
        assert_distances(network, node, |other| distances[other as usize]);
    }

    #[test]
    fn the_ends_of_the_longest_chain_are_4_294_770_690_apart() {
        let network = longest_chain();
        for node in [0, 1, MOST_NODES / 2, MOST_NODES - 1] {
            assert_distances(&network, node, |other| node.abs_diff(other) * 65_535);
        }
        assert_eq!(u64::from(MOST_NODES - 1) * 65_535, LARGEST_DISTANCE);
    }

    #[test]
    fn a_star_of_the_most_nodes() {
        for centre in [0, MOST_NODES / 2, MOST_NODES - 1] {
            let network = largest_star(centre);
            for node in [0, MOST_NODES / 2, MOST_NODES - 1] {
                let roads = |other| u32::from(node != centre) + u32::from(other != centre);
                let distance = |other| {
                    if other == node {
                        0
                    } else {
                        roads(other) * 65_535
                    }
                };
                assert_distances(&network, node, distance);
            }
        }
    }

    #[test]
    fn one_node_without_a_road() {
        let network = OwnedNetwork::from_roads(1, &[]);
        assert_distances(&network, 0, |_| 0);
        for (scratch, answers, number) in [(23, 1, 10), (24, 0, 10), (24, 1, 0)] {
            let mut random = Random::new(7);
            let mut call = Distances::exact(&network, 0, &mut random);
            call.scratch = Lent::junk(scratch, &mut random);
            call.answers = Lent::junk(answers, &mut random);
            assert_eq!(compare(call), number);
        }
    }

    #[test]
    fn the_most_nodes_without_a_road() {
        let network = OwnedNetwork::from_roads(MOST_NODES, &[]);
        for node in [0, MOST_NODES - 1] {
            assert_distances(&network, node, |other| if other == node { 0 } else { NONE });
        }
    }

    #[test]
    fn a_grid_of_255_by_257_nodes() {
        let network = largest_grid(weight_by_product);
        assert_relaxed(&network, 0);
        assert_relaxed(&network, MOST_NODES / 2);
    }

    /// A long chain leads to a grid, in which many nodes have distances around 2^31, or near the
    /// largest one.
    #[test]
    fn many_nodes_at_large_distances() {
        for (length, rows, columns) in [(32_700, 160, 200), (64_000, 30, 50)] {
            assert_relaxed(&far_grid(length, rows, columns), 0);
        }
    }

    #[test]
    fn the_most_arcs() {
        let network = most_roads(weight_by_product);
        assert_eq!(network.neighbours.len(), 524_288);
        assert_relaxed(&network, MOST_NODES - 1);
    }

    #[test]
    fn scratch_of_one_word_less_is_refused() {
        let mut random = Random::new(8);
        let network = most_roads(|_, _| 1);
        let mut call = Distances::exact(&network, 0, &mut random);
        call.scratch = Lent::junk(call.scratch.len() - 1, &mut random);
        assert_refused(call, 10);
    }

    #[test]
    fn the_first_number_that_is_no_node_is_refused() {
        let network = weighted(MOST_NODES, &star(MOST_NODES, 0), |_, _| 1);
        for node in [MOST_NODES, MOST_NODES + 1, u32::MAX] {
            let call = Distances::exact(&network, node, &mut Random::new(9));
            assert_refused(call, 7);
        }
    }
}
