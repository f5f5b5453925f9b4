//! The network check, compared with document 01.

mod common;

use common::damage::{damage, Damage, KINDS};
use common::largest::{longest_chain, most_roads, MOST_NODES, MOST_ROADS};
use common::network::{network_n, shown, OwnedNetwork};
use common::plain::plain_check;
use common::random::Random;
use common::shapes::{belt, chain, random_network, star, weight_by_product, weighted};
use overlap::calls::{meaning, network_check, Network};

fn check(starts: &[u32], neighbours: &[u32], weights: &[u32]) -> u32 {
    network_check(Network {
        starts,
        neighbours,
        weights,
    })
}

/// The engine's number, which is that of the plain check.
fn agreed(network: Network<'_>) -> u32 {
    let number = network_check(network);
    assert_eq!(number, plain_check(network), "{}", shown(network));
    number
}

mod examples {
    use super::*;

    #[test]
    fn network_n_is_accepted() {
        let n = network_n();
        assert_eq!(n.starts, [0, 2, 4, 6, 8, 10, 10]);
        assert_eq!(agreed(n.lend()), 0);
    }

    #[test]
    fn the_tables_examples_have_their_numbers() {
        assert_eq!(check(&[0], &[], &[]), 1);
        assert_eq!(check(&[0, 2, 1], &[1], &[4]), 2);
        assert_eq!(check(&[0, 1, 2], &[0, 0], &[4, 4]), 3);
        assert_eq!(check(&[0, 1, 2], &[1, 0], &[65_536, 65_536]), 4);
        assert_eq!(check(&[0, 1, 2], &[1, 0], &[4, 5]), 5);
    }

    #[test]
    fn one_node_without_a_road_is_accepted() {
        assert_eq!(check(&[0, 0], &[], &[]), 0);
    }

    #[test]
    fn each_number_of_refusal_has_its_own_meaning() {
        for number in 0..=13 {
            let others = (0..=13).filter(|&other| other != number);
            assert!(others
                .into_iter()
                .all(|other| meaning(other) != meaning(number)));
        }
    }
}

/// Each part of conditions 2 to 5 by itself, on a network that is valid but for it.
mod single_faults {
    use super::*;

    #[test]
    fn starts_does_not_begin_with_0() {
        assert_eq!(check(&[1, 1, 2], &[1, 0], &[4, 4]), 2);
        assert_eq!(check(&[1, 1], &[1], &[4]), 2);
        assert_eq!(check(&[2, 2, 2], &[1, 0], &[4, 4]), 2);
    }

    #[test]
    fn starts_falls() {
        assert_eq!(check(&[0, 3, 2], &[1, 0], &[4, 4]), 2);
        assert_eq!(check(&[0, 1, 0, 2], &[1, 0], &[4, 4]), 2);
        assert_eq!(check(&[0, 2, 1, 2], &[1, 2], &[4, 4]), 2);
        assert_eq!(check(&[0, 1, 0], &[], &[]), 2);
    }

    #[test]
    fn starts_does_not_end_with_the_number_of_arcs() {
        assert_eq!(check(&[0, 1, 1], &[1, 0], &[4, 4]), 2);
        assert_eq!(check(&[0, 1, 3], &[1, 0], &[4, 4]), 2);
        assert_eq!(check(&[0, 0], &[1, 0], &[4, 4]), 2);
        assert_eq!(check(&[0, 1], &[], &[]), 2);
    }

    #[test]
    fn neighbours_and_weights_differ_in_length() {
        assert_eq!(check(&[0, 1, 2], &[1, 0], &[4]), 2);
        assert_eq!(check(&[0, 1, 2], &[1, 0], &[4, 4, 4]), 2);
        assert_eq!(check(&[0, 1, 2], &[1, 0], &[]), 2);
        assert_eq!(check(&[0, 0], &[], &[4]), 2);
        assert_eq!(check(&[0, 1, 2], &[1], &[4, 4]), 2);
    }

    #[test]
    fn a_neighbour_is_no_node() {
        assert_eq!(check(&[0, 1, 2], &[2, 0], &[4, 4]), 3);
        assert_eq!(check(&[0, 1, 2], &[1, 2], &[4, 4]), 3);
        assert_eq!(check(&[0, 1, 2], &[65_537, 0], &[4, 4]), 3);
        assert_eq!(check(&[0, 1, 2], &[u32::MAX, 0], &[4, 4]), 3);
    }

    #[test]
    fn a_neighbour_is_its_own_node() {
        assert_eq!(check(&[0, 1], &[0], &[4]), 3);
        assert_eq!(check(&[0, 1, 2], &[1, 1], &[4, 4]), 3);
        assert_eq!(check(&[0, 1, 3], &[1, 0, 1], &[4, 4, 4]), 3);
    }

    #[test]
    fn neighbours_do_not_rise_within_a_node() {
        assert_eq!(check(&[0, 2, 3, 4], &[2, 1, 0, 0], &[4; 4]), 3);
        assert_eq!(check(&[0, 2, 4], &[1, 1, 0, 0], &[4; 4]), 3);
        assert_eq!(check(&[0, 1, 2, 4], &[2, 2, 1, 0], &[4; 4]), 3);
    }

    #[test]
    fn neighbours_may_fall_or_stay_from_node_to_node() {
        assert_eq!(check(&[0, 1, 2], &[1, 0], &[4, 4]), 0);
        assert_eq!(check(&[0, 2, 3, 4], &[1, 2, 0, 0], &[4; 4]), 0);
        assert_eq!(check(&[0, 1, 1, 2, 2], &[2, 0], &[4, 4]), 0);
    }

    #[test]
    fn a_weight_is_0_or_too_large() {
        for weight in [0, 65_536, 65_537, 131_071, 131_072, u32::MAX] {
            assert_eq!(check(&[0, 1, 2], &[1, 0], &[weight; 2]), 4);
            assert_eq!(check(&[0, 1, 2], &[1, 0], &[weight, 1]), 4);
            assert_eq!(check(&[0, 1, 2], &[1, 0], &[1, weight]), 4);
        }
        for weight in [1, 2, 65_534, 65_535] {
            assert_eq!(check(&[0, 1, 2], &[1, 0], &[weight; 2]), 0);
        }
    }

    #[test]
    fn an_arc_has_no_return() {
        assert_eq!(check(&[0, 1, 1], &[1], &[4]), 5);
        assert_eq!(check(&[0, 0, 1], &[0], &[4]), 5);
        assert_eq!(check(&[0, 1, 2, 3], &[1, 2, 0], &[4; 3]), 5);
    }

    #[test]
    fn a_return_has_another_weight() {
        assert_eq!(check(&[0, 1, 2], &[1, 0], &[5, 4]), 5);
        assert_eq!(check(&[0, 1, 2], &[1, 0], &[65_535, 65_534]), 5);
        assert_eq!(check(&[0, 2, 3, 4], &[1, 2, 0, 0], &[4, 5, 5, 4]), 5);
    }
}

/// "Conditions are tried from 1 upward [...]; the first met is returned".
mod order {
    use super::*;

    type Fault = fn(&mut OwnedNetwork);

    /// Faults of the conditions 1 to 5. Two of different conditions do not undo each other: those
    /// of 2 leave the arcs of `base`, those of 3 and 4 change the first or the last, those of 5 one
    /// between.
    const FAULTS: [&[Fault]; 5] = [
        &[
            |g| g.starts.resize(65_537, g.starts[g.starts.len() - 1]),
            |g| g.starts.truncate(1),
            |g| g.starts.clear(),
        ],
        &[
            |g| g.starts.fill(8),
            |g| g.starts.swap(1, 2),
            |g| g.starts.insert(1, 9),
            |g| *g.starts.last_mut().unwrap() = 9,
            |g| *g.starts.last_mut().unwrap() = 7,
            |g| g.weights.push(1),
            |g| g.neighbours.push(0),
        ],
        &[
            |g| g.neighbours[0] = 0,
            |g| g.neighbours[0] = u32::MAX,
            |g| g.neighbours[7] = 5,
            |g| g.neighbours[7] = 4,
            |g| g.neighbours[7] = 2,
        ],
        &[
            |g| g.weights[0] = 0,
            |g| g.weights[0] = 65_536,
            |g| g.weights[7] = 0,
            |g| g.weights[7] = u32::MAX,
        ],
        &[
            |g| g.weights[2] += 1,
            |g| g.weights[5] = 1,
            |g| g.neighbours[2] = 4,
        ],
    ];

    /// Five nodes and four roads; node 4 has the last two of the eight arcs.
    fn base() -> OwnedNetwork {
        OwnedNetwork::from_roads(5, &[(0, 1, 4), (1, 2, 9), (2, 4, 7), (3, 4, 3)])
    }

    fn with_faults(faults: &[Fault]) -> OwnedNetwork {
        let mut network = base();
        faults.iter().for_each(|fault| fault(&mut network));
        network
    }

    #[test]
    fn a_fault_alone_has_its_own_number() {
        assert_eq!(agreed(base().lend()), 0);
        for (number, faults) in (1..).zip(FAULTS) {
            for &fault in faults {
                assert_eq!(agreed(with_faults(&[fault]).lend()), number);
            }
        }
    }

    /// Puts the higher fault in first, since the faults of starts take entries away.
    fn assert_lower_wins(low: usize, high: usize) {
        for &higher in FAULTS[high] {
            for &lower in FAULTS[low] {
                let network = with_faults(&[higher, lower]);
                let number = agreed(network.lend()) as usize;
                assert_eq!(number, low + 1, "{}", shown(network.lend()));
            }
        }
    }

    #[test]
    fn two_conditions_give_the_lower_number() {
        for high in 0..5 {
            for low in 0..high {
                assert_lower_wins(low, high);
            }
        }
    }

    #[test]
    fn all_conditions_from_one_on_give_that_one() {
        for first in 0..5 {
            for choice in 0..7 {
                let pick = |faults: &&[Fault]| faults[choice % faults.len()];
                let faults: Vec<Fault> = FAULTS[first..].iter().rev().map(pick).collect();
                let network = with_faults(&faults);
                let number = agreed(network.lend()) as usize;
                assert_eq!(number, first + 1, "{}", shown(network.lend()));
            }
        }
    }
}

/// Random networks, valid and damaged, against the plain check.
mod random {
    use super::*;

    const ROUNDS: u64 = 40_000;
    const DAMAGES_OF_A_NETWORK: u32 = 6;
    const LEAST_OF_EACH_NUMBER: usize = 5_000;

    /// Compares the numbers, and sees that the call leaves the arrays as they are.
    fn compare(network: &OwnedNetwork, story: &str) -> usize {
        let before = network.clone();
        let number = network_check(network.lend());
        assert_eq!(number, plain_check(network.lend()), "{story}: {network:?}");
        assert_eq!(*network, before, "{story}: an array is changed");
        number as usize
    }

    fn try_damaged(network: &OwnedNetwork, random: &mut Random) -> usize {
        let mut damaged = network.clone();
        let times = random.pick(&[1, 1, 2, 3]);
        let names = damage(&mut damaged, times, random);
        compare(&damaged, &names.join(", "))
    }

    #[test]
    fn engine_and_plain_check_agree() {
        let mut tally = [0; 6];
        for seed in 0..ROUNDS {
            let mut random = Random::new(seed);
            let network = random_network(&mut random);
            assert_eq!(compare(&network, "a valid network"), 0, "{network:?}");
            tally[0] += 1;
            for _ in 0..DAMAGES_OF_A_NETWORK {
                tally[try_damaged(&network, &mut random)] += 1;
            }
        }
        println!("networks by number, 0 to 5: {tally:?}");
        assert!(
            tally.iter().all(|&count| count >= LEAST_OF_EACH_NUMBER),
            "{tally:?}"
        );
    }

    /// Tries one kind of damage on many networks; the numbers 0 to 5 that come, counted.
    fn try_kind(name: &str, kind: Damage, random: &mut Random) -> [usize; 6] {
        let mut tally = [0; 6];
        let mut changed = false;
        for _ in 0..200 {
            let network = random_network(random);
            let mut damaged = network.clone();
            kind(&mut damaged, random);
            changed |= damaged != network;
            tally[compare(&damaged, name)] += 1;
        }
        assert!(changed, "{name}: no network is changed");
        tally
    }

    #[test]
    fn each_kind_of_damage_agrees() {
        let mut random = Random::new(1);
        for &(name, kind) in KINDS {
            println!("{name:36} {:?}", try_kind(name, kind, &mut random));
        }
    }

    /// An array with words before and behind it.
    struct Surrounded {
        words: Vec<u32>,
        length: usize,
    }

    impl Surrounded {
        const MARGIN: usize = 5;

        fn new(array: &[u32], random: &mut Random) -> Self {
            let mut margin = || {
                (0..Self::MARGIN)
                    .map(|_| random.below(4))
                    .collect::<Vec<_>>()
            };
            let words = [margin().as_slice(), array, margin().as_slice()].concat();
            Self {
                words,
                length: array.len(),
            }
        }

        fn lend(&self) -> &[u32] {
            &self.words[Self::MARGIN..Self::MARGIN + self.length]
        }
    }

    #[test]
    fn words_around_the_lent_arrays_do_not_matter() {
        let mut random = Random::new(2);
        for _ in 0..20_000 {
            let mut network = random_network(&mut random);
            let times = random.below(3);
            damage(&mut network, times, &mut random);
            let starts = Surrounded::new(&network.starts, &mut random);
            let neighbours = Surrounded::new(&network.neighbours, &mut random);
            let weights = Surrounded::new(&network.weights, &mut random);
            let number = check(starts.lend(), neighbours.lend(), weights.lend());
            assert_eq!(number, plain_check(network.lend()), "{network:?}");
        }
    }
}

/// All small networks over a few words.
mod exhaustive {
    use super::*;

    /// All arrays of this length over the words.
    fn arrays(length: usize, words: &[u32]) -> Vec<Vec<u32>> {
        let mut all = vec![vec![]];
        for _ in 0..length {
            let longer = |array: &Vec<u32>| {
                let array = array.clone();
                words
                    .iter()
                    .map(move |&word| [&array[..], &[word]].concat())
            };
            all = all.iter().flat_map(longer).collect();
        }
        all
    }

    fn arrays_up_to(length: usize, words: &[u32]) -> Vec<Vec<u32>> {
        (0..=length)
            .flat_map(|short| arrays(short, words))
            .collect()
    }

    /// Compares all combinations of the arrays and counts the numbers 0 to 5.
    fn compare(starts: &[Vec<u32>], neighbours: &[Vec<u32>], weights: &[Vec<u32>]) -> [usize; 6] {
        let mut tally = [0; 6];
        for starts in starts {
            for neighbours in neighbours {
                for weights in weights {
                    let network = Network {
                        starts,
                        neighbours,
                        weights,
                    };
                    tally[agreed(network) as usize] += 1;
                }
            }
        }
        println!("networks by number, 0 to 5: {tally:?}");
        tally
    }

    #[test]
    fn up_to_two_nodes_and_two_arcs() {
        let words = [0, 1, 2, 65_535, 65_536, u32::MAX];
        let (starts, arcs) = (arrays_up_to(3, &words), arrays_up_to(2, &words));
        let tally = compare(&starts, &arcs, &arcs);
        // Accepted: no road at n = 1 and at n = 2, and one road of weight 1, 2 or 65,535.
        assert_eq!(tally[0], 5);
        assert!(tally.iter().all(|&count| count > 0));
    }

    #[test]
    fn three_nodes_and_four_arcs() {
        let starts = arrays(4, &[0, 1, 2, 3, 4]);
        let neighbours = arrays(4, &[0, 1, 2, 3]);
        let weights = arrays(4, &[0, 1, 2]);
        let tally = compare(&starts, &neighbours, &weights);
        // Accepted: two of the three roads, each of weight 1 or 2.
        assert_eq!(tally[0], 12);
        assert_eq!(tally[1], 0);
    }
}

/// Networks at and just beyond document 01's bounds.
mod limits {
    use super::*;

    fn most_arcs() -> OwnedNetwork {
        most_roads(weight_by_product)
    }

    #[test]
    fn a_chain_of_the_most_nodes_and_the_largest_weights_is_accepted() {
        let network = longest_chain();
        assert_eq!(network.starts.len(), 65_536);
        assert_eq!(agreed(network.lend()), 0);
    }

    #[test]
    fn one_node_more_is_refused() {
        let network = weighted(MOST_NODES + 1, &chain(MOST_NODES + 1), |_, _| 65_535);
        assert_eq!(network.starts.len(), 65_537);
        assert_eq!(agreed(network.lend()), 1);
        assert_eq!(check(&[0; 65_536], &[], &[]), 0);
        assert_eq!(check(&[0; 65_537], &[], &[]), 1);
        assert_eq!(check(&[0; 200_000], &[], &[]), 1);
    }

    #[test]
    fn the_most_arcs_are_accepted() {
        let network = most_arcs();
        assert_eq!(network.neighbours.len(), 524_288);
        assert_eq!(agreed(network.lend()), 0);
    }

    #[test]
    fn more_arcs_are_refused() {
        let network = weighted(MOST_NODES, &belt(MOST_NODES, MOST_ROADS + 1), |_, _| 1);
        assert_eq!(network.neighbours.len(), 524_290);
        assert_eq!(agreed(network.lend()), 2);

        let mut odd = most_arcs();
        odd.neighbours.push(0);
        odd.weights.push(1);
        *odd.starts.last_mut().unwrap() += 1;
        assert_eq!(odd.neighbours.len(), 524_289);
        assert_eq!(agreed(odd.lend()), 2);
    }

    #[test]
    fn the_last_of_the_most_arcs_is_looked_at() {
        let network = most_arcs();
        let last = network.neighbours.len() - 1;
        for (neighbour, weight, number) in [
            (MOST_NODES, 1, 3),
            (MOST_NODES - 1, 1, 3),
            (network.neighbours[last], 0, 4),
            (network.neighbours[last], 65_536, 4),
            (network.neighbours[last], network.weights[last] + 1, 5),
        ] {
            let mut damaged = network.clone();
            damaged.neighbours[last] = neighbour;
            damaged.weights[last] = weight;
            assert_eq!(agreed(damaged.lend()), number);
        }
    }

    #[test]
    fn stars_of_the_most_nodes_are_accepted() {
        for centre in [0, MOST_NODES / 2, MOST_NODES - 1] {
            let network = weighted(MOST_NODES, &star(MOST_NODES, centre), weight_by_product);
            assert_eq!(agreed(network.lend()), 0);
        }
    }

    #[test]
    fn each_arc_of_a_star_needs_its_return() {
        let network = weighted(MOST_NODES, &star(MOST_NODES, 0), |_, _| 7);
        let arcs = network.weights.len();
        for arc in [0, 1, arcs / 4, arcs / 2 - 1, arcs / 2, arcs - 2, arcs - 1] {
            let mut damaged = network.clone();
            damaged.weights[arc] = 8;
            assert_eq!(network_check(damaged.lend()), 5, "arc {arc}");
        }
    }
}

/// Numbers far beyond every array do not lead outside of it.
mod large_words {
    use super::*;

    const WORDS: [u32; 6] = [
        524_289,
        1 << 30,
        (1 << 30) + 1,
        1 << 31,
        u32::MAX - 1,
        u32::MAX,
    ];

    #[test]
    fn in_starts() {
        for word in WORDS {
            assert_eq!(check(&[0, word, 2], &[1, 0], &[4, 4]), 2);
            assert_eq!(check(&[0, word, word, 2], &[1, 0], &[4, 4]), 2);
            assert_eq!(check(&[0, 1, word], &[1, 0], &[4, 4]), 2);
            assert_eq!(check(&[0, word], &[], &[]), 2);
            assert_eq!(check(&[0, word, word], &[1], &[4]), 2);
            assert_eq!(check(&[word, word], &[], &[]), 2);
            assert_eq!(check(&[word], &[], &[]), 1);
        }
    }

    #[test]
    fn in_the_starts_of_many_nodes() {
        for word in WORDS {
            let mut network = weighted(1_000, &chain(1_000), weight_by_product);
            network.starts[500] = word;
            assert_eq!(agreed(network.lend()), 2);
            network.starts[500..].fill(word);
            assert_eq!(agreed(network.lend()), 2);
        }
    }

    #[test]
    fn in_neighbours_and_weights() {
        for word in WORDS {
            assert_eq!(check(&[0, 1, 2], &[word, 0], &[4, 4]), 3);
            assert_eq!(check(&[0, 1, 2], &[1, word], &[4, 4]), 3);
            assert_eq!(check(&[0, 1, 2], &[1, 0], &[word, word]), 4);
            assert_eq!(check(&[0, 1, 2], &[1, word], &[word, word]), 3);
        }
    }

    #[test]
    fn everywhere_at_once() {
        for length in 0..5 {
            let words = vec![u32::MAX; length];
            let expected = if length < 2 { 1 } else { 2 };
            assert_eq!(check(&words, &words, &words), expected);
            assert_eq!(check(&words, &[], &words), expected);
            assert_eq!(check(&words, &words, &[]), expected);
        }
    }
}
