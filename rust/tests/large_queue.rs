//! Calls in whose queue tens of thousands of entries wait, compared with document 01. The queue's
//! sinking step works otherwise there than in the small networks of the other tests, and many
//! entries come out in order here.

mod common;

use common::largest::{each, several_on_each, LAST, MOST_NODES};
use common::lent::Lent;
use common::network::OwnedNetwork;
use common::numbers::plain_scratch_len;
use common::random::Random;
use common::rows::{distances_in, nearest_in, relaxed_row};
use common::shapes::{random_pairs, star, weighted, Pair};
use common::table::PlainTable;
use overlap::calls::{distances, nearest, Found, NONE};

const CENTRE: u32 = 40_000;

/// A star of the most nodes with long roads, all of whose ends wait once its centre is settled, and
/// short roads between them, by which most become nearer.
fn wide(random: &mut Random) -> OwnedNetwork {
    let mut pairs = star(MOST_NODES, CENTRE);
    let across = random_pairs(MOST_NODES, 150_000, random);
    let of_star = |&(a, b): &Pair| a == CENTRE || b == CENTRE;
    pairs.extend(across.into_iter().filter(|pair| !of_star(pair)));
    weighted(MOST_NODES, &pairs, |a, b| {
        if of_star(&(a, b)) {
            random.between(1, 65_535)
        } else {
            random.between(1, 3_000)
        }
    })
}

#[test]
fn distances_from_the_centre_and_from_an_end() {
    let mut random = Random::new(1);
    let network = wide(&mut random);
    for node in [CENTRE, 0, LAST] {
        let mut scratch = Lent::junk(plain_scratch_len(network.lend(), 1), &mut random);
        let mut answers = Lent::junk(MOST_NODES as usize, &mut random);
        let (cleared, row) = (scratch.clone().cleared(), relaxed_row(network.lend(), node));
        let expected = answers.clone().with_answer(&distances_in(&row));
        let number = distances(network.lend(), node, scratch.part_mut(), answers.part_mut());
        assert_eq!(number, 0);
        assert_eq!(answers.difference(&expected), None);
        assert_eq!(scratch.difference(&cleared), None);
    }
}

/// The 16 nearest points come out first of 65,534 entries that wait, some at equal distances.
#[test]
fn the_nearest_points_of_the_centre() {
    let mut random = Random::new(2);
    let all_points = [each(3), several_on_each(3), each(3)];
    for (heaviest, points) in [20, 3_000, 65_535].into_iter().zip(all_points) {
        let pairs = star(MOST_NODES, CENTRE);
        let network = weighted(MOST_NODES, &pairs, |_, _| random.between(1, heaviest));
        let found = nearest_in(&relaxed_row(network.lend(), CENTRE), &points, NONE, 16);
        let (expected_ids, expected): (Vec<u32>, Vec<u32>) = found.into_iter().unzip();
        let mut scratch = Lent::junk(plain_scratch_len(network.lend(), 16), &mut random);
        let [mut ids, mut far] = [(); 2].map(|()| Lent::junk(16, &mut random));
        let cleared = scratch.clone().cleared();
        let found = Found {
            ids: ids.part_mut(),
            distances: far.part_mut(),
        };
        let (lent, scratch_part) = (network.lend(), scratch.part_mut());
        let listing = nearest(lent, &points, CENTRE, NONE, 16, scratch_part, found);
        assert_eq!((listing.number, listing.length), (0, 16));
        assert_eq!((ids.part(), far.part()), (&expected_ids[..], &expected[..]));
        assert_eq!(scratch.difference(&cleared), None);
    }
}

/// With a third of the nodes as points and K places, build's queue holds hundreds of thousands.
#[test]
fn the_table_of_a_wide_network() {
    let mut random = Random::new(3);
    let network = wide(&mut random);
    for (points, places) in [(each(3), 2), (each(3), 5), (several_on_each(3), 17)] {
        let table = PlainTable::built(&network, &points, places, &mut random);
        let expected = PlainTable::of_large(&network, &points, places);
        assert!(table.ids == expected.ids && table.distances == expected.distances);
    }
}
