//! What the tests of insert and of remove share: calls on network N, lists of calls behind each other,
//! and calls on networks too large for all pairs.

use super::all_pairs::AllPairs;
use super::call::{assert_outcome, assert_refused, compare};
use super::change::{assert_change, Change, Kind};
use super::inputs::{some_places, some_points};
use super::lent::Lent;
use super::network::{marks, network_n, OwnedNetwork, N_NODES};
use super::random::Random;
use super::shapes::random_network;
use super::table::{OwnedTable, PlainTable};
use overlap::calls::table_check;

/// A call on network N with these points.
pub fn call_on_n<K: Kind>(points: &[u32], node: u32, places: u32) -> Change<K> {
    let (network, points) = (network_n(), marks(N_NODES, points));
    let table = PlainTable::of(&AllPairs::of(network.lend()), &points, places);
    Change::exact(&network, &points, node, &table, &mut Random::new(3))
}

/// The conditions 6, 7 and 8, each alone, on an accepted call with K = 2.
pub fn assert_own_conditions<K: Kind>(accepted: &Change<K>) {
    let assert_number = |number, change: fn(&mut Change<K>)| {
        let mut call = accepted.clone();
        change(&mut call);
        assert_refused(call, number);
    };
    assert_number(6, |c| c.points[3] = 16);
    assert_number(6, |c| c.points[5] = 255);
    assert_number(6, |c| c.points.truncate(5));
    assert_number(6, |c| c.points.push(0));
    assert_number(7, |c| c.node = 6);
    assert_number(7, |c| c.node = u32::MAX);
    assert_number(8, |c| c.table.places = 0);
    assert_number(8, |c| c.table.places = 3);
    assert_number(8, |c| c.table.places = u32::MAX);
    assert_number(8, |c| c.table = OwnedTable::junk(6, 1, &mut Random::new(0)));
    assert_number(8, |c| {
        c.table = OwnedTable::junk(6, 18, &mut Random::new(0))
    });
    assert_number(8, |c| c.table.ids = Lent::junk(11, &mut Random::new(0)));
    assert_number(8, |c| {
        c.table.distances = Lent::junk(13, &mut Random::new(0));
    });
}

/// S is 16 × 6 + 8 × (10 + 6) × K for network N: scratch that is too short, just long enough, and
/// longer.
pub fn assert_scratch_of_n<K: Kind>(call: fn(u32) -> Change<K>) {
    for (places, length) in [(2, 352), (3, 480), (17, 2_272)] {
        let lengths = [(0, 10), (length - 1, 10), (length, 0), (length + 1, 0)];
        for (length, number) in lengths.into_iter().chain([(9_999, 0)]) {
            for seed in 0..20 {
                let mut call = call(places);
                call.scratch = Lent::junk(length, &mut Random::new(seed));
                assert_eq!(compare(call), number);
            }
        }
    }
}

/// Each node as often as it can be changed, in any order, cut after two for each node.
fn changes<K: Kind>(points: &[u8], random: &mut Random) -> Vec<u32> {
    let often = |node: usize| usize::from(K::REFUSED_AT.abs_diff(points[node]));
    let of_node = |node| std::iter::repeat_n(node as u32, often(node));
    let mut nodes: Vec<u32> = (0..points.len()).flat_map(of_node).collect();
    random.shuffle(&mut nodes);
    nodes.truncate(2 * points.len());
    nodes
}

/// Changes node by node, and returns the points and the table that are left.
fn change_all<K: Kind>(
    network: &OwnedNetwork,
    mut points: Vec<u8>,
    places: u32,
    random: &mut Random,
) -> (Vec<u8>, PlainTable) {
    let pairs = AllPairs::of(network.lend());
    let mut table = PlainTable::built(network, &points, places, random);
    for node in changes::<K>(&points, random) {
        let call = Change::<K>::exact(network, &points, node, &table, random);
        points = call.points_after();
        table = assert_change(call, &pairs, random);
        let verdict = table_check(network.lend(), &points, table.lend());
        assert_eq!((verdict.number, verdict.yes), (0, 1));
    }
    (points, table)
}

/// Changes random networks node by node, from any points or from those that two changes of each node
/// bring to the end, and shows the table of those that come to it.
pub fn assert_one_by_one<K: Kind>(rounds: u64, see: fn(&PlainTable)) {
    let mut ended = 0;
    for seed in 0..rounds {
        let mut random = Random::new(seed);
        let network = random_network(&mut random);
        let mut points = some_points(&network, &mut random);
        if random.once_in(2) {
            points.fill_with(|| K::REFUSED_AT.abs_diff(random.below(3) as u8));
        }
        let places = some_places(&mut random);
        let (points, table) = change_all::<K>(&network, points, places, &mut random);
        if points.iter().all(|&lockers| lockers == K::REFUSED_AT) {
            see(&table);
            ended += 1;
        }
    }
    assert!(ended >= rounds / 3, "{ended} of {rounds}");
}

/// Changes the nodes one behind the other, in a network that may be too large for all pairs.
pub fn assert_changes<K: Kind>(network: &OwnedNetwork, points: &[u8], nodes: &[u32], places: u32) {
    let mut random = Random::new(6);
    let mut points = points.to_vec();
    let mut table = PlainTable::of_large(network, &points, places);
    for &node in nodes {
        let call = Change::<K>::exact(network, &points, node, &table, &mut random);
        points = call.points_after();
        table = PlainTable::of_large(network, &points, places);
        let outcome = call.accepted(&table);
        assert_outcome(call, &outcome);
    }
}
