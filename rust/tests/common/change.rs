//! Everything that a call which changes the table is lent, whichever change it is.

use super::all_pairs::AllPairs;
use super::call::{assert_outcome, assert_refused, Call, Outcome};
use super::faults::Fault;
use super::inputs::{enough, no_node, some_node, some_places, some_points, spoil_points};
use super::lent::Lent;
use super::network::OwnedNetwork;
use super::numbers::{change_number, plain_scratch_len};
use super::random::Random;
use super::rows::repeats_a_node;
use super::shapes::{random_network, try_all_small_points};
use super::table::{OwnedTable, PlainTable};
use super::table_damage::damage;
use super::tally::Tally;
use overlap::calls::{Network, TableMut, Update};
use std::marker::PhantomData;

/// The form of such a call: its network, points, node, scratch and table.
pub type ChangeCall = fn(Network<'_>, &mut [u8], u32, &mut [u32], TableMut<'_>) -> Update;

/// Insert or remove.
pub trait Kind: Clone + 'static {
    const NAME: &'static str;
    const CALL: ChangeCall;
    /// The lockers of a node where 11 refuses the call: "insert at 15, remove or verify at 0".
    const REFUSED_AT: u8;
    /// Some at which it is accepted.
    const ACCEPTED_AT: [u8; 5];

    /// "Insert adds one, remove takes one".
    fn after(lockers: u8) -> u8;
}

/// A call of the kind.
#[derive(Clone)]
pub struct Change<K> {
    pub network: OwnedNetwork,
    pub points: Vec<u8>,
    pub node: u32,
    pub table: OwnedTable,
    pub scratch: Lent,
    kind: PhantomData<K>,
}

impl<K: Kind> Change<K> {
    /// A call with this table and with scratch that is just long enough and full of junk.
    pub fn exact(
        network: &OwnedNetwork,
        points: &[u8],
        node: u32,
        table: &PlainTable,
        random: &mut Random,
    ) -> Self {
        Self {
            network: network.clone(),
            points: points.to_vec(),
            node,
            table: OwnedTable::holding(table, random),
            scratch: Lent::junk(plain_scratch_len(network.lend(), table.places), random),
            kind: PhantomData,
        }
    }

    /// The points once the call has changed one.
    pub fn points_after(&self) -> Vec<u8> {
        let mut points = self.points.clone();
        let lockers = &mut points[self.node as usize];
        *lockers = K::after(*lockers);
        points
    }

    /// "each brings the table up to date and returns the number of rows whose contents differ before
    /// and after". "An accepted call with scratch leaves it all zero."
    pub fn accepted(&self, after: &PlainTable) -> Outcome<Self> {
        let changed = self.table.words().changed(after);
        let mut left = self.clone();
        left.points = self.points_after();
        left.table = left.table.with(after);
        left.scratch = left.scratch.cleared();
        (Update { number: 0, changed }, left)
    }
}

impl<K: Kind> Call for Change<K> {
    type Answer = Update;

    const OWN_FAULTS: &'static [(u32, Fault<Self>)] = &[
        (6, |c, r| spoil_points(&mut c.points, r)),
        (7, |c, r| c.node = no_node(&c.network, r)),
        (8, |c, r| c.table.spoil_places(r)),
        (8, |c, r| c.table.spoil_lengths(r)),
        (11, |c, _| {
            if let Some(lockers) = c.points.get_mut(c.node as usize) {
                *lockers = K::REFUSED_AT;
            }
        }),
    ];

    fn random(network: &OwnedNetwork, pairs: &AllPairs, random: &mut Random) -> Self {
        let mut points = some_points(network, random);
        let node = some_node(network, random);
        if points[node as usize] == K::REFUSED_AT || random.once_in(4) {
            points[node as usize] = random.pick(&K::ACCEPTED_AT);
        }
        let table = PlainTable::of(pairs, &points, some_places(random));
        let mut call = Self::exact(network, &points, node, &table, random);
        call.scratch = Lent::junk(enough(call.scratch.len(), random), random);
        call
    }

    fn run(&mut self) -> Update {
        let (network, scratch) = (self.network.lend(), self.scratch.part_mut());
        let (node, table) = (self.node, self.table.lend_mut());
        lend_points(&mut self.points, |points| {
            (K::CALL)(network, points, node, scratch, table)
        })
    }

    fn number(&self) -> u32 {
        let (network, scratch) = (self.network.lend(), self.scratch.len());
        let node = (self.node, K::REFUSED_AT);
        change_number(network, &self.points, node, self.table.sizes(), scratch)
    }

    /// The lent table is the one of the points.
    fn accepted_by(&self, pairs: &AllPairs) -> Outcome<Self> {
        let places = self.table.places;
        let before = PlainTable::of(pairs, &self.points, places);
        assert!(self.table.words() == before);
        self.accepted(&PlainTable::of(pairs, &self.points_after(), places))
    }

    fn network(&self) -> &OwnedNetwork {
        &self.network
    }

    fn network_mut(&mut self) -> &mut OwnedNetwork {
        &mut self.network
    }

    fn points(&self) -> &[u8] {
        &self.points
    }

    fn m(&self) -> u32 {
        self.table.places
    }

    fn scratch_mut(&mut self) -> &mut Lent {
        &mut self.scratch
    }

    fn arrays(&self) -> Vec<(&'static str, &Lent)> {
        let [ids, distances] = self.table.arrays();
        vec![("scratch", &self.scratch), ids, distances]
    }

    fn asked(&self) -> String {
        let (name, node, places) = (K::NAME, self.node, self.table.places);
        format!("{name} {node}, K {places}")
    }

    /// Lends the table of the network that damage has left.
    fn mend(&mut self) {
        if self.number() == 0 {
            let pairs = AllPairs::of(self.network.lend());
            let table = PlainTable::of(&pairs, &self.points, self.table.places);
            self.table = self.table.clone().with(&table);
        }
    }

    fn tally(&self, tally: &mut Tally, pairs: &AllPairs) {
        let (update, left) = self.accepted_by(pairs);
        let n = self.points.len() as u32;
        let lockers: u32 = self.points.iter().map(|&lockers| u32::from(lockers)).sum();
        let reached = pairs.row(self.node).iter().flatten().count() as u32;
        let (before, after) = (self.table.words(), left.table.words());
        let other = |&node: &u32| before.row(node) != after.row(node) && node != self.node;
        let last = |table: &PlainTable, node| table.ids[table.part(node).end - 1];
        let full = |table: &PlainTable, node| last(table, node) != overlap::NONE;
        let ends_and_stays =
            |&node: &u32| last(&before, node) == self.node && before.row(node) == after.row(node);
        let happened = [
            update.changed < reached,
            update.changed == reached,
            reached < n,
            lockers < self.table.places,
            lockers > self.table.places,
            (0..n)
                .filter(other)
                .any(|node| full(&before, node) && full(&after, node)),
            (0..n).any(|node| repeats_a_node(&after.row(node))),
            (0..n).any(|node| ends_and_stays(&node)),
        ];
        tally.add_places(self.table.places);
        for (happened, name) in happened.into_iter().zip(Self::TALLIED) {
            tally.add_if(happened, name);
        }
    }
}

impl<K> Change<K> {
    /// The names under which things are counted.
    pub const TALLIED: [&'static str; 8] = [
        "a row reached that doesn't change",
        "all rows reached change",
        "a node that can't be reached",
        "fewer points than K",
        "more points than K",
        "a full row of another node changes",
        "a row that holds a node several times",
        "a row cut in the midst of the node's lockers, which stays",
    ];
}

/// Lends the bytes as the middle part of a longer array, so that a byte written outside of the lent
/// part is seen.
fn lend_points<Answer>(points: &mut [u8], call: impl FnOnce(&mut [u8]) -> Answer) -> Answer {
    const MARGIN: [u8; 4] = [3; 4];
    let mut bytes = [&MARGIN[..], points, &MARGIN].concat();
    let part = MARGIN.len()..MARGIN.len() + points.len();
    let answer = call(&mut bytes[part.clone()]);
    assert_eq!(bytes[..part.start], MARGIN);
    assert_eq!(bytes[part.end..], MARGIN);
    points.copy_from_slice(&bytes[part]);
    answer
}

/// Sees that the call does as document 01 says, by the table that the engine builds afresh as well.
pub fn assert_change<K: Kind>(
    call: Change<K>,
    pairs: &AllPairs,
    random: &mut Random,
) -> PlainTable {
    let points = call.points_after();
    let after = PlainTable::of(pairs, &points, call.table.places);
    let outcome = call.accepted(&after);
    let fresh = PlainTable::built(&call.network, &points, call.table.places, random);
    assert_eq!(after, fresh, "{}", call.story());
    assert_outcome(call, &outcome);
    after
}

/// Tries every network of up to four nodes with roads of weight 1 or 2, their points, every node and
/// these K.
pub fn assert_small_networks<K: Kind>(all_places: &[u32]) {
    let mut random = Random::new(5);
    try_all_small_points(|network, points| {
        let pairs = AllPairs::of(network.lend());
        for &places in all_places {
            let table = PlainTable::of(&pairs, points, places);
            for node in 0..points.len() as u32 {
                let call = Change::<K>::exact(network, points, node, &table, &mut random);
                if points[node as usize] == K::REFUSED_AT {
                    assert_refused(call, 11);
                } else {
                    let outcome = call.accepted_by(&pairs);
                    assert_outcome(call, &outcome);
                }
            }
        }
    });
}

/// "On one that the check would deny, [...] the changed count (at most n) and the table are free; the
/// marks still change by the rule": lends damaged tables and those of other points.
pub fn assert_damaged_tables<K: Kind>(rounds: u64) {
    for seed in 0..rounds {
        let mut random = Random::new(seed);
        let network = random_network(&mut random);
        let pairs = AllPairs::of(network.lend());
        for _ in 0..4 {
            let mut call = Change::<K>::random(&network, &pairs, &mut random);
            let mut table = call.table.words();
            if random.once_in(4) {
                table = PlainTable::of(&pairs, &some_points(&network, &mut random), table.places);
            }
            damage(&mut table, random.pick(&[0, 1, 2, 5, 20]), &mut random);
            call.table = call.table.with(&table);
            assert_free_outcome(call);
        }
    }
}

/// Sees that an accepted call leaves all but the count and the table as document 01 says.
fn assert_free_outcome<K: Kind>(mut call: Change<K>) {
    let (_, mut left) = call.accepted(&call.table.words());
    let update = call.run();
    assert_eq!(update.number, 0, "{}", left.story());
    assert!(update.changed as usize <= left.points.len());
    assert_eq!(call.network, left.network, "{}", left.story());
    assert_eq!(call.points, left.points, "{}", left.story());
    left.table = left.table.with(&call.table.words());
    for ((name, is), (_, wanted)) in call.arrays().into_iter().zip(left.arrays()) {
        assert_eq!(is.difference(wanted), None, "{name}, {}", left.story());
    }
}
