//! Of an own table and a rival's, the row whose first entry is nearer, compared with Ask 1 of document
//! 02.

mod common;

use common::all_pairs::AllPairs;
use common::call::{assert_lower_numbers_first, assert_outcome, assert_random_calls};
use common::call::{assert_refused, Call, Outcome, LEAST_OF_EACH};
use common::faults::Fault;
use common::inputs::{no_node, no_places, some_node, some_places, some_points};
use common::largest::{each, largest_star, longest_chain, LAST, MOST_NODES};
use common::lent::Lent;
use common::network::{marks, network_n, OwnedNetwork, N_NODES, N_POINTS};
use common::numbers::nearer_row_number;
use common::random::Random;
use common::table::{OwnedTable, PlainTable};
use common::table_damage;
use common::tally::Tally;
use overlap::calls::{self, RowPart, TwoTables, NONE};

/// Everything that both calls are lent. K is the own table's.
#[derive(Clone)]
struct NearerRow {
    network: OwnedNetwork,
    junction: u32,
    own: OwnedTable,
    rival: OwnedTable,
}

impl NearerRow {
    fn exact(
        network: &OwnedNetwork,
        junction: u32,
        [own, rival]: [&PlainTable; 2],
        random: &mut Random,
    ) -> Self {
        Self {
            network: network.clone(),
            junction,
            own: OwnedTable::holding(own, random),
            rival: OwnedTable::holding(rival, random),
        }
    }

    fn places(&self) -> u32 {
        self.own.places
    }

    fn tables(&self) -> TwoTables<'_> {
        TwoTables {
            places: self.places(),
            own_ids: self.own.ids.part(),
            own_distances: self.own.distances.part(),
            rival_ids: self.rival.ids.part(),
            rival_distances: self.rival.distances.part(),
        }
    }

    /// The first distance of the junction's row in each table.
    fn first(&self) -> [u32; 2] {
        let at = self.junction as usize * self.places() as usize;
        [&self.own, &self.rival].map(|table| table.distances.part()[at])
    }

    /// "the row whose first entry is nearer, the own one when equal": the part of the rival's or of the
    /// own distances.
    fn accepted(&self, is_rivals: bool) -> Outcome<Self> {
        let length = self.places() as usize;
        let part = RowPart {
            number: 0,
            rival: u32::from(is_rivals),
            start: self.junction as usize * length,
            length,
        };
        (part, self.clone())
    }

    /// Sees that the wrapper hands back the part itself, in the array that is lent, or the refusal.
    fn assert_slice(&self, part: RowPart) {
        let (network, tables) = (self.network.lend(), self.tables());
        let row = calls::nearer_row(network, self.junction, tables);
        assert_eq!(row.err().map_or(0, |r| r.number()), part.number);
        if let Ok(row) = row {
            let distances = [tables.own_distances, tables.rival_distances];
            let lent = &distances[part.rival as usize][part.start..];
            assert_eq!(row.as_ptr(), lent.as_ptr(), "{}", self.story());
            assert_eq!(row.len(), self.places() as usize, "{}", self.story());
        }
    }
}

impl Call for NearerRow {
    type Answer = RowPart;

    const HAS_SCRATCH: bool = false;
    const HAS_POINTS: bool = false;

    const OWN_FAULTS: &'static [(u32, Fault<Self>)] = &[
        (7, |c, r| c.junction = no_node(&c.network, r)),
        (8, spoil_places),
        (8, |c, r| spoil_length(&mut c.own.ids, r)),
        (8, |c, r| spoil_length(&mut c.own.distances, r)),
        (8, |c, r| spoil_length(&mut c.rival.ids, r)),
        (8, |c, r| spoil_length(&mut c.rival.distances, r)),
    ];

    /// Tables of any points, at times the same ones, at times damaged or full of junk.
    fn random(network: &OwnedNetwork, pairs: &AllPairs, random: &mut Random) -> Self {
        let (own, places) = (some_points(network, random), some_places(random));
        let rival = match random.below(4) {
            0 => own.clone(),
            _ => some_points(network, random),
        };
        let [own, rival] = [own, rival].map(|points| {
            let mut table = PlainTable::of(pairs, &points, places);
            table_damage::damage(&mut table, random.pick(&[0, 0, 0, 1, 3]), random);
            table
        });
        let junction = some_node(network, random);
        let mut call = Self::exact(network, junction, [&own, &rival], random);
        let n = network.starts.len() - 1;
        for table in [&mut call.own, &mut call.rival] {
            if random.once_in(4) {
                *table = OwnedTable::junk(n, places, random);
            }
        }
        call
    }

    /// The part, by the one call; the other gives the same number.
    fn run(&mut self) -> RowPart {
        let (network, tables) = (self.network.lend(), self.tables());
        let part = calls::nearer_row_part(network, self.junction, tables);
        let number = calls::nearer_row_number(network, self.junction, tables);
        assert_eq!(number, part.number, "{}", self.story());
        self.assert_slice(part);
        part
    }

    fn number(&self) -> u32 {
        let lengths = [&self.own, &self.rival].map(|table| table.sizes().1);
        nearer_row_number(self.network.lend(), self.junction, self.places(), lengths)
    }

    fn accepted_by(&self, _: &AllPairs) -> Outcome<Self> {
        let [own, rival] = self.first();
        self.accepted(rival < own)
    }

    fn network(&self) -> &OwnedNetwork {
        &self.network
    }

    fn network_mut(&mut self) -> &mut OwnedNetwork {
        &mut self.network
    }

    fn scratch_mut(&mut self) -> &mut Lent {
        unreachable!("the call has no scratch")
    }

    fn arrays(&self) -> Vec<(&'static str, &Lent)> {
        [self.own.arrays(), self.rival.arrays()].concat()
    }

    fn asked(&self) -> String {
        format!("junction {}, K {}", self.junction, self.places())
    }

    fn tally(&self, tally: &mut Tally, _: &AllPairs) {
        let [own, rival] = self.first();
        let happened = [
            own < rival,
            rival < own,
            own == rival && own != NONE,
            own == NONE && rival == NONE,
            own == NONE && rival != NONE,
            rival == NONE && own != NONE,
            own.min(rival) > (1 << 31) && own != rival,
            self.junction > 0,
        ];
        tally.add_places(self.places());
        for (happened, name) in happened.into_iter().zip(Self::TALLIED) {
            tally.add_if(happened, name);
        }
    }
}

impl NearerRow {
    /// The names under which things are counted.
    const TALLIED: [&'static str; 8] = [
        "the own one is nearer",
        "the rival's is nearer",
        "both are equally near",
        "both are empty",
        "the own one is empty alone",
        "the rival's is empty alone",
        "both are above half of all numbers",
        "a row in the midst of an array",
    ];
}

/// 8: "K not 2 to 17", at times with four arrays that are n × K long.
fn spoil_places(call: &mut NearerRow, random: &mut Random) {
    let places = no_places(random);
    let n = call.network.starts.len().saturating_sub(1);
    if places <= 34 && random.once_in(2) {
        call.own = OwnedTable::junk(n, places, random);
        call.rival = OwnedTable::junk(n, places, random);
    }
    call.own.places = places;
}

/// 8: "a table array not n × K long".
fn spoil_length(array: &mut Lent, random: &mut Random) {
    let length = array.len();
    let other = random.pick(&[length.saturating_sub(1), length + 1, 0, 2 * length + 1]);
    *array = Lent::junk(if other == length { 1 } else { other }, random);
}

/// Network N of document 01, by hand. The own points are on 2, 4 and 5, the rival's on 0, 2 and 3.
mod network_n {
    use super::*;

    fn table_of(points: &[u32]) -> PlainTable {
        let (network, points) = (network_n(), marks(N_NODES, points));
        PlainTable::of(&AllPairs::of(network.lend()), &points, 2)
    }

    fn call(junction: u32) -> NearerRow {
        let (own, rival) = (table_of(&N_POINTS), table_of(&[0, 2, 3]));
        NearerRow::exact(&network_n(), junction, [&own, &rival], &mut Random::new(0))
    }

    /// Nodes 1 and 2 are as near to an own point as to the rival's; no road leads to node 5.
    #[test]
    fn each_junction_has_its_row() {
        let rows = [
            (true, [0, 5]),
            (false, [3, 10]),
            (false, [0, 7]),
            (true, [0, 5]),
            (false, [0, 7]),
            (false, [0, NONE]),
        ];
        for (junction, (is_rivals, row)) in (0..).zip(rows) {
            let call = call(junction);
            let tables = call.tables();
            let is = calls::nearer_row(call.network.lend(), junction, tables);
            assert_eq!(is, Ok(&row[..]), "junction {junction}");
            let outcome = call.accepted(is_rivals);
            assert_outcome(call, &outcome);
        }
    }

    /// Without points all rows are empty, and the own one is handed back.
    #[test]
    fn of_two_empty_rows_the_own_one() {
        for (own, rival, is_rivals) in [(&[][..], &[][..], false), (&[], &[5], true)] {
            let (own, rival) = (table_of(own), table_of(rival));
            let random = &mut Random::new(0);
            let call = NearerRow::exact(&network_n(), 5, [&own, &rival], random);
            let outcome = call.accepted(is_rivals);
            assert_outcome(call, &outcome);
        }
    }

    /// The first distances decide alone, whatever else the tables hold.
    #[test]
    fn any_contents() {
        for (own, rival) in [
            (0, 0),
            (0, 1),
            (1, 0),
            (NONE, NONE),
            (NONE, NONE - 1),
            (7, NONE),
        ] {
            let mut call = call(3);
            for array in [&mut call.own.ids, &mut call.rival.ids] {
                array.part_mut().fill(NONE);
            }
            call.own.distances.part_mut().fill(0);
            call.rival.distances.part_mut().fill(0);
            call.own.distances.part_mut()[6] = own;
            call.rival.distances.part_mut()[6] = rival;
            let outcome = call.accepted(rival < own);
            assert_outcome(call, &outcome);
        }
    }

    #[test]
    fn each_condition_of_its_own() {
        for junction in [6, 7, u32::MAX] {
            assert_refused(call(junction), 7);
        }
        for places in [0, 1, 3, 6, 12, 18, u32::MAX] {
            let mut call = call(0);
            call.own.places = places;
            assert_refused(call, 8);
        }
        for length in [0, 1, 10, 11, 13, 14, 18, 24] {
            for place in 0..4 {
                let mut call = call(0);
                let NearerRow { own, rival, .. } = &mut call;
                let arrays = [
                    &mut own.ids,
                    &mut own.distances,
                    &mut rival.ids,
                    &mut rival.distances,
                ];
                let spoilt = arrays.into_iter().nth(place).unwrap();
                *spoilt = Lent::junk(length, &mut Random::new(0));
                assert_refused(call, 8);
            }
        }
    }
}

/// "Conditions are tried from 1 upward [...]; the first met is returned".
mod order {
    use super::*;

    #[test]
    fn two_conditions_give_the_lower_number() {
        assert_lower_numbers_first::<NearerRow>();
    }
}

/// Random networks, valid and damaged, and tables of any contents.
mod random {
    use super::*;

    #[test]
    fn engine_and_plain_calculation_agree() {
        let numbers = [0, 1, 2, 3, 4, 5, 7, 8];
        let tally = assert_random_calls::<NearerRow>(&numbers, &NearerRow::TALLIED);
        tally.assert_each_places(LEAST_OF_EACH);
    }
}

/// Networks at document 01's bounds, the rows at the end of the longest arrays.
mod limits {
    use super::*;

    fn assert_row(
        network: &OwnedNetwork,
        tables: [&PlainTable; 2],
        junction: u32,
        is_rivals: bool,
    ) {
        let call = NearerRow::exact(network, junction, tables, &mut Random::new(6));
        let outcome = call.accepted(is_rivals);
        assert_outcome(call, &outcome);
    }

    fn table(network: &OwnedNetwork, points: &[u8]) -> PlainTable {
        PlainTable::of_large(network, points, 17)
    }

    /// The own points are on each 5,000th node, the rival's on the first and on the last alone.
    #[test]
    fn the_longest_chain() {
        let network = longest_chain();
        let own = table(&network, &each(5_000));
        let rival = table(&network, &marks(MOST_NODES, &[0, LAST]));
        let rows = [
            (0, false),
            (LAST, true),
            (65_000, false),
            (65_266, false),
            (65_267, false),
            (65_268, true),
        ];
        for (junction, is_rivals) in rows {
            assert_row(&network, [&own, &rival], junction, is_rivals);
        }
    }

    /// Of two leaves each is nearer to itself; a third one is as near to either.
    #[test]
    fn a_star_of_the_most_nodes() {
        let network = largest_star(7);
        let own = table(&network, &marks(MOST_NODES, &[0]));
        let rival = table(&network, &marks(MOST_NODES, &[LAST; 15]));
        for (junction, is_rivals) in [(0, false), (LAST, true), (7, false), (LAST - 1, false)] {
            assert_row(&network, [&own, &rival], junction, is_rivals);
            assert_row(&network, [&rival, &own], junction, junction == 0);
        }
    }

    #[test]
    fn one_node_without_a_road() {
        let network = OwnedNetwork::from_roads(1, &[]);
        let empty = table(&network, &[0]);
        for lockers in 1..=15 {
            let full = table(&network, &[lockers]);
            assert_row(&network, [&empty, &full], 0, true);
            assert_row(&network, [&full, &empty], 0, false);
            assert_row(&network, [&full, &full], 0, false);
        }
    }
}
