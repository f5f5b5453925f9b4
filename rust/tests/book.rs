//! Long lists of insertions and removals behind one build, compared with the plain book of document
//! 01, and the searches behind them.

mod common;

use common::all_pairs::AllPairs;
use common::book::{Book, Deed, Line};
use common::call::{assert_outcome, Call};
use common::change::ChangeCall;
use common::eager::Short;
use common::inputs::{no_node, no_places, some_node, some_places, some_points, too_short};
use common::lent::Lent;
use common::network::{network_n, OwnedNetwork};
use common::numbers::plain_scratch_len;
use common::random::Random;
use common::rows::{is_cut_in_a_node, repeats_a_node};
use common::shapes::random_network;
use common::site::{Site, EAGER};
use common::table::{OwnedTable, PlainTable};
use common::tally::Tally;
use overlap::calls::{insert, lazy, lazy_ep, remove, table_check, table_query, Listing, Update};

/// What the calls are lent, each as the last one left it.
struct State {
    network: OwnedNetwork,
    points: Vec<u8>,
    table: OwnedTable,
}

impl State {
    fn built(network: &OwnedNetwork, points: &[u8], places: u32, random: &mut Random) -> Self {
        let table = PlainTable::built(network, points, places, random);
        Self {
            network: network.clone(),
            points: points.to_vec(),
            table: OwnedTable::holding(&table, random),
        }
    }

    /// Runs one call of the list.
    fn run(&mut self, line: Line, random: &mut Random) -> Update {
        let mut scratch = Lent::junk(line.scratch, random);
        let before = scratch.clone();
        let mut table = self.table.lend_mut();
        table.places = line.places;
        let (network, call) = (self.network.lend(), call_of(line.deed));
        let points = &mut self.points;
        let update = call(network, points, line.node, scratch.part_mut(), table);
        let left = if update.number == 0 {
            before.cleared()
        } else {
            before
        };
        assert_eq!(scratch.difference(&left), None);
        update
    }

    /// "Refused calls lent another network, other marks or other table arrays may come in between;
    /// they change nothing".
    fn run_foreign(&mut self, random: &mut Random) {
        let mut network = self.network.clone();
        let mut points = self.points.clone();
        let places = self.table.places;
        let mut table = self.table.clone();
        match random.below(3) {
            0 => network.starts.truncate(1),
            1 => points[0] = 16,
            _ => table.ids = Lent::junk(table.ids.len() + 1, random),
        }
        let left = (points.clone(), table.clone());
        let length = plain_scratch_len(self.network.lend(), places);
        let mut scratch = Lent::junk(length, random);
        let before = scratch.clone();
        let call = call_of(random.pick(&[Deed::Insert, Deed::Remove]));
        let lent = table.lend_mut();
        let update = call(network.lend(), &mut points, 0, scratch.part_mut(), lent);
        assert!([1, 6, 8].contains(&update.number));
        assert_eq!(update.changed, 0);
        assert_eq!(points, left.0);
        assert_eq!(table.ids.difference(&left.1.ids), None);
        assert_eq!(table.distances.difference(&left.1.distances), None);
        assert_eq!(scratch.difference(&before), None);
    }
}

fn call_of(deed: Deed) -> ChangeCall {
    match deed {
        Deed::Insert => insert,
        Deed::Remove => remove,
    }
}

/// A node that most often is any, and else one of 15 lockers, or of none.
fn line_node(state: &State, random: &mut Random) -> u32 {
    let wanted = random.pick(&[0, 15, 15]);
    let all = 0..state.points.len() as u32;
    let at: Vec<u32> = all
        .filter(|&p| state.points[p as usize] == wanted)
        .collect();
    match random.index(at.len()) {
        Some(choice) if random.once_in(3) => at[choice],
        _ => some_node(&state.network, random),
    }
}

/// Points of any kind, and at times many nodes with 14 or 15 lockers.
fn line_points(network: &OwnedNetwork, random: &mut Random) -> Vec<u8> {
    let mut points = some_points(network, random);
    if random.once_in(3) {
        for lockers in &mut points {
            *lockers = random.pick(&[*lockers, 14, 15]);
        }
    }
    points
}

fn other_deed(deed: Deed) -> Deed {
    match deed {
        Deed::Insert => Deed::Remove,
        Deed::Remove => Deed::Insert,
    }
}

/// A deed that 11 lets pass.
fn line_deed(lockers: u8, random: &mut Random) -> Deed {
    match lockers {
        0 => Deed::Insert,
        15 => Deed::Remove,
        _ => random.pick(&[Deed::Insert, Deed::Remove]),
    }
}

/// A call of the list: "A call's node, K and scratch may be any." Most are accepted.
fn some_line(state: &State, random: &mut Random) -> Line {
    let node = line_node(state, random);
    let deed = line_deed(state.points[node as usize], random);
    let length = plain_scratch_len(state.network.lend(), state.table.places);
    let mut line = Line {
        deed,
        node,
        places: state.table.places,
        scratch: length + random.pick(&[0, 0, 1, 9]),
    };
    match random.below(16) {
        0 => line.node = no_node(&state.network, random),
        1 => line.places = no_places(random),
        2 => line.scratch = too_short(length, random),
        3..=5 => line.deed = other_deed(line.deed),
        6 => line.places = random.between(2, 17),
        _ => {}
    }
    line
}

/// "Each call's number and changed count equal the book's. After the list the lent marks equal the
/// book's [...], and both table arrays hold the rows of those marks." Each call ends a list.
fn assert_line(state: &mut State, book: &mut Book<'_>, random: &mut Random, tally: &mut Tally) {
    let line = some_line(state, random);
    let update = state.run(line, random);
    tally.add_number(update.number);
    tally.add_if(update.number == 11, &refusal_name(line.deed));
    assert_eq!(update, book.feed(line), "{line:?}");
    assert_eq!(state.points, book.marks, "{line:?}");
    let words = state.table.words();
    assert_eq!(words, book.table(), "{line:?}");
    let (network, places) = (&state.network, state.table.places);
    let fresh = PlainTable::built(network, &state.points, places, random);
    assert_eq!(words, fresh, "{line:?}");
    let verdict = table_check(network.lend(), &state.points, state.table.lend());
    assert_eq!(verdict.accepted(), Ok(true));
    tally_table(&words, &state.points, tally);
}

fn refusal_name(deed: Deed) -> String {
    format!("number 11 of {deed:?}")
}

/// Counts what several lockers bring into a table.
fn tally_table(table: &PlainTable, points: &[u8], tally: &mut Tally) {
    let rows = || (0..table.nodes()).map(|node| table.row(node));
    tally.add_if(rows().any(|row| repeats_a_node(&row)), REPEATED);
    tally.add_if(rows().any(|row| is_cut_in_a_node(&row, points)), CUT);
}

const REPEATED: &str = "a row that holds a node several times";
const CUT: &str = "a row cut in the midst of a node's lockers";
const ON_A_POINT: &str = "a site on a point";

/// "The searches are then lent this network, these marks and arrays that 10 lets pass": all four
/// list the same for each site and each k from 1 to K - 1. Ask 6: "their agreement after any updates is
/// judged by the new wording."
fn assert_searches(state: &State, pairs: &AllPairs, random: &mut Random, tally: &mut Tally) {
    for k in 1..state.table.places {
        for q in 0..state.points.len() as u32 {
            let mut site = Site::exact(&state.network, &state.points, (q, k), random);
            let list = site.list(pairs);
            tally.add_if(state.points[q as usize] > 0, ON_A_POINT);
            let mut by_eager = site.for_eager(random);
            let listing = by_eager.run(EAGER);
            assert_listing(listing, &by_eager, &list);
            assert_eq!(listing.count, site.expanded(pairs));
            for search in [lazy, lazy_ep] {
                let mut site = site.clone();
                let listing = site.run(search);
                assert_listing(listing, &site, &list);
            }
            let (scratch, answers) = (site.scratch.part_mut(), site.answers.part_mut());
            let (network, table) = (state.network.lend(), state.table.lend());
            let listing = table_query(network, &state.points, q, k, table, scratch, answers);
            assert_listing(listing, &site, &list);
        }
    }
}

/// The short query is lent no table, so its k is its own, whatever K is (Ask 10).
fn assert_short_queries(state: &State, pairs: &AllPairs, random: &mut Random) {
    for q in 0..state.points.len() as u32 {
        let short = Short::exact(&state.network, &state.points, q, random);
        let outcome = short.accepted_by(pairs);
        assert_outcome(short, &outcome);
    }
}

fn assert_listing(listing: Listing, site: &Site, list: &[u32]) {
    assert_eq!((listing.number, listing.length), (0, list.len()));
    assert_eq!(site.answers.part()[..list.len()], *list);
}

/// One build and a list of calls, of which some are refused, and then the searches.
fn try_list(network: &OwnedNetwork, length: u32, random: &mut Random, tally: &mut Tally) {
    let pairs = AllPairs::of(network.lend());
    let (points, places) = (line_points(network, random), some_places(random));
    let mut state = State::built(network, &points, places, random);
    let mut book = Book::new(network, &pairs, &points, places);
    for _ in 0..length {
        if random.once_in(4) {
            state.run_foreign(random);
        }
        assert_line(&mut state, &mut book, random, tally);
    }
    if random.once_in(8) {
        assert_searches(&state, &pairs, random, tally);
        assert_short_queries(&state, &pairs, random);
    }
}

#[test]
fn lists_of_network_n() {
    let (mut random, mut tally) = (Random::new(1), Tally::default());
    for length in 0..200 {
        try_list(&network_n(), length, &mut random, &mut tally);
    }
}

#[test]
fn lists_of_random_networks() {
    let mut tally = Tally::default();
    for seed in 0..2_000 {
        let mut random = Random::new(seed);
        let network = random_network(&mut random);
        let length = random.pick(&[0, 1, 20, 60]);
        try_list(&network, length, &mut random, &mut tally);
    }
    tally.print();
    tally.assert_numbers(500, &[0, 7, 8, 10, 11]);
    for deed in [Deed::Insert, Deed::Remove] {
        tally.assert_at_least(500, &refusal_name(deed));
    }
    for name in [REPEATED, CUT, ON_A_POINT] {
        tally.assert_at_least(2_000, name);
    }
}
