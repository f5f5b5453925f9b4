//! Sees that the engine and its twins answer the same and leave the same arrays. A time is compared
//! only where the work is the same.

use super::calls::{self, Answer, Query, TABLE_CHECK, TWINS};
use super::common::damage::damage;
use super::common::inputs::{no_k, no_node, some_k, some_node, some_places, some_points};
use super::common::inputs::{spoil_points, too_short};
use super::common::network::OwnedNetwork;
use super::common::random::Random;
use super::common::route::some_route;
use super::common::shapes::random_network;
use super::common::table::PlainTable;
use super::common::table_damage;
use super::lent::{Lent, Written, OLD};
use super::outcome::{assert_same, built};

/// How many words of scratch, and eager of visits, a call is lent beyond those that it asks for: mostly
/// none, at times a few, and at times it is one too few.
const MORE: [isize; 8] = [0, 0, 0, 0, 0, 8, 8, -1];
/// An m above every call's, so that there are these words.
const MOST_M: u32 = 18;

/// Tries every call on so many small random networks, and returns how many calls were accepted and
/// how many refused.
pub fn try_small_networks(networks: u64) -> (usize, usize) {
    let mut answers = Vec::new();
    for seed in 0..networks {
        let mut random = Random::new(seed);
        let mut network = random_network(&mut random);
        let points = some_points(&network, &mut random);
        let routes: Vec<_> = (0..ROUTES)
            .map(|_| any_route(&network, &mut random))
            .collect();
        answers.extend(try_calls(&network, &points, &routes, &mut random));
        let times = random.pick(&[0, 0, 1, 2]);
        damage(&mut network, times, &mut random);
        answers.extend(try_calls(&network, &points, &routes, &mut random));
    }
    let accepted = answers.iter().filter(|answer| answer.0 == 0).count();
    (accepted, answers.len() - accepted)
}

/// As many routes as the calls of a network are asked about.
const ROUTES: usize = 4;

/// A list of nodes that is mostly a route.
fn any_route(network: &OwnedNetwork, random: &mut Random) -> Vec<u32> {
    let mut route = some_route(network, random);
    let place = random.index(route.len()).unwrap();
    match random.below(32) {
        0 => route.clear(),
        1 => route[place] = no_node(network, random),
        2 => route[place] = some_node(network, random),
        3 => route.insert(place, route[place]),
        _ => (),
    }
    route
}

/// Tries every call, and the table check on a damaged table as well.
fn try_calls(
    network: &OwnedNetwork,
    points: &[u8],
    routes: &[Vec<u32>],
    random: &mut Random,
) -> Vec<Answer> {
    let mut lent = built(network.lend(), points, some_places(random), MOST_M);
    let visits = points.len().saturating_add_signed(random.pick(&MORE));
    lent.written.visits.resize(visits, OLD);
    let before = lent.written.clone();
    lend_rivals(&mut lent, random);
    let mut answers = Vec::new();
    for call in calls::ALL {
        let query = some_query(network, routes, random);
        lent.scratch.more = random.pick(&MORE);
        answers.push(assert_same(&mut lent, TWINS, call, query, &before));
    }
    let query = some_query(network, routes, random);
    let damaged = with_a_damaged_table(before, lent.places, random);
    answers.push(assert_same(&mut lent, TWINS, TABLE_CHECK, query, &damaged));
    answers
}

/// Households on any nodes, and as the rival's table the own one with its rows moved by one. At times
/// they are refused.
fn lend_rivals(lent: &mut Lent<'_>, random: &mut Random) {
    for byte in &mut lent.households {
        *byte = random.pick(&[0, 0, 1, 15]);
    }
    let row = lent.written.ids.len().min(lent.places as usize);
    lent.rival_ids.clone_from(&lent.written.ids);
    lent.rival_distances.clone_from(&lent.written.distances);
    lent.rival_distances.rotate_left(row);
    if random.once_in(16) {
        spoil_points(&mut lent.households, random);
    }
    if random.once_in(16) {
        let length = too_short(lent.rival_ids.len(), random);
        lent.rival_ids.truncate(length);
    }
}

fn with_a_damaged_table(written: Written, places: u32, random: &mut Random) -> Written {
    let mut table = PlainTable {
        places,
        ids: written.ids,
        distances: written.distances,
    };
    table_damage::damage(&mut table, 1, random);
    Written {
        ids: table.ids,
        distances: table.distances,
        ..written
    }
}

/// A query that is mostly accepted, with one of the routes.
fn some_query<'a>(
    network: &OwnedNetwork,
    routes: &'a [Vec<u32>],
    random: &mut Random,
) -> Query<'a> {
    let mut node = || match network.starts.len() {
        0 | 1 => 0,
        _ if random.once_in(16) => no_node(network, random),
        _ => some_node(network, random),
    };
    let (site, point) = (node(), node());
    let k = if random.once_in(16) {
        no_k(random).min(17)
    } else {
        some_k(random)
    };
    let limit = random.pick(&[0, 3, 65_535, 65_535]);
    Query {
        site,
        point,
        k,
        limit,
        route: &routes[random.index(routes.len()).unwrap()],
    }
}
