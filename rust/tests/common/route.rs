//! Everything that a call of a route is lent.

use super::all_pairs::AllPairs;
use super::call::{Call, Outcome};
use super::faults::Fault;
use super::inputs::{enough, no_k, no_node, some_k, some_node};
use super::inputs::{some_points, spoil_points, too_short};
use super::lent::Lent;
use super::network::OwnedNetwork;
use super::numbers::{plain_scratch_len, route_number};
use super::random::Random;
use super::tally::Tally;
use super::walks::{neighbours_of, random_walk, to_and_fro, walk_through_all};
use overlap::calls::{route, Listing};

#[derive(Clone)]
pub struct Route {
    pub network: OwnedNetwork,
    pub points: Vec<u8>,
    pub route: Lent,
    pub k: u32,
    pub scratch: Lent,
    pub answers: Lent,
}

impl Route {
    /// A call with arrays that are just long enough and full of junk. The network is an accepted one
    /// and k at most 16.
    pub fn exact(
        network: &OwnedNetwork,
        points: &[u8],
        (route, k): (&[u32], u32),
        random: &mut Random,
    ) -> Self {
        Self {
            network: network.clone(),
            points: points.to_vec(),
            route: Lent::of(route, random),
            k,
            scratch: Lent::junk(plain_scratch_len(network.lend(), k), random),
            answers: Lent::junk(network.starts.len() - 1, random),
        }
    }

    /// Makes scratch and answers longer at times.
    fn lengthen(mut self, random: &mut Random) -> Self {
        for array in [&mut self.scratch, &mut self.answers] {
            *array = Lent::junk(enough(array.len(), random), random);
        }
        self
    }

    /// "An accepted call returns number 0; a listing [...] call also the length of its list." "An
    /// accepted call with scratch leaves it all zero. Answer arrays hold the answer, then their old
    /// entries."
    pub fn accepted(&self, list: &[u32]) -> Outcome<Self> {
        let listing = Listing {
            number: 0,
            count: 0,
            length: list.len(),
        };
        let mut left = self.clone();
        left.scratch = left.scratch.cleared();
        left.answers = left.answers.with_answer(list);
        (listing, left)
    }

    /// Changes the list of nodes.
    pub fn change_route(&mut self, random: &mut Random, change: impl FnOnce(&mut Vec<u32>)) {
        let mut nodes = self.route.part().to_vec();
        change(&mut nodes);
        self.route = Lent::of(&nodes, random);
    }

    /// n of any arrays.
    fn nodes(&self) -> usize {
        self.network.starts.len().saturating_sub(1)
    }

    fn list(&self, pairs: &AllPairs) -> Vec<u32> {
        self.list_with(&self.points, self.k, pairs)
    }

    /// The list with these points and this k.
    fn list_with(&self, points: &[u8], k: u32, pairs: &AllPairs) -> Vec<u32> {
        pairs.plain_touched(points, self.route.part(), k)
    }

    /// What a single node receives, points on the other nodes of the route among it.
    fn list_of(&self, node: u32, pairs: &AllPairs) -> Vec<u32> {
        pairs.plain_listed(&self.points, node, self.k)
    }

    /// The names under which things are counted.
    pub const TALLIED: [&'static str; 21] = [
        "a route of one node",
        "a route of two nodes or more",
        "a node that comes again",
        "to a node and back at once",
        "a list of nodes longer than n",
        "all nodes of the network",
        "a point on the route",
        "several lockers on a node of the route",
        "a point on the route that another node of it lists",
        "a list that neither the first nor the last node has",
        "a list that no single node has",
        "an empty list",
        "two points or more",
        "a point off the route that is not listed",
        "a point that can't be reached",
        "equal distances that don't count",
        "several lockers that change the list",
        "a node with several lockers that is listed",
        "a list that a smaller k would change",
        "a list that a larger k would change",
        "longer answers",
    ];

    /// What of the route itself makes the call telling.
    fn told_by_route(&self) -> [bool; 6] {
        let route = self.route.part();
        let mut stops = route.to_vec();
        stops.sort_unstable();
        stops.dedup();
        [
            route.len() == 1,
            route.len() > 1,
            stops.len() < route.len(),
            route.windows(3).any(|three| three[0] == three[2]),
            route.len() > self.nodes(),
            stops.len() == self.nodes(),
        ]
    }

    /// What of the points on the route and of the single nodes makes the call telling.
    fn told_by_stops(&self, list: &[u32], pairs: &AllPairs) -> [bool; 5] {
        let route = self.route.part();
        let lockers = |node: &u32| self.points[*node as usize];
        let is_list_of = |node: &u32| self.list_of(*node, pairs) == list;
        let ends = [route[0], route[route.len() - 1]];
        let is_on_route = |p: &u32| route.contains(p);
        let lists_a_stop = |&node: &u32| self.list_of(node, pairs).iter().any(is_on_route);
        [
            route.iter().any(|node| lockers(node) > 0),
            route.iter().any(|node| lockers(node) > 1),
            route.iter().any(lists_a_stop),
            !ends.iter().any(is_list_of),
            !route.iter().any(is_list_of),
        ]
    }

    /// What of the list makes the call telling.
    fn told_by_list(&self, list: &[u32], pairs: &AllPairs) -> [bool; 10] {
        let (route, points) = (self.route.part(), &self.points);
        let is_reached = |&p: &u32| pairs.row(route[0])[p as usize].is_some();
        let marked = || (0..points.len() as u32).filter(|&p| points[p as usize] > 0);
        let off_the_route = || marked().filter(|p| !route.contains(p));
        let single: Vec<u8> = points.iter().map(|&lockers| lockers.min(1)).collect();
        [
            list.is_empty(),
            list.len() > 1,
            off_the_route().filter(is_reached).count() > list.len(),
            !marked().all(|p| is_reached(&p)),
            self.has_ties(list, pairs),
            self.list_with(&single, self.k, pairs) != list,
            list.iter().any(|&p| points[p as usize] > 1),
            self.k > 1 && self.list_with(points, self.k - 1, pairs) != list,
            self.list_with(points, self.k + 1, pairs) != list,
            self.answers.len() > points.len(),
        ]
    }

    /// Whether a listed point would have k others nearer if those as far from it as the nearest node of
    /// the route were.
    fn has_ties(&self, list: &[u32], pairs: &AllPairs) -> bool {
        list.iter().any(|&p| {
            let far = pairs.plain_distances(p);
            let to_route = self.route.part().iter().map(|&q| far[q as usize]);
            let e = to_route.min().unwrap() + 1;
            let mut others = self.points.clone();
            others[p as usize] -= 1;
            pairs.plain_nearest(&others, p, e, self.k).len() == self.k as usize
        })
    }
}

/// A route by chance: of one node, a short walk, a long one, to and fro, or through all nodes.
pub fn some_route(network: &OwnedNetwork, random: &mut Random) -> Vec<u32> {
    let (n, from) = (network.starts.len() - 1, some_node(network, random));
    let length = match random.below(8) {
        0 => 1,
        1 => 2,
        2 | 3 => 3 + random.index(4).unwrap(),
        4 => 1 + random.index(n).unwrap(),
        5 => n + random.index(n + 5).unwrap(),
        6 => return short_to_and_fro(network, from, random),
        _ if random.once_in(3) => return walk_through_all(network, from),
        _ => 1 + random.index(5).unwrap(),
    };
    random_walk(network, from, length, random)
}

/// Some nodes to and fro over a short walk, as far as there is one.
fn short_to_and_fro(network: &OwnedNetwork, from: u32, random: &mut Random) -> Vec<u32> {
    let walk = random_walk(network, from, 2 + random.index(3).unwrap(), random);
    match walk.len() {
        1 => walk,
        _ => to_and_fro(&walk, 1 + random.index(12).unwrap()),
    }
}

/// 7: "for each node of the list". Puts a number that is no node in anywhere, in the place of a node or
/// between two.
fn put_no_node(call: &mut Route, random: &mut Random) {
    let (none, replaces) = (no_node(&call.network, random), random.once_in(2));
    let place = random.index(call.route.len() + 1).unwrap();
    call.change_route(random, |nodes| match nodes.get_mut(place) {
        Some(node) if replaces => *node = none,
        _ => nodes.insert(place, none),
    });
}

/// 14: "the list is empty".
fn empty_route(call: &mut Route, random: &mut Random) {
    call.change_route(random, Vec::clear);
}

/// 14: "two nodes in sequence have no road", as they are the same. An empty list stays so.
fn stay_at_a_node(call: &mut Route, random: &mut Random) {
    if let Some(place) = random.index(call.route.len()) {
        call.change_route(random, |nodes| nodes.insert(place, nodes[place]));
    }
}

/// 14: "two nodes in sequence have no road". Puts a node in behind one that has no road to it, or one
/// before the first. An empty list stays so.
fn leave_the_roads(call: &mut Route, random: &mut Random) {
    let Some(place) = random.index(call.route.len()) else {
        return;
    };
    let n = call.network.starts.len() as u32 - 1;
    let node = call.route.part()[place];
    let roads: &[u32] = match node < n {
        true => neighbours_of(&call.network, node),
        false => &[],
    };
    let others: Vec<u32> = (0..n).filter(|other| !roads.contains(other)).collect();
    let other = others[random.index(others.len()).unwrap()];
    let behind = usize::from(place > 0 || random.once_in(2));
    call.change_route(random, |nodes| nodes.insert(place + behind, other));
}

/// 10: "an array for answers shorter than n".
fn shorten_answers(call: &mut Route, random: &mut Random) {
    call.answers = Lent::junk(too_short(call.nodes(), random), random);
}

impl Call for Route {
    type Answer = Listing;

    const OWN_FAULTS: &'static [(u32, Fault<Self>)] = &[
        (6, |c, r| spoil_points(&mut c.points, r)),
        (7, put_no_node),
        (9, |c, r| c.k = no_k(r)),
        (10, shorten_answers),
        (14, empty_route),
        (14, stay_at_a_node),
        (14, leave_the_roads),
    ];

    fn random(network: &OwnedNetwork, _: &AllPairs, random: &mut Random) -> Self {
        let points = some_points(network, random);
        let (route, k) = (some_route(network, random), some_k(random));
        Self::exact(network, &points, (&route, k), random).lengthen(random)
    }

    fn run(&mut self) -> Listing {
        route(
            self.network.lend(),
            &self.points,
            self.route.part(),
            self.k,
            self.scratch.part_mut(),
            self.answers.part_mut(),
        )
    }

    fn number(&self) -> u32 {
        let asked = (self.route.part(), self.k);
        let lengths = (self.scratch.len(), self.answers.len());
        route_number(self.network.lend(), &self.points, asked, lengths)
    }

    fn accepted_by(&self, pairs: &AllPairs) -> Outcome<Self> {
        self.accepted(&self.list(pairs))
    }

    fn network(&self) -> &OwnedNetwork {
        &self.network
    }

    fn network_mut(&mut self) -> &mut OwnedNetwork {
        &mut self.network
    }

    fn points(&self) -> &[u8] {
        &self.points
    }

    fn m(&self) -> u32 {
        self.k
    }

    fn scratch_mut(&mut self) -> &mut Lent {
        &mut self.scratch
    }

    fn arrays(&self) -> Vec<(&'static str, &Lent)> {
        vec![
            ("scratch", &self.scratch),
            ("answers", &self.answers),
            ("route", &self.route),
        ]
    }

    fn asked(&self) -> String {
        let first: Vec<_> = self.route.part().iter().take(100).collect();
        format!("k {}, route {first:?}", self.k)
    }

    fn tally(&self, tally: &mut Tally, pairs: &AllPairs) {
        let list = self.list(pairs);
        let by_stops = self.told_by_stops(&list, pairs);
        let by_list = self.told_by_list(&list, pairs);
        let happened = [&self.told_by_route()[..], &by_stops, &by_list].concat();
        assert_eq!(happened.len(), Self::TALLIED.len());
        tally.add_k(self.k);
        for (happened, name) in happened.into_iter().zip(Self::TALLIED) {
            tally.add_if(happened, name);
        }
    }
}
