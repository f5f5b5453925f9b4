//! The number of each call: the first condition met of document 01's table of refusals.

use super::plain::plain_check;
use overlap::calls::{eager_scratch_len, Network};

/// "Length S = 16 × n + 8 × (A + n) × m entries". The network is an accepted one and m at most 17.
///
/// Ask 5: "10 compares with 12 × n" for eager, verify and the short query. That length has one
/// definition, `eager_scratch_len`, which `plain.rs` pins by its values.
pub fn plain_scratch_len(network: Network<'_>, m: u32) -> usize {
    let (n, arcs) = (node_count(network), network.neighbours.len());
    16 * n + 8 * (arcs + n) * m as usize
}

/// Distances: the conditions 1 to 5, 7 and 10. Scratch and answers are given by their lengths.
pub fn distances_number(network: Network<'_>, node: u32, scratch: usize, answers: usize) -> u32 {
    let of_network = plain_check(network);
    if of_network != 0 {
        of_network
    } else if is_no_node(network, node) {
        7
    } else if scratch < plain_scratch_len(network, 1) || answers < node_count(network) {
        10
    } else {
        0
    }
}

/// Nearest: the conditions 1 to 7, 9 and 10. Scratch and both answer arrays are given by their
/// lengths.
pub fn nearest_number(
    network: Network<'_>,
    points: &[u8],
    node: u32,
    k: u32,
    scratch: usize,
    answers: [usize; 2],
) -> u32 {
    let of_points = points_number(network, points);
    if of_points != 0 {
        of_points
    } else if is_no_node(network, node) {
        7
    } else if is_no_k(k) {
        9
    } else if scratch < plain_scratch_len(network, k) || answers.iter().any(|&a| a < k as usize) {
        10
    } else {
        0
    }
}

/// Verify: the conditions 1 to 7 and 9 to 11, 10 with 12 × n. Scratch is given by its length.
pub fn verify_number(
    network: Network<'_>,
    points: &[u8],
    p: u32,
    q: u32,
    k: u32,
    scratch: usize,
) -> u32 {
    let of_points = points_number(network, points);
    if of_points != 0 {
        of_points
    } else if is_no_node(network, p) || is_no_node(network, q) {
        7
    } else if is_no_k(k) {
        9
    } else if scratch < eager_scratch_len(network) {
        10
    } else if points[p as usize] == 0 {
        11
    } else {
        0
    }
}

/// The least length of scratch that a search asks for, by its network and its k.
pub type Least = fn(Network<'_>, u32) -> usize;

/// Lazy, lazy-EP and the table query: S, "m is the k of a search".
pub const LEAST_OF_LAZY: Least = plain_scratch_len;

/// Eager and the short query: "12 × n entries for every k".
pub const LEAST_OF_EAGER: Least = |network, _| eager_scratch_len(network);

/// The searches without a table, eager but for 12: the conditions 1 to 7, 9 and 10, with the least
/// scratch of the search. Scratch and answers are given by their lengths.
pub fn search_number(
    network: Network<'_>,
    points: &[u8],
    (q, k): (u32, u32),
    least: Least,
    (scratch, answers): (usize, usize),
) -> u32 {
    let of_points = points_number(network, points);
    if of_points != 0 {
        of_points
    } else if is_no_node(network, q) {
        7
    } else if is_no_k(k) {
        9
    } else if scratch < least(network, k) || answers < node_count(network) {
        10
    } else {
        0
    }
}

/// Households: the conditions 1 to 7, 9 and 10, "the m of 10 is this k". Scratch and answers are given
/// by their lengths.
pub fn households_number(
    network: Network<'_>,
    bytes: [&[u8]; 2],
    (q, k): (u32, u32),
    lengths: (usize, usize),
) -> u32 {
    let of_bytes = bytes_number(network, bytes);
    if of_bytes != 0 {
        of_bytes
    } else if is_no_node(network, q) {
        7
    } else if is_no_k(k) {
        9
    } else {
        short_number(network, k, lengths)
    }
}

/// Sheet: the conditions 1 to 6 and 10, "the m of 10 is [...] 1 for the sheet". Scratch and answers are
/// given by their lengths.
pub fn sheet_number(network: Network<'_>, bytes: [&[u8]; 2], lengths: (usize, usize)) -> u32 {
    match bytes_number(network, bytes) {
        0 => short_number(network, 1, lengths),
        number => number,
    }
}

/// Route: the conditions 1 to 7, 9, 10 and 14. Ask 7: "7 for each node of the list; 14, after 12, if the
/// list is empty or two nodes in sequence have no road." Scratch and answers are given by their lengths.
pub fn route_number(
    network: Network<'_>,
    points: &[u8],
    (route, k): (&[u32], u32),
    lengths: (usize, usize),
) -> u32 {
    let of_points = points_number(network, points);
    if of_points != 0 {
        of_points
    } else if route.iter().any(|&node| is_no_node(network, node)) {
        7
    } else if is_no_k(k) {
        9
    } else {
        match short_number(network, k, lengths) {
            0 if is_no_route(network, route) => 14,
            number => number,
        }
    }
}

/// 14: "the list is empty or two nodes in sequence have no road". Its nodes are nodes of the network.
fn is_no_route(network: Network<'_>, route: &[u32]) -> bool {
    let has_road = |a: usize, b: u32| {
        let arcs = network.starts[a] as usize..network.starts[a + 1] as usize;
        network.neighbours[arcs].contains(&b)
    };
    let mut pairs = route.windows(2);
    route.is_empty() || pairs.any(|pair| !has_road(pair[0] as usize, pair[1]))
}

/// The first condition met of 1 to 6, or 0. Ask 1: "6 covers each byte array, [...] in the order lent."
fn bytes_number(network: Network<'_>, [households, sites]: [&[u8]; 2]) -> u32 {
    match points_number(network, households) {
        0 => points_number(network, sites),
        number => number,
    }
}

/// 10: "scratch shorter than S, or an array for answers shorter than n", or 0.
fn short_number(network: Network<'_>, m: u32, (scratch, answers): (usize, usize)) -> u32 {
    if scratch < plain_scratch_len(network, m) || answers < node_count(network) {
        10
    } else {
        0
    }
}

/// The nearer row: the conditions 1 to 5, 7 and 8, "8 [covers] each table, in the order lent". One K;
/// the lengths are those of the own ids and distances and then of the rival's.
pub fn nearer_row_number(
    network: Network<'_>,
    junction: u32,
    places: u32,
    [own, rivals]: [[usize; 2]; 2],
) -> u32 {
    let of_network = plain_check(network);
    if of_network != 0 {
        of_network
    } else if is_no_node(network, junction) {
        7
    } else if is_no_table(network, (places, own)) || is_no_table(network, (places, rivals)) {
        8
    } else {
        0
    }
}

/// What the conditions are asked of a table: its K and the lengths of ids and distances.
pub type TableSizes = (u32, [usize; 2]);

/// Table check: the conditions 1 to 6 and 8.
pub fn table_check_number(network: Network<'_>, points: &[u8], table: TableSizes) -> u32 {
    match points_number(network, points) {
        0 if is_no_table(network, table) => 8,
        number => number,
    }
}

/// Build: the conditions 1 to 6, 8 and 10. Scratch is given by its length.
pub fn build_number(network: Network<'_>, points: &[u8], table: TableSizes, scratch: usize) -> u32 {
    match table_check_number(network, points, table) {
        0 if scratch < plain_scratch_len(network, table.0) => 10,
        number => number,
    }
}

/// Insert, which 11 refuses at 15 lockers, and remove, which it refuses at 0: the conditions 1 to 8,
/// 10 and 11. Scratch is given by its length.
pub fn change_number(
    network: Network<'_>,
    points: &[u8],
    (node, refused_at): (u32, u8),
    table: TableSizes,
    scratch: usize,
) -> u32 {
    let of_points = points_number(network, points);
    if of_points != 0 {
        of_points
    } else if is_no_node(network, node) {
        7
    } else if is_no_table(network, table) {
        8
    } else if scratch < plain_scratch_len(network, table.0) {
        10
    } else if points[node as usize] == refused_at {
        11
    } else {
        0
    }
}

/// Table query: the conditions 1 to 10. Scratch and answers are given by their lengths.
pub fn table_query_number(
    network: Network<'_>,
    points: &[u8],
    (q, k): (u32, u32),
    table: TableSizes,
    (scratch, answers): (usize, usize),
) -> u32 {
    let of_points = points_number(network, points);
    if of_points != 0 {
        of_points
    } else if is_no_node(network, q) {
        7
    } else if is_no_table(network, table) {
        8
    } else if k == 0 || k > table.0 - 1 {
        9
    } else if scratch < plain_scratch_len(network, k) || answers < node_count(network) {
        10
    } else {
        0
    }
}

/// The first condition met of 1 to 6, or 0. Ask 8: "6 allows bytes up to 15".
fn points_number(network: Network<'_>, points: &[u8]) -> u32 {
    let of_network = plain_check(network);
    if of_network != 0 {
        of_network
    } else if points.len() != node_count(network) || points.iter().any(|&byte| byte > 15) {
        6
    } else {
        0
    }
}

/// 7: "a node given is n or more".
fn is_no_node(network: Network<'_>, node: u32) -> bool {
    node as usize >= node_count(network)
}

/// 8: "K not 2 to 17, or a table array not n × K long".
fn is_no_table(network: Network<'_>, (places, lengths): TableSizes) -> bool {
    let is_wrong = |&length| length != node_count(network) * places as usize;
    !(2..=17).contains(&places) || lengths.iter().any(is_wrong)
}

/// 9: "k is 0 or above 16".
fn is_no_k(k: u32) -> bool {
    k == 0 || k > 16
}

/// n of a network that passes condition 1.
fn node_count(network: Network<'_>) -> usize {
    network.starts.len() - 1
}
