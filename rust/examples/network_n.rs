//! Network N of document 01 through every call. It prints what `c/network_n.c` prints, and
//! `tests/network_n.rs` compares the output with `c/network_n.expected`, which is worked out from
//! document 01 and Asks 1, 4, 6, 7, 8 and 10 of document 02.
//!
//! Run it with `cargo run --release --example network_n`.

use overlap::{calls, Engine, Nearest, Network, Points, Refusal, Table, NONE};
use std::error::Error;
use std::io::{stdout, Write};

type Done = Result<(), Box<dyn Error>>;

const PICTURE: &str = "\
Network N of document 01. A star marks a point.

       4       3
   0 ----- 1 ----- 2*
   |               |
 5 |               | 7
   |               |
   3 ------------- 4*     5*
           3
";

/// Network N, and with the road 2-4 of another weight for P7.
fn network_with(weight_of_2_4: u32) -> Result<Network, Refusal> {
    let roads = [
        (0, 1, 4),
        (0, 3, 5),
        (1, 2, 3),
        (2, 4, weight_of_2_4),
        (3, 4, 3),
    ];
    Network::from_roads(6, &roads)
}

/// Words as a person reads them.
fn words(words: &[u32]) -> String {
    let word = |&word: &u32| match word {
        NONE => "NONE".to_string(),
        _ => word.to_string(),
    };
    words.iter().map(word).collect::<Vec<_>>().join(", ")
}

/// Points with their distances.
fn near(entries: impl IntoIterator<Item = (u32, u32)>) -> String {
    let entry = |(id, distance)| format!("({})", words(&[id, distance]));
    let entries: Vec<_> = entries.into_iter().map(entry).collect();
    entries.join(", ")
}

fn print_distances(engine: &mut Engine, out: &mut impl Write) -> Done {
    writeln!(out, "\nDistances")?;
    for node in 0..6 {
        let distances = engine.distances(node)?;
        writeln!(out, "from {node}: {}", words(distances.words()))?;
    }
    Ok(())
}

fn print_nearest(engine: &mut Engine, points: &Points, out: &mut impl Write) -> Done {
    writeln!(out, "\nNearest, k = 2")?;
    for node in 0..6 {
        let nearest = engine.nearest(points, node, NONE, 2)?;
        writeln!(out, "of {node}: {}", near(nearest))?;
    }
    let below_8 = engine.nearest(points, 0, 8, 2)?;
    writeln!(out, "of 0, below 8: {}", near(below_8))?;
    Ok(())
}

fn print_verdicts(engine: &mut Engine, points: &Points, out: &mut impl Write) -> Done {
    writeln!(out, "\nVerify: is the point on the list of the site?")?;
    // The last one is on the site itself.
    for (p, q) in [(2, 0), (4, 0), (5, 0), (2, 2)] {
        let mut verdict = |k| {
            let yes = engine.verify(points, p, q, k)?;
            Ok::<_, Refusal>(if yes { "yes" } else { "no" })
        };
        let (one, two) = (verdict(1)?, verdict(2)?);
        writeln!(out, "point {p}, site {q}: k = 1 {one}, k = 2 {two}")?;
    }
    Ok(())
}

/// Prints the list of a site by all four searches, and eager's visits.
fn print_case(
    name: &str,
    network: &Network,
    points: &Points,
    (q, k): (u32, u32),
    out: &mut impl Write,
) -> Done {
    let mut engine = Engine::new(network);
    let eager = engine.eager(points, q, k, 65_535)?;
    let (by_eager, expanded, visits) = (words(eager.points), eager.expanded, words(eager.visits));
    let lazy = words(engine.lazy(points, q, k)?);
    let lazy_ep = words(engine.lazy_ep(points, q, k)?);
    let mut table = Table::build(network, points.clone(), 3)?;
    let table = words(table.query(q, k)?);
    write!(
        out,
        "{name}, q {q}, k {k}: eager {{{by_eager}}} expanded {expanded} ({visits}), "
    )?;
    writeln!(
        out,
        "lazy {{{lazy}}}, lazy-EP {{{lazy_ep}}}, table {{{table}}}"
    )?;
    Ok(())
}

fn print_cases(engine: &mut Engine, points: &Points, out: &mut impl Write) -> Done {
    writeln!(out, "\nWhat a site receives")?;
    let n = engine.network().clone();
    print_case("P1", &n, points, (0, 1), out)?;
    print_case("P2", &n, points, (0, 2), out)?;
    print_case("P3", &n, points, (1, 1), out)?;
    print_case("P4", &n, points, (2, 1), out)?;
    print_case("P5", &n, points, (5, 1), out)?;
    print_case("P6, no points", &n, &Points::none(&n), (0, 1), out)?;
    print_case("P7, road 2-4 of 6", &network_with(6)?, points, (0, 1), out)?;
    // Nodes 0 and 4 are equally far from 2.
    print_case("a tie, no points", &n, &Points::none(&n), (2, 1), out)?;
    // The short query has a k of its own, 2: P1 as a short query gives 2, 4.
    for q in [0, 3, 4] {
        let listed = engine.short_query(points, q)?;
        let (list, expanded) = (words(listed.points), listed.expanded);
        writeln!(out, "short query, q {q}: {{{list}}} expanded {expanded}")?;
    }
    Ok(())
}

/// A row with its empty places.
fn row_text(row: Nearest<'_>, places: u32) -> String {
    let empty = std::iter::repeat((NONE, NONE));
    near(row.iter().chain(empty).take(places as usize))
}

/// Prints the rows of these nodes, and whether the check says yes.
fn print_rows(table: &Table, nodes: std::ops::Range<u32>, out: &mut impl Write) -> Done {
    for node in nodes {
        let row = row_text(table.row(node)?, table.places());
        writeln!(out, "row {node}: {row}")?;
    }
    writeln!(out, "check: {}", if table.check() { "yes" } else { "no" })?;
    Ok(())
}

fn print_table(network: &Network, points: &Points, out: &mut impl Write) -> Done {
    writeln!(out, "\nThe table, K = 2")?;
    let mut table = Table::build(network, points.clone(), 2)?;
    print_rows(&table, 0..6, out)?;
    writeln!(out, "insert 0: {} rows changed", table.insert(0)?)?;
    print_rows(&table, 0..6, out)?;
    writeln!(out, "remove 0: {} rows changed", table.remove(0)?)?;
    print_rows(&table, 0..1, out)?;
    // A second locker on node 2.
    writeln!(out, "insert 2: {} rows changed", table.insert(2)?)?;
    print_rows(&table, 0..4, out)
}

/// Sites against a rival's: the households that each site wins, and the nearer row of two tables. The
/// sites are the points of N.
fn print_rivals(engine: &mut Engine, sites: &Points, out: &mut impl Write) -> Done {
    let network = engine.network().clone();
    let households = Points::from_marks(&network, vec![1, 2, 0, 1, 0, 3])?;
    writeln!(out, "\nHouseholds 1, 2, 0, 1, 0, 3; sites on 2, 4 and 5")?;
    for (q, k) in [(0, 1), (0, 2), (2, 1), (4, 1), (5, 1)] {
        let list = words(engine.households(&households, sites, q, k)?);
        writeln!(out, "site {q}, k {k}: {{{list}}}")?;
    }
    let sheet = words(engine.sheet(&households, sites)?);
    writeln!(out, "sheet: {sheet}")?;

    writeln!(
        out,
        "\nThe nearer row, K = 2, the rival's points on 0, 2 and 3"
    )?;
    let own = Table::build(&network, sites.clone(), 2)?;
    let rival = Table::build(&network, Points::on(&network, [0, 2, 3])?, 2)?;
    for junction in 0..6 {
        let row = own.nearer_row(&rival, junction)?;
        let whose = if row.is_rivals { "the rival's" } else { "own" };
        writeln!(out, "of {junction}: {whose} {}", words(row.distances))?;
    }
    Ok(())
}

/// The lockers that any stop of a route touches.
fn print_routes(engine: &mut Engine, points: &Points, out: &mut impl Write) -> Done {
    writeln!(out, "\nWhat a route touches")?;
    let asked: [(&[u32], u32); 5] = [
        (&[3, 0, 1], 1),
        // One node: the list is that of P2.
        (&[0], 2),
        // The points of 2, and then of 4 as well, stand on the route.
        (&[1, 2], 1),
        (&[1, 2, 4], 1),
        // There and back.
        (&[0, 3, 0, 1], 1),
    ];
    for (route, k) in asked {
        let list = words(engine.route(points, route, k)?);
        writeln!(out, "route {}, k {k}: {{{list}}}", words(route))?;
    }
    Ok(())
}

/// The number of a call: 0, or that of its refusal.
fn number<Answer>(answer: Result<Answer, Refusal>) -> u32 {
    answer.err().map_or(0, Refusal::number)
}

/// The examples of numbers 1 to 5, on networks of two nodes.
fn print_network_numbers(out: &mut impl Write) -> Done {
    let network = |starts: &[u32], neighbours: &[u32], weights: &[u32]| {
        let arrays = [starts, neighbours, weights].map(<[u32]>::to_vec);
        let [starts, neighbours, weights] = arrays;
        number(Network::new(starts, neighbours, weights))
    };
    let starts = &[0, 1, 2];
    for (number, example) in [
        (number(network_with(7)), "N"),
        (network(&[0], &[], &[]), "starts of 1 entry"),
        (network(&[0, 2, 1], &[1, 0], &[4, 4]), "starts 0, 2, 1"),
        (network(starts, &[0, 0], &[4, 4]), "n = 2, node 0 to 0"),
        (network(starts, &[1, 0], &[65_536; 2]), "weight 65,536"),
        (
            network(starts, &[1, 0], &[4, 5]),
            "0 to 1 of 4, 1 to 0 of 5",
        ),
    ] {
        writeln!(out, "{number}: {example}")?;
    }
    Ok(())
}

/// The examples of numbers 6 to 12, on network N, 6 and 11 by Ask 8 of document 02. The engine owns
/// enough answer places, so that of 10 is a thin call.
fn print_other_numbers(engine: &mut Engine, points: &Points, out: &mut impl Write) -> Done {
    let network = engine.network().clone();
    let mut table = Table::build(&network, points.clone(), 2)?;
    let (ids, distances) = (vec![0; 11], vec![0; 12]);
    let mut scratch = vec![0; network.scratch_len(1)];
    let short = calls::distances(network.lend(), 0, &mut scratch, &mut [0; 5]);
    let byte_16 = Points::from_marks(&network, vec![0, 0, 16, 0, 1, 1]);
    let eleven_ids = Table::from_arrays(&network, points.clone(), 2, ids, distances);
    for (number, example) in [
        (number(byte_16), "N, byte 16"),
        (number(engine.distances(6)), "N, node 6"),
        (number(eleven_ids), "N, K = 2, 11 ids"),
        (number(table.query(0, 2)), "K = 2, k = 2"),
        (short, "N, 5 answer places"),
        (number(table.remove(0)), "N, remove 0"),
        (
            number(engine.eager(points, 0, 2, 3)),
            "N, q = 0, k = 2, limit 3",
        ),
    ] {
        writeln!(out, "{number}: {example}")?;
    }
    Ok(())
}

/// Ask 1: "6 covers each byte array, 8 each table, in the order lent." The types hold such arrays only,
/// so these are thin calls.
fn print_numbers_of_rivals(engine: &mut Engine, points: &Points, out: &mut impl Write) -> Done {
    let network = engine.network().clone();
    let (lent, sites) = (network.lend(), points.marks());
    let (mut scratch, mut answers) = (vec![0; network.scratch_len(1)], [0; 6]);
    let (s, a) = (&mut scratch[..], &mut answers[..]);
    let byte_16 = [0, 0, 16, 0, 0, 0];
    let by_household = calls::households(lent, &byte_16, sites, 0, 1, s, a).number;
    let by_site = calls::sheet(lent, &[1; 6], &byte_16, s, a);
    let own = Table::build(&network, points.clone(), 2)?;
    let table = own.lend();
    let short = calls::TwoTables {
        places: 2,
        own_ids: table.ids,
        own_distances: table.distances,
        rival_ids: &table.ids[..11],
        rival_distances: table.distances,
    };
    let by_rival = calls::nearer_row_number(lent, 0, short);
    for (number, example) in [
        (by_household, "N, household byte 16"),
        (by_site, "N, site byte 16"),
        (by_rival, "N, K = 2, 11 ids of the rival's"),
    ] {
        writeln!(out, "{number}: {example}")?;
    }
    Ok(())
}

/// Ask 7: "7 for each node of the list; 14, after 12, if the list is empty or two nodes in sequence have
/// no road."
fn print_numbers_of_routes(engine: &mut Engine, points: &Points, out: &mut impl Write) -> Done {
    let examples: [(&[u32], &str); 4] = [
        (&[0, 1, 6], "N, route 0, 1, 6"),
        (&[1, 0, 2], "N, route 1, 0, 2"),
        (&[0, 0], "N, route 0, 0"),
        (&[], "N, a route of no node"),
    ];
    for (route, example) in examples {
        let number = number(engine.route(points, route, 1));
        writeln!(out, "{number}: {example}")?;
    }
    Ok(())
}

/// Prints all.
pub fn print(out: &mut impl Write) -> Done {
    let network = network_with(7)?;
    let points = Points::on(&network, [2, 4, 5])?;
    let mut engine = Engine::new(&network);
    write!(out, "{PICTURE}")?;
    print_distances(&mut engine, out)?;
    print_nearest(&mut engine, &points, out)?;
    print_verdicts(&mut engine, &points, out)?;
    print_cases(&mut engine, &points, out)?;
    print_table(&network, &points, out)?;
    print_rivals(&mut engine, &points, out)?;
    print_routes(&mut engine, &points, out)?;
    writeln!(out, "\nNumbers of refusal, by the example of each")?;
    print_network_numbers(out)?;
    print_other_numbers(&mut engine, &points, out)?;
    print_numbers_of_rivals(&mut engine, &points, out)?;
    print_numbers_of_routes(&mut engine, &points, out)
}

fn main() -> Done {
    print(&mut stdout())
}
