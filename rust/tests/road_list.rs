//! The reader of road lists and lists of points, line by line.

mod common;

use common::inputs::some_points;
use common::network::{N_NODES, N_POINTS, N_ROADS};
use common::random::Random;
use common::shapes::{belt, chain, random_network};
use overlap::road_list::{read_network, read_points, Fault};
use overlap::{Network, Points};

/// The line and the fault of a road list that is turned away.
fn bad_road(text: &str) -> (usize, Fault) {
    let bad = read_network(text).expect_err(text);
    (bad.line, bad.fault)
}

/// The same of a list of points on network N.
fn bad_point(text: &str) -> (usize, Fault) {
    let bad = read_points(text, &network_n()).expect_err(text);
    (bad.line, bad.fault)
}

fn network_n() -> Network {
    Network::from_roads(N_NODES, &N_ROADS).unwrap()
}

fn not_a_number(field: &str) -> Fault {
    Fault::NotANumber(field.to_string())
}

/// Lists that are taken.
mod taken {
    use super::*;

    #[test]
    fn the_data_of_network_n() {
        let network = read_network(include_str!("../examples/data/n.roads")).unwrap();
        assert_eq!(network, network_n());
        let points = read_points(include_str!("../examples/data/n.points"), &network);
        assert_eq!(points, Ok(Points::on(&network, N_POINTS).unwrap()));
    }

    #[test]
    fn blanks_comments_tabs_and_line_ends() {
        let text = "# roads\r\n\r\n  1\t0 4#the first\r\n#2 0 9\n \t \n1 2 007";
        let network = read_network(text).unwrap();
        assert!(network.roads().eq([(0, 1, 4), (1, 2, 7)]));
        let points = read_points("\n# none\n 2 \n0# station", &network).unwrap();
        assert!(points.iter().eq([0, 2]));
    }

    /// Some editors write one at the start of a file.
    #[test]
    fn a_byte_order_mark() {
        let network = read_network("\u{feff}0 1 4").unwrap();
        assert!(network.roads().eq([(0, 1, 4)]));
        let points = read_points("\u{feff}1\r\n", &network).unwrap();
        assert!(points.iter().eq([1]));
        let behind = not_a_number("\u{feff}1");
        assert_eq!(bad_road("\u{feff}0 1 4\n\u{feff}1 2 3"), (2, behind));
    }

    #[test]
    fn a_nodes_line_alone() {
        let network = read_network("nodes 3").unwrap();
        assert_eq!((network.nodes(), network.roads().count()), (3, 0));
        assert!(read_points("", &network).unwrap().is_empty());
    }

    #[test]
    fn without_a_nodes_line_up_to_the_largest_junction() {
        let network = read_network("7 2 1").unwrap();
        assert_eq!(network.nodes(), 8);
        assert_eq!(network.roads_of(5).unwrap().count(), 0);
        assert_eq!(read_network("0 65534 65535").unwrap().nodes(), 65_535);
    }

    #[test]
    fn a_junction_for_each_locker() {
        let points = |text: &str| read_points(text, &network_n()).unwrap();
        assert_eq!(points("4\n2\n4").marks(), [0, 0, 1, 0, 2, 0]);
        assert_eq!(points(&"5\n".repeat(15)).marks(), [0, 0, 0, 0, 0, 15]);
    }

    /// A list with a line for each locker, in any order, gives the points.
    #[test]
    fn random_points_come_back() {
        for seed in 0..2_000 {
            let mut random = Random::new(seed);
            let arrays = random_network(&mut random);
            let marks = some_points(&arrays, &mut random);
            let network = Network::new(arrays.starts, arrays.neighbours, arrays.weights).unwrap();
            let of_node =
                |(node, &lockers): (usize, &u8)| vec![format!("{node}\n"); lockers.into()];
            let mut lines: Vec<String> = marks.iter().enumerate().flat_map(of_node).collect();
            random.shuffle(&mut lines);
            let points = Points::from_marks(&network, marks).unwrap();
            assert_eq!(read_points(&lines.concat(), &network), Ok(points));
        }
    }

    /// A list of a network's roads, in any order and with either end first, gives the network.
    #[test]
    fn random_networks_come_back() {
        for seed in 0..2_000 {
            let mut random = Random::new(seed);
            let arrays = random_network(&mut random);
            let network = Network::new(arrays.starts, arrays.neighbours, arrays.weights).unwrap();
            let mut lines: Vec<String> = Vec::new();
            for (a, b, weight) in network.roads() {
                let (a, b) = random.pick(&[(a, b), (b, a)]);
                lines.push(format!("{a} {b} {weight}"));
            }
            random.shuffle(&mut lines);
            let text = format!("nodes {}\n{}", network.nodes(), lines.join("\n"));
            assert_eq!(read_network(&text), Ok(network), "{text}");
        }
    }

    #[test]
    fn the_most_nodes_and_the_most_roads() {
        let text = |roads: Vec<(u32, u32)>| -> String {
            let line = |(a, b)| format!("{a} {b} 9\n");
            roads.into_iter().map(line).collect()
        };
        let network = read_network(&text(chain(65_535))).unwrap();
        assert_eq!(network.nodes(), 65_535);
        let most = text(belt(1_000, 262_144));
        let network = read_network(&most).unwrap();
        assert_eq!(network.roads().count(), 262_144);
        let one_more = format!("{most}0 999999 9");
        assert_eq!(bad_road(&one_more), (262_145, Fault::LargeNode(999_999)));
        let one_more = format!("{most}0 1000 9");
        assert_eq!(bad_road(&one_more), (262_145, Fault::TooManyRoads));
    }
}

/// Lists that are turned away.
mod turned_away {
    use super::*;

    #[test]
    fn fields() {
        let road = |found| Fault::Fields {
            found,
            wanted: "`a b weight`, with spaces between",
        };
        assert_eq!(bad_road("0"), (1, road(1)));
        assert_eq!(bad_road("0 1 4\n0 1"), (2, road(2)));
        assert_eq!(bad_road("0 1 4 4"), (1, road(4)));
        assert_eq!(bad_road("0 1 # 4"), (1, road(2)));
        assert_eq!(bad_road("0,1,4"), (1, road(1)));
        let nodes = |found| Fault::Fields {
            found,
            wanted: "`nodes n`",
        };
        assert_eq!(bad_road("nodes"), (1, nodes(1)));
        assert_eq!(bad_road("nodes 3 4"), (1, nodes(3)));
        let point = Fault::Fields {
            found: 2,
            wanted: "one junction",
        };
        assert_eq!(bad_point("2\n3 4"), (2, point));
    }

    #[test]
    fn what_is_not_a_number() {
        for field in ["x", "-1", "+1", "1.5", "1,000", "4294967296", "0x1", "١"] {
            for line in [
                format!("{field} 1 4"),
                format!("0 {field} 4"),
                format!("0 1 {field}"),
                format!("nodes {field}"),
            ] {
                assert_eq!(bad_road(&line), (1, not_a_number(field)));
            }
            let text = format!("2\n\n{field}");
            assert_eq!(bad_point(&text), (3, not_a_number(field)));
        }
    }

    #[test]
    fn weights() {
        for weight in [0, 65_536, u32::MAX] {
            let text = format!("0 1 65535\n1 2 {weight}");
            assert_eq!(bad_road(&text), (2, Fault::Weight(weight)));
        }
    }

    #[test]
    fn a_road_to_its_own_junction() {
        assert_eq!(bad_road("# a loop\n3 3 4"), (2, Fault::OwnNode(3)));
    }

    #[test]
    fn a_road_twice() {
        let twice = Fault::RoadTwice {
            a: 0,
            b: 2,
            first: 2,
        };
        assert_eq!(bad_road("0 1 4\n2 0 4\n2 0 4"), (3, twice.clone()));
        assert_eq!(bad_road("0 1 4\n2 0 4\n\n0 2 5"), (4, twice));
    }

    #[test]
    fn too_many_junctions() {
        for node in [65_535, u32::MAX] {
            assert_eq!(
                bad_road(&format!("0 {node} 4")),
                (1, Fault::LargeNode(node))
            );
            assert_eq!(
                bad_road(&format!("{node} 0 4")),
                (1, Fault::LargeNode(node))
            );
        }
        for nodes in [0, 65_536, u32::MAX] {
            let text = format!("nodes {nodes}");
            assert_eq!(bad_road(&text), (1, Fault::NodeCount(nodes)));
        }
    }

    #[test]
    fn a_junction_that_is_none() {
        let none = |node, nodes| Fault::NoNode { node, nodes };
        assert_eq!(bad_road("nodes 2\n0 1 4\n2 1 4"), (3, none(2, 2)));
        assert_eq!(bad_point("2\n6"), (2, none(6, 6)));
        assert_eq!(bad_point("4294967295"), (1, none(u32::MAX, 6)));
    }

    #[test]
    fn a_nodes_line_that_comes_late() {
        assert_eq!(bad_road("0 1 4\nnodes 2"), (2, Fault::LateNodes));
        assert_eq!(bad_road("nodes 2\nnodes 2"), (2, Fault::LateNodes));
    }

    #[test]
    fn a_16th_locker() {
        let fifteen = "4\n".repeat(15);
        for (text, line) in [
            (format!("{fifteen}4"), 16),
            (format!("2\n\n{fifteen}# full\n5\n4\n6"), 20),
        ] {
            assert_eq!(bad_point(&text), (line, Fault::FullNode(4)));
        }
    }

    #[test]
    fn a_list_without_junctions() {
        for (text, line) in [("", 1), ("# roads", 1), ("\n\n\n", 3)] {
            assert_eq!(bad_road(text), (line, Fault::NoJunctions));
        }
    }

    /// Texts of any few words: none makes the reader stop in any other way.
    #[test]
    fn any_text_has_an_answer() {
        const WORDS: [&str; 12] = [
            "0", "1", "2", "3", "65535", "65536", "nodes", "#", "\n", "\n", "x", "\t",
        ];
        let (mut taken, mut turned_away) = (0, 0);
        for seed in 0..20_000 {
            let mut random = Random::new(seed);
            let words = (0..random.between(0, 14)).map(|_| random.pick(&WORDS));
            let text = words.collect::<Vec<_>>().join(" ");
            match read_network(&text) {
                Ok(_) => taken += 1,
                Err(bad) => {
                    turned_away += 1;
                    assert!(bad.line >= 1 && bad.line <= text.lines().count().max(1));
                }
            }
            let _ = read_points(&text, &network_n());
        }
        assert!(taken >= 200 && turned_away >= 200, "{taken}, {turned_away}");
    }
}

/// The messages.
mod messages {
    use super::*;

    #[test]
    fn name_the_line_and_say_what_is_wrong() {
        let road = |text: &str| read_network(text).unwrap_err().to_string();
        let point = |text: &str| read_points(text, &network_n()).unwrap_err().to_string();
        for (message, expected) in [
            (
                road("0"),
                "line 1: 1 field where a line is `a b weight`, with spaces between",
            ),
            (road("nodes"), "line 1: 1 field where a line is `nodes n`"),
            (point("1 2"), "line 1: 2 fields where a line is one junction"),
            (
                road("0 1 x"),
                "line 1: `x` is not a whole number from 0 to 4,294,967,295",
            ),
            (
                road("0 1 \u{1b}[31m"),
                "line 1: `\\u{1b}[31m` is not a whole number from 0 to 4,294,967,295",
            ),
            (
                road(&format!("0 1 {}", "9".repeat(41))),
                "line 1: `9999999999999999999999999999999999999999..` is not a whole number from 0 to \
                 4,294,967,295",
            ),
            (road("0 1 0"), "line 1: the weight 0 is not 1 to 65,535"),
            (road("4 4 1"), "line 1: the road leads from junction 4 to itself"),
            (
                road("0 1 2\n1 0 2"),
                "line 2: the road 0-1 stands on line 1 already",
            ),
            (
                road("0 65535 2"),
                "line 1: junction 65535 is above 65,534, and a network has at most 65,535 junctions",
            ),
            (road("nodes 0"), "line 1: 0 junctions are not 1 to 65,535"),
            (
                road("0 1 2\nnodes 2"),
                "line 2: `nodes` stands once, before the first road",
            ),
            (point("6"), "line 1: there is no junction 6: they are 0 to 5"),
            (
                point(&"5\n".repeat(17)),
                "line 16: junction 5 has 15 already, and a junction has at most 15",
            ),
            (
                road(""),
                "line 1: the list ends without a road or a `nodes` line",
            ),
        ] {
            assert_eq!(message, expected);
        }
        let most = Fault::TooManyRoads.to_string();
        assert_eq!(most, "a network has at most 262,144 roads");
    }
}
