//! The example `roads`: its output for the sample data, its messages and its exit status.

mod common;
#[path = "../examples/roads/report.rs"]
mod report;

use common::all_pairs::AllPairs;
use common::table::PlainTable;
use overlap::road_list::{read_network, read_points};
use overlap::{Points, NONE};
use std::ffi::OsString;
use std::fs;
use std::path::PathBuf;

/// The exit status, what was printed and what was complained of.
fn run(arguments: &[&str]) -> (u8, String, String) {
    let arguments: Vec<OsString> = arguments.iter().map(OsString::from).collect();
    let (mut out, mut err) = (Vec::new(), Vec::new());
    let status = report::run(&arguments, &mut out, &mut err);
    let text = |bytes| String::from_utf8(bytes).unwrap();
    (status, text(out), text(err))
}

fn data(name: &str) -> String {
    format!("{}/examples/data/{name}", env!("CARGO_MANIFEST_DIR"))
}

/// A file of this text, in the directory that cargo keeps for tests.
fn file(name: &str, bytes: &[u8]) -> String {
    let path = PathBuf::from(env!("CARGO_TARGET_TMPDIR")).join(name);
    fs::write(&path, bytes).unwrap();
    path.to_str().unwrap().to_string()
}

/// Runs the program on sample data.
fn run_sample(name: &str, options: &[&str]) -> (u8, String, String) {
    let (roads, points) = (
        data(&format!("{name}.roads")),
        data(&format!("{name}.points")),
    );
    run(&[&[&roads[..], &points[..]], options].concat())
}

/// The output of the sample data.
mod samples {
    use super::*;

    #[test]
    fn network_n() {
        let expected = include_str!("../examples/data/n.expected").to_string();
        let output = run_sample("n", &[]);
        assert_eq!(output, (0, expected, String::new()));
    }

    #[test]
    fn the_town_for_k_2() {
        let expected = include_str!("../examples/data/town.expected").to_string();
        let output = run_sample("town", &["--k", "2", "--K", "4"]);
        assert_eq!(output, (0, expected, String::new()));
    }

    /// The visits of network N for k = 1, by hand, come between the lists and the table.
    #[test]
    fn network_n_with_visits() {
        let visits = "\nsite   visits for k = 1\n\
            0      0\n1      1, 0\n2      2, 1, 0\n3      3, 0\n4      4, 3\n5      5\n";
        let without = include_str!("../examples/data/n.expected");
        let expected = without.replace("\ntable", &format!("{visits}\ntable"));
        let output = run_sample("n", &["--visits"]);
        assert_eq!(output, (0, expected, String::new()));
    }

    /// The routes of network N for k = 1, by hand, come behind the visits and before the table.
    #[test]
    fn network_n_with_routes() {
        let routes = "\nroute        lockers touched for k = 1\n\
            3, 0, 1      2, 4\n0            2\n1, 2, 4      none\n0, 3, 0, 1   2, 4\n";
        let without = include_str!("../examples/data/n.expected");
        let expected = without.replace("\ntable", &format!("{routes}\ntable"));
        let options = ["3,0,1", "0", "1, 2, 4", "0,3,0,1"].map(|route| ["--route", route]);
        let output = run_sample("n", &options.concat());
        assert_eq!(output, (0, expected.clone(), String::new()));
        let with_visits = run_sample("n", &[&["--visits"], &options.concat()[..]].concat());
        assert!(with_visits
            .1
            .ends_with(&expected[expected.find(routes).unwrap()..]));
    }

    /// The options that name the households and sites of sample data.
    fn for_sheet(name: &str) -> [String; 4] {
        let file = |kind: &str| data(&format!("{name}.{kind}"));
        let (households, sites) = (file("households"), file("sites"));
        ["--households".into(), households, "--sites".into(), sites]
    }

    /// The households that each site wins come behind the table.
    #[test]
    fn the_town_with_households_for_k_2() {
        let for_the_sheet = for_sheet("town");
        let for_the_sheet = for_the_sheet.each_ref().map(String::as_str);
        let output = run_sample(
            "town",
            &[&["--k", "2", "--K", "4"], &for_the_sheet[..]].concat(),
        );
        let won = include_str!("../examples/data/town.households.expected");
        let expected = include_str!("../examples/data/town.expected").to_string() + won;
        assert_eq!(output, (0, expected, String::new()));
    }

    fn shown(nodes: &[u32]) -> String {
        let texts: Vec<String> = nodes.iter().map(u32::to_string).collect();
        match texts.is_empty() {
            true => "none".to_string(),
            false => texts.join(", "),
        }
    }

    /// The line of a site.
    fn site_line(pairs: &AllPairs, points: &Points, q: u32, k: u32) -> String {
        let list = shown(&pairs.plain_listed(points.marks(), q, k));
        let expanded = pairs.plain_expanded(points.marks(), q, k);
        format!("{q:<6} {expanded:<10} {list}\n")
    }

    /// The line of a site's visits.
    fn visits_line(pairs: &AllPairs, points: &Points, q: u32, k: u32) -> String {
        let visits = shown(&pairs.plain_visits(points.marks(), q, k));
        format!("{q:<6} {visits}\n")
    }

    /// The line of a site's households.
    fn sheet_line(pairs: &AllPairs, for_the_sheet: [&[u8]; 2], q: u32, k: u32) -> String {
        let [households, sites] = for_the_sheet;
        let list = shown(&pairs.plain_households(households, sites, q, k));
        let entry = pairs.plain_sheet(households, sites)[q as usize];
        format!("{q:<6} {entry:<7} {list}\n")
    }

    /// The lines of the table.
    fn table_lines(pairs: &AllPairs, points: &Points, places: u32) -> String {
        let table = PlainTable::of(pairs, points.marks(), places);
        let rows = table.ids.chunks(places as usize);
        let full = rows.clone().filter(|row| !row.contains(&NONE)).count();
        let empty = rows.clone().filter(|row| row[0] == NONE).count();
        let farthest = table.distances.iter().filter(|&&far| far != NONE).max();
        let (rows, farthest) = (rows.len(), farthest.unwrap());
        let rows = format!("rows        {rows}: {full} full, {empty} empty\n");
        format!("\ntable with K = {places}\n{rows}farthest    {farthest}\ncheck       yes\n")
    }

    type Line = fn(&AllPairs, &Points, u32, u32) -> String;

    /// All sites and all k, by the plain all-pairs calculation.
    #[test]
    fn all_lines_are_those_of_the_plain_calculation() {
        for name in ["n", "town"] {
            let read = |kind: &str| fs::read_to_string(data(&format!("{name}.{kind}"))).unwrap();
            let network = read_network(&read("roads")).unwrap();
            let points = read_points(&read("points"), &network).unwrap();
            let pairs = AllPairs::of(network.lend());
            let lines = |k, line: Line| -> String {
                let sites = 0..network.nodes();
                sites.map(|q| line(&pairs, &points, q, k)).collect()
            };
            for k in 1..=16 {
                let heading = format!("\nsite   expanded   list for k = {k}\n");
                let lists = heading + &lines(k, site_line);
                let heading = format!("\nsite   visits for k = {k}\n");
                let visits = heading + &lines(k, visits_line);
                let table = table_lines(&pairs, &points, k + 1);
                let assert_end = |options: &[&str], expected: String| {
                    let (status, out, _) = run_sample(name, options);
                    assert_eq!(status, 0);
                    assert!(out.ends_with(&expected), "{name}, k {k}: {out}");
                };
                let text = k.to_string();
                assert_end(&["--k", &text], format!("{lists}{table}"));
                let with_visits = format!("{lists}{visits}{table}");
                assert_end(&["--visits", "--k", &text], with_visits);
            }
        }
    }

    /// All sites and all k of the town, by the plain all-pairs calculation.
    #[test]
    fn all_lines_of_households_are_those_of_the_plain_calculation() {
        let read = |kind: &str| fs::read_to_string(data(&format!("town.{kind}"))).unwrap();
        let network = read_network(&read("roads")).unwrap();
        let points = |kind| read_points(&read(kind), &network).unwrap();
        let (households, sites) = (points("households"), points("sites"));
        let pairs = AllPairs::of(network.lend());
        let for_the_sheet = for_sheet("town");
        let for_the_sheet = for_the_sheet.each_ref().map(String::as_str);
        for k in 1..=16 {
            let bytes = [households.marks(), sites.marks()];
            let lines = (0..network.nodes()).map(|q| sheet_line(&pairs, bytes, q, k));
            let heading = format!("\nsite   sheet   households for k = {k}\n");
            let expected: String = std::iter::once(heading).chain(lines).collect();
            let text = k.to_string();
            let options = [&["--visits", "--k", &text], &for_the_sheet[..]].concat();
            let (status, out, _) = run_sample("town", &options);
            assert_eq!(status, 0);
            assert!(out.ends_with(&expected), "k {k}: {out}");
        }
    }

    /// A walk to and fro through the town, of each length and for all k, by the plain all-pairs
    /// calculation.
    #[test]
    fn all_lines_of_routes_are_those_of_the_plain_calculation() {
        let read = |kind: &str| fs::read_to_string(data(&format!("town.{kind}"))).unwrap();
        let network = read_network(&read("roads")).unwrap();
        let points = read_points(&read("points"), &network).unwrap();
        let pairs = AllPairs::of(network.lend());
        let walk = [0, 8, 9, 2, 9, 10, 4, 5, 4, 3, 2, 1, 8, 0, 7, 6, 9];
        let routes: Vec<&[u32]> = (1..=walk.len()).map(|length| &walk[..length]).collect();
        let width = shown(&walk).len();
        for k in 1..=16 {
            let heading = format!("\n{:<width$}   lockers touched for k = {k}\n", "route");
            let line = |route: &&[u32]| {
                let list = shown(&pairs.plain_touched(points.marks(), route, k));
                format!("{:<width$}   {list}\n", shown(route))
            };
            let lines: String = routes.iter().map(line).collect();
            let texts = routes.iter().map(|route| shown(route).replace(' ', ""));
            let options = texts.flat_map(|text| ["--route".to_string(), text]);
            let options: Vec<String> = options.chain(["--k".into(), k.to_string()]).collect();
            let options: Vec<&str> = options.iter().map(String::as_str).collect();
            let (status, out, _) = run_sample("town", &options);
            assert_eq!(status, 0);
            assert!(
                out.contains(&format!("{heading}{lines}\ntable")),
                "k {k}: {out}"
            );
        }
    }

    #[test]
    fn chosen_sites_only() {
        let (status, out, _) = run_sample("n", &["--site", "5", "--site", "0"]);
        assert_eq!(status, 0);
        let lists = "list for k = 1\n5      1          none\n0      1          2\n\ntable";
        assert!(out.contains(lists), "{out}");
        let (status, out, _) = run_sample("n", &["--site", "4", "--visits", "--site", "2"]);
        assert_eq!(status, 0);
        assert!(out.contains("visits for k = 1\n4      4, 3\n2      2, 1, 0\n\ntable"));
        // The points of N as sites, and a household on each of them.
        let points = data("n.points");
        let for_the_sheet = ["--site", "2", "--households", &points, "--sites", &points];
        let (status, out, _) = run_sample("n", &for_the_sheet);
        assert_eq!(status, 0);
        let won = "households  2, 4, 5\nsites       2, 4, 5\n\n\
            site   sheet   households for k = 1\n2      1       2\n";
        assert!(out.ends_with(won), "{out}");
    }
}

/// Bad input.
mod messages {
    use super::*;

    /// Sees that nothing but the message comes out.
    fn assert_message(arguments: &[&str], status: u8, message: &str) {
        let output = run(arguments);
        let expected = (status, String::new(), format!("{message}\n"));
        assert_eq!(output, expected);
    }

    #[test]
    fn name_the_file_and_the_line() {
        let roads = file("bad.roads", b"0 1 4\n1 2 0\n");
        let message = format!("{roads}, line 2: the weight 0 is not 1 to 65,535");
        assert_message(&[&roads, "none"], 1, &message);
        let points = file("bad.points", b"2\n\n6\n");
        let message = format!("{points}, line 3: there is no junction 6: they are 0 to 5");
        assert_message(&[&data("n.roads"), &points], 1, &message);
        let full = file("full.points", &b"2\n".repeat(16));
        let message =
            format!("{full}, line 16: junction 2 has 15 already, and a junction has at most 15");
        assert_message(&[&data("n.roads"), &full], 1, &message);
        let (roads, good) = (data("n.roads"), data("n.points"));
        for [households, sites] in [[&full, &good], [&good, &full]] {
            let for_the_sheet = ["--households", households, "--sites", sites];
            let arguments = [&[&roads[..], &good[..]], &for_the_sheet[..]].concat();
            assert_message(&arguments, 1, &message);
        }
        let binary = file("binary.roads", b"# \xff\n0 1 \xff\n");
        let message = "line 2: `\u{fffd}` is not a whole number from 0 to 4,294,967,295";
        assert_message(&[&binary, "none"], 1, &format!("{binary}, {message}"));
    }

    #[test]
    fn name_the_file_that_is_missing() {
        let roads = data("n.roads");
        for files in [["no such file", "none"], [&roads, "no such file"]] {
            let (status, out, err) = run(&files);
            assert_eq!((status, out), (1, String::new()));
            assert!(err.starts_with("no such file: "), "{err}");
        }
    }

    /// A file name that is no text.
    #[cfg(unix)]
    #[test]
    fn name_a_file_of_any_name() {
        use std::os::unix::ffi::OsStringExt;
        let arguments = [b"\xff".to_vec(), b"none".to_vec()].map(OsString::from_vec);
        let mut err = Vec::new();
        assert_eq!(report::run(&arguments, &mut Vec::new(), &mut err), 1);
        assert!(err.starts_with("\u{fffd}: ".as_bytes()));
    }

    #[test]
    fn name_what_the_engine_refuses() {
        let refused = |options: &[&str]| {
            let (status, _, err) = run_sample("n", options);
            assert_eq!(status, 1);
            err
        };
        let node = "refused by number 7: a node given is n or more\n";
        assert_eq!(refused(&["--site", "6"]), format!("site 6: {node}"));
        for (k, places) in [("0", "2"), ("2", "2"), ("17", "17"), ("4294967295", "17")] {
            let expected = format!("k = {k}, K = {places}: refused by number 9: ");
            assert!(refused(&["--k", k, "--K", places]).starts_with(&expected));
        }
        assert!(refused(&["--k", "17"]).starts_with("k = 17, K = 17: refused by number 9: "));
        for places in ["0", "1", "18", "4294967295"] {
            let expected = format!("K = {places}: refused by number 8: ");
            assert!(refused(&["--K", places]).starts_with(&expected));
        }
    }

    /// A route is named with the junction, or the two, that it is refused for.
    #[test]
    fn name_a_route_that_is_refused() {
        let refused = |route: &str| {
            let (status, _, err) = run_sample("n", &["--route", "0,1", "--route", route]);
            assert_eq!(status, 1);
            err
        };
        let node = "refused by number 7: a node given is n or more\n";
        let road = "refused by number 14: \
                    route: the list is empty or two nodes in sequence have no road\n";
        for (route, about, refusal) in [
            ("0,6", "there is no junction 6: they are 0 to 5", node),
            (
                "4294967295",
                "there is no junction 4294967295: they are 0 to 5",
                node,
            ),
            // 7 is tried before 14.
            ("0,2,7,6", "there is no junction 7: they are 0 to 5", node),
            ("1,0,2,5", "no road joins junctions 0 and 2", road),
            ("5,0", "no road joins junctions 5 and 0", road),
            ("0,1,1,2", "no road leads from junction 1 to itself", road),
        ] {
            let shown = route.replace(',', ", ");
            assert_eq!(refused(route), format!("route {shown}: {about}; {refusal}"));
        }
    }

    #[test]
    fn explain_the_command_line() {
        let usage = "usage: roads ROADS POINTS [--site q].. [--k k] [--K K] [--visits] \
                     [--route a,b,..].. [--households FILE --sites FILE]";
        let assert_usage = |arguments: &[&str], message: &str| {
            assert_message(arguments, 2, &format!("{message}\n{usage}"));
        };
        assert_usage(&[], "two files are needed");
        assert_usage(&["a", "b", "c"], "two files are needed");
        assert_usage(&["a", "b", "--k"], "--k needs a number");
        for value in ["x", "-1", "1.5", "4294967296"] {
            let message = format!("--site needs a whole number of 32 bits, not `{value}`");
            assert_usage(&["a", "b", "--site", value], &message);
        }
        assert_usage(&["a", "b", "--route"], "--route needs junctions");
        for (value, field) in [
            ("", ""),
            ("0,1,", ""),
            ("0,x,1", "x"),
            ("0 1", "0 1"),
            ("0,-1", "-1"),
            ("4294967296", "4294967296"),
        ] {
            let is_none = format!("`{field}` in `{value}` is none");
            let message = format!("--route needs junctions, as in 8,9,10, and {is_none}");
            assert_usage(&["a", "b", "--route", value], &message);
        }
        assert_usage(&["a", "b", "--routes", "0"], "no option --routes");
        assert_usage(&["a", "b", "-k", "2"], "no option -k");
        for option in ["--households", "--sites"] {
            assert_usage(&["a", "b", option], &format!("{option} needs a file"));
            let alone = "--households and --sites come together";
            assert_usage(&["a", "b", option, "c"], alone);
        }
        assert_usage(&["a", "b", "--household", "c"], "no option --household");
        assert_usage(&["a", "b", "--visit"], "no option --visit");
        assert_usage(&["a", "b", "--visits", "2"], "two files are needed");
        for help in ["--help", "-h"] {
            let (status, out, err) = run(&[help]);
            assert_eq!((status, err), (0, String::new()));
            assert!(out.starts_with(&format!("{usage}\n\nROADS ")), "{out}");
        }
    }
}
