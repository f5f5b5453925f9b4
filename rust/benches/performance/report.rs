//! The measured tables as Markdown, and their place in docs/PERFORMANCE.md.

use super::calls::{Call, BUILD, DISTANCES, REMOVE, SHEET};
use super::chart::number;
use super::extremes::{Range, LINE};
use super::measure::Pairs;
use super::networks::Subject;
use super::routes::{Beside, EagerWords};
use super::Measured;
use std::fmt::Write;
use std::fs;
use std::path::Path;
use std::time::{Duration, SystemTime, UNIX_EPOCH};

const BEGIN: &str = "<!-- measured: begin -->";
const END: &str = "<!-- measured: end -->";

/// Puts the text between the two markers of a file; what stands around them stays. Where there is no
/// such file, it is made.
pub fn write_between_markers(file: &Path, text: &str) {
    let empty = |_| format!("{BEGIN}\n{END}\n");
    let old = fs::read_to_string(file).unwrap_or_else(empty);
    let (before, rest) = old.split_once(BEGIN).expect("the document has the marker");
    let (_, after) = rest.split_once(END).expect("the document has both markers");
    let new = format!("{before}{BEGIN}\n{text}{END}{after}");
    fs::write(file, new).expect("the document can be written");
}

/// When and on what it was measured, and how many small calls were compared first: accepted ones
/// and refused ones.
pub fn heading(taken: Duration, (accepted, refused): (usize, usize)) -> String {
    let (date, machine, seconds) = (today(), machine(), taken.as_secs());
    let (accepted, refused) = (number(accepted), number(refused));
    format!(
        "Measured on {date} in {seconds} s; {machine}. Engine and twins agreed first on {accepted} accepted and \
         {refused} refused calls of small random networks.\n\n"
    )
}

/// The networks, and what is asked on each.
pub fn networks_table(measured: &[Measured]) -> String {
    let mut text = String::from(
        "| Network | Nodes | Arcs | Arcs to a node | Points | Lockers | k | K |\n\
         |---|---|---|---|---|---|---|---|\n",
    );
    for Measured {
        subject, k, places, ..
    } in measured
    {
        let Subject { name, .. } = subject;
        let (nodes, arcs) = (subject.nodes(), subject.arcs());
        let mean = arcs as f64 / nodes as f64;
        let (nodes, arcs) = (number(nodes), number(arcs));
        let (points, lockers) = (number(subject.marked()), number(subject.lockers()));
        let _ = writeln!(
            text,
            "| {name} | {nodes} | {arcs} | {mean:.2} | {points} | {lockers} | {k} | {places} |"
        );
    }
    text
}

/// A table of all calls for each network.
pub fn calls_tables(measured: &[Measured]) -> String {
    let mut text = String::new();
    for Measured { subject, times, .. } in measured {
        let _ = write!(text, "\n### {}\n\n{TIMES_HEAD}", subject.name);
        for (call, pairs) in times {
            text += &pairs.row(call.name, 2);
        }
    }
    text
}

const TIMES_HEAD: &str =
    "| Call | Pairs | Engine, ms | Plain Rust, ms | Ratio |\n|---|---|---|---|---|\n";

/// The largest ratio of all, what part of a build a removal takes, and how many times as long as the
/// distances from one node the sheet takes.
pub fn notes(measured: &[Measured]) -> String {
    let rows = measured.iter().flat_map(|of_network| {
        let name = of_network.subject.name;
        let ratio = |pairs: &Pairs| pairs.ratio().median;
        of_network
            .times
            .iter()
            .map(move |(call, pairs)| (ratio(pairs), call.name, name))
    });
    let (ratio, call, network) = rows
        .max_by(|a, b| a.0.total_cmp(&b.0))
        .expect("calls were timed");
    let parts = |part: Call, whole: Call| {
        let of_network = |measured| part_of(measured, part, whole);
        let parts: Vec<_> = measured.iter().map(of_network).collect();
        parts.join(", ")
    };
    let (removal, sheet) = (parts(REMOVE, BUILD), parts(SHEET, DISTANCES));
    format!(
        "\nThe largest median ratio is {ratio:.2}: {call}, {network}. Of the engine's build a removal takes {removal}. \
         The sheet takes {sheet} times as long as the distances from one node.\n"
    )
}

/// A call's time by the engine on a network, divided by that of another.
fn part_of(of_network: &Measured, part: Call, whole: Call) -> String {
    let time_of = |name| {
        let row = of_network.times.iter().find(|(call, _)| call.name == name);
        row.expect("the call was timed").1.engine().median
    };
    let part = time_of(part.name) / time_of(whole.name);
    format!("{part:.3} ({})", of_network.subject.name)
}

/// The times of routes beside eager, and the largest ratio of a route of one node in the same scratch.
pub fn routes_text(rows: &[(&str, (Beside, Pairs))]) -> String {
    let mut text = String::from(
        "\n### Routes beside eager\n\n\
         A route, and eager on each node of its list, the times of these calls added up. Both are the engine's:\n\n\
         | Network | Nodes | Eager's scratch | Pairs | Route, ms | Eager, ms | Ratio |\n\
         |---|---|---|---|---|---|---|\n",
    );
    let mut largest: f64 = 0.0;
    for (network, (beside, pairs)) in rows {
        let words = match beside.words {
            EagerWords::S => "S",
            EagerWords::TwelveN => "12 × n",
        };
        let name = format!("{network} | {} | {words}", beside.nodes);
        text += &pairs.row(&name, 3);
        if beside.words == EagerWords::S {
            largest = largest.max(pairs.ratio().median);
        }
    }
    let _ = writeln!(
        text,
        "\nThe largest median ratio of a route of one node, where eager is lent the same scratch, is {largest:.3}."
    );
    text
}

/// The times of build at the limits, by K.
pub fn builds_text(builds: &[Measured]) -> String {
    let mut text = format!(
        "\n### Build at the limits\n\n{}",
        TIMES_HEAD.replace("Call", "K")
    );
    for Measured { places, times, .. } in builds {
        text += &times[0].1.row(&places.to_string(), 2);
    }
    text
}

/// How far each search goes on a network, for each k.
pub fn reach_text(network: &str, rows: &[(u32, [Range; 3])]) -> String {
    let mut text = format!(
        "\n### How far the searches go\n\n\
         On the {network} network, counted by the twins, the least and the most of all sites:\n\n\
         | k | Eager expands | Lazy settles | Lazy-EP settles |\n|---|---|---|---|\n"
    );
    for (k, ranges) in rows {
        let cells: Vec<_> = ranges.iter().map(range_cell).collect();
        let _ = writeln!(text, "| {k} | {} |", cells.join(" | "));
    }
    text
}

fn range_cell(range: &Range) -> String {
    let (least, most) = (number(*range.start()), number(*range.end()));
    if least == most {
        least
    } else {
        format!("{least} to {most}")
    }
}

/// The times of the searches in 000, Fig. 12.
pub fn line_text(rows: &[(Call, Pairs)]) -> String {
    let nodes = number(LINE as usize);
    let mut text = format!(
        "\n000, Fig. 12, with a line of {nodes} nodes and k = 1, where lazy settles the whole line \
         and lazy-EP three nodes:\n\n{TIMES_HEAD}"
    );
    for (call, pairs) in rows {
        text += &pairs.row(call.name, 2);
    }
    text
}

/// The times of eager on a star and on a chain and of the sheet on a star, by the number of nodes.
pub fn slow_text(rows: &[(u32, [f64; 3])]) -> String {
    let mut text = String::from(
        "\n### Where eager and the sheet are slow\n\nSingle calls of the engine, timed once each:\n\n\
         | Nodes | Eager: star, 3 points, k = 3, from a leaf | Eager: chain without points, k = 1, from an end \
         | Sheet: star of equal roads, a site on each leaf |\n\
         |---|---|---|---|\n",
    );
    for (n, times) in rows {
        let n = number(*n as usize);
        let cells = times.map(|time| format!("{time:.1} ms"));
        let _ = writeln!(text, "| {n} | {} |", cells.join(" | "));
    }
    text
}

/// The processor and the number of its cores that the run may use.
fn machine() -> String {
    let described = fs::read_to_string("/proc/cpuinfo").unwrap_or_default();
    let named = described
        .lines()
        .find_map(|line| line.strip_prefix("model name"));
    let model = named
        .and_then(|rest| rest.split_once(": "))
        .map_or("unknown processor", |p| p.1);
    let cores = std::thread::available_parallelism().map_or(1, usize::from);
    format!("{model}, {cores} cores, {}", std::env::consts::OS)
}

/// Today's date (UTC).
fn today() -> String {
    let since = SystemTime::now().duration_since(UNIX_EPOCH);
    let mut days = since.map_or(0, |time| time.as_secs() / 86_400);
    let mut year = 1970;
    while days >= days_of_year(year) {
        days -= days_of_year(year);
        year += 1;
    }
    let mut month = 1;
    while days >= days_of_month(year, month) {
        days -= days_of_month(year, month);
        month += 1;
    }
    format!("{year}-{month:02}-{:02}", days + 1)
}

fn is_leap(year: u64) -> bool {
    year.is_multiple_of(4) && (!year.is_multiple_of(100) || year.is_multiple_of(400))
}

fn days_of_year(year: u64) -> u64 {
    365 + u64::from(is_leap(year))
}

fn days_of_month(year: u64, month: u64) -> u64 {
    match month {
        2 => 28 + u64::from(is_leap(year)),
        4 | 6 | 9 | 11 => 30,
        _ => 31,
    }
}
