//! The time of every call, engine against the same algorithms in plain Rust, on four networks, and
//! charts of the time against k and against n.
//!
//! `cargo bench --bench performance` writes the tables into docs/PERFORMANCE.md and the charts into
//! docs/performance. With `-- --quick` it measures little and writes into target/performance.

mod agree;
mod calls;
mod chart;
#[path = "../../tests/common/mod.rs"]
mod common;
mod extremes;
mod lent;
mod measure;
mod networks;
mod outcome;
#[path = "../plain/mod.rs"]
mod plain;
mod report;
mod roads;
mod routes;
mod settings;

use calls::{Call, TWINS};
use chart::{Axis, Chart, Panel, Sample};
use measure::{measure, Budget, Pairs};
use networks::{limits, roads, several, streets, Subject};
use outcome::built;
use settings::Settings;
use std::fs;
use std::time::Instant;

/// A network and the times of calls on it.
pub struct Measured {
    subject: Subject,
    k: u32,
    places: u32,
    times: Vec<(Call, Pairs)>,
}

/// Times calls on a network, with a table of these places.
fn measure_calls(
    subject: Subject,
    calls: &[Call],
    (k, places): (u32, u32),
    budget: Budget,
) -> Measured {
    println!(
        "{}: {} nodes, k = {k}, K = {places}",
        subject.name,
        subject.nodes()
    );
    let queries = subject.queries(k);
    let mut lent = built(subject.network.lend(), &subject.points, places, places);
    let mut times = Vec::new();
    for &call in calls {
        let pairs = measure(call, TWINS, &mut lent, &queries, budget);
        print!("{}", pairs.row(call.name, 2));
        times.push((call, pairs));
    }
    Measured {
        subject,
        k,
        places,
        times,
    }
}

/// Times all calls on the four networks.
fn measure_networks(settings: &Settings) -> Vec<Measured> {
    let (k, places) = (settings.k, settings.places);
    let subjects = [
        (streets(settings.side), places),
        (roads(settings.road_nodes), places),
        (limits(), settings.limits_places),
        (several(settings.road_nodes), places),
    ];
    let measured =
        |(subject, places)| measure_calls(subject, &calls::ALL, (k, places), settings.budget);
    subjects.into_iter().map(measured).collect()
}

/// Times routes beside eager on the same networks.
fn routes_text(measured: &[Measured], settings: &Settings) -> String {
    let mut rows = Vec::new();
    for Measured { subject, k, .. } in measured {
        println!("{}: routes beside eager", subject.name);
        let longest = settings.longest_beside_eager;
        let of_network = routes::measure_routes(subject, *k, longest, settings.budget);
        rows.extend(of_network.into_iter().map(|row| (subject.name, row)));
    }
    report::routes_text(&rows)
}

/// Times build at the limits with tables of more and more places.
fn measure_builds(settings: &Settings) -> Vec<Measured> {
    let of_places =
        |&places: &u32| measure_calls(limits(), &[calls::BUILD], (1, places), settings.budget);
    settings.build_places.iter().map(of_places).collect()
}

/// The panels of these calls, with a sample for each x.
fn panels(calls: &[Call], measured: &[(f64, Measured)]) -> Vec<Panel> {
    let sample = |place: usize, x: f64, of_network: &Measured| Sample {
        x,
        engine: of_network.times[place].1.engine(),
        plain: of_network.times[place].1.other(),
    };
    let panel = |(place, call): (usize, &Call)| Panel {
        title: call.name,
        samples: measured.iter().map(|(x, m)| sample(place, *x, m)).collect(),
    };
    calls.iter().enumerate().map(panel).collect()
}

/// Times the calls that take a k on the road-like network.
fn chart_by_k(settings: &Settings) -> Chart {
    let mut measured = Vec::new();
    for &k in &settings.ks {
        let subject = roads(settings.road_nodes);
        let of_k = measure_calls(subject, &calls::BY_K, (k, 17), settings.chart_budget);
        measured.push((f64::from(k), of_k));
    }
    let nodes = chart::number(settings.road_nodes as usize);
    Chart {
        title: format!("Time of a call against k: road-like network of {nodes} nodes, K = 17"),
        axis: Axis {
            label: "k",
            ticks: vec![1, 4, 8, 12, 16],
            is_log: false,
        },
        columns: 3,
        panels: panels(&calls::BY_K, &measured),
    }
}

/// Times all calls on grids of growing n.
fn chart_by_n(settings: &Settings) -> Chart {
    let mut measured = Vec::new();
    for &side in &settings.sides {
        let of_n = measure_calls(streets(side), &calls::ALL, (4, 5), settings.chart_budget);
        measured.push((f64::from(side * side), of_n));
    }
    Chart {
        title: "Time of a call against n: square grids, k = 4, K = 5".to_string(),
        axis: Axis {
            label: "nodes n",
            ticks: vec![1_000, 4_000, 16_000, 64_000],
            is_log: true,
        },
        columns: 4,
        panels: panels(&calls::ALL, &measured),
    }
}

fn write_charts(settings: &Settings) {
    let charts = [
        ("time-against-k.svg", chart_by_k(settings)),
        ("time-against-n.svg", chart_by_n(settings)),
    ];
    fs::create_dir_all(&settings.charts).expect("the folder of the charts can be made");
    for (name, chart) in charts {
        fs::write(settings.charts.join(name), chart.svg()).expect("a chart can be written");
    }
}

/// How far searches go, and where eager and the sheet are slow.
fn extremes_text(subject: &Subject, settings: &Settings) -> String {
    let reach = |&k: &u32| (k, extremes::reach(subject, k));
    let reach: Vec<_> = settings.reach_ks.iter().map(reach).collect();
    let line = extremes::figure_12_times(settings.budget);
    let sizes = [1_000, 2_000, 4_000, 8_000];
    let slow = sizes.map(|n| (n, extremes::slow_times(n)));
    report::reach_text(subject.name, &reach) + &report::line_text(&line) + &report::slow_text(&slow)
}

fn main() {
    let start = Instant::now();
    let settings = Settings::from_arguments();
    let tried = agree::try_small_networks(settings.small_networks);
    let measured = measure_networks(&settings);
    let routes = routes_text(&measured, &settings);
    let builds = measure_builds(&settings);
    let extremes = extremes_text(&measured[1].subject, &settings);
    write_charts(&settings);
    let mut text = report::heading(start.elapsed(), tried);
    text += &report::networks_table(&measured);
    text += &report::calls_tables(&measured);
    text += &report::notes(&measured);
    text += &routes;
    text += &report::builds_text(&builds);
    text += &extremes;
    println!("{text}");
    report::write_between_markers(&settings.document, &text);
}
