//! What the program prints. `tests/roads.rs` includes this file and compares the output.

use overlap::road_list::{read_network, read_points, BadLine};
use overlap::{Engine, Nearest, Network, Points, Refusal, Table};
use std::ffi::OsString;
use std::fs;
use std::io::{self, Write};
use std::path::{Path, PathBuf};

const USAGE: &str = "usage: roads ROADS POINTS [--site q].. [--k k] [--K K] [--visits] \
                     [--route a,b,..].. [--households FILE --sites FILE]";

const HELP: &str = "
ROADS    a file of one road a line: a b weight
POINTS   a file of one locker a line: its junction, which comes up to 15 times
--site   a site to ask about; without it, every junction is asked about. A locker on the site's own
         junction is not on its list
--k      the k of the lists, 1 to 16; 1 unless it is given
--K      the places of a row of the table, above k and at most 17; k + 1 unless it is given
--visits also prints the junctions that eager expands for a site, by distance and then by number
--route  also prints the lockers that a van touches for k, wherever on its route it stops: junctions with
         commas between them, as 8,9,10, each joined by a road to the one after it. A locker on the
         route itself is not listed. Several routes are printed one behind the other
--households, --sites
         files of one household a line and of one site a line, as POINTS; also prints which households
         a site wins: the sheet, 0 without a site, counts those that have no site nearer, and the list
         names the junctions of those that have fewer than k sites nearer";

/// What the command line asks for.
struct Asked {
    roads: PathBuf,
    points: PathBuf,
    sites: Vec<u32>,
    k: u32,
    places: u32,
    visits: bool,
    routes: Vec<Vec<u32>>,
    for_the_sheet: Option<[PathBuf; 2]>,
}

/// The households, and the sites that compete for them.
struct ForSheet {
    households: Points,
    sites: Points,
}

/// A message for the user.
type Message = String;

/// Runs the program and returns its exit status: 0, 1 for bad input, 2 for a bad command line.
pub fn run(arguments: &[OsString], out: &mut impl Write, err: &mut impl Write) -> u8 {
    let done = match asked(arguments) {
        _ if arguments
            .iter()
            .any(|word| word == "--help" || word == "-h") =>
        {
            writeln!(out, "{USAGE}\n{HELP}").map_err(|error| (unwritten(error), 1))
        }
        Err(message) => Err((format!("{message}\n{USAGE}"), 2)),
        Ok(asked) => report(&asked, out).map_err(|message| (message, 1)),
    };
    let Err((message, status)) = done else {
        return 0;
    };
    // Nothing is left to do where even the message can't be written.
    let _ = writeln!(err, "{message}");
    status
}

fn asked(arguments: &[OsString]) -> Result<Asked, Message> {
    let (mut files, mut sites, mut routes) = (Vec::new(), Vec::new(), Vec::new());
    let (mut k, mut places, mut visits) = (1, None, false);
    let (mut households, mut site_list) = (None, None);
    let mut words = arguments.iter();
    while let Some(word) = words.next() {
        let text = word.to_string_lossy();
        match &*text {
            "--site" => sites.push(number(&text, words.next())?),
            "--k" => k = number(&text, words.next())?,
            "--K" => places = Some(number(&text, words.next())?),
            "--visits" => visits = true,
            "--route" => routes.push(junctions(&text, words.next())?),
            "--households" => households = Some(file(&text, words.next())?),
            "--sites" => site_list = Some(file(&text, words.next())?),
            option if option.starts_with('-') => return Err(format!("no option {option}")),
            _ => files.push(PathBuf::from(word)),
        }
    }
    let [roads, points] = files.try_into().map_err(|_| "two files are needed")?;
    Ok(Asked {
        roads,
        points,
        sites,
        k,
        // Where k is not 1 to 16, that is what the refusal shall name.
        places: places.unwrap_or(k.clamp(1, 16) + 1),
        visits,
        routes,
        for_the_sheet: both(households, site_list)?,
    })
}

/// Both files or neither.
fn both(
    households: Option<PathBuf>,
    sites: Option<PathBuf>,
) -> Result<Option<[PathBuf; 2]>, Message> {
    match (households, sites) {
        (Some(households), Some(sites)) => Ok(Some([households, sites])),
        (None, None) => Ok(None),
        _ => Err("--households and --sites come together".to_string()),
    }
}

/// The file behind an option.
fn file(option: &str, value: Option<&OsString>) -> Result<PathBuf, Message> {
    let value = value.ok_or_else(|| format!("{option} needs a file"))?;
    Ok(PathBuf::from(value))
}

/// The number behind an option.
fn number(option: &str, value: Option<&OsString>) -> Result<u32, Message> {
    let value = value.ok_or_else(|| format!("{option} needs a number"))?;
    let text = value.to_string_lossy();
    let parsed = text.parse();
    parsed.map_err(|_| format!("{option} needs a whole number of 32 bits, not `{text}`"))
}

/// The junctions behind an option, with commas between them.
fn junctions(option: &str, value: Option<&OsString>) -> Result<Vec<u32>, Message> {
    let value = value.ok_or_else(|| format!("{option} needs junctions"))?;
    let text = value.to_string_lossy();
    let junction = |field: &str| {
        let is_none = format!("`{field}` in `{text}` is none");
        let parsed = field.trim().parse();
        parsed.map_err(|_| format!("{option} needs junctions, as in 8,9,10, and {is_none}"))
    };
    text.split(',').map(junction).collect()
}

fn report(asked: &Asked, out: &mut impl Write) -> Result<(), Message> {
    let roads = read(&asked.roads)?;
    let network = read_network(&roads).map_err(|bad| in_file(&asked.roads, bad))?;
    let points = points_of(&asked.points, &network)?;
    let for_the_sheet = for_sheet(asked, &network)?;
    let table = Table::build(&network, points, asked.places);
    let mut table = table.map_err(|refusal| format!("K = {}: {refusal}", asked.places))?;
    print_network(&table, out).map_err(unwritten)?;
    print_lists(asked, &mut table, out)?;
    if asked.visits {
        print_visits(asked, &table, out)?;
    }
    if !asked.routes.is_empty() {
        print_routes(asked, &table, out)?;
    }
    print_table(&table, out).map_err(unwritten)?;
    match for_the_sheet {
        Some(for_the_sheet) => print_sheet(asked, &network, &for_the_sheet, out),
        None => Ok(()),
    }
}

/// The points of a file, or the households or sites of one.
fn points_of(file: &Path, network: &Network) -> Result<Points, Message> {
    read_points(&read(file)?, network).map_err(|bad| in_file(file, bad))
}

/// The households and sites, if they are asked about.
fn for_sheet(asked: &Asked, network: &Network) -> Result<Option<ForSheet>, Message> {
    let Some([households, sites]) = &asked.for_the_sheet else {
        return Ok(None);
    };
    Ok(Some(ForSheet {
        households: points_of(households, network)?,
        sites: points_of(sites, network)?,
    }))
}

/// A text file. Bytes that are no text become a sign that no number has.
fn read(file: &Path) -> Result<String, Message> {
    let bytes = fs::read(file).map_err(|error| format!("{}: {error}", file.display()))?;
    Ok(String::from_utf8_lossy(&bytes).into_owned())
}

fn in_file(file: &Path, bad: BadLine) -> Message {
    format!("{}, {bad}", file.display())
}

fn unwritten(error: io::Error) -> Message {
    format!("the output can't be written: {error}")
}

fn print_network(table: &Table, out: &mut impl Write) -> io::Result<()> {
    let network = table.network();
    writeln!(out, "junctions   {}", network.nodes())?;
    writeln!(out, "roads       {}", network.roads().count())?;
    let points = points_text(table.points(), "lockers");
    writeln!(out, "points      {points}")
}

/// The junction of each point, and how many of these there are where it is more than one.
fn points_text(points: &Points, of_these: &str) -> String {
    let text = |node| match points.count(node) {
        1 => node.to_string(),
        count => format!("{node} ({count} {of_these})"),
    };
    shown(points.iter().map(text))
}

/// Prints for each site its list, by the table, and the count of nodes that eager expands for it.
fn print_lists(asked: &Asked, table: &mut Table, out: &mut impl Write) -> Result<(), Message> {
    let (nodes, k) = (table.network().nodes(), asked.k);
    let mut engine = Engine::new(table.network());
    let heading = format!("site   expanded   list for k = {k}");
    print_sites(asked, nodes, &heading, out, |q| {
        let list = nodes_text(table.query(q, k)?);
        let expanded = engine.eager(table.points(), q, k, u32::MAX)?.expanded;
        Ok(format!("{q:<6} {expanded:<10} {list}"))
    })
}

/// Prints for each site the nodes that eager expands, in the order in which it visits them.
fn print_visits(asked: &Asked, table: &Table, out: &mut impl Write) -> Result<(), Message> {
    let (nodes, k) = (table.network().nodes(), asked.k);
    let mut engine = Engine::new(table.network());
    let heading = format!("site   visits for k = {k}");
    print_sites(asked, nodes, &heading, out, |q| {
        let expansion = engine.eager(table.points(), q, k, u32::MAX)?;
        let visits = nodes_text(expansion.visits);
        Ok(format!("{q:<6} {visits}"))
    })
}

/// Prints for each route the lockers that any stop touches.
fn print_routes(asked: &Asked, table: &Table, out: &mut impl Write) -> Result<(), Message> {
    let (mut engine, k) = (Engine::new(table.network()), asked.k);
    let lengths = asked.routes.iter().map(|route| nodes_text(route).len());
    let width = lengths.fold("route".len(), usize::max);
    writeln!(out, "\n{:<width$}   lockers touched for k = {k}", "route").map_err(unwritten)?;
    for route in &asked.routes {
        let list = engine.route(table.points(), route, k);
        let list = list.map_err(|refusal| refused_route(route, table.network(), refusal))?;
        let (route, list) = (nodes_text(route), nodes_text(list));
        writeln!(out, "{route:<width$}   {list}").map_err(unwritten)?;
    }
    Ok(())
}

/// Says which junction of a route, or which two, the refusal is about.
fn refused_route(route: &[u32], network: &Network, refusal: Refusal) -> Message {
    let about = match refusal {
        Refusal::Node => missing_junction(route, network),
        Refusal::Route => missing_road(route, network),
        _ => None,
    };
    let about = about.map_or(String::new(), |about| format!("{about}; "));
    format!("route {}: {about}{refusal}", nodes_text(route))
}

/// The first junction of a route that the network has not.
fn missing_junction(route: &[u32], network: &Network) -> Option<Message> {
    let nodes = network.nodes();
    let node = route.iter().find(|&&node| node >= nodes)?;
    let last = nodes - 1;
    Some(format!("there is no junction {node}: they are 0 to {last}"))
}

/// The first two junctions of a route in sequence that have no road.
fn missing_road(route: &[u32], network: &Network) -> Option<Message> {
    let has_road = |pair: &[u32]| {
        let mut roads = network.roads_of(pair[0]).into_iter().flatten();
        roads.any(|(to, _)| to == pair[1])
    };
    let pair = route.windows(2).find(|pair| !has_road(pair))?;
    let (a, b) = (pair[0], pair[1]);
    Some(match a == b {
        true => format!("no road leads from junction {a} to itself"),
        false => format!("no road joins junctions {a} and {b}"),
    })
}

/// Prints for each site its entry of the sheet and its list.
fn print_sheet(
    asked: &Asked,
    network: &Network,
    ForSheet { households, sites }: &ForSheet,
    out: &mut impl Write,
) -> Result<(), Message> {
    writeln!(
        out,
        "\nhouseholds  {}\nsites       {}",
        points_text(households, "households"),
        points_text(sites, "sites")
    )
    .map_err(unwritten)?;
    let (mut engine, k) = (Engine::new(network), asked.k);
    let sheet = engine.sheet(households, sites);
    let sheet = sheet.map_err(|refusal| refusal.to_string())?.to_vec();
    let heading = format!("site   sheet   households for k = {k}");
    print_sites(asked, network.nodes(), &heading, out, |q| {
        let list = nodes_text(engine.households(households, sites, q, k)?);
        Ok(format!("{q:<6} {:<7} {list}", sheet[q as usize]))
    })
}

/// Prints a heading, and behind it the line of each site.
fn print_sites(
    asked: &Asked,
    nodes: u32,
    heading: &str,
    out: &mut impl Write,
    mut line_of: impl FnMut(u32) -> Result<String, Refusal>,
) -> Result<(), Message> {
    let all: Vec<u32> = (0..nodes).collect();
    let sites = if asked.sites.is_empty() {
        &all
    } else {
        &asked.sites
    };
    writeln!(out, "\n{heading}").map_err(unwritten)?;
    for &site in sites {
        let line = line_of(site).map_err(|refusal| match refusal {
            Refusal::K => format!("k = {}, K = {}: {refusal}", asked.k, asked.places),
            _ => format!("site {site}: {refusal}"),
        })?;
        writeln!(out, "{line}").map_err(unwritten)?;
    }
    Ok(())
}

/// Prints what the table holds: how full its rows are, and how far the farthest point in it is.
fn print_table(table: &Table, out: &mut impl Write) -> io::Result<()> {
    let nodes = 0..table.network().nodes();
    let rows: Vec<Nearest<'_>> = nodes.filter_map(|node| table.row(node).ok()).collect();
    let places = table.places() as usize;
    let full = rows.iter().filter(|row| row.len() == places).count();
    let empty = rows.iter().filter(|row| row.is_empty()).count();
    let farthest = rows.iter().flat_map(|row| row.distances()).max();
    let check = if table.check() { "yes" } else { "no" };
    writeln!(out, "\ntable with K = {places}")?;
    writeln!(
        out,
        "rows        {}: {full} full, {empty} empty",
        rows.len()
    )?;
    match farthest {
        Some(distance) => writeln!(out, "farthest    {distance}")?,
        None => writeln!(out, "farthest    none")?,
    }
    writeln!(out, "check       {check}")
}

/// Nodes as a person reads them.
fn nodes_text(nodes: &[u32]) -> String {
    shown(nodes.iter().map(u32::to_string))
}

/// Texts with commas between them, or that there is none.
fn shown(texts: impl Iterator<Item = String>) -> String {
    let texts: Vec<String> = texts.collect();
    match texts.is_empty() {
        true => "none".to_string(),
        false => texts.join(", "),
    }
}
