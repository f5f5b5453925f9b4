//! A chart of small panels, one for each call, as SVG text.

use super::measure::Spread;
use std::fmt::Write;

/// Times at one place of the x axis, in milliseconds.
pub struct Sample {
    pub x: f64,
    pub engine: Spread,
    pub plain: Spread,
}

pub struct Panel {
    pub title: &'static str,
    pub samples: Vec<Sample>,
}

/// The x axis of all panels.
pub struct Axis {
    pub label: &'static str,
    pub ticks: Vec<u32>,
    /// Whether equal steps are equal factors.
    pub is_log: bool,
}

/// All panels have the same axes; that of the times is logarithmic.
pub struct Chart {
    pub title: String,
    pub axis: Axis,
    pub columns: usize,
    pub panels: Vec<Panel>,
}

/// The size of a panel's frame, and the room around it.
const WIDTH: f64 = 190.0;
const HEIGHT: f64 = 150.0;
const LEFT: f64 = 62.0;
const RIGHT: f64 = 18.0;
const TOP: f64 = 30.0;
const BOTTOM: f64 = 46.0;
/// The room for the title and the legend.
const HEAD: f64 = 58.0;
const MARGIN: f64 = 10.0;

const ENGINE_COLOUR: &str = "#0b5cad";
const PLAIN_COLOUR: &str = "#c4501b";

impl Chart {
    pub fn svg(&self) -> String {
        let rows = self.panels.len().div_ceil(self.columns);
        let width = 2.0 * MARGIN + self.columns as f64 * (LEFT + WIDTH + RIGHT);
        let height = HEAD + MARGIN + rows as f64 * (TOP + HEIGHT + BOTTOM);
        let mut svg = format!(
            "<svg xmlns=\"http://www.w3.org/2000/svg\" viewBox=\"0 0 {width:.0} {height:.0}\" \
             width=\"{width:.0}\" height=\"{height:.0}\" font-family=\"sans-serif\" \
             font-size=\"11\" fill=\"#222\">\n\
             <rect width=\"{width:.0}\" height=\"{height:.0}\" fill=\"#fff\"/>\n"
        );
        self.draw_head(&mut svg);
        let frame = self.frame();
        for (place, panel) in self.panels.iter().enumerate() {
            let (row, column) = (place / self.columns, place % self.columns);
            let x = MARGIN + column as f64 * (LEFT + WIDTH + RIGHT) + LEFT;
            let y = HEAD + row as f64 * (TOP + HEIGHT + BOTTOM) + TOP;
            frame.at(x, y).draw_panel(&mut svg, &self.axis, panel);
        }
        svg + "</svg>\n"
    }

    fn draw_head(&self, svg: &mut String) {
        text(svg, MARGIN, 20.0, "start", 14, &self.title);
        let y = 42.0;
        draw_line(svg, &[(MARGIN, y), (MARGIN + 34.0, y)], ENGINE);
        draw_mark(svg, MARGIN + 17.0, y, ENGINE);
        text(svg, MARGIN + 40.0, y + 4.0, "start", 11, "engine");
        draw_line(svg, &[(MARGIN + 96.0, y), (MARGIN + 130.0, y)], PLAIN);
        draw_mark(svg, MARGIN + 113.0, y, PLAIN);
        text(svg, MARGIN + 136.0, y + 4.0, "start", 11, "plain Rust");
        let note = "medians; a bar spans the quartiles of all sites and rounds";
        text(svg, MARGIN + 212.0, y + 4.0, "start", 11, note);
    }

    /// The ranges of both axes, the times widened to powers of ten.
    fn frame(&self) -> Frame {
        let scale = |x: f64| if self.axis.is_log { x.ln() } else { x };
        let samples = || self.panels.iter().flat_map(|panel| &panel.samples);
        let times = samples().flat_map(|sample| [sample.engine, sample.plain]);
        let (low, high) = times.fold((f64::MAX, f64::MIN), |(low, high), spread| {
            (low.min(spread.low), high.max(spread.high))
        });
        let ticks = self.axis.ticks.iter().map(|&tick| f64::from(tick));
        let across = samples().map(|sample| sample.x).chain(ticks).map(scale);
        let (left, right) = across.fold((f64::MAX, f64::MIN), |(left, right), x| {
            (left.min(x), right.max(x))
        });
        Frame {
            x: 0.0,
            y: 0.0,
            left,
            right,
            lowest: low.log10().floor() as i32,
            highest: high.log10().ceil() as i32,
            is_log: self.axis.is_log,
        }
    }
}

/// Where a panel stands and what its axes span.
#[derive(Clone, Copy)]
struct Frame {
    x: f64,
    y: f64,
    left: f64,
    right: f64,
    lowest: i32,
    highest: i32,
    is_log: bool,
}

impl Frame {
    fn at(self, x: f64, y: f64) -> Self {
        Self { x, y, ..self }
    }

    fn across(&self, x: f64) -> f64 {
        let x = if self.is_log { x.ln() } else { x };
        let inset = 8.0;
        self.x + inset + (x - self.left) / (self.right - self.left) * (WIDTH - 2.0 * inset)
    }

    fn down(&self, milliseconds: f64) -> f64 {
        let span = f64::from(self.highest - self.lowest);
        self.y + (f64::from(self.highest) - milliseconds.log10()) / span * HEIGHT
    }

    fn draw_panel(&self, svg: &mut String, axis: &Axis, panel: &Panel) {
        text(svg, self.x, self.y - 9.0, "start", 12, panel.title);
        for power in self.lowest..=self.highest {
            let y = self.down(10f64.powi(power));
            draw_rule(svg, (self.x, y), (self.x + WIDTH, y));
            text(svg, self.x - 6.0, y + 4.0, "end", 10, &time_label(power));
        }
        for &tick in &axis.ticks {
            let (x, y) = (self.across(f64::from(tick)), self.y + HEIGHT);
            draw_rule(svg, (x, self.y), (x, y));
            text(svg, x, y + 16.0, "middle", 10, &number(tick as usize));
        }
        let (x, y) = (self.x + WIDTH / 2.0, self.y + HEIGHT + 31.0);
        text(svg, x, y, "middle", 10, axis.label);
        self.draw_series(svg, panel, ENGINE);
        self.draw_series(svg, panel, PLAIN);
    }

    fn draw_series(&self, svg: &mut String, panel: &Panel, series: Series) {
        let spread = |sample: &Sample| match series.is_engine {
            true => sample.engine,
            false => sample.plain,
        };
        let place = |sample: &Sample| (self.across(sample.x), self.down(spread(sample).median));
        let line: Vec<_> = panel.samples.iter().map(place).collect();
        draw_line(svg, &line, series);
        for sample in &panel.samples {
            let (x, Spread { low, high, .. }) = (self.across(sample.x), spread(sample));
            let bar = [(x, self.down(low)), (x, self.down(high))];
            draw_line(svg, &bar, series.solid());
            draw_mark(svg, x, self.down(spread(sample).median), series);
        }
    }
}

/// How the lines of one of the two are drawn.
#[derive(Clone, Copy)]
struct Series {
    is_engine: bool,
    colour: &'static str,
    dashes: &'static str,
}

const ENGINE: Series = Series {
    is_engine: true,
    colour: ENGINE_COLOUR,
    dashes: "none",
};

const PLAIN: Series = Series {
    is_engine: false,
    colour: PLAIN_COLOUR,
    dashes: "5 3",
};

impl Series {
    fn solid(self) -> Self {
        Self {
            dashes: "none",
            ..self
        }
    }
}

fn draw_line(svg: &mut String, places: &[(f64, f64)], series: Series) {
    let Series { colour, dashes, .. } = series;
    let places: Vec<_> = places
        .iter()
        .map(|(x, y)| format!("{x:.1},{y:.1}"))
        .collect();
    let places = places.join(" ");
    let _ = writeln!(
        svg,
        "<polyline points=\"{places}\" fill=\"none\" stroke=\"{colour}\" stroke-width=\"1.5\" \
         stroke-dasharray=\"{dashes}\"/>"
    );
}

/// A full circle for the engine, an open and larger one for plain Rust, so that both are seen.
fn draw_mark(svg: &mut String, x: f64, y: f64, series: Series) {
    let colour = series.colour;
    let (radius, fill) = if series.is_engine {
        (2.5, colour)
    } else {
        (4.0, "none")
    };
    let _ = writeln!(
        svg,
        "<circle cx=\"{x:.1}\" cy=\"{y:.1}\" r=\"{radius}\" fill=\"{fill}\" stroke=\"{colour}\"/>"
    );
}

fn draw_rule(svg: &mut String, (x1, y1): (f64, f64), (x2, y2): (f64, f64)) {
    let _ = writeln!(
        svg,
        "<line x1=\"{x1:.1}\" y1=\"{y1:.1}\" x2=\"{x2:.1}\" y2=\"{y2:.1}\" stroke=\"#ddd\"/>"
    );
}

fn text(svg: &mut String, x: f64, y: f64, anchor: &str, size: u32, words: &str) {
    let _ = writeln!(
        svg,
        "<text x=\"{x:.1}\" y=\"{y:.1}\" text-anchor=\"{anchor}\" font-size=\"{size}\">{words}</text>"
    );
}

/// A power of ten of milliseconds.
fn time_label(power: i32) -> String {
    match power {
        3.. => format!("{} s", 10u64.pow(power as u32 - 3)),
        0..=2 => format!("{} ms", 10u64.pow(power as u32)),
        _ => format!("{} µs", 10f64.powi(power + 3)),
    }
}

/// A number with a comma between thousands.
pub fn number(value: usize) -> String {
    let digits = value.to_string();
    let places = digits.len();
    let mut with_commas = String::new();
    for (place, digit) in digits.chars().enumerate() {
        if place > 0 && (places - place).is_multiple_of(3) {
            with_commas.push(',');
        }
        with_commas.push(digit);
    }
    with_commas
}
