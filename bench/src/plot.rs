//! Plots of times as an SVG: panels side by side, with one logarithmic axis of time.

use std::fmt::Write;

/// What is measured at one place of a panel: the times in µs, one for each line.
pub struct Point {
    pub x: u16,
    pub times: [f64; 2],
}

pub struct Panel {
    /// What its axis across counts, and what is the same at all of its points.
    pub across: &'static str,
    pub fixed: &'static str,
    /// The numbers that stand at that axis. The first and the last are its ends.
    pub ticks: &'static [u16],
    pub points: Vec<Point>,
}

/// The colours, dashes and marks of the two lines: without colour they differ too.
const COLOURS: [&str; 2] = ["#0b5394", "#b45309"];
const DASHES: [&str; 2] = ["none", "6 3"];

/// Pixels.
const PANEL_WIDTH: f64 = 250.0;
const PANEL_HEIGHT: f64 = 260.0;
const GAP: f64 = 30.0;
const LEFT: f64 = 90.0;
const RIGHT: f64 = 20.0;
const TOP: f64 = 50.0;
const BOTTOM: f64 = 80.0;

/// The decades of the axis of time, as powers of ten of a µs.
#[derive(Clone, Copy)]
struct Decades {
    low: i32,
    high: i32,
}

impl Decades {
    /// As few as have all times.
    fn of(panels: &[Panel]) -> Decades {
        let points = panels.iter().flat_map(|panel| &panel.points);
        let logs = points.flat_map(|point| point.times.map(f64::log10));
        let (low, high) = logs.fold((f64::MAX, f64::MIN), |(low, high), log| {
            (low.min(log), high.max(log))
        });
        Decades {
            low: low.floor() as i32,
            high: high.ceil() as i32,
        }
    }

    fn height_of(self, log: f64) -> f64 {
        let part = (log - f64::from(self.low)) / f64::from(self.high - self.low);
        TOP + PANEL_HEIGHT * (1.0 - part)
    }
}

/// The whole picture. The two names are those of the lines.
pub fn svg(names: [&str; 2], panels: &[Panel]) -> String {
    let count = panels.len() as f64;
    let width = LEFT + count * PANEL_WIDTH + (count - 1.0) * GAP + RIGHT;
    let height = TOP + PANEL_HEIGHT + BOTTOM;
    let mut out = format!(
        "<svg xmlns=\"http://www.w3.org/2000/svg\" width=\"{width}\" height=\"{height}\" viewBox=\"0 0 {width} {height}\" font-family=\"sans-serif\" font-size=\"13\">\n"
    );
    rectangle(&mut out, [0.0, 0.0, width, height], "fill=\"white\"");
    legend(&mut out, names);
    let middle = TOP + PANEL_HEIGHT / 2.0;
    let turned = format!("text-anchor=\"middle\" transform=\"rotate(-90 20 {middle})\"");
    text(&mut out, [20.0, middle], &turned, "time, logarithmic axis");
    let decades = Decades::of(panels);
    let mut left = LEFT;
    for panel in panels {
        draw(&mut out, panel, left, decades);
        left += PANEL_WIDTH + GAP;
    }
    out.push_str("</svg>\n");
    out
}

fn legend(out: &mut String, names: [&str; 2]) {
    let mut x = LEFT;
    for (line, name) in names.into_iter().enumerate() {
        path(out, line, &[[x, 24.0], [x + 40.0, 24.0]]);
        mark(out, line, [x + 20.0, 24.0]);
        text(out, [x + 48.0, 28.5], "", name);
        x += PANEL_WIDTH;
    }
}

fn draw(out: &mut String, panel: &Panel, left: f64, decades: Decades) {
    time_axis(out, left, decades);
    let frame = [left, TOP, PANEL_WIDTH, PANEL_HEIGHT];
    rectangle(out, frame, "fill=\"none\" stroke=\"black\"");
    let [first, last] = [0, panel.ticks.len() - 1].map(|at| f64::from(panel.ticks[at]));
    let across = |x: u16| left + PANEL_WIDTH * (f64::from(x) - first) / (last - first);
    let bottom = TOP + PANEL_HEIGHT;
    for &tick in panel.ticks {
        let x = across(tick);
        stroke(out, [[x, bottom], [x, bottom + 5.0]], "black");
        text(
            out,
            [x, bottom + 20.0],
            "text-anchor=\"middle\"",
            &tick.to_string(),
        );
    }
    for (label, below) in [(panel.across, 44.0), (panel.fixed, 62.0)] {
        let middle = [left + PANEL_WIDTH / 2.0, bottom + below];
        text(out, middle, "text-anchor=\"middle\"", label);
    }
    for line in 0..2 {
        let place = |point: &Point| {
            [
                across(point.x),
                decades.height_of(point.times[line].log10()),
            ]
        };
        let places: Vec<[f64; 2]> = panel.points.iter().map(place).collect();
        path(out, line, &places);
        for place in places {
            mark(out, line, place);
        }
    }
}

/// A line across at each decade; the times stand at the leftmost panel only.
fn time_axis(out: &mut String, left: f64, decades: Decades) {
    for decade in decades.low..=decades.high {
        let y = decades.height_of(decade.into());
        stroke(out, [[left, y], [left + PANEL_WIDTH, y]], "#d0d0d0");
        if left == LEFT {
            let place = [left - 8.0, y + 4.5];
            text(out, place, "text-anchor=\"end\"", &in_units(decade));
        }
    }
}

/// So many decades above 1 µs, such as `10 ms`.
fn in_units(decade: i32) -> String {
    let unit = ["ns", "µs", "ms", "s"][(decade.div_euclid(3) + 1) as usize];
    format!("{} {unit}", 10_u32.pow(decade.rem_euclid(3) as u32))
}

/// Discs for the first line, squares for the second.
fn mark(out: &mut String, line: usize, [x, y]: [f64; 2]) {
    let colour = COLOURS[line];
    match line {
        0 => {
            let _ = writeln!(
                out,
                "<circle cx=\"{x:.1}\" cy=\"{y:.1}\" r=\"4\" fill=\"{colour}\"/>"
            );
        }
        _ => {
            let look = format!("fill=\"white\" stroke=\"{colour}\" stroke-width=\"2\"");
            rectangle(out, [x - 3.5, y - 3.5, 7.0, 7.0], &look);
        }
    }
}

fn path(out: &mut String, line: usize, places: &[[f64; 2]]) {
    let places: Vec<String> = places
        .iter()
        .map(|[x, y]| format!("{x:.1},{y:.1}"))
        .collect();
    let _ = writeln!(
        out,
        "<polyline points=\"{}\" fill=\"none\" stroke=\"{}\" stroke-width=\"2\" stroke-dasharray=\"{}\"/>",
        places.join(" "),
        COLOURS[line],
        DASHES[line]
    );
}

fn stroke(out: &mut String, [[x1, y1], [x2, y2]]: [[f64; 2]; 2], colour: &str) {
    let _ = writeln!(
        out,
        "<line x1=\"{x1:.1}\" y1=\"{y1:.1}\" x2=\"{x2:.1}\" y2=\"{y2:.1}\" stroke=\"{colour}\"/>"
    );
}

fn rectangle(out: &mut String, [x, y, width, height]: [f64; 4], look: &str) {
    let _ = writeln!(
        out,
        "<rect x=\"{x:.1}\" y=\"{y:.1}\" width=\"{width:.1}\" height=\"{height:.1}\" {look}/>"
    );
}

fn text(out: &mut String, [x, y]: [f64; 2], look: &str, words: &str) {
    let _ = writeln!(out, "<text x=\"{x:.1}\" y=\"{y:.1}\" {look}>{words}</text>");
}
