//! The two pictures: bars of the ratios, and times against sizes.

use crate::timing::Row;
use crate::Grown;
use std::fmt::Write;
use std::time::Duration;

const LIBRARY: &str = "#286";
const TWIN: &str = "#c75";
const GREY: &str = "#999";

fn svg(width: usize, height: usize, inside: &str) -> String {
    format!(
        "<svg xmlns=\"http://www.w3.org/2000/svg\" width=\"{width}\" height=\"{height}\" font-family=\"sans-serif\" font-size=\"13\">\n\
         <rect width=\"{width}\" height=\"{height}\" fill=\"white\"/>\n{inside}</svg>\n"
    )
}

fn text(x: f64, y: f64, anchor: &str, text: &str) -> String {
    format!("<text x=\"{x:.1}\" y=\"{y:.1}\" text-anchor=\"{anchor}\">{text}</text>\n")
}

fn line(from: (f64, f64), to: (f64, f64), colour: &str) -> String {
    format!("<line x1=\"{:.1}\" y1=\"{:.1}\" x2=\"{:.1}\" y2=\"{:.1}\" stroke=\"{colour}\"/>\n", from.0, from.1, to.0, to.1)
}

/// Bars of the ratios on a scale from 0, with the line at 1, where both take the same time; the numbers stand beside the scale.
pub fn speed(rows: &[&Row]) -> String {
    let (left, unit, top) = (290.0, 280.0, 50.0);
    let bottom = top + 26.0 * rows.len() as f64;
    let most = rows.iter().map(|row| row.ratio()).fold(1.2, f64::max);
    let mut out = text(left, 18.0, "start", "time of the library, the twin's = 1 (shorter is faster)");
    for tick in 0..=(most * 4.0) as usize {
        let x = left + unit * tick as f64 / 4.0;
        out += &text(x, 40.0, "middle", &format!("{}", tick as f64 / 4.0));
        out += &line((x, top - 6.0), (x, bottom), if tick == 4 { "black" } else { "#ddd" });
    }
    for (at, row) in rows.iter().enumerate() {
        let y = top + 26.0 * at as f64;
        let colour = if row.ratio() <= 1.0 { LIBRARY } else { TWIN };
        out += &text(left - 10.0, y + 14.0, "end", &row.name);
        let _ = writeln!(out, "<rect x=\"{left}\" y=\"{y}\" width=\"{:.0}\" height=\"18\" fill=\"{colour}\"/>", row.ratio() * unit);
        out += &text(left + most * unit + 50.0, y + 14.0, "end", &format!("{:.2}", row.ratio()));
    }
    out += &line((left + unit, top - 6.0), (left + unit, bottom), "black");
    svg((left + most * unit + 60.0) as usize, bottom as usize + 10, &out)
}

/// A logarithmic scale from `low` to `high` that is so many pixels long.
struct Scale {
    low: f64,
    high: f64,
    pixels: f64,
}

impl Scale {
    fn at(&self, value: f64) -> f64 {
        (value / self.low).ln() / (self.high / self.low).ln() * self.pixels
    }
}

/// A panel for each growth, both scales logarithmic. The grey line is linear growth from where the library starts.
fn panel((growth, rows): &Grown, left: f64, top: f64) -> String {
    let side = 170.0;
    let (first, last) = (growth.sizes[0] as f64, growth.sizes[growth.sizes.len() - 1] as f64);
    let times = || rows.iter().flat_map(|row| [row.library, row.other]).map(|time| time.as_secs_f64());
    let start = rows[0].library.as_secs_f64();
    let low = times().fold(start, f64::min);
    let high = times().fold(start * last / first, f64::max);
    let (across, up) = (Scale { low: first, high: last, pixels: side }, Scale { low, high, pixels: side });
    let point = |size: f64, time: f64| (left + across.at(size), top + side - up.at(time));
    let mut out = text(left, top - 8.0, "start", growth.name);
    out += &text(left, top + side + 16.0, "start", &first.to_string());
    out += &text(left + side / 2.0, top + side + 30.0, "middle", &format!("{}, logarithmic", growth.by));
    out += &text(left + side, top + side + 16.0, "end", &last.to_string());
    out += &text(left - 6.0, top + side, "end", &format!("{:.1} µs", low * 1e6));
    out += &text(left - 6.0, top + 10.0, "end", &format!("{:.0} µs", high * 1e6));
    let (x, y) = (left - 12.0, top + side / 2.0);
    let _ = writeln!(out, "<text x=\"{x}\" y=\"{y}\" text-anchor=\"middle\" transform=\"rotate(-90 {x} {y})\">time, logarithmic</text>");
    let _ = writeln!(out, "<rect x=\"{left}\" y=\"{top}\" width=\"{side}\" height=\"{side}\" fill=\"none\" stroke=\"{GREY}\"/>");
    out += &line(point(first, start), point(last, start * last / first), GREY);
    for (colour, dashes, time) in [(LIBRARY, "none", (|r| r.library) as fn(&Row) -> Duration), (TWIN, "4 3", |r| r.other)] {
        let place = |(size, row): (&usize, &Row)| {
            let (x, y) = point(*size as f64, time(row).as_secs_f64());
            format!("{x:.1},{y:.1}")
        };
        let points = growth.sizes.iter().zip(*rows).map(place).collect::<Vec<_>>().join(" ");
        let _ = writeln!(
            out,
            "<polyline points=\"{points}\" fill=\"none\" stroke=\"{colour}\" stroke-width=\"2\" stroke-dasharray=\"{dashes}\"/>"
        );
    }
    out
}

/// The panels of all growths, three in a row.
pub fn growth(all: &[Grown]) -> String {
    let said = "time against size; green, whole: the library; red, broken: the twin; grey: linear growth";
    let mut out = text(80.0, 18.0, "start", said);
    for (at, grown) in all.iter().enumerate() {
        out += &panel(grown, 80.0 + 260.0 * (at % 3) as f64, 50.0 + 250.0 * (at / 3) as f64);
    }
    svg(800, 50 + 250 * all.len().div_ceil(3), &out)
}
