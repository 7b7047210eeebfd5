//! The plot: bars of the ratios, and time per row against rows, both to logarithmic scales.

use std::fmt::Write;

use crate::measure::Measured;
use crate::report::{digits, families, thousands, PerRow};
use crate::workload::Group;

const WIDTH: f64 = 960.0;
/// Where bars and lines begin and end.
const LEFT: f64 = 330.0;
const RIGHT: f64 = 880.0;
/// Height of a bar with its gap.
const BAR: f64 = 20.0;
/// Space above the bars for title and axis.
const TOP: f64 = 76.0;
/// Height of the lower plot, without its labels.
const LINES: f64 = 260.0;

const SLOWER: &str = "#d55e00";
const FASTER: &str = "#0072b2";
/// Of the lines, one for each pair.
const COLOURS: [&str; 2] = ["#00795b", "#8e3b8a"];

/// A logarithmic scale from one power of ten to another, onto pixels.
struct Scale {
    low: i32,
    high: i32,
    from: f64,
    to: f64,
}

impl Scale {
    /// The powers of ten around some values.
    fn around(values: impl Iterator<Item = f64>, from: f64, to: f64) -> Scale {
        let (mut low, mut high) = (f64::INFINITY, 0.0f64);
        for value in values {
            low = low.min(value);
            high = high.max(value);
        }
        Scale {
            low: low.log10().floor() as i32,
            high: high.log10().ceil() as i32,
            from,
            to,
        }
    }

    fn at(&self, value: f64) -> f64 {
        let share = (value.log10() - f64::from(self.low)) / f64::from(self.high - self.low);
        self.from + share * (self.to - self.from)
    }

    /// The powers of ten with their pixels.
    fn marks(&self) -> impl Iterator<Item = (String, f64)> + '_ {
        (self.low..=self.high).map(|power| {
            let value = 10f64.powi(power);
            let label = match power {
                i32::MIN..=-1 => format!("{value:.*}", power.unsigned_abs() as usize),
                _ => thousands(value as usize),
            };
            (label, self.at(value))
        })
    }
}

/// Text as SVG wants it.
fn escaped(text: &str) -> String {
    text.replace('&', "&amp;")
        .replace('<', "&lt;")
        .replace('>', "&gt;")
}

struct Drawing(String);

impl Drawing {
    fn line(&mut self, (x1, y1): (f64, f64), (x2, y2): (f64, f64), colour: &str, width: f64) {
        let _ = writeln!(
            self.0,
            r#"<line x1="{x1:.1}" y1="{y1:.1}" x2="{x2:.1}" y2="{y2:.1}" stroke="{colour}" stroke-width="{width}"/>"#
        );
    }

    /// Text that starts, ends or has its middle at a point; `style` has further attributes.
    fn text(&mut self, (x, y): (f64, f64), anchor: &str, style: &str, text: &str) {
        let _ = writeln!(
            self.0,
            r#"<text x="{x:.1}" y="{y:.1}" text-anchor="{anchor}" {style}>{}</text>"#,
            escaped(text)
        );
    }

    fn bar(&mut self, from: f64, to: f64, y: f64, colour: &str) {
        let (x, width) = (from.min(to), (from - to).abs());
        let _ = writeln!(
            self.0,
            r#"<rect x="{x:.1}" y="{y:.1}" width="{width:.1}" height="{:.1}" fill="{colour}"/>"#,
            BAR - 6.0
        );
    }
}

const TITLE: &str = r#"font-size="15" font-weight="bold""#;
const HEADING: &str = r#"font-weight="bold""#;
const SMALL: &str = r##"font-size="11" fill="#555""##;

/// Is the benchmark one of the upper plot? Of a pair searched with several row lists, the longest is.
fn has_bar(measured: &[Measured], at: usize) -> bool {
    let group = measured[at].compared.benchmark.group;
    let next = measured.get(at + 1).map(|one| one.compared.benchmark.group);
    !matches!(group, Group::Rows(_)) || next != Some(group)
}

/// The bars, and where they end.
fn bars(drawing: &mut Drawing, measured: &[Measured]) -> f64 {
    let shown: Vec<&Measured> = (0..measured.len())
        .filter(|&at| has_bar(measured, at))
        .map(|at| &measured[at])
        .collect();
    // the line at 1 is always there
    let ratios = shown.iter().map(|one| one.ratio()).chain([1.0, 1.1]);
    let scale = Scale::around(ratios, LEFT, RIGHT);
    let one = scale.at(1.0);
    let mut groups: Vec<&str> = shown
        .iter()
        .map(|one| one.compared.benchmark.group.name())
        .collect();
    groups.dedup();
    let bottom = TOP + BAR * (shown.len() + groups.len()) as f64;

    drawing.text(
        (20.0, 28.0),
        "start",
        TITLE,
        "Time of the library to time of the second implementation",
    );
    drawing.text(
        (20.0, 46.0),
        "start",
        SMALL,
        "logarithmic scale; right of 1 the library is slower",
    );
    for (label, x) in scale.marks() {
        drawing.line((x, TOP - 6.0), (x, bottom), "#ddd", 1.0);
        drawing.text((x, TOP - 10.0), "middle", SMALL, &label);
    }
    let mut y = TOP;
    let mut group = "";
    for measured in shown {
        let benchmark = &measured.compared.benchmark;
        if benchmark.group.name() != group {
            group = benchmark.group.name();
            drawing.text((20.0, y + 13.0), "start", HEADING, group);
            y += BAR;
        }
        let ratio = measured.ratio();
        let x = scale.at(ratio);
        let colour = if ratio > 1.0 { SLOWER } else { FASTER };
        drawing.text((LEFT - 8.0, y + 13.0), "end", "", &benchmark.name);
        drawing.bar(one, x, y + 2.0, colour);
        drawing.text((x.max(one) + 5.0, y + 13.0), "start", SMALL, &digits(ratio));
        y += BAR;
    }
    drawing.line((one, TOP - 6.0), (one, bottom), "#000", 1.5);
    bottom
}

/// One line of the lower plot with its dots.
fn curve(drawing: &mut Drawing, points: &[(f64, f64)], colour: &str, dashed: bool) {
    let path: Vec<String> = points
        .iter()
        .map(|(x, y)| format!("{x:.1},{y:.1}"))
        .collect();
    let dashes = if dashed {
        r#" stroke-dasharray="5 4""#
    } else {
        ""
    };
    let _ = writeln!(
        drawing.0,
        r#"<polyline points="{}" fill="none" stroke="{colour}" stroke-width="2"{dashes}/>"#,
        path.join(" ")
    );
    for (x, y) in points {
        let _ = writeln!(
            drawing.0,
            r#"<circle cx="{x:.1}" cy="{y:.1}" r="3" fill="{colour}"/>"#
        );
    }
}

/// Time per row, from `top` on, and where it ends.
fn lines(drawing: &mut Drawing, measured: &[Measured], top: f64) -> f64 {
    let families = families(measured);
    let points = || families.iter().flat_map(|family| &family.1);
    let (from, to) = (top + 62.0, top + 62.0 + LINES);
    let right = RIGHT - 90.0;
    let across = Scale::around(points().map(|p| p.rows as f64), 90.0, right);
    let up = Scale::around(points().flat_map(|p| [p.library, p.second]), to, from);

    drawing.text(
        (20.0, top + 16.0),
        "start",
        TITLE,
        "Microseconds a row handled, against rows listed",
    );
    drawing.text(
        (20.0, top + 34.0),
        "start",
        SMALL,
        "both scales logarithmic; solid the library, dashed the second implementation",
    );
    for (label, x) in across.marks() {
        drawing.line((x, from), (x, to), "#ddd", 1.0);
        drawing.text((x, to + 18.0), "middle", SMALL, &label);
    }
    for (label, y) in up.marks() {
        drawing.line((90.0, y), (right, y), "#ddd", 1.0);
        drawing.text((82.0, y + 4.0), "end", SMALL, &label);
    }
    drawing.text(
        ((90.0 + right) / 2.0, to + 36.0),
        "middle",
        SMALL,
        "rows listed",
    );
    drawing.text((82.0, from - 12.0), "end", SMALL, "µs");
    let mut labels = Vec::new();
    for ((name, line), colour) in families.iter().zip(COLOURS.iter().cycle()) {
        for (dashed, of) in [
            (false, (|p| p.library) as fn(&PerRow) -> f64),
            (true, |p| p.second),
        ] {
            let points: Vec<(f64, f64)> = line
                .iter()
                .map(|p| (across.at(p.rows as f64), up.at(of(p))))
                .collect();
            curve(drawing, &points, colour, dashed);
            labels.extend(points.last().map(|&(x, y)| (x, y, name, colour)));
        }
    }
    // where lines end close to each other, the lower label gives way
    labels.sort_by(|one, other| one.1.total_cmp(&other.1));
    let mut free = from;
    for (x, y, name, colour) in labels {
        let y = y.max(free);
        let style = format!(r#"font-size="11" fill="{colour}""#);
        drawing.text((x + 8.0, y + 4.0), "start", &style, name);
        free = y + 13.0;
    }
    to + 50.0
}

/// benchmarks.svg.
pub fn svg(measured: &[Measured]) -> String {
    let mut drawing = Drawing(String::new());
    let bars_end = bars(&mut drawing, measured);
    let height = lines(&mut drawing, measured, bars_end + 30.0);
    format!(
        r##"<svg xmlns="http://www.w3.org/2000/svg" width="{WIDTH}" height="{height:.0}" viewBox="0 0 {WIDTH} {height:.0}" font-family="Helvetica, Arial, sans-serif" font-size="12" fill="#222">
<rect width="100%" height="100%" fill="#fff"/>
{}</svg>
"##,
        drawing.0
    )
}
