//! The tables of growth as one picture: time a byte against bytes, both by their logarithms. A part has its own mark
//! and colour; ours is solid, and the reference dashed and hollow.

use crate::table::Table;
use crate::task::Label;
use std::fmt::Write;

/// The picture's size, and the area within the axes.
const SIZE: (f64, f64) = (980.0, 560.0);
const LEFT: f64 = 80.0;
const RIGHT: f64 = 640.0;
const TOP: f64 = 30.0;
const BOTTOM: f64 = 490.0;

/// 1 KiB to 16 MiB, with some room at the sides.
const BYTES: (f64, f64) = (9.7, 24.3);

const COLOURS: [&str; 4] = ["#1b5e9e", "#b3450c", "#3c7a1e", "#6d3a8f"];

/// Powers of ten around every time a byte.
struct Scale {
    lowest: i32,
    highest: i32,
}

impl Scale {
    fn of(tables: &[Table]) -> Self {
        let times = tables.iter().flat_map(|table| {
            let sides = 0..table.names.len();
            sides.flat_map(|side| points(table, side))
        });
        let exponents: Vec<f64> = times.map(|(_, time)| time.log10()).collect();
        let least = exponents.iter().copied().fold(f64::INFINITY, f64::min);
        let most = exponents.iter().copied().fold(f64::NEG_INFINITY, f64::max);
        Scale {
            lowest: least.floor() as i32,
            highest: most.ceil() as i32,
        }
    }

    fn height(&self, exponent: f64) -> f64 {
        let share = (exponent - f64::from(self.lowest)) / f64::from(self.highest - self.lowest);
        BOTTOM - share * (BOTTOM - TOP)
    }

    fn place(&self, (bytes, time): (f64, f64)) -> (f64, f64) {
        (across(bytes.log2()), self.height(time.log10()))
    }
}

fn across(exponent: f64) -> f64 {
    LEFT + (exponent - BYTES.0) / (BYTES.1 - BYTES.0) * (RIGHT - LEFT)
}

/// The bytes of each row, and a side's nanoseconds for one of them.
fn points(table: &Table, side: usize) -> Vec<(f64, f64)> {
    let rows = table.rows.iter().filter_map(|row| match row.label {
        Label::Bytes(bytes) => Some((bytes as f64, row.nanoseconds[side] / bytes as f64)),
        Label::Text(_) => None,
    });
    rows.collect()
}

fn text(x: f64, y: f64, anchor: &str, text: &str) -> String {
    format!("<text x=\"{x:.1}\" y=\"{y:.1}\" text-anchor=\"{anchor}\">{text}</text>\n")
}

fn grid(from: (f64, f64), to: (f64, f64)) -> String {
    let ((x1, y1), (x2, y2)) = (from, to);
    format!(
        "<line x1=\"{x1:.1}\" y1=\"{y1:.1}\" x2=\"{x2:.1}\" y2=\"{y2:.1}\" stroke=\"#cccccc\"/>\n"
    )
}

fn axes(scale: &Scale) -> String {
    let mut svg = String::new();
    for exponent in (10..=24).step_by(2) {
        let x = across(f64::from(exponent));
        svg += &grid((x, TOP), (x, BOTTOM));
        let size = match exponent {
            10..20 => format!("{} KiB", 1 << (exponent - 10)),
            _ => format!("{} MiB", 1 << (exponent - 20)),
        };
        svg += &text(x, BOTTOM + 20.0, "middle", &size);
    }
    for exponent in scale.lowest..=scale.highest {
        let y = scale.height(f64::from(exponent));
        svg += &grid((LEFT, y), (RIGHT, y));
        let time = 10f64.powi(exponent).to_string();
        svg += &text(LEFT - 8.0, y + 4.0, "end", &time);
    }
    svg += &text(
        (LEFT + RIGHT) / 2.0,
        BOTTOM + 48.0,
        "middle",
        "bytes of the input",
    );
    let middle = (TOP + BOTTOM) / 2.0;
    let _ = writeln!(
        svg,
        "<text transform=\"translate(20 {middle}) rotate(-90)\" text-anchor=\"middle\">nanoseconds a byte</text>"
    );
    svg
}

/// A mark of the part: a circle, a square, a triangle or a diamond.
fn mark(part: usize, (x, y): (f64, f64)) -> String {
    let corners: &[(f64, f64)] = match part {
        0 => return format!("<circle cx=\"{x:.1}\" cy=\"{y:.1}\" r=\"5\"/>\n"),
        1 => &[(-4.5, -4.5), (4.5, -4.5), (4.5, 4.5), (-4.5, 4.5)],
        2 => &[(0.0, -6.0), (5.5, 4.5), (-5.5, 4.5)],
        _ => &[(0.0, -6.5), (6.5, 0.0), (0.0, 6.5), (-6.5, 0.0)],
    };
    let corners = corners.iter().map(|(dx, dy)| (x + dx, y + dy));
    format!("<polygon points=\"{}\"/>\n", joined(corners))
}

fn joined(points: impl Iterator<Item = (f64, f64)>) -> String {
    let points: Vec<String> = points.map(|(x, y)| format!("{x:.1},{y:.1}")).collect();
    points.join(" ")
}

/// A line with its marks. Hollow marks are larger than ours, which are seen within them where both are in one place.
fn line(part: usize, side: usize, points: &[(f64, f64)]) -> String {
    let colour = COLOURS[part % COLOURS.len()];
    let dashes = if side == 0 { "none" } else { "7 5" };
    let fill = if side == 0 { colour } else { "none" };
    let mut svg = format!("<g stroke=\"{colour}\" stroke-width=\"1.6\" fill=\"{fill}\">\n");
    let _ = writeln!(
        svg,
        "<polyline points=\"{}\" fill=\"none\" stroke-dasharray=\"{dashes}\"/>",
        joined(points.iter().copied())
    );
    for (x, y) in points {
        if side == 0 {
            svg += &mark(part, (*x, *y));
        } else {
            let _ = writeln!(
                svg,
                "<g transform=\"translate({x:.1} {y:.1}) scale(1.6)\">{}</g>",
                mark(part, (0.0, 0.0)).trim_end()
            );
        }
    }
    svg + "</g>\n"
}

fn legend(part: usize, table: &Table) -> String {
    let top = TOP + 20.0 + 100.0 * part as f64;
    let title = table.heading.title.trim_start_matches("Growth of ");
    let mut svg = format!(
        "<g font-weight=\"bold\">{}</g>\n",
        text(RIGHT + 25.0, top, "start", title)
    );
    for (side, name) in table.names.iter().enumerate() {
        let y = top + 26.0 + 28.0 * side as f64;
        svg += &line(part, side, &[(RIGHT + 30.0, y), (RIGHT + 85.0, y)]);
        svg += &text(RIGHT + 103.0, y + 4.0, "start", name);
    }
    svg
}

pub fn svg(tables: &[Table]) -> String {
    let scale = Scale::of(tables);
    let (width, height) = SIZE;
    let mut svg = format!(
        "<svg xmlns=\"http://www.w3.org/2000/svg\" viewBox=\"0 0 {width} {height}\" width=\"{width}\" height=\"{height}\" \
         font-family=\"sans-serif\" font-size=\"13\">\n<rect width=\"{width}\" height=\"{height}\" fill=\"white\"/>\n"
    );
    svg += &axes(&scale);
    for (part, table) in tables.iter().enumerate() {
        for side in 0..table.names.len() {
            let places: Vec<_> = points(table, side)
                .into_iter()
                .map(|point| scale.place(point))
                .collect();
            svg += &line(part, side, &places);
        }
        svg += &legend(part, table);
    }
    svg + "</svg>\n"
}
