//! A growth as an SVG drawing: two lines over a common scale.

use crate::timing::Pair;

/// Size of the drawing, and of the part that holds the lines.
const WIDTH: f64 = 640.0;
const HEIGHT: f64 = 400.0;
const LEFT: f64 = 80.0;
const RIGHT: f64 = 620.0;
const TOP: f64 = 50.0;
const BOTTOM: f64 = 340.0;
/// Marks of each scale.
const MARKS: u32 = 4;

/// A line: its name, colour and points.
struct Line {
    name: &'static str,
    colour: &'static str,
    points: Vec<(f64, f64)>,
}

/// Where a value stands between two ends.
fn between(value: f64, most: f64, start: f64, end: f64) -> f64 {
    start + (end - start) * value / most
}

/// A scale's end: the greatest value rounded up to one, two or five of its power of ten.
fn round_up(value: f64) -> f64 {
    let power = 10f64.powf(value.max(1.0).log10().floor());
    let steps = [1.0, 2.0, 5.0, 10.0];
    let fits = steps.iter().find(|step| value <= *step * power);
    fits.unwrap_or(&10.0) * power
}

/// A text at a place.
fn text(x: f64, y: f64, anchor: &str, size: u32, words: &str) -> String {
    format!(
        "<text x=\"{x:.1}\" y=\"{y:.1}\" text-anchor=\"{anchor}\" font-size=\"{size}\">{words}</text>\n"
    )
}

/// A straight line.
fn rule(x1: f64, y1: f64, x2: f64, y2: f64, colour: &str) -> String {
    format!(
        "<line x1=\"{x1:.1}\" y1=\"{y1:.1}\" x2=\"{x2:.1}\" y2=\"{y2:.1}\" stroke=\"{colour}\"/>\n"
    )
}

/// A number of nanoseconds in a fitting unit.
fn duration(ns: f64) -> String {
    if ns >= 1_000_000.0 {
        format!("{} ms", ns / 1_000_000.0)
    } else if ns >= 1_000.0 {
        format!("{} µs", ns / 1_000.0)
    } else {
        format!("{ns} ns")
    }
}

/// The marks of both scales.
fn scales(most_x: f64, most_y: f64) -> String {
    let mut out = String::new();
    for mark in 0..=MARKS {
        let part = f64::from(mark) / f64::from(MARKS);
        let y = between(part, 1.0, BOTTOM, TOP);
        out += &rule(LEFT, y, RIGHT, y, "#dddddd");
        out += &text(LEFT - 6.0, y + 4.0, "end", 12, &duration(most_y * part));
        let x = between(part, 1.0, LEFT, RIGHT);
        let value = format!("{}", most_x * part);
        out += &text(x, BOTTOM + 18.0, "middle", 12, &value);
    }
    out + &rule(LEFT, BOTTOM, RIGHT, BOTTOM, "#444444") + &rule(LEFT, TOP, LEFT, BOTTOM, "#444444")
}

/// A line with a dot at each point, and its name in the legend.
fn line(line: &Line, number: usize, most_x: f64, most_y: f64) -> String {
    let colour = line.colour;
    let place = |(x, y): &(f64, f64)| {
        (
            between(*x, most_x, LEFT, RIGHT),
            between(*y, most_y, BOTTOM, TOP),
        )
    };
    let places: Vec<(f64, f64)> = line.points.iter().map(place).collect();
    let corners: Vec<String> = places
        .iter()
        .map(|(x, y)| format!("{x:.1},{y:.1}"))
        .collect();
    let mut out = format!(
        "<polyline points=\"{}\" fill=\"none\" stroke=\"{colour}\" stroke-width=\"2\"/>\n",
        corners.join(" ")
    );
    for (x, y) in places {
        out += &format!("<circle cx=\"{x:.1}\" cy=\"{y:.1}\" r=\"3\" fill=\"{colour}\"/>\n");
    }
    let x = LEFT + 10.0 + 130.0 * number as f64;
    out += &format!("<rect x=\"{x:.1}\" y=\"34\" width=\"12\" height=\"4\" fill=\"{colour}\"/>\n");
    out + &text(x + 18.0, 40.0, "start", 12, line.name)
}

/// The drawing of a growth.
pub fn draw(title: &str, unit: &str, points: &[(u32, Pair)]) -> String {
    let side = |name, colour, of: fn(&Pair) -> f64| Line {
        name,
        colour,
        points: points.iter().map(|(n, p)| (f64::from(*n), of(p))).collect(),
    };
    let lines = [
        side("ours", "#1f5fa8", |p| p.ours),
        side("the Rust", "#b5471b", |p| p.rust),
    ];
    let all = lines.iter().flat_map(|line| &line.points);
    let (most_x, most_y) = all.fold((1.0f64, 1.0f64), |(a, b), (x, y)| (a.max(*x), b.max(*y)));
    let most_y = round_up(most_y);
    let mut out = format!(
        "<svg xmlns=\"http://www.w3.org/2000/svg\" width=\"{WIDTH}\" height=\"{HEIGHT}\" \
         viewBox=\"0 0 {WIDTH} {HEIGHT}\" font-family=\"sans-serif\">\n\
         <rect width=\"100%\" height=\"100%\" fill=\"white\"/>\n"
    );
    out += &text(WIDTH / 2.0, 22.0, "middle", 16, title);
    out += &scales(most_x, most_y);
    for (number, drawn) in lines.iter().enumerate() {
        out += &line(drawn, number, most_x, most_y);
    }
    out += &text((LEFT + RIGHT) / 2.0, BOTTOM + 40.0, "middle", 13, unit);
    out + "</svg>\n"
}

#[cfg(test)]
mod tests {
    use super::*;

    #[test]
    fn a_scale_ends_at_or_above_its_greatest_value() {
        for (value, end) in [(1.0, 1.0), (1.5, 2.0), (230.0, 500.0), (999.0, 1000.0)] {
            assert_eq!(round_up(value), end);
        }
    }

    #[test]
    fn both_lines_are_drawn_inside() {
        let pair = |ours: f64, rust: f64| Pair { ours, rust };
        let points = [(0, pair(0.0, 100.0)), (10, pair(50.0, 400.0))];
        let drawn = draw("A title", "things", &points);
        assert!(
            drawn.contains("points=\"80.0,340.0 620.0,311.0\""),
            "{drawn}"
        );
        assert!(
            drawn.contains("points=\"80.0,282.0 620.0,108.0\""),
            "{drawn}"
        );
        assert!(drawn.contains(">500 ns<") && drawn.contains(">things<"));
    }
}
