//! The measured times drawn as plain SVG: both axes in powers of ten.

use std::fmt::Write;

/// One engine's times: its name, its colour, and points of work and microseconds.
pub struct Line {
    pub name: &'static str,
    pub colour: &'static str,
    pub points: Vec<(f64, f64)>,
}

/// A panel: its title, what its horizontal axis counts, and its lines.
pub struct Panel {
    pub title: &'static str,
    pub work: &'static str,
    pub lines: Vec<Line>,
}

/// The sizes of a panel's field, and where the field begins in its panel.
const WIDTH: f64 = 400.0;
const HEIGHT: f64 = 300.0;
const LEFT: f64 = 70.0;
const TOP: f64 = 50.0;
const PANEL: f64 = LEFT + WIDTH + 40.0;

/// The powers of ten about some numbers, the lowest and the highest.
fn decades(numbers: impl Iterator<Item = f64> + Clone) -> (i32, i32) {
    let least = numbers.clone().fold(f64::INFINITY, f64::min).log10().floor() as i32;
    let most = numbers.fold(0.0, f64::max).log10().ceil() as i32;
    (least, most.max(least + 1))
}

/// How far along an axis of decades a number stands, from 0 to 1.
fn along(number: f64, decades: (i32, i32)) -> f64 {
    (number.log10() - f64::from(decades.0)) / f64::from(decades.1 - decades.0)
}

/// A power of ten in plain digits.
fn label(power: i32) -> String {
    match power {
        0.. => 10f64.powi(power).to_string(),
        _ => format!("{:.*}", -power as usize, 10f64.powi(power)),
    }
}

/// Writes a text at a place.
fn put_text(svg: &mut String, (x, y): (f64, f64), anchor: &str, words: &str) {
    writeln!(svg, r#"<text x="{x:.1}" y="{y:.1}" text-anchor="{anchor}">{words}</text>"#).unwrap();
}

/// Writes a line between two places.
fn put_line(svg: &mut String, from: (f64, f64), to: (f64, f64), colour: &str) {
    let ((a, b), (c, d)) = (from, to);
    writeln!(svg, r#"<line x1="{a:.1}" y1="{b:.1}" x2="{c:.1}" y2="{d:.1}" stroke="{colour}"/>"#).unwrap();
}

/// Writes a panel's grid, axes and words.
fn put_axes(svg: &mut String, panel: &Panel, left: f64, across: (i32, i32), up: (i32, i32)) {
    put_text(svg, (left + WIDTH / 2.0, TOP - 20.0), "middle", panel.title);
    for power in across.0..=across.1 {
        let x = left + WIDTH * along(10f64.powi(power), across);
        put_line(svg, (x, TOP), (x, TOP + HEIGHT), "#ddd");
        put_text(svg, (x, TOP + HEIGHT + 18.0), "middle", &label(power));
    }
    for power in up.0..=up.1 {
        let y = TOP + HEIGHT * (1.0 - along(10f64.powi(power), up));
        put_line(svg, (left, y), (left + WIDTH, y), "#ddd");
        put_text(svg, (left - 8.0, y + 4.0), "end", &label(power));
    }
    put_line(svg, (left, TOP), (left, TOP + HEIGHT), "#000");
    put_line(svg, (left, TOP + HEIGHT), (left + WIDTH, TOP + HEIGHT), "#000");
    put_text(svg, (left + WIDTH / 2.0, TOP + HEIGHT + 40.0), "middle", panel.work);
    let (x, y) = (left - 52.0, TOP + HEIGHT / 2.0);
    writeln!(svg, r#"<text x="{x}" y="{y}" text-anchor="middle" transform="rotate(-90 {x} {y})">microseconds</text>"#)
        .unwrap();
}

/// Writes an engine's points, the line through them and its name at the last.
fn put_points(svg: &mut String, line: &Line, left: f64, at: usize, across: (i32, i32), up: (i32, i32)) {
    let place = |point: &(f64, f64)| (left + WIDTH * along(point.0, across), TOP + HEIGHT * (1.0 - along(point.1, up)));
    let places: Vec<(f64, f64)> = line.points.iter().map(place).collect();
    let path: Vec<String> = places.iter().map(|(x, y)| format!("{x:.1},{y:.1}")).collect();
    let colour = line.colour;
    writeln!(svg, r#"<polyline points="{}" fill="none" stroke="{colour}" stroke-width="2"/>"#, path.join(" ")).unwrap();
    for (x, y) in &places {
        writeln!(svg, r#"<circle cx="{x:.1}" cy="{y:.1}" r="3.5" fill="{colour}"/>"#).unwrap();
    }
    let y = TOP + 20.0 + 20.0 * at as f64;
    put_line(svg, (left + 12.0, y - 4.0), (left + 36.0, y - 4.0), colour);
    put_text(svg, (left + 42.0, y), "start", line.name);
}

/// The panels side by side.
pub fn svg(panels: &[Panel]) -> String {
    let (width, height) = (PANEL * panels.len() as f64, TOP + HEIGHT + 60.0);
    let mut svg = format!(
        "<svg xmlns=\"http://www.w3.org/2000/svg\" viewBox=\"0 0 {width} {height}\" width=\"{width}\" height=\"{height}\" font-family=\"sans-serif\" font-size=\"13\">\n<rect width=\"{width}\" height=\"{height}\" fill=\"#fff\"/>\n"
    );
    for (at, panel) in panels.iter().enumerate() {
        let left = LEFT + PANEL * at as f64;
        let points = || panel.lines.iter().flat_map(|line| line.points.iter());
        let across = decades(points().map(|point| point.0));
        let up = decades(points().map(|point| point.1));
        put_axes(&mut svg, panel, left, across, up);
        for (at, line) in panel.lines.iter().enumerate() {
            put_points(&mut svg, line, left, at, across, up);
        }
    }
    svg + "</svg>\n"
}
