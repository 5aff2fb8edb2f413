//! Line plots as plain SVG: panels side by side, each with its own axes, and one line for each name.
use std::fmt::Write;

pub struct Panel {
    pub title: String,
    /// What stands on the horizontal axis.
    pub label: &'static str,
    /// The values there, drawn at equal distances.
    pub ticks: Vec<u32>,
    /// For each name a value at every tick.
    pub lines: Vec<Vec<f64>>,
}

/// Grey and dashes of the lines, in the order of the names: colours say what is in the view.
const STROKES: [(&str, &str); 3] = [("#000", "none"), ("#777", "7 4"), ("#777", "2 3")];

const LEFT: f64 = 62.0;
const TOP: f64 = 96.0;
const WIDTH: f64 = 250.0;
const HEIGHT: f64 = 240.0;
const PANEL: f64 = LEFT + WIDTH + 18.0;

/// The least of 1, 2 and 5 times a power of ten of which at most six cover a value.
fn step(most: f64) -> f64 {
    let power = 10f64.powf((most / 6.0).log10().floor());
    [1.0, 2.0, 5.0, 10.0].map(|n| n * power).into_iter().find(|step| step * 6.0 >= most).unwrap()
}

/// A number with its thousands set off.
pub fn grouped(n: u32) -> String {
    if n < 1000 { n.to_string() } else { format!("{},{:03}", grouped(n / 1000), n % 1000) }
}

fn text(out: &mut String, x: f64, y: f64, anchor: &str, more: &str, content: &str) {
    writeln!(out, r#"<text x="{x:.1}" y="{y:.1}" text-anchor="{anchor}"{more}>{content}</text>"#).unwrap();
}

fn line(out: &mut String, points: [f64; 4], more: &str) {
    let [x1, y1, x2, y2] = points;
    writeln!(out, r#"<line x1="{x1:.1}" y1="{y1:.1}" x2="{x2:.1}" y2="{y2:.1}" {more}/>"#).unwrap();
}

fn panel(out: &mut String, panel: &Panel, left: f64, unit: &str) {
    let most = panel.lines.iter().flatten().copied().fold(1.0, f64::max);
    let step = step(most);
    let rows = (most / step).ceil();
    let bottom = TOP + HEIGHT;
    let x = |i: usize| left + WIDTH * (i as f64 + 0.5) / panel.ticks.len() as f64;
    let y = |value: f64| bottom - HEIGHT * value / (rows * step);
    text(out, left + WIDTH / 2.0, TOP - 12.0, "middle", r#" font-weight="bold""#, &panel.title);
    for row in 0..=rows as usize {
        let value = row as f64 * step;
        line(out, [left, y(value), left + WIDTH, y(value)], r##"stroke="#ddd""##);
        text(out, left - 6.0, y(value) + 4.0, "end", "", &grouped(value as u32));
    }
    line(out, [left, TOP, left, bottom], r##"stroke="#333""##);
    line(out, [left, bottom, left + WIDTH, bottom], r##"stroke="#333""##);
    let (turn_x, turn_y) = (left - 46.0, TOP + HEIGHT / 2.0);
    let turned = format!(r#" transform="rotate(-90 {turn_x:.1} {turn_y:.1})""#);
    text(out, turn_x, turn_y, "middle", &turned, unit);
    for (i, tick) in panel.ticks.iter().enumerate() {
        // many are in two rows, as they are wide
        let low = if panel.ticks.len() > 4 { 12.0 * (i % 2) as f64 } else { 0.0 };
        line(out, [x(i), bottom, x(i), bottom + 4.0 + low], r##"stroke="#333""##);
        text(out, x(i), bottom + 15.0 + low, "middle", r#" font-size="10""#, &grouped(*tick));
    }
    text(out, left + WIDTH / 2.0, bottom + 46.0, "middle", "", panel.label);
    for (values, (colour, dashes)) in panel.lines.iter().zip(STROKES) {
        let points: Vec<_> =
            values.iter().enumerate().map(|(i, v)| format!("{:.1},{:.1}", x(i), y(*v))).collect();
        let style = format!(r#"fill="none" stroke="{colour}" stroke-width="2" stroke-dasharray="{dashes}""#);
        writeln!(out, r#"<polyline points="{}" {style}/>"#, points.join(" ")).unwrap();
        for (i, value) in values.iter().enumerate() {
            writeln!(out, r#"<circle cx="{:.1}" cy="{:.1}" r="3" fill="{colour}"/>"#, x(i), y(*value))
                .unwrap();
        }
    }
}

/// A whole picture. The unit is that of the vertical axes, which start at 0.
pub fn svg(title: &str, unit: &str, names: &[&str], panels: &[Panel]) -> String {
    let (width, height) = (PANEL * panels.len() as f64 + 10.0, TOP + HEIGHT + 60.0);
    let mut out = format!(r#"<svg xmlns="http://www.w3.org/2000/svg" viewBox="0 0 {width} {height}""#);
    out += " font-family=\"sans-serif\" font-size=\"12\">\n";
    writeln!(out, r##"<rect width="{width}" height="{height}" fill="#fff"/>"##).unwrap();
    text(&mut out, LEFT, 24.0, "start", r#" font-size="15" font-weight="bold""#, title);
    for (i, (name, (colour, dashes))) in names.iter().zip(STROKES).enumerate() {
        let x = LEFT + 150.0 * i as f64;
        let style = format!(r#"stroke="{colour}" stroke-width="2" stroke-dasharray="{dashes}""#);
        line(&mut out, [x, 48.0, x + 30.0, 48.0], &style);
        text(&mut out, x + 36.0, 52.0, "start", "", name);
    }
    for (i, one) in panels.iter().enumerate() {
        panel(&mut out, one, LEFT + PANEL * i as f64, unit);
    }
    out + "</svg>\n"
}
