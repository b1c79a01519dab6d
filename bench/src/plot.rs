//! The plot: time against entries, both by powers, a panel for each call.
use crate::by_size::Row;
use std::fmt::Write;

const PANELS: [&str; 6] = ["get", "insert", "remove", "step", "compare", "walk over all"];
const COLORS: [&str; 4] = ["#1b6ca8", "#e0a100", "#8a3ffc", "#2a9d4a"];
const RPDS_COLOR: &str = "#c4452c";
const TEST_COLOR: &str = "#888888";

const COLUMNS: usize = 3;
const WIDTH: f64 = 300.0;
const HEIGHT: f64 = 240.0;
const LEFT: f64 = 64.0;
const TOP: f64 = 56.0;
const GAP_X: f64 = 70.0;
const GAP_Y: f64 = 66.0;

/// The powers of ten of nanoseconds at the foot and at the top of a panel.
const LOW: f64 = 0.0;
const HIGH: f64 = 8.0;

/// A line of a panel: its points in nanoseconds, by the sizes.
struct Line<'a> {
    color: &'a str,
    dashes: &'a str,
    points: Vec<f64>,
}

/// The table whose lines of the test and of rpds are drawn: the first in which two versions are compared.
const OTHERS: usize = 1;

/// Every table is a line of ours.
pub fn draw(sizes: &[usize], tables: &[(&str, &Vec<Row>)]) -> String {
    let rows = PANELS.len().div_ceil(COLUMNS);
    let (width, height) = (LEFT + COLUMNS as f64 * (WIDTH + GAP_X), TOP + rows as f64 * (HEIGHT + GAP_Y));
    let mut svg = format!(
        "<svg xmlns=\"http://www.w3.org/2000/svg\" viewBox=\"0 0 {width} {height}\" font-family=\"sans-serif\" font-size=\"12\">\n\
         <rect width=\"{width}\" height=\"{height}\" fill=\"white\"/>\n"
    );
    legend(&mut svg, tables);
    for (place, name) in PANELS.iter().enumerate() {
        let x = LEFT + (place % COLUMNS) as f64 * (WIDTH + GAP_X);
        let y = TOP + (place / COLUMNS) as f64 * (HEIGHT + GAP_Y);
        panel(&mut svg, (x, y), name, sizes, tables);
    }
    svg.push_str("</svg>\n");
    svg
}

fn legend(svg: &mut String, tables: &[(&str, &Vec<Row>)]) {
    let ours = tables.iter().zip(COLORS).map(|((name, _), color)| (format!("ours, {name}"), color));
    let others = [(String::from("the test alone, 3 versions"), TEST_COLOR), (String::from("rpds"), RPDS_COLOR)];
    for (place, (name, color)) in ours.chain(others).enumerate() {
        let x = LEFT + 185.0 * place as f64;
        put(svg, format_args!("<rect x=\"{x}\" y=\"12\" width=\"22\" height=\"4\" fill=\"{color}\"/>"));
        put(svg, format_args!("<text x=\"{}\" y=\"19\">{name}</text>", x + 28.0));
    }
}

fn panel(svg: &mut String, at: (f64, f64), name: &str, sizes: &[usize], tables: &[(&str, &Vec<Row>)]) {
    axes(svg, at, name, sizes);
    let times = |table: &Vec<Row>| table.iter().find(|row| row.0 == name).map(|row| row.1.clone()).unwrap_or_default();
    let others = times(tables[OTHERS].1);
    let ours = tables.iter().zip(COLORS).map(|((_, table), color)| Line {
        color,
        dashes: "none",
        points: times(table).iter().map(|t| t.now().call).collect(),
    });
    let rpds = Line { color: RPDS_COLOR, dashes: "none", points: others.iter().map(|t| t.rpds).collect() };
    // The test comes last, in dashes, as it hides a line of ours otherwise.
    let test = Line { color: TEST_COLOR, dashes: "3 5", points: others.iter().map(|t| t.now().test).collect() };
    let lines: Vec<Line> = ours.chain([rpds, test]).collect();
    for line in &lines {
        let points: Vec<(f64, f64)> =
            sizes.iter().zip(&line.points).map(|(size, nanos)| (x_of(at, sizes, *size), y_of(at, *nanos))).collect();
        let path: Vec<String> = points.iter().map(|(x, y)| format!("{x:.1},{y:.1}")).collect();
        let (color, dashes) = (line.color, line.dashes);
        put(
            svg,
            format_args!(
                "<polyline points=\"{}\" fill=\"none\" stroke=\"{color}\" stroke-width=\"2\" stroke-dasharray=\"{dashes}\"/>",
                path.join(" ")
            ),
        );
        for (x, y) in points {
            put(svg, format_args!("<circle cx=\"{x:.1}\" cy=\"{y:.1}\" r=\"3\" fill=\"{color}\"/>"));
        }
    }
}

fn axes(svg: &mut String, at: (f64, f64), name: &str, sizes: &[usize]) {
    let (x, y) = at;
    put(svg, format_args!("<text x=\"{x}\" y=\"{}\" font-weight=\"bold\">{name}</text>", y - 8.0));
    put(
        svg,
        format_args!(
            "<rect x=\"{x}\" y=\"{y}\" width=\"{WIDTH}\" height=\"{HEIGHT}\" fill=\"none\" stroke=\"#444444\"/>"
        ),
    );
    for power in LOW as i32..=HIGH as i32 {
        let tick = y_of(at, 10f64.powi(power));
        let label = ["1 ns", "10 ns", "100 ns", "1 µs", "10 µs", "100 µs", "1 ms", "10 ms", "100 ms"][power as usize];
        put(svg, format_args!("<path d=\"M{x} {tick:.1}h{WIDTH}\" stroke=\"#dddddd\"/>"));
        put(svg, format_args!("<text x=\"{}\" y=\"{:.1}\" text-anchor=\"end\">{label}</text>", x - 6.0, tick + 4.0));
    }
    for size in sizes {
        let (tick, foot) = (x_of(at, sizes, *size), y + HEIGHT + 16.0);
        // 1,024 and 2,000 stand close to each other.
        let anchor = if *size == 1024 { "end" } else { "middle" };
        put(svg, format_args!("<text x=\"{tick:.1}\" y=\"{foot:.1}\" text-anchor=\"{anchor}\">{size}</text>"));
    }
    let middle = x + WIDTH / 2.0;
    put(svg, format_args!("<text x=\"{middle}\" y=\"{:.1}\" text-anchor=\"middle\">entries</text>", y + HEIGHT + 32.0));
}

fn x_of((x, _): (f64, f64), sizes: &[usize], size: usize) -> f64 {
    let (least, most) = ((sizes[0] as f64).ln(), (sizes[sizes.len() - 1] as f64).ln());
    x + 12.0 + (WIDTH - 24.0) * ((size as f64).ln() - least) / (most - least)
}

fn y_of((_, y): (f64, f64), nanos: f64) -> f64 {
    y + HEIGHT * (HIGH - nanos.max(1.0).log10()) / (HIGH - LOW)
}

fn put(svg: &mut String, element: std::fmt::Arguments) {
    writeln!(svg, "{element}").expect("a string takes all");
}
