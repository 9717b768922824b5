// A picture of costs as SVG: panels side by side, each with a line for each series over the numbers of names, which go up by factors.
use std::fmt::Write;

const WIDTH: f64 = 420.0;
const HEIGHT: f64 = 300.0;
const LEFT: f64 = 55.0;
const TOP: f64 = 40.0;
const COLOURS: [&str; 3] = ["#1b6ca8", "#c1440e", "#4a7c2c"];

/// A series: its name, and for each number of names the nanoseconds of one of them.
pub struct Series {
    pub name: &'static str,
    pub costs: Vec<(usize, f64)>,
}

pub struct Panel {
    pub title: &'static str,
    pub series: Vec<Series>,
}

// The highest value of the axis: a round number above all costs.
fn top(panel: &Panel) -> f64 {
    let most = panel.series.iter().flat_map(|series| &series.costs).map(|&(_, cost)| cost).fold(1.0, f64::max);
    let steps = [20.0, 50.0, 100.0, 150.0, 200.0, 300.0, 500.0, 1000.0, 2000.0];
    steps.into_iter().find(|&step| most <= step).unwrap_or(most)
}

fn axes(svg: &mut String, panel: &Panel, x: &dyn Fn(usize) -> f64, y: &dyn Fn(f64) -> f64, at: f64) {
    let high = top(panel);
    for i in 0..=4 {
        let value = high * i as f64 / 4.0;
        let _ = writeln!(svg, r##"<line x1="{}" y1="{1}" x2="{2}" y2="{1}" stroke="#ddd"/>"##, at + LEFT, y(value), at + LEFT + WIDTH - 90.0);
        let _ = writeln!(svg, r#"<text x="{}" y="{}" text-anchor="end">{value:.0} ns</text>"#, at + LEFT - 6.0, y(value) + 4.0);
    }
    for &(n, _) in panel.series.first().map_or(&[][..], |series| &series.costs) {
        let _ = writeln!(svg, r#"<text x="{}" y="{}" text-anchor="middle">{}</text>"#, x(n), y(0.0) + 18.0, short(n));
    }
    let _ = writeln!(svg, r#"<text x="{}" y="20" font-weight="bold">{}</text>"#, at + LEFT, panel.title);
}

// A number of names: 4096 is 4k, 1048576 is 1M.
fn short(n: usize) -> String {
    match n {
        n if n >= 1 << 20 => format!("{}M", n >> 20),
        n if n >= 1 << 10 => format!("{}k", n >> 10),
        n => n.to_string(),
    }
}

fn panel(svg: &mut String, panel: &Panel, at: f64) {
    let numbers: Vec<usize> = panel.series.iter().flat_map(|series| &series.costs).map(|&(n, _)| n).collect();
    let (Some(&least), Some(&most)) = (numbers.iter().min(), numbers.iter().max()) else { return };
    let span = (most as f64 / least as f64).log2().max(1.0);
    let x = move |n: usize| at + LEFT + 12.0 + (n as f64 / least as f64).log2() / span * (WIDTH - 120.0);
    let high = top(panel);
    let y = move |cost: f64| TOP + (HEIGHT - 80.0) * (1.0 - cost / high);
    axes(svg, panel, &x, &y, at);
    for (series, colour) in panel.series.iter().zip(COLOURS) {
        let points: Vec<String> = series.costs.iter().map(|&(n, cost)| format!("{:.1},{:.1}", x(n), y(cost))).collect();
        let _ = writeln!(svg, r#"<polyline points="{}" fill="none" stroke="{colour}" stroke-width="2"/>"#, points.join(" "));
        for &(n, cost) in &series.costs {
            let _ = writeln!(svg, r#"<circle cx="{:.1}" cy="{:.1}" r="3" fill="{colour}"/>"#, x(n), y(cost));
        }
    }
    for (i, (series, colour)) in panel.series.iter().zip(COLOURS).enumerate() {
        let _ = writeln!(svg, r#"<text x="{}" y="{}" fill="{colour}">{}</text>"#, at + LEFT + 16.0, TOP + 14.0 + 16.0 * i as f64, series.name);
    }
}

/// The picture of these panels.
pub fn svg(panels: &[Panel]) -> String {
    let mut svg = format!(
        "<svg xmlns=\"http://www.w3.org/2000/svg\" width=\"{0}\" height=\"{HEIGHT}\" viewBox=\"0 0 {0} {HEIGHT}\" \
         font-family=\"sans-serif\" font-size=\"12\">\n<rect width=\"100%\" height=\"100%\" fill=\"white\"/>\n",
        WIDTH * panels.len() as f64
    );
    for (i, it) in panels.iter().enumerate() {
        panel(&mut svg, it, WIDTH * i as f64);
    }
    svg + "</svg>\n"
}
