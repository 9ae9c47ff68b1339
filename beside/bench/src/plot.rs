//! How cost grows, as a picture: nanoseconds for one change, entry or bucket, by how many there are.

use std::fmt::Write;

/// One operation: its name, and for each size ours and the original.
pub struct Curve {
    pub name: &'static str,
    pub points: Vec<(usize, f64, f64)>,
}

const WIDE: f64 = 240.0;
const HIGH: f64 = 180.0;

/// The picture, as SVG: a panel for each curve, both axes by powers.
pub fn svg(curves: &[Curve]) -> String {
    let width = curves.len() as f64 * (WIDE + 60.0) + 20.0;
    let mut out = format!(
        "<svg xmlns=\"http://www.w3.org/2000/svg\" width=\"{width}\" height=\"{}\" font-family=\"sans-serif\" font-size=\"11\">\n\
         <rect width=\"100%\" height=\"100%\" fill=\"white\"/>\n",
        HIGH + 80.0
    );
    for (i, curve) in curves.iter().enumerate() {
        panel(&mut out, curve, 50.0 + i as f64 * (WIDE + 60.0));
    }
    out += "</svg>\n";
    out
}

fn panel(out: &mut String, curve: &Curve, left: f64) {
    let all = || curve.points.iter().flat_map(|p| [p.1, p.2]);
    let (low, high) = (all().fold(f64::MAX, f64::min) / 1.5, all().fold(0.0, f64::max) * 1.5);
    let (first, last) = (curve.points[0].0 as f64, curve.points[curve.points.len() - 1].0 as f64);
    let x = |n: usize| left + (n as f64 / first).log2() / (last / first).log2() * WIDE;
    let y = |v: f64| 30.0 + HIGH - (v / low).log2() / (high / low).log2() * HIGH;
    let text = |out: &mut String, x: f64, y: f64, anchor: &str, colour: &str, s: &str| {
        let _ = writeln!(out, "<text x=\"{x:.1}\" y=\"{y:.1}\" text-anchor=\"{anchor}\" fill=\"{colour}\">{s}</text>");
    };
    let _ =
        writeln!(out, "<rect x=\"{left}\" y=\"30\" width=\"{WIDE}\" height=\"{HIGH}\" fill=\"none\" stroke=\"#888\"/>");
    text(out, left, 20.0, "start", "black", &format!("{}, ns each", curve.name));
    for (colour, name, pick) in [("#1664c0", "ours", 0), ("#c04a16", "original", 1)] {
        let value = |p: &(usize, f64, f64)| if pick == 0 { p.1 } else { p.2 };
        let line: Vec<String> = curve.points.iter().map(|p| format!("{:.1},{:.1}", x(p.0), y(value(p)))).collect();
        let _ = writeln!(
            out,
            "<polyline points=\"{}\" fill=\"none\" stroke=\"{colour}\" stroke-width=\"2\"/>",
            line.join(" ")
        );
        for p in &curve.points {
            let _ = writeln!(out, "<circle cx=\"{:.1}\" cy=\"{:.1}\" r=\"3\" fill=\"{colour}\"/>", x(p.0), y(value(p)));
            text(out, x(p.0), y(value(p)) - 6.0, "middle", colour, &format!("{:.0}", value(p)));
        }
        text(out, left + 60.0 * pick as f64, HIGH + 68.0, "start", colour, name);
    }
    for p in &curve.points {
        text(out, x(p.0), HIGH + 48.0, "middle", "black", &p.0.to_string());
    }
}
