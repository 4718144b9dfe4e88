//! What was measured, as Markdown tables and as a picture.

use crate::timing::{median, Measured};
use std::fmt::Write;

/// Lines that differ from others only by where a replacement is made, by a short output or by a refusal.
fn is_variation(m: &Measured) -> bool {
    ["at the front", "at the end", "short output", "refused"].iter().any(|words| m.on.contains(words))
}

/// The nanoseconds of each call on the longest rows, medians over their shapes, by each version.
fn nanoseconds(all: &[Measured], on: impl Fn(&Measured) -> bool) -> String {
    let mut text = String::from("| call | on | library | Rust | C | strongest C |\n|---|---|---|---|---|---|\n");
    let longest: Vec<&Measured> = all.iter().filter(|m| m.n >= 16384 - 8 && !m.of_rust().is_nan() && on(m)).collect();
    let mut seen: Vec<(&str, &str)> = Vec::new();
    for m in &longest {
        let key = (m.call.as_str(), m.on.as_str());
        if seen.contains(&key) {
            continue;
        }
        seen.push(key);
        let same = longest.iter().filter(|x| (x.call.as_str(), x.on.as_str()) == key);
        let by = [0, 1, 2, 3].map(|by| format!(" {:.0} |", median(same.clone().map(|x| x.ns[by]).collect())));
        writeln!(text, "| {} | {} |{}", m.call, m.on, by.concat()).unwrap();
    }
    text
}

pub fn calls(all: &[Measured]) -> String {
    nanoseconds(all, |m| !m.is_on_file() && !m.is_on_form() && !is_variation(m))
}

pub fn notation(all: &[Measured]) -> String {
    nanoseconds(all, Measured::is_on_form)
}

pub fn files(all: &[Measured]) -> String {
    nanoseconds(all, Measured::is_on_file)
}

/// What hops cost on the longest row of each shape: the ends alone, the same with a list, and a whole build.
pub fn hops(all: &[Measured]) -> String {
    let longest = |call: &str, on: &str, shape: &str| {
        all.iter().find(|m| m.n == 16384 && m.call == call && m.on == on && m.shape == shape).map_or(f64::NAN, |m| m.ns[0])
    };
    let mut text = String::from("| row | by hops | with a list | a build |\n|---|---|---|---|\n");
    for m in all.iter().filter(|m| m.n == 16384 && m.call == "ends") {
        writeln!(text, "| {} | {:.0} | {:.0} | {:.0} |", m.shape, m.ns[0], m.ns[4], longest("build", "accepted", &m.shape)).unwrap();
    }
    text
}

const DRAWN: [(&str, &str, &str); 7] = [
    ("build", "accepted", "#1b6ca8"),
    ("class check", "right classes", "#7f8c8d"),
    ("find", "common root", "#c0392b"),
    ("find", "repeated variables", "#8e44ad"),
    ("variables", "bare X0", "#27864f"),
    ("plain matcher", "bare X0", "#b9770e"),
    ("replace and back", "grow and shrink in the middle", "#34495e"),
];

/// Time against row length, both on logarithmic scales, a line for each call, on random rows.
pub fn lines(all: &[Measured]) -> String {
    let x = |n: f64| 80.0 + (n.log2() - 4.0) / 10.0 * 480.0;
    let y = |ns: f64| 380.0 - (ns.log10() - 1.0) / 5.0 * 340.0;
    let mut svg = String::from("<svg xmlns=\"http://www.w3.org/2000/svg\" viewBox=\"0 0 820 440\" font-family=\"sans-serif\" font-size=\"13\">\n<rect width=\"820\" height=\"440\" fill=\"white\"/>\n");
    for (n, name) in [(16.0, "16"), (256.0, "256"), (1024.0, "1,024"), (4096.0, "4,096"), (16384.0, "16,384")] {
        writeln!(svg, "<path d=\"M{0:.0} 40V380\" stroke=\"#ddd\"/><text x=\"{0:.0}\" y=\"400\" text-anchor=\"middle\">{name}</text>", x(n)).unwrap();
    }
    for (ns, name) in [(10.0, "10 ns"), (100.0, "100 ns"), (1e3, "1 µs"), (1e4, "10 µs"), (1e5, "100 µs"), (1e6, "1 ms")] {
        writeln!(svg, "<path d=\"M80 {0:.0}H560\" stroke=\"#ddd\"/><text x=\"72\" y=\"{1:.0}\" text-anchor=\"end\">{name}</text>", y(ns), y(ns) + 4.0).unwrap();
    }
    svg.push_str("<text x=\"320\" y=\"428\" text-anchor=\"middle\">symbols in the row</text>\n<text x=\"320\" y=\"24\" text-anchor=\"middle\">Time of one call on a random row</text>\n");
    for (k, (call, on, colour)) in DRAWN.into_iter().enumerate() {
        let mut points: Vec<(f64, f64)> = all.iter().filter(|m| m.call == call && m.on == on && m.shape == "random").map(|m| (x(m.n as f64), y(m.ns[0]))).collect();
        points.sort_by(|a, b| a.0.total_cmp(&b.0));
        let path: Vec<String> = points.iter().map(|(a, b)| format!("{a:.1} {b:.1}")).collect();
        writeln!(svg, "<path d=\"M{}\" fill=\"none\" stroke=\"{colour}\" stroke-width=\"2\"/>", path.join("L")).unwrap();
        let at = 60 + 24 * k;
        writeln!(svg, "<path d=\"M576 {at}h24\" stroke=\"{colour}\" stroke-width=\"3\"/><text x=\"608\" y=\"{}\">{call}, {on}</text>", at + 4).unwrap();
    }
    svg.push_str("</svg>\n");
    svg
}
