//! The plot: a panel for each call, times against rows, both axes logarithmic, drawn without any library.
use crate::table::Row;
use std::fmt::Write;

const WIDE: f64 = 300.0;
const HIGH: f64 = 210.0;
const LEFT: f64 = 58.0;
const BOTTOM: f64 = 36.0;
const TOP: f64 = 28.0;

/// Powers of ten around some positive numbers.
fn decades(values: impl Iterator<Item = f64> + Clone) -> (i32, i32) {
    let low = values.clone().fold(f64::INFINITY, f64::min).log10().floor() as i32;
    let high = values.fold(0.0, f64::max).log10().ceil() as i32;
    (low, high.max(low + 1))
}

fn power(e: i32, unit: &str) -> String {
    match e {
        -3..0 => format!("{:.*}{unit}", -e as usize, 10f64.powi(e)),
        0..3 => format!("{}{unit}", 10i64.pow(e as u32)),
        _ => format!("10<tspan dy=\"-4\" font-size=\"8\">{e}</tspan><tspan dy=\"4\">{unit}</tspan>"),
    }
}

fn panel(o: &mut String, at: (f64, f64), name: &str, rows: &[&Row]) {
    let (x0, x1) = decades(rows.iter().map(|r| r.rows as f64));
    let (y0, y1) = decades(rows.iter().flat_map(|r| [r.rust, r.ours]));
    let (w, h) = (WIDE - LEFT - 14.0, HIGH - TOP - BOTTOM);
    let x = |v: f64| at.0 + LEFT + (v.log10() - x0 as f64) / (x1 - x0) as f64 * w;
    let y = |v: f64| at.1 + TOP + h - (v.log10() - y0 as f64) / (y1 - y0) as f64 * h;
    writeln!(o, "<text x=\"{:.1}\" y=\"{:.1}\" font-weight=\"bold\">{name}</text>", at.0 + LEFT, at.1 + 18.0).unwrap();
    for e in x0..=x1 {
        let px = x(10f64.powi(e));
        writeln!(o, "<path d=\"M{px:.1} {:.1}V{:.1}\" stroke=\"#ddd\"/>", at.1 + TOP, at.1 + TOP + h).unwrap();
        writeln!(o, "<text x=\"{px:.1}\" y=\"{:.1}\" text-anchor=\"middle\">{}</text>", at.1 + TOP + h + 15.0, power(e, "")).unwrap();
    }
    for e in y0..=y1 {
        let py = y(10f64.powi(e));
        writeln!(o, "<path d=\"M{:.1} {py:.1}h{w:.1}\" stroke=\"#ddd\"/>", at.0 + LEFT).unwrap();
        writeln!(o, "<text x=\"{:.1}\" y=\"{:.1}\" text-anchor=\"end\">{}</text>", at.0 + LEFT - 5.0, py + 4.0, power(e, "&#160;ms")).unwrap();
    }
    for (color, dash, time) in [("#b5471b", "5 3", (|r| r.rust) as fn(&Row) -> f64), ("#1b5fb5", "none", |r| r.ours)] {
        let points: Vec<String> = rows.iter().map(|r| format!("{:.1},{:.1}", x(r.rows as f64), y(time(r)))).collect();
        writeln!(o, "<polyline points=\"{}\" fill=\"none\" stroke=\"{color}\" stroke-width=\"1.6\" stroke-dasharray=\"{dash}\"/>", points.join(" ")).unwrap();
        for r in rows {
            writeln!(o, "<circle cx=\"{:.1}\" cy=\"{:.1}\" r=\"2.6\" fill=\"{color}\"/>", x(r.rows as f64), y(time(r))).unwrap();
        }
    }
}

/// A panel for each series; one of a single size is left to the table.
pub fn svg(rows: &[Row]) -> String {
    let mut panels: Vec<(String, Vec<&Row>)> = Vec::new();
    for r in rows {
        let name = r.series();
        match panels.iter_mut().find(|p| p.0 == name) {
            Some(p) => p.1.push(r),
            None => panels.push((name, vec![r])),
        }
    }
    panels.retain(|p| p.1.len() > 1);
    panels.iter_mut().for_each(|p| p.1.sort_by_key(|r| r.rows));
    let (across, down) = (4, panels.len().div_ceil(4));
    let (w, h) = (across as f64 * WIDE, down as f64 * HIGH + 30.0);
    let mut out = String::new();
    let o = &mut out;
    writeln!(o, "<svg xmlns=\"http://www.w3.org/2000/svg\" viewBox=\"0 0 {w} {h}\" font-family=\"sans-serif\" font-size=\"11\">").unwrap();
    writeln!(o, "<rect width=\"{w}\" height=\"{h}\" fill=\"white\"/>").unwrap();
    writeln!(o, "<text x=\"16\" y=\"20\">Times against rows (grouping: nodes), one thread.</text>").unwrap();
    writeln!(o, "<path d=\"M330 16h30\" stroke=\"#b5471b\" stroke-width=\"1.6\" stroke-dasharray=\"5 3\"/><text x=\"366\" y=\"20\">Rust</text>").unwrap();
    writeln!(o, "<path d=\"M420 16h30\" stroke=\"#1b5fb5\" stroke-width=\"1.6\"/><text x=\"456\" y=\"20\">ours</text>").unwrap();
    for (k, (name, rows)) in panels.iter().enumerate() {
        panel(o, ((k % across) as f64 * WIDE, (k / across) as f64 * HIGH + 30.0), name, rows);
    }
    out.push_str("</svg>\n");
    out
}
