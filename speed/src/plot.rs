//! The table as a picture: for each case a bar for every version, nanoseconds a packet on a logarithmic scale.

use crate::Row;
use std::fmt::Write;

const LEFT: f64 = 360.0;
const WIDTH: f64 = 560.0;
const RIGHT: f64 = 170.0;
const TOP: f64 = 84.0;
const ROW: f64 = 26.0;
const BAR: f64 = 7.0;
const COLOURS: [&str; 3] = ["#1f5fa8", "#d9812b", "#7a7a7a"];
const NAMES: [&str; 3] = ["ours", "plain Rust", "tuned Rust"];

pub fn svg(rows: &[Row]) -> String {
    let all = rows.iter().flat_map(|row| row.best.iter().flatten());
    let greatest = all.fold(10.0f64, |greatest, &ns| greatest.max(ns));
    let decades = greatest.log10().ceil();
    let x = |ns: f64| LEFT + WIDTH * (ns.max(1.0).log10() / decades);
    let height = TOP + ROW * rows.len() as f64 + 40.0;
    let mut out = String::new();
    let mut line = |text: String| {
        out.push_str(&text);
        out.push('\n');
    };
    line(format!(
        r#"<svg xmlns="http://www.w3.org/2000/svg" width="{}" height="{height}" font-family="sans-serif" font-size="12">"#,
        LEFT + WIDTH + RIGHT
    ));
    line(r#"<rect width="100%" height="100%" fill="white"/>"#.to_string());
    line(r#"<text x="16" y="26" font-size="17">Nanoseconds a packet (logarithmic): shorter is faster</text>"#.to_string());
    for (i, name) in NAMES.iter().enumerate() {
        let at = 16.0 + 130.0 * i as f64;
        line(format!(
            r#"<rect x="{at}" y="42" width="14" height="14" fill="{}"/><text x="{}" y="54">{name}</text>"#,
            COLOURS[i],
            at + 20.0
        ));
    }
    let right = LEFT + WIDTH + 14.0;
    line(format!(r#"<text x="{right}" y="54">ours / rust</text>"#));
    line(format!(
        r#"<text x="{}" y="54">ours / tuned</text>"#,
        right + 76.0
    ));
    let bottom = TOP + ROW * rows.len() as f64;
    for decade in 0..=decades as i32 {
        let ns = 10f64.powi(decade);
        line(format!(
            r##"<line x1="{0:.1}" y1="{TOP}" x2="{0:.1}" y2="{bottom}" stroke="#dddddd"/><text x="{0:.1}" y="{1}" text-anchor="middle">{ns}</text><text x="{0:.1}" y="{2}" text-anchor="middle">{ns}</text>"##,
            x(ns),
            TOP - 6.0,
            bottom + 18.0
        ));
    }
    for (i, row) in rows.iter().enumerate() {
        let y = TOP + ROW * i as f64;
        let mut text = String::new();
        write!(
            text,
            r#"<text x="{}" y="{}" text-anchor="end">{}</text>"#,
            LEFT - 10.0,
            y + 16.0,
            row.name
        )
        .unwrap();
        for (j, ns) in row.best.iter().enumerate() {
            if let Some(ns) = ns {
                write!(
                    text,
                    r#"<rect x="{LEFT}" y="{}" width="{:.1}" height="{BAR}" fill="{}"/>"#,
                    y + 2.0 + BAR * j as f64,
                    (x(*ns) - LEFT).max(1.0),
                    COLOURS[j]
                )
                .unwrap();
            }
        }
        for (j, at) in [(1, right), (2, right + 76.0)] {
            if let Some((ours, other)) = row.best[0].zip(row.best[j]) {
                let ratio = ours / other;
                let colour = if ratio > 1.0 { "#b00020" } else { "#000000" };
                write!(
                    text,
                    r#"<text x="{at}" y="{}" fill="{colour}">{ratio:.2}</text>"#,
                    y + 16.0
                )
                .unwrap();
            }
        }
        line(text);
    }
    line("</svg>".to_string());
    out
}
