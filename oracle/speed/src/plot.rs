//! The table as a picture: one pair of bars a row, as long as the ratio, on a
//! logarithmic scale.

use std::fmt::Write as _;

use crate::row::Ratios;

const LEFT: f64 = 330.0;
const WIDTH: f64 = 460.0;
const HEIGHT: f64 = 26.0;
/// The ratio at which the scale begins.
const LEAST: f64 = 0.3;

pub fn drawn(rows: &[Ratios]) -> String {
    let most = rows
        .iter()
        .flat_map(|row| [Some(row.numbers), row.value])
        .flatten();
    let most = most.fold(4.0, f64::max);
    let across = |ratio: f64| (ratio / LEAST).max(1.0).ln() / (most / LEAST).ln() * WIDTH;
    let bottom = 40.0 + HEIGHT * rows.len() as f64;
    let mut svg = format!(
        "<svg xmlns=\"http://www.w3.org/2000/svg\" width=\"860\" height=\"{:.0}\" \
         font-family=\"sans-serif\" font-size=\"12\">\n\
         <rect width=\"100%\" height=\"100%\" fill=\"white\"/>\n\
         <text x=\"10\" y=\"20\">Time over the published Rust's: dark, as numbers; light, by value \
         (with a record read and a line written); the scale is logarithmic</text>\n",
        bottom + 24.0
    );
    for (number, row) in rows.iter().enumerate() {
        let y = 32.0 + HEIGHT * number as f64;
        let _ = writeln!(
            svg,
            "<text x=\"{:.0}\" y=\"{:.0}\" text-anchor=\"end\">{}</text>",
            LEFT - 8.0,
            y + 14.0,
            row.what
        );
        bar(&mut svg, y + 1.0, across(row.numbers), "#1f4e79");
        if let Some(value) = row.value {
            bar(&mut svg, y + 11.0, across(value), "#b8cbe0");
        }
    }
    for ratio in [1.0, 3.0, 10.0, 30.0] {
        let x = LEFT + across(ratio);
        let _ = writeln!(
            svg,
            "<line x1=\"{x:.1}\" x2=\"{x:.1}\" y1=\"28\" y2=\"{bottom:.0}\" stroke=\"#a00\" \
             stroke-dasharray=\"3 3\"/>\n<text x=\"{x:.1}\" y=\"{:.0}\" \
             text-anchor=\"middle\">{ratio:.0}</text>",
            bottom + 14.0
        );
    }
    svg + "</svg>\n"
}

fn bar(svg: &mut String, y: f64, width: f64, colour: &str) {
    let _ = writeln!(
        svg,
        "<rect x=\"{LEFT:.0}\" y=\"{y:.1}\" width=\"{width:.1}\" height=\"9\" fill=\"{colour}\"/>"
    );
}
