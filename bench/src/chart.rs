//! The chart of the ratios to the Rust crate: a bar for each row and size, and a line at 1. It has more than two
//! hundred bars, so they are thin.

use crate::timing::Entry;
use std::fmt::Write;

const WIDTH: f64 = 880.0;
const LEFT: f64 = 300.0;
const RIGHT: f64 = 60.0;
const TOP: f64 = 62.0;
const BAR: f64 = 5.0;
const STEP: f64 = 6.5;
const GAP: f64 = 9.0;

// Where a ratio lies, in a chart whose right edge is `last`. A greater ratio ends there.
struct Scale {
    last: f64,
}

impl Scale {
    fn x(&self, ratio: f64) -> f64 {
        LEFT + ratio.min(self.last) / self.last * (WIDTH - LEFT - RIGHT)
    }
}

/// The chart, as SVG. The entries of a row stand together.
pub fn chart(entries: &[Entry]) -> String {
    let greatest = entries
        .iter()
        .map(|entry| entry.times.to_theirs())
        .fold(0.0, f64::max);
    let scale = Scale {
        last: greatest.clamp(1.5, 4.0),
    };
    let mut bars = String::new();
    let mut y = TOP;
    let mut last_name = "";
    for entry in entries {
        let name = entry.row.name;
        if name != last_name {
            y += GAP;
            let text = name.replace('`', "");
            let _ = writeln!(bars, r#"<text x="8" y="{}">{text}</text>"#, y + 2.0 * STEP);
            last_name = name;
        }
        bar(&mut bars, &scale, y, entry.times.to_theirs());
        y += STEP;
    }
    let (height, one) = (y + GAP, scale.x(1.0));
    format!(
        r##"<svg xmlns="http://www.w3.org/2000/svg" width="{WIDTH}" height="{height}" font-family="sans-serif" font-size="12">
<rect width="100%" height="100%" fill="#ffffff"/>
<text x="8" y="20" font-size="14">Time of the port over the time of the Rust crate: left of the line the port is faster</text>
<text x="8" y="38" fill="#555555">The bars of a row are those at 2^8, 2^12, 2^16 and 2^20 items, as far as they were timed; the last of colliding names at 2^15</text>
<text x="{one:.1}" y="56" text-anchor="middle">1</text>
{bars}<line x1="{one:.1}" y1="{TOP}" x2="{one:.1}" y2="{y}" stroke="#222222" stroke-width="1.5"/>
</svg>
"##
    )
}

fn bar(bars: &mut String, scale: &Scale, y: f64, ratio: f64) {
    let colour = if ratio <= 1.0 { "#3a8f5c" } else { "#d9822b" };
    let end = scale.x(ratio);
    let (width, after, line) = (end - LEFT, end + 4.0, y + BAR);
    let _ = writeln!(
        bars,
        r##"<rect x="{LEFT}" y="{y}" width="{width:.1}" height="{BAR}" fill="{colour}"/>
<text x="{after:.1}" y="{line}" font-size="7">{ratio:.2}</text>"##
    );
}
