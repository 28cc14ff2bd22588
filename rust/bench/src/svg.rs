//! The picture: dots for the times of the implementations, of the product and of
//! the entries at one size, and lines of growth with n, all on logarithmic
//! scales.

use crate::cases::ONE_PRODUCT;
use crate::implementation::{other_name, ALL, KEYED, LIBRARY, REFERENCE, RUST};
use crate::measure::Measured;
use crate::table::growing;
use std::fmt::Write;

/// The size of the entries that are shown as dots.
const SIZES: (usize, usize) = (64, 27);

/// The width of the picture, and its height: a band for the product and one for
/// each entry with a key, and what stands above and below them.
const WIDTH: f64 = 960.0;
const HEIGHT: f64 = 190.0 + 7.0 * BAND;

/// Where the dots' scales begin and end.
const DOTS: (f64, f64) = (115.0, 500.0);

/// The height of one dot's row, the space between two entries, and the height of
/// an entry with that space.
const ROW: f64 = 13.0;
const BETWEEN: f64 = 10.0;
const BAND: f64 = ROW * ALL.len() as f64 + BETWEEN;

/// The left end of the text of the lines, and the four sides of their area.
const GROWTH: f64 = 590.0;
const LEFT: f64 = 650.0;
const RIGHT: f64 = 930.0;
const TOP: f64 = 104.0;
const BOTTOM: f64 = HEIGHT - 30.0;

/// The colours of the implementations.
const COLOURS: [&str; 4] = ["#1b5e9b", "#d9822b", "#8a8a8a", "#2a8c5a"];

/// The colours and widths of the entries' lines: that of `values` is wide, since
/// that of `prove` nearly covers it.
const LINES: [(&str, f64); 4] = [
    ("#7a5195", 2.0),
    ("#a8d5ba", 8.0),
    ("#c0392b", 2.0),
    ("#1b5e9b", 2.0),
];

/// Styles of text.
const TITLE: &str = r#"font-size="15" font-weight="bold""#;
const GROUP: &str = r#"font-size="13" font-weight="bold""#;
const PLAIN: &str = r#"font-size="12""#;
const PLAIN_END: &str = r#"font-size="12" text-anchor="end""#;
const SMALL: &str = r##"font-size="11" fill="#333333""##;
const TIME: &str =
    r##"font-size="11" fill="#333333" stroke="#ffffff" stroke-width="3" paint-order="stroke""##;
const SCALE_MIDDLE: &str = r##"font-size="11" fill="#555555" text-anchor="middle""##;
const SCALE_END: &str = r##"font-size="11" fill="#555555" text-anchor="end""##;

/// A logarithmic scale from powers of ten to places in the picture.
struct Scale {
    /// The exponents of the ends.
    ends: (f64, f64),
    /// Their places.
    places: (f64, f64),
}

impl Scale {
    /// The scale that holds all numbers.
    fn of(numbers: &[f64], places: (f64, f64)) -> Scale {
        let exponents = numbers.iter().map(|number| number.log10());
        let low = exponents.clone().fold(f64::MAX, f64::min).floor();
        let high = exponents.fold(f64::MIN, f64::max).ceil();
        Scale {
            ends: (low, high.max(low + 1.0)),
            places,
        }
    }

    /// The place of a number.
    fn at(&self, number: f64) -> f64 {
        let part = (number.log10() - self.ends.0) / (self.ends.1 - self.ends.0);
        self.places.0 + part * (self.places.1 - self.places.0)
    }

    /// The powers of ten on it.
    fn powers(&self) -> impl Iterator<Item = f64> {
        (self.ends.0 as i32..=self.ends.1 as i32).map(|exponent| 10f64.powi(exponent))
    }
}

/// A time in microseconds with its unit; with a decimal below ten, or without.
fn shown(time: f64, decimal: bool) -> String {
    let (number, unit) = match time {
        time if time >= 1e6 => (time / 1e6, "s"),
        time if time >= 1e3 => (time / 1e3, "ms"),
        time if time >= 1.0 => (time, "µs"),
        time => (time * 1e3, "ns"),
    };
    let decimals = usize::from(decimal && number < 10.0);
    format!("{number:.decimals$} {unit}")
}

/// A picture in the making.
struct Picture(String);

impl Picture {
    /// Adds text.
    fn text(&mut self, (x, y): (f64, f64), style: &str, text: &str) {
        let text = text.replace('&', "&amp;").replace('<', "&lt;");
        let _ = writeln!(
            self.0,
            r#"<text x="{x:.1}" y="{y:.1}" {style}>{text}</text>"#
        );
    }

    /// Adds a straight line.
    fn line(&mut self, (x, y): (f64, f64), (to_x, to_y): (f64, f64), style: &str) {
        let _ = writeln!(
            self.0,
            r#"<line x1="{x:.1}" y1="{y:.1}" x2="{to_x:.1}" y2="{to_y:.1}" {style}/>"#
        );
    }

    /// Adds a dot.
    fn dot(&mut self, (x, y): (f64, f64), colour: &str) {
        let _ = writeln!(
            self.0,
            r#"<circle cx="{x:.1}" cy="{y:.1}" r="4" fill="{colour}"/>"#
        );
    }
}

/// The name of an implementation in the picture.
fn name(one: usize) -> String {
    match one {
        LIBRARY => "library".to_string(),
        RUST => "its algorithms in Rust".to_string(),
        REFERENCE => "reference, by other methods".to_string(),
        _ => other_name().unwrap_or("other build".to_string()),
    }
}

/// Draws the times of some rows as dots, from a height on; gives the height
/// where they end.
fn draw_group(picture: &mut Picture, start: f64, title: &str, rows: &[&Measured]) -> f64 {
    let time = |row: &Measured, one: usize| row.time(one).map(|time| time / 1e3);
    let numbers: Vec<f64> = rows
        .iter()
        .flat_map(|row| (0..ALL.len()).filter_map(|one| time(row, one)))
        .collect();
    let scale = Scale::of(&numbers, DOTS);
    let top = start + 12.0;
    let bottom = top + BAND * rows.len() as f64;
    picture.text((20.0, start), GROUP, title);
    for number in scale.powers() {
        let x = scale.at(number);
        picture.line((x, top), (x, bottom), r##"stroke="#dddddd""##);
        picture.text((x, bottom + 14.0), SCALE_MIDDLE, &shown(number, false));
    }
    for (index, row) in rows.iter().enumerate() {
        let above = top + BETWEEN / 2.0 + BAND * index as f64;
        let middle = above + (BAND - BETWEEN) / 2.0 + 4.0;
        if index > 0 {
            let y = above - BETWEEN / 2.0;
            picture.line((20.0, y), (DOTS.1, y), r##"stroke="#eeeeee""##);
        }
        picture.text((DOTS.0 - 12.0, middle), PLAIN_END, row.subject.entry);
        for (one, colour) in (0..ALL.len()).zip(COLOURS) {
            let Some(time) = time(row, one) else { continue };
            let (x, y) = (scale.at(time), above + ROW * (one as f64 + 0.5));
            picture.dot((x, y), colour);
            picture.text((x + 8.0, y + 4.0), TIME, &shown(time, true));
        }
    }
    bottom + 14.0
}

/// Draws the times of the implementations: the product apart from the entries
/// with a key.
fn draw_dots(picture: &mut Picture, rows: &[Measured]) {
    let title = "Time of one call, logarithmic scales";
    picture.text((20.0, 30.0), TITLE, title);
    for (one, colour) in (0..ALL.len()).zip(COLOURS) {
        let x = [24.0, 250.0][one % 2];
        let y = [50.0, 69.0][one / 2];
        picture.dot((x, y), colour);
        picture.text((x + 11.0, y + 4.0), PLAIN, &name(one));
    }
    let of = |chosen: &dyn Fn(&Measured) -> bool| -> Vec<&Measured> {
        rows.iter().filter(|row| chosen(row)).collect()
    };
    let products = of(&|row| (row.subject.entry, row.subject.form) == ONE_PRODUCT);
    let end = draw_group(picture, 98.0, "One product in K", &products);
    let (n, m) = SIZES;
    let entries = of(&|row| row.subject.sizes == Some(SIZES));
    let title = format!("Entries with a key, n = {n}, m = {m}");
    draw_group(picture, end + 26.0, &title, &entries);
}

/// Draws the lines of growth.
fn draw_growth(picture: &mut Picture, rows: &[Measured]) {
    let points = |entry: &str| -> Vec<(f64, f64)> {
        growing(rows, entry)
            .filter_map(|row| Some((row.subject.sizes?.0 as f64, row.time(LIBRARY)? / 1e3)))
            .collect()
    };
    let all = KEYED.iter().flat_map(|entry| points(entry));
    let times: Vec<f64> = all.map(|point| point.1).collect();
    let scale = Scale::of(&times, (BOTTOM, TOP));
    let x = |n: f64| LEFT + 16.0 + (n / 8.0).log2() / 3.0 * (RIGHT - LEFT - 32.0);
    let title = "Growth of the library's times with n";
    picture.text((GROWTH, 30.0), TITLE, title);
    let text = "m near 0.42 n, logarithmic scales";
    picture.text((GROWTH, 73.0), SMALL, text);
    for number in scale.powers() {
        let y = scale.at(number);
        picture.line((LEFT, y), (RIGHT, y), r##"stroke="#dddddd""##);
        picture.text((LEFT - 8.0, y + 4.0), SCALE_END, &shown(number, false));
    }
    for n in [8.0, 16.0, 32.0, 64.0] {
        picture.line((x(n), TOP), (x(n), BOTTOM), r##"stroke="#eeeeee""##);
        picture.text((x(n), BOTTOM + 16.0), SCALE_MIDDLE, &format!("n = {n}"));
    }
    for (index, entry) in KEYED.iter().enumerate() {
        let (colour, width) = LINES[index];
        let style = format!(r#"stroke="{colour}" stroke-width="{width}" stroke-linecap="round""#);
        let places: Vec<(f64, f64)> = points(entry)
            .into_iter()
            .map(|(n, time)| (x(n), scale.at(time)))
            .collect();
        for pair in places.windows(2) {
            picture.line(pair[0], pair[1], &style);
        }
        for place in places {
            picture.dot(place, colour);
        }
        let left = GROWTH + [2.0, 108.0, 190.0, 264.0][index];
        picture.line((left, 50.0), (left + 12.0, 50.0), &style);
        picture.text((left + 20.0, 54.0), PLAIN, entry);
    }
}

/// The picture.
pub fn picture(rows: &[Measured]) -> String {
    let mut picture = Picture(format!(
        "<svg xmlns=\"http://www.w3.org/2000/svg\" viewBox=\"0 0 {WIDTH} {HEIGHT}\" width=\"{WIDTH}\" height=\"{HEIGHT}\" font-family=\"sans-serif\" fill=\"#111111\">\n<rect width=\"{WIDTH}\" height=\"{HEIGHT}\" fill=\"#ffffff\"/>\n"
    ));
    draw_dots(&mut picture, rows);
    draw_growth(&mut picture, rows);
    picture.0.push_str("</svg>\n");
    picture.0
}
