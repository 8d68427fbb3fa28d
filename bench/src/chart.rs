//! results.svg: the ratios as bars, one panel for each operation.

use crate::format::{grouped, Format, Operation};
use crate::measure::{Cell, Row};
use crate::report::ratio;
use std::fmt::Write;
use std::fs;

const WIDTH: f64 = 960.0;
// Where the bars may lie, from left to right.
const LEFT: f64 = 260.0;
const RIGHT: f64 = 890.0;
const BAR: f64 = 11.0;

const PEERS: [(Format, &str); 4] = [
    (Format::Rkyv, "#0072b2"),
    (Format::Flat, "#e69f00"),
    (Format::Proto, "#009e73"),
    (Format::Copy, "#999999"),
];

// What an operation is shown beside. A check needn't look at each byte, so a copy is no limit to it.
fn beside(operation: Operation) -> Vec<(Format, &'static str)> {
    let checks = operation == Operation::Check || operation == Operation::Access;
    let shown = PEERS
        .iter()
        .filter(|(format, _)| !checks || *format != Format::Copy);
    shown.copied().collect()
}

// A picture that grows downwards.
struct Picture {
    text: String,
    y: f64,
    // The ratio at the outer ends of the scale, as a power of ten.
    reach: f64,
}

impl Picture {
    fn x(&self, ratio: f64) -> f64 {
        let at = ratio.log10().clamp(-self.reach, self.reach) / self.reach;
        (LEFT + RIGHT) / 2.0 + at * (RIGHT - LEFT) / 2.0
    }

    fn label(&mut self, x: f64, y: f64, style: &str, text: &str) {
        let text = text.replace('&', "&amp;").replace('<', "&lt;");
        writeln!(
            self.text,
            "<text x=\"{x:.1}\" y=\"{y:.1}\" {style}>{text}</text>"
        )
        .unwrap();
    }

    fn line(&mut self, x: f64, from: f64, to: f64, color: &str) {
        writeln!(self.text, "<line x1=\"{x:.1}\" y1=\"{from:.1}\" x2=\"{x:.1}\" y2=\"{to:.1}\" stroke=\"{color}\"/>").unwrap();
    }

    fn bar(&mut self, value: f64, color: &str) {
        let (one, end) = (self.x(1.0), self.x(value));
        let (x, width) = (one.min(end), (one - end).abs().max(1.0));
        let y = self.y;
        writeln!(self.text, "<rect x=\"{x:.1}\" y=\"{y:.1}\" width=\"{width:.1}\" height=\"{:.1}\" fill=\"{color}\"/>", BAR - 2.0).unwrap();
        let (at, anchor) = if value < 1.0 {
            (end - 4.0, "end")
        } else {
            (end + 4.0, "start")
        };
        self.label(
            at,
            y + BAR - 3.0,
            &format!("font-size=\"10\" text-anchor=\"{anchor}\" fill=\"#444\""),
            &ratio(value),
        );
        self.y += BAR;
    }

    fn header(&mut self) {
        self.label(
            20.0,
            34.0,
            "font-size=\"20\" font-weight=\"bold\"",
            "How long archive-core takes beside other formats",
        );
        let what = "Each number: archive-core's time divided by the other format's. 1 is as fast, 2 takes twice as long; each line is ten times the one before.";
        self.label(20.0, 56.0, "font-size=\"12.5\" fill=\"#444\"", what);
        let sets = "Small record: a u8, a string of 11 bytes, 4 i32. Row: a u64, a string of 20 bytes, 8 u32. Chain: boxes, each within the one before. Derived: by derives.";
        self.label(20.0, 74.0, "font-size=\"11\" fill=\"#444\"", sets);
        let mut x = 20.0;
        for (format, color) in PEERS {
            let name = if format == Format::Copy {
                "memcpy of as many bytes (a limit)"
            } else {
                format.title()
            };
            writeln!(
                self.text,
                "<rect x=\"{x}\" y=\"88\" width=\"12\" height=\"12\" fill=\"{color}\"/>"
            )
            .unwrap();
            self.label(
                x + 17.0,
                98.5,
                "font-size=\"12.5\"",
                &format!("beside {name}"),
            );
            x += 75.0 + 7.0 * name.len() as f64;
        }
        let middle = (LEFT + RIGHT) / 2.0;
        self.label(
            middle - 12.0,
            126.0,
            "font-size=\"12.5\" text-anchor=\"end\" fill=\"#444\"",
            "← archive-core is faster",
        );
        self.label(
            middle + 12.0,
            126.0,
            "font-size=\"12.5\" fill=\"#444\"",
            "archive-core is slower →",
        );
        self.y = 144.0;
    }

    fn grid(&mut self, from: f64) {
        let to = self.y;
        let powers = self.reach as i32;
        for power in -powers..=powers {
            let value = 10f64.powi(power);
            let color = if power == 0 { "#000" } else { "#ddd" };
            self.line(self.x(value), from, to, color);
            let text = if power == 0 {
                "1: equal".to_string()
            } else {
                format!("{value}")
            };
            self.label(
                self.x(value),
                to + 12.0,
                "font-size=\"10\" text-anchor=\"middle\" fill=\"#777\"",
                &text,
            );
        }
    }

    fn panel(&mut self, operation: Operation, rows: &[Row]) {
        self.label(
            20.0,
            self.y + 12.0,
            "font-size=\"15\" font-weight=\"bold\"",
            operation.heading(),
        );
        self.y += 22.0;
        if operation != Operation::WriteNew && operation != Operation::WriteReused {
            let beware = "Texts: archive-core and rkyv test that they are UTF-8. FlatBuffers and Cap'n Proto don't.";
            self.label(
                20.0,
                self.y + 6.0,
                "font-size=\"11.5\" fill=\"#444\"",
                beware,
            );
            self.y += 16.0;
        }
        let top = self.y;
        let (done, open): (Vec<&Row>, Vec<&Row>) = rows
            .iter()
            .filter(|it| it.operation == operation)
            .partition(|it| it.cells[Format::Project as usize].ns().is_some());
        // The grid is drawn first, under the bars, so the height is taken from a first drawing that is thrown away.
        let drawn = self.text.len();
        self.groups(&done);
        self.text.truncate(drawn);
        self.grid(top);
        self.y = top;
        self.groups(&done);
        self.y += 18.0;
        let names: Vec<String> = open.iter().map(|it| it.set.title()).collect();
        if !names.is_empty() {
            self.y += 12.0;
            self.label(
                20.0,
                self.y,
                "font-size=\"11.5\" fill=\"#777\"",
                &format!("Without a time of archive-core: {}.", names.join("; ")),
            );
        }
        self.y += 26.0;
    }

    fn groups(&mut self, rows: &[&Row]) {
        for row in rows {
            let top = self.y;
            let mut missing = Vec::new();
            for (format, color) in beside(row.operation) {
                match (&row.cells[format as usize], row.ratio(format)) {
                    (Cell::Time { .. }, Some(value)) => self.bar(value.max(1e-4), color),
                    (Cell::Word(why), _) => missing.push(format!("{} {}", format.title(), why)),
                    _ => {}
                }
            }
            if !missing.is_empty() {
                let middle = self.x(1.0);
                // Where no bar says that archive-core does it, its time does.
                if let (true, Some(ns)) = (self.y == top, row.cells[Format::Project as usize].ns())
                {
                    let own = format!("archive-core takes {} ms", grouped((ns / 1e6).round()));
                    let style = "font-size=\"10\" text-anchor=\"end\" fill=\"#444\"";
                    self.label(middle - 8.0, self.y + BAR - 2.0, style, &own);
                }
                self.label(
                    middle + 8.0,
                    self.y + BAR - 2.0,
                    "font-size=\"10\" fill=\"#a00\"",
                    &missing.join("; "),
                );
                self.y += BAR;
            }
            let middle = (top + self.y) / 2.0 + 4.0;
            self.label(
                LEFT - 10.0,
                middle,
                "font-size=\"12.5\" text-anchor=\"end\"",
                &row.set.title(),
            );
            self.y += 8.0;
        }
    }
}

/// Writes results.svg.
pub fn write(rows: &[Row]) {
    let ratios = rows.iter().flat_map(|row| {
        beside(row.operation)
            .into_iter()
            .filter_map(|(format, _)| row.ratio(format))
    });
    let reach = ratios
        .map(|it| it.max(1e-4).log10().abs())
        .fold(1.0, f64::max)
        .ceil()
        .min(4.0);
    let mut picture = Picture {
        text: String::new(),
        y: 0.0,
        reach,
    };
    picture.header();
    for operation in Operation::ALL {
        picture.panel(operation, rows);
    }
    let (text, height) = (picture.text, picture.y);
    let svg = format!(
        "<svg xmlns=\"http://www.w3.org/2000/svg\" viewBox=\"0 0 {WIDTH} {height:.0}\" width=\"{WIDTH}\" height=\"{height:.0}\" \
         font-family=\"sans-serif\">\n<rect width=\"100%\" height=\"100%\" fill=\"#fff\"/>\n{text}</svg>\n"
    );
    fs::write("results.svg", svg).expect("results.svg is written");
}
