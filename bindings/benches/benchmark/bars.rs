//! The rows of the table, and the bars that they are held to.

use std::fmt::{Display, Formatter, Result};

/// A row: nanoseconds a request of each side.
pub struct Row {
    pub name: &'static str,
    pub mask: u8,
    pub dense: bool,
    pub requests: usize,
    pub granted: usize,
    pub proved: f64,
    pub plain: f64,
    pub keeping: Option<f64>,
}

impl Display for Row {
    fn fmt(&self, out: &mut Formatter) -> Result {
        let Row { proved, plain, .. } = self;
        write!(out, "| {} | {} | ", self.name, self.mask)?;
        write!(out, "{} | {} | ", self.requests, self.granted)?;
        write!(out, "{proved:.1} | {plain:.1} | {:.2} | ", proved / plain)?;
        match self.keeping {
            Some(keeping) => write!(out, "{keeping:.1} | {:.2} |", proved / keeping),
            None => write!(out, "- | - |"),
        }
    }
}

/// The masks of low-water alone and of no rule.
const LOW_WATER: u8 = 2;
const NO_RULE: u8 = 0;

/// A bar: a figure of each row that it is about, and the most that it may be.
struct Bar {
    about: &'static str,
    most: f64,
    figures: Vec<(String, f64)>,
}

impl Bar {
    /// Prints the bar and the rows that miss it: whether there are none.
    fn holds(&self) -> bool {
        let Bar { about, most, .. } = self;
        let greatest = self.figures.iter().map(|it| it.1).fold(0.0, f64::max);
        println!("{about}: {greatest:.2}, at most {most} is allowed");
        let missed = self.figures.iter().filter(|it| it.1 > *most);
        for (row, figure) in missed.clone() {
            println!("  missed: {row}: {figure:.2}");
        }
        missed.count() == 0
    }
}

fn name(row: &Row) -> String {
    format!("{}, mask {}", row.name, row.mask)
}

/// A request under low-water beside one under no rule.
fn low_water(rows: &[Row]) -> Bar {
    let mut figures = Vec::new();
    for row in rows.iter().filter(|it| it.mask == LOW_WATER) {
        let no_rule = |it: &&Row| it.name == row.name && it.mask == NO_RULE;
        if let Some(other) = rows.iter().find(no_rule) {
            figures.push((row.name.to_string(), row.proved / other.proved));
        }
    }
    Bar {
        about: "low-water alone beside no rule",
        most: 1.8,
        figures,
    }
}

/// Days and months beside the run that keeps.
fn keeping(rows: &[Row]) -> Bar {
    let figures = rows
        .iter()
        .filter_map(|row| Some((name(row), row.proved / row.keeping?)))
        .collect();
    Bar {
        about: "days and months beside keeping Rust",
        most: 1.3,
        figures,
    }
}

/// One request beside the quicker run of plain Rust.
fn one_request(rows: &[Row]) -> Bar {
    let quicker = |row: &Row| row.keeping.map_or(row.plain, |it| it.min(row.plain));
    let figures = rows
        .iter()
        .map(|row| (name(row), row.proved / quicker(row)))
        .collect();
    Bar {
        about: "one request beside the quicker plain Rust",
        most: 1.2,
        figures,
    }
}

fn load(ratio: f64) -> Bar {
    Bar {
        about: "load beside plain Rust",
        most: 1.15,
        figures: vec![("full book".to_string(), ratio)],
    }
}

/// A request of a day beside one of a month under the same mask, from blank.
fn day_and_month(rows: &[Row]) -> Bar {
    let from_blank: Vec<&Row> = rows.iter().filter(|it| !it.dense).collect();
    let mut figures = Vec::new();
    for (k, day) in from_blank.iter().enumerate() {
        for month in from_blank[k + 1..].iter().filter(|it| it.mask == day.mask) {
            let factor = (day.proved / month.proved).max(month.proved / day.proved);
            figures.push((format!("mask {}", day.mask), factor));
        }
    }
    Bar {
        about: "day and month of one mask beside each other",
        most: 1.5,
        figures,
    }
}

/// Prints the bars: whether all hold.
pub fn hold(rows: &[Row], one_requests: &[Row], load_ratio: f64) -> bool {
    let bars = [
        low_water(rows),
        keeping(rows),
        one_request(one_requests),
        load(load_ratio),
        day_and_month(rows),
    ];
    let held = bars.iter().filter(|bar| bar.holds()).count();
    held == bars.len()
}
