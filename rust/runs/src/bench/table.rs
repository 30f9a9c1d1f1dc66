//! The table of `bench`: times of both sides, and the targets.

/// The sizes that targets are set for.
pub const MIDDLE: usize = 256 << 10;
pub const LARGE: usize = 1 << 20;

/// The most that our time may grow from `MIDDLE` to `LARGE`.
const GROWTH: f64 = 4.5;

/// Inputs on which the library is to be ten times as fast as the Rust.
const TEN: [&str; 2] = ["templates", "the Rust's test sources"];

/// Inputs on which it is to be six times as fast.
const SIX: [&str; 6] = [
    "grammar, tidy",
    "grammar, formatted",
    "wide operator lines",
    "declarations",
    "if and else",
    "CRLF",
];

/// How many times as fast as the Rust the library is to be.
pub fn least(name: &str) -> f64 {
    if TEN.contains(&name) {
        10.0
    } else if SIX.contains(&name) {
        6.0
    } else {
        2.5
    }
}

/// What was measured; times are in seconds.
pub struct Row {
    pub name: &'static str,
    /// The size asked for.
    pub size: usize,
    /// The lengths of the source and of the text.
    pub source: usize,
    pub text: usize,
    pub rust: Option<f64>,
    pub ours: f64,
    /// The least quotient, where the Rust has such a call.
    pub least: Option<f64>,
}

impl Row {
    /// How many times as fast as the Rust the library is.
    pub fn quotient(&self) -> Option<f64> {
        self.rust.map(|time| time / self.ours)
    }

    /// MB/s in that time.
    pub fn speed(&self, time: f64) -> f64 {
        self.source as f64 / time / 1e6
    }

    /// The targets, each with whether it is met; a quotient that wasn't measured tells nothing.
    fn targets(&self, growth: Option<f64>) -> Vec<(String, Option<bool>)> {
        let least = self.least.filter(|_| self.size >= MIDDLE);
        let quotient = least.map(|least| {
            let met = self.quotient().map(|quotient| quotient >= least);
            (format!("{least}"), met)
        });
        let growth = growth.map(|growth| (format!("growth {GROWTH}"), Some(growth <= GROWTH)));
        quotient.into_iter().chain(growth).collect()
    }
}

/// A cell that says whether targets are met.
pub fn told(met: Option<bool>) -> &'static str {
    match met {
        Some(true) => "yes",
        Some(false) => "no",
        None => "-",
    }
}

/// A number with so many decimals, if there is one.
fn shown(number: Option<f64>, decimals: usize, unit: &str) -> String {
    number.map_or("-".into(), |n| format!("{n:.decimals$}{unit}"))
}

/// The rows so far.
#[derive(Default)]
pub struct Table {
    pub rows: Vec<Row>,
}

impl Table {
    pub const HEAD: &'static str = "\
| input | source | text | Rust | ours | Rust / ours | ours | growth | target | met |
|---|--:|--:|--:|--:|--:|--:|--:|--:|--:|";

    /// Prints a row.
    pub fn add(&mut self, row: Row) {
        println!("{}", self.line(&row));
        self.rows.push(row);
    }

    /// The growth of our time up to a row of the largest size.
    fn growth(&self, row: &Row) -> Option<f64> {
        let before = |other: &&Row| other.name == row.name && other.size == MIDDLE;
        let before = self.rows.iter().find(before)?;
        (row.size == LARGE).then_some(row.ours / before.ours)
    }

    fn line(&self, row: &Row) -> String {
        let growth = self.growth(row);
        let (targets, met): (Vec<_>, Vec<_>) = row.targets(growth).into_iter().unzip();
        let met: Vec<_> = met.into_iter().map(told).collect();
        format!(
            "| {} | {} | {} | {} | {:.2} ms | {} | {:.0} MB/s | {} | {} | {} |",
            row.name,
            row.source,
            row.text,
            shown(row.rust.map(|time| time * 1e3), 2, " ms"),
            row.ours * 1e3,
            shown(row.quotient(), 1, ""),
            row.speed(row.ours),
            shown(growth, 2, ""),
            targets.join(", "),
            met.join(", "),
        )
    }
}

#[cfg(test)]
mod tests {
    use super::*;
    use crate::bench::inputs::INPUTS;

    fn row(size: usize, rust: Option<f64>, ours: f64) -> Row {
        Row {
            name: "CRLF",
            size,
            source: size,
            text: size,
            rust,
            ours,
            least: Some(least("CRLF")),
        }
    }

    #[test]
    fn targets_name_inputs() {
        for name in TEN.iter().chain(&SIX) {
            assert!(INPUTS.iter().any(|input| input.name == *name), "{name}");
        }
    }

    /// The last two cells of a row.
    fn cells(table: &Table, row: &Row) -> (String, String) {
        let line = table.line(row);
        let cells: Vec<&str> = line.split(" | ").collect();
        let met = cells[9].trim_end_matches(" |");
        (cells[8].into(), met.into())
    }

    #[test]
    fn rows_tell_their_targets() {
        let mut table = Table::default();
        assert_eq!(cells(&table, &row(64 << 10, Some(1.0), 1.0)).0, "");
        let small = row(MIDDLE, Some(6.0), 1.0);
        assert_eq!(cells(&table, &small), ("6".into(), "yes".into()));
        table.add(small);
        let both = "6, growth 4.5";
        for (rust, ours, met) in [
            (Some(27.0), 4.5, "yes, yes"),
            (Some(26.9), 4.5, "no, yes"),
            (Some(60.0), 4.6, "yes, no"),
            (None, 4.6, "-, no"),
        ] {
            let found = cells(&table, &row(LARGE, rust, ours));
            assert_eq!(found, (both.into(), met.into()));
        }
    }
}
