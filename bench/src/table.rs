//! Tables of times and of instructions. The first side is ours.

use crate::count;
use crate::task::{Heading, Label, Task, grouped};
use crate::timing::{Side, race};
use std::fmt;

/// What was measured of a row: a number for each side, and none at all where it was not asked for.
pub struct Row {
    pub label: Label,
    pub nanoseconds: Vec<f64>,
    instructions: Vec<u64>,
}

pub struct Table {
    pub heading: Heading,
    pub names: Vec<&'static str>,
    pub rows: Vec<Row>,
}

/// Measures every row.
pub struct Measure {
    times: bool,
    counts: bool,
    rows: usize,
    pub tables: Vec<Table>,
}

impl Measure {
    pub fn new(times: bool, counts: bool) -> Self {
        Measure {
            times,
            counts,
            rows: 0,
            tables: Vec::new(),
        }
    }

    fn instructions(&self, sides: usize) -> Vec<u64> {
        (0..sides)
            .map(|side| count::instructions(self.rows, side))
            .collect()
    }
}

impl Task for Measure {
    fn table(&mut self, heading: Heading) {
        self.tables.push(Table {
            heading,
            names: Vec::new(),
            rows: Vec::new(),
        });
    }

    fn row(&mut self, label: Label, mut sides: Vec<Side>) {
        let mut row = Row {
            label,
            nanoseconds: Vec::new(),
            instructions: Vec::new(),
        };
        if self.times {
            row.nanoseconds = race(&mut sides);
        }
        if self.counts {
            row.instructions = self.instructions(sides.len());
        }
        self.rows += 1;
        let table = self.tables.last_mut().expect("a table was begun");
        assert_eq!(sides.len(), table.heading.goals.len() + 1);
        table.names = sides.iter().map(|side| side.name).collect();
        table.rows.push(row);
    }
}

impl Table {
    /// Keeps the better of each time and that of a later pass over the same rows.
    pub fn keep_best(&mut self, later: &Table) {
        for (row, later) in self.rows.iter_mut().zip(&later.rows) {
            for (best, time) in row.nanoseconds.iter_mut().zip(&later.nanoseconds) {
                *best = time.min(*best);
            }
        }
    }

    fn has(&self, measured: impl Fn(&Row) -> bool) -> bool {
        self.rows.iter().any(measured)
    }

    /// The heads of the columns, but for the first.
    fn heads(&self) -> Vec<String> {
        let each = |unit: &str| -> Vec<String> {
            let names = self.names.iter();
            names.map(|name| format!("{name}, {unit}")).collect()
        };
        let mut heads = Vec::new();
        if self.has(|row| !row.nanoseconds.is_empty()) {
            heads.extend(each("ns"));
            heads.extend(self.ratios());
            if self.heading.growth {
                heads.extend(each("ns a byte"));
            }
        }
        if self.has(|row| !row.instructions.is_empty()) {
            heads.extend(each("instructions"));
        }
        heads
    }

    fn ratios(&self) -> impl Iterator<Item = String> {
        let references = self.names.iter().skip(1).zip(&self.heading.goals);
        references.map(|(name, goal)| match goal {
            Some(goal) => format!("{name} / {} (goal {goal:.1})", self.names[0]),
            None => format!("{name} / {}", self.names[0]),
        })
    }

    fn cells(&self, row: &Row) -> Vec<String> {
        let times = row.nanoseconds.iter().map(|time| nanoseconds(*time));
        let references = row.nanoseconds.iter().skip(1).zip(&self.heading.goals);
        let ratios = references.map(|(time, goal)| ratio(time / row.nanoseconds[0], *goal));
        let bytes = row.nanoseconds.iter().filter_map(|time| match row.label {
            Label::Bytes(bytes) if self.heading.growth => Some(a_byte(time / bytes as f64)),
            _ => None,
        });
        let counts = row.instructions.iter().map(|count| grouped(*count));
        times.chain(ratios).chain(bytes).chain(counts).collect()
    }
}

/// Short times with a decimal, of which a ratio is made.
fn nanoseconds(time: f64) -> String {
    if time < 100.0 {
        return format!("{time:.1}");
    }
    grouped(time.round() as u64)
}

fn a_byte(time: f64) -> String {
    if time < 0.01 {
        return format!("{time:.5}");
    }
    format!("{time:.3}")
}

/// A ratio is rounded before it is held to its goal.
fn ratio(ratio: f64, goal: Option<f64>) -> String {
    let rounded = (ratio * 100.0).round() / 100.0;
    let below = goal.is_some_and(|goal| rounded < goal);
    format!("{rounded:.2}{}", if below { " below" } else { "" })
}

impl fmt::Display for Table {
    fn fmt(&self, formatter: &mut fmt::Formatter) -> fmt::Result {
        let heads = self.heads();
        writeln!(formatter, "### {}\n", self.heading.title)?;
        writeln!(formatter, "| {} | {} |", self.heading.of, heads.join(" | "))?;
        writeln!(formatter, "|---:|{}", "---:|".repeat(heads.len()))?;
        for row in &self.rows {
            let cells = self.cells(row).join(" | ");
            writeln!(formatter, "| {} | {cells} |", row.label)?;
        }
        Ok(())
    }
}
