//! What the modules say of their tables and rows, and what may be done with these: all of them are measured, or one
//! side of one row is run.

use crate::timing::Side;
use std::fmt;

/// The head of a table. The first side is ours, and each other one is a reference.
pub struct Heading {
    pub title: &'static str,
    /// What heads the column that tells the rows apart.
    pub of: &'static str,
    /// What the ratio to each reference is to reach; none where there is no goal.
    pub goals: Vec<Option<f64>>,
    /// Whether the rows are one input at many sizes: then they are in the plot, and have times a byte.
    pub growth: bool,
}

impl Heading {
    pub fn new(title: &'static str, of: &'static str, goals: &[f64]) -> Self {
        Heading {
            title,
            of,
            goals: goals.iter().copied().map(Some).collect(),
            growth: false,
        }
    }

    /// Growth with the bytes of the input, against one reference.
    pub fn growth(title: &'static str) -> Self {
        Heading {
            title,
            of: "bytes",
            goals: vec![None],
            growth: true,
        }
    }
}

#[derive(Clone)]
pub enum Label {
    Text(String),
    Bytes(usize),
}

impl From<&str> for Label {
    fn from(text: &str) -> Self {
        Label::Text(text.to_string())
    }
}

impl fmt::Display for Label {
    fn fmt(&self, formatter: &mut fmt::Formatter) -> fmt::Result {
        match self {
            Label::Text(text) => formatter.write_str(text),
            Label::Bytes(bytes) => formatter.write_str(&grouped(*bytes as u64)),
        }
    }
}

/// A number with a comma before each three digits.
pub fn grouped(number: u64) -> String {
    let digits = number.to_string();
    let mut text = String::new();
    for (place, digit) in digits.chars().enumerate() {
        if place > 0 && (digits.len() - place).is_multiple_of(3) {
            text.push(',');
        }
        text.push(digit);
    }
    text
}

pub trait Task {
    /// A table begins; the rows up to the next one are its own.
    fn table(&mut self, heading: Heading);

    fn row(&mut self, label: Label, sides: Vec<Side>);
}
