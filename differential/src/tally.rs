//! What was compared, what differed, and what was expected to differ.

use std::collections::BTreeMap;
use std::fmt::Debug;
use std::time::{Duration, Instant};

/// The differences that docs/DIFFERENCES.md lists and that a case can hit, by name.
///
/// - `Unknown(3)`: a kind that reads back as another one, which can't be formed here;
/// - `item_u8-empty`: the original panics on an empty item, also in the verifier;
/// - `cursor-beyond`: a position beyond the end, which the original can't have;
/// - `no-room`: the original's `Encoder` grows, where a lent buffer is too short;
/// - `bad-item`: a directory that leads outside its source, where the original has the items themselves;
/// - `state-length`: a name or resource length that is longer than any bytes of the original's were made for the
///   comparison.
pub const KNOWN: [&str; 6] = [
    "Unknown(3)",
    "item_u8-empty",
    "cursor-beyond",
    "no-room",
    "bad-item",
    "state-length",
];

/// As many of a kind's differences are kept, those with the shortest inputs.
const KEPT: usize = 8;

const PROGRESS: Duration = Duration::from_secs(10);

/// The number under which an answer of the original is counted that is no answer: it panicked.
pub const PANIC: u8 = 255;

/// The arguments of a case, as they are printed where it differs.
pub struct Case {
    pub entry: &'static str,
    pub input: Vec<u8>,
    pub with: String,
}

struct Difference {
    case: Case,
    ours: String,
    theirs: String,
}

impl Difference {
    fn print(&self) {
        const SHOWN: usize = 400;
        let input = &self.case.input;
        let hex: String = input
            .iter()
            .take(SHOWN)
            .map(|b| format!("{b:02x}"))
            .collect();
        let more = if input.len() > SHOWN { ".." } else { "" };
        println!("  {} of {} bytes {hex}{more}", self.case.entry, input.len());
        println!("    with   {}", self.case.with);
        println!("    ours   {}", self.ours);
        println!("    theirs {}", self.theirs);
    }
}

/// The figures of one kind of cases.
pub struct Tally {
    kind: &'static str,
    compared: u64,
    differ: u64,
    by_number: [u64; 256],
    known: BTreeMap<&'static str, u64>,
    differences: Vec<Difference>,
    reported: Instant,
}

impl Tally {
    pub fn new(kind: &'static str) -> Self {
        Self {
            kind,
            compared: 0,
            differ: 0,
            by_number: [0; 256],
            known: BTreeMap::new(),
            differences: Vec::new(),
            reported: Instant::now(),
        }
    }

    /// Compares one answer. `number` is the original's refusal, 0 where it accepts; `case` is only asked for where the
    /// answers differ.
    #[inline]
    pub fn compare<T: PartialEq + Debug>(
        &mut self,
        number: u8,
        ours: &T,
        theirs: &T,
        case: impl FnOnce() -> Case,
    ) {
        self.compared += 1;
        self.by_number[usize::from(number)] += 1;
        if self.compared.is_multiple_of(1 << 14) {
            self.report_progress();
        }
        if ours != theirs {
            self.note(case(), format!("{ours:?}"), format!("{theirs:?}"));
        }
    }

    /// Counts a difference that docs/DIFFERENCES.md lists, once both answers have been seen to be the ones it says.
    pub fn known(&mut self, name: &'static str) {
        assert!(KNOWN.contains(&name), "{name} is not a listed difference");
        *self.known.entry(name).or_default() += 1;
    }

    #[cold]
    fn note(&mut self, case: Case, ours: String, theirs: String) {
        self.differ += 1;
        let difference = Difference { case, ours, theirs };
        if self.differ <= 3 {
            println!("{}: differs", self.kind);
            difference.print();
        }
        let length = difference.case.input.len();
        let place = self
            .differences
            .partition_point(|kept| kept.case.input.len() <= length);
        self.differences.insert(place, difference);
        self.differences.truncate(KEPT);
    }

    #[cold]
    fn report_progress(&mut self) {
        if self.reported.elapsed() >= PROGRESS {
            self.reported = Instant::now();
            eprintln!(
                "{}: {} compared, {} differ",
                self.kind, self.compared, self.differ
            );
        }
    }

    pub fn print(&self) {
        println!(
            "{}: {} compared, {} differ",
            self.kind, self.compared, self.differ
        );
        for (number, count) in self.by_number.iter().enumerate() {
            match number {
                _ if *count == 0 => {}
                0 => println!("  accepted    {count:>12}"),
                255 => println!("  panics      {count:>12}"),
                _ => println!("  refused {number:>3} {count:>12}"),
            }
        }
        for (name, count) in &self.known {
            println!("  known difference {name}: {count}");
        }
        if self.differ > 0 {
            println!("  the shortest inputs that differ:");
            self.differences.iter().for_each(Difference::print);
        }
    }

    pub fn compared(&self) -> u64 {
        self.compared
    }

    pub fn differ(&self) -> u64 {
        self.differ
    }

    pub fn known_count(&self) -> u64 {
        self.known.values().sum()
    }
}
