//! The instructions of a row's sides. callgrind counts them, in a run of this program for each side.

use crate::task::{Heading, Label, Task};
use crate::timing::Side;
use std::process::Command;
use std::{env, process};

/// The argument that asks for one side of one row; the row's number, the side's and that of the calls follow it.
pub const ARGUMENT: &str = "--count";

/// Counts do not vary as times do: a few calls are enough.
const CALLS: u64 = 4;

/// callgrind collects in here alone.
#[unsafe(no_mangle)]
#[inline(never)]
fn turgamysk_bench_counted(side: &mut Side, calls: u32) {
    side.run(calls);
}

/// Runs one side of one row, both by their numbers in the program's order, and ends the program.
pub struct Once {
    pub row: usize,
    pub side: usize,
    pub calls: u32,
}

impl Once {
    /// From what follows the argument.
    pub fn parse(arguments: &[String]) -> Option<Self> {
        let [row, side, calls] = arguments else {
            return None;
        };
        Some(Once {
            row: row.parse().ok()?,
            side: side.parse().ok()?,
            calls: calls.parse().ok()?,
        })
    }
}

impl Task for Once {
    fn table(&mut self, _: Heading) {}

    fn row(&mut self, _: Label, mut sides: Vec<Side>) {
        if self.row > 0 {
            self.row -= 1;
            return;
        }
        let side = &mut sides[self.side];
        // What is made at the first call only is not counted.
        side.run(1);
        turgamysk_bench_counted(side, self.calls);
        process::exit(0);
    }
}

/// The instructions of one call.
pub fn instructions(row: usize, side: usize) -> u64 {
    let program = env::current_exe().expect("this program's file");
    let output = Command::new("valgrind")
        .args(["--tool=callgrind", "--callgrind-out-file=/dev/null"])
        .arg("--toggle-collect=turgamysk_bench_counted")
        .arg(program)
        .arg(ARGUMENT)
        .args([row.to_string(), side.to_string(), CALLS.to_string()])
        .output()
        .expect("valgrind runs");
    let report = String::from_utf8_lossy(&output.stderr);
    assert!(output.status.success(), "{report}");
    collected(&report).unwrap_or_else(|| panic!("callgrind counted nothing: {report}")) / CALLS
}

/// The number after `Collected :` in what callgrind says.
fn collected(report: &str) -> Option<u64> {
    let (_, number) = report.split_once("Collected : ")?;
    number.split_whitespace().next()?.parse().ok()
}
