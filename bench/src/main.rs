//! Our code and what it replaces, on the same inputs, from one driver. A module for each part: `agree` sees that both
//! sides answer the same, and a function for each table lays its rows, which are then timed or counted.

mod blake2b_256;
mod bytes;
mod clock;
mod count;
mod covenants;
mod growth;
mod links;
mod oracle;
mod plot;
mod sha3_256;
mod sheets;
mod states;
mod table;
mod task;
mod timing;
mod value_nonce;

use count::Once;
use std::path::Path;
use std::{env, fs};
use table::{Measure, Table};
use task::Task;

const AGREE: [fn(); 8] = [
    sha3_256::agree,
    blake2b_256::agree,
    value_nonce::agree,
    covenants::agree,
    states::agree,
    states::agree_on_hashes,
    links::agree,
    growth::agree,
];

const TABLES: [fn(&mut dyn Task); 11] = [
    sha3_256::table,
    blake2b_256::table,
    value_nonce::table,
    covenants::accepting,
    covenants::directory,
    covenants::encoding,
    states::decoding,
    states::encoding,
    states::hashing,
    states::blinding,
    links::table,
];

/// What the program is asked for; times alone where nothing is.
const PARTS: [&str; 3] = ["times", "counts", "growth"];

/// A machine may be slow for seconds: every row is timed again later.
const PASSES: usize = 3;

fn run(tables: &[fn(&mut dyn Task)], task: &mut dyn Task) {
    for table in tables {
        table(task);
    }
}

fn pass(tables: &[fn(&mut dyn Task)], times: bool, counts: bool) -> Vec<Table> {
    let mut task = Measure::new(times, counts);
    run(tables, &mut task);
    task.tables
}

/// Times are the best of all passes, and counts are taken once.
fn measure(tables: &[fn(&mut dyn Task)], times: bool, counts: bool) -> Vec<Table> {
    let mut measured = pass(tables, times, counts);
    let later = if times { PASSES - 1 } else { 0 };
    for _ in 0..later {
        let again = pass(tables, times, false);
        for (table, again) in measured.iter_mut().zip(&again) {
            table.keep_best(again);
        }
    }
    for table in &measured {
        println!("{table}");
    }
    measured
}

fn main() {
    let arguments: Vec<String> = env::args().skip(1).collect();
    if let [first, rest @ ..] = &arguments[..]
        && first == count::ARGUMENT
    {
        run(&TABLES, &mut Once::parse(rest).expect("three numbers"));
        panic!("there is no such row");
    }
    let known = |argument: &String| PARTS.contains(&argument.as_str());
    assert!(arguments.iter().all(known), "the arguments are {PARTS:?}");
    let [times, counts, growth] =
        PARTS.map(|part| arguments.iter().any(|argument| argument == part));
    for agree in AGREE {
        agree();
    }
    if times || counts || !growth {
        measure(&TABLES, times || !counts, counts);
    }
    if growth {
        let tables = measure(&growth::TABLES, true, false);
        let picture = Path::new(env!("CARGO_MANIFEST_DIR")).join("growth.svg");
        fs::write(picture, plot::svg(&tables)).expect("the picture is written");
    }
}
