//! Compares every answer of Turgamysk's C entries with the original's: `turgamysk-differential SEED COUNT [KIND..]`.

use std::process::ExitCode;
use std::time::Instant;
use turgamysk_differential::kind::Kind;
use turgamysk_differential::random::Random;
use turgamysk_differential::sheets::judge;
use turgamysk_differential::sheets::links;
use turgamysk_differential::sheets::places;
use turgamysk_differential::tally::Tally;
use turgamysk_differential::{amounts, covenants, hashes, name_states, names, oracle, wire};

struct Arguments {
    seed: u64,
    count: u64,
    /// Beginnings of the names of the kinds to run; none means all.
    kinds: Vec<String>,
}

fn arguments() -> Option<Arguments> {
    let mut words = std::env::args().skip(1);
    Some(Arguments {
        seed: words.next()?.parse().ok()?,
        count: words.next()?.parse().ok()?,
        kinds: words.collect(),
    })
}

fn kinds() -> Vec<Box<dyn Kind>> {
    vec![
        Box::new(hashes::Hashes::default()),
        Box::new(hashes::Commitments),
        Box::new(wire::reads::Reads::default()),
        Box::new(wire::writes::Writes::default()),
        Box::new(amounts::Amounts),
        Box::new(names::Names::default()),
        Box::new(covenants::read::Read::default()),
        Box::new(covenants::decode::Decode::default()),
        Box::new(covenants::decode_from::DecodeFrom::default()),
        Box::new(covenants::encode::Encode::default()),
        Box::new(covenants::items::Items::default()),
        Box::new(covenants::runs::Runs::default()),
        Box::new(name_states::decode::Decode::default()),
        Box::new(name_states::encode::Encode::default()),
        Box::new(judge::Judge::default()),
        Box::new(places::Places::default()),
        Box::new(links::Links::default()),
    ]
}

fn chosen(arguments: &Arguments) -> Vec<Box<dyn Kind>> {
    let is_chosen = |name: &str| {
        arguments.kinds.is_empty() || arguments.kinds.iter().any(|kind| name.starts_with(kind))
    };
    let mut kinds = kinds();
    kinds.retain(|kind| is_chosen(kind.name()));
    kinds
}

/// The kind's exhaustive part, and then `count` random cases from a generator of its own.
fn run(kind: &mut dyn Kind, seed: u64, count: u64) -> Tally {
    let start = Instant::now();
    let mut tally = Tally::new(kind.name());
    kind.exhaustive(&mut tally);
    let exhaustive = start.elapsed();
    let mut random = Random::new(seed);
    for _ in 0..count {
        kind.random(&mut random, &mut tally);
    }
    tally.print();
    let all = start.elapsed();
    println!("  {exhaustive:.1?} exhaustive, {all:.1?} in all");
    tally
}

fn compare(arguments: &Arguments) -> ExitCode {
    let mut kinds = chosen(arguments);
    let weights: u64 = kinds.iter().map(|kind| kind.weight()).sum();
    let tallies: Vec<Tally> = kinds
        .iter_mut()
        .map(|kind| {
            let count = u128::from(arguments.count) * u128::from(kind.weight());
            run(
                kind.as_mut(),
                arguments.seed,
                (count / u128::from(weights)) as u64,
            )
        })
        .collect();
    let compared: u64 = tallies.iter().map(Tally::compared).sum();
    let differ: u64 = tallies.iter().map(Tally::differ).sum();
    let known: u64 = tallies.iter().map(Tally::known_count).sum();
    println!("{known} hit a difference that docs/DIFFERENCES.md lists");
    println!("{compared} compared, {differ} differ");
    if compared == 0 || differ > 0 {
        return ExitCode::FAILURE;
    }
    ExitCode::SUCCESS
}

fn main() -> ExitCode {
    let Some(arguments) = arguments() else {
        eprintln!("usage: turgamysk-differential SEED COUNT [KIND..]");
        return ExitCode::FAILURE;
    };
    oracle::print_own_panics_only();
    compare(&arguments)
}
