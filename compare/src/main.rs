//! Runs generated texts through the engine's static library and through the independent implementation, and compares what they print, byte
//! for byte; then as many books of gas prices, and compares what they answer in both markets; then as many pairs of parts of a contracted
//! unit's curve, joined; then as many lists of calls in numbers, and compares what every call answers; then as many intervals with a budget,
//! and compares which sellers leave them short together: `compare [TEXTS] [FIRST SEED]`. Then the list of classroom bids, and as many hours
//! with such bids. Last, lists of trading days and hours marked by verdicts, as many of each or more, and what a tally tells after each; and the default prices
//! of tables of costs, held to the bound on rounding around the unrounded ones.
//!
//! A seed gives the same text, book, pair, list, interval and hour each time. A text on which the two differ is shrunk and saved in `failures/`,
//! beside both outputs; another is shown with both answers.

use compare::{books, calls, classroom, contracts, counted, designations, roundings, seeds, together, Share};
use independent::compare::shrink;
use independent::generate;
use std::fs;
use std::path::PathBuf;
use std::process::ExitCode;

/// Of the texts that differ, at most so many are shrunk and saved by each thread.
const SAVED: usize = 3;

fn differs(text: &[u8]) -> bool {
    noskjerf::print(text) != independent::run(text)
}

fn save(seed: u64, text: &[u8]) {
    let folder = PathBuf::from(env!("CARGO_MANIFEST_DIR")).join("failures");
    let shrunk = shrink(text, &differs);
    let files = [
        ("txt", shrunk.clone()),
        ("engine", noskjerf::print(&shrunk)),
        ("independent", independent::run(&shrunk)),
    ];
    for (ending, bytes) in files {
        let path = folder.join(format!("{seed}.{ending}"));
        let written = fs::create_dir_all(&folder).and_then(|()| fs::write(&path, bytes));
        written.expect("the failing text can be saved");
    }
    println!("seed {seed}: {} bytes, saved in {}", shrunk.len(), folder.display());
}

/// How many texts of these seeds differ.
fn texts(seeds: Share) -> usize {
    let mut found = 0;
    for seed in seeds {
        let text = generate::text(seed);
        if !differs(&text) {
            continue;
        }
        found += 1;
        if found <= SAVED {
            save(seed, &text);
        }
    }
    found
}

/// What is compared, as many of each.
const KINDS: [&str; 5] = [
    "texts",
    "books in both markets",
    "pairs of parts",
    "lists of calls",
    "intervals with a budget",
];

/// How many of each kind differ.
fn differing(seeds: Share) -> [usize; KINDS.len()] {
    let lists = seeds.clone().map(|seed| (seed, generate::calls::case(seed)));
    [
        texts(seeds.clone()),
        books::compare(seeds.clone()),
        contracts::compare(seeds.clone()),
        calls::compare(lists),
        together::compare(seeds),
    ]
}

fn main() -> ExitCode {
    let seeds = seeds();
    let (tried, found) = (seeds.end - seeds.start, counted(&seeds, differing));
    for (kind, differ) in KINDS.iter().zip(found) {
        println!("compare: {tried} {kind}, {differ} differ");
    }
    let of_list = classroom::compare_list();
    let [of_hours, cut, uncut, refused] = counted(&seeds, classroom::compare);
    println!("compare: {tried} hours with classroom bids, {of_hours} differ");
    println!("  {cut} curves cut, {uncut} not, {refused} openings and calls refused");
    let in_days = designations::compare(seeds.clone());
    let past_bound = roundings::compare(seeds);
    if found.iter().sum::<usize>() + of_list + of_hours + in_days + past_bound == 0 {
        ExitCode::SUCCESS
    } else {
        ExitCode::FAILURE
    }
}
