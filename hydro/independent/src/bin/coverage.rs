//! Prints what the first N seeds reach: `coverage [N] [first seed]`.

use hydro_independent::coverage::Coverage;
use std::process::ExitCode;

fn argument(index: usize, otherwise: u64) -> u64 {
    let given = std::env::args().nth(index);
    given.map_or(otherwise, |given| given.parse().expect("a whole number"))
}

fn main() -> ExitCode {
    let (count, first) = (argument(1, 20_000), argument(2, 0));
    let coverage = Coverage::of(first..first + count);
    print!("{coverage}");
    match coverage.all_reached() {
        true => ExitCode::SUCCESS,
        false => {
            println!("not all reached");
            ExitCode::FAILURE
        }
    }
}
