//! How often the seeds reach a names line that is off by one byte: the text is refused there, by 17.

use independent::generate;
use independent::print::answer;
use independent::text::{
    CONSTRAINTS, COSTS, FACTORS, MONTH, OUTPUTS, PARAMETER, POINTS, PORTFOLIOS, RESOURCES, STEPS,
};

const NAMES: [&str; 10] = [
    MONTH,
    PORTFOLIOS,
    RESOURCES,
    STEPS,
    POINTS,
    COSTS,
    CONSTRAINTS,
    OUTPUTS,
    FACTORS,
    PARAMETER,
];

/// How many bytes two lines have in common before the first that differs.
fn common<'a>(a: impl Iterator<Item = &'a u8>, b: impl Iterator<Item = &'a u8>) -> usize {
    a.zip(b).take_while(|(a, b)| a == b).count()
}

/// One byte changed, put in or taken away.
fn off_by_one(line: &[u8], names: &[u8]) -> bool {
    let agree = common(line.iter(), names.iter()) + common(line.iter().rev(), names.iter().rev());
    line != names
        && line.len().abs_diff(names.len()) <= 1
        && agree + 1 >= line.len().max(names.len())
}

/// The line that 17 names, where it does.
fn faulty(text: &[u8]) -> Option<&[u8]> {
    let refused = answer(text)
        .refused
        .filter(|refused| refused.number == 17)?;
    text.split(|&byte| byte == b'\n').nth(refused.line - 1)
}

#[test]
fn the_seeds_reach_every_names_line_off_by_one_byte() {
    let mut reached = [0; 10];
    for seed in 0..3_000 {
        let text = generate::text(seed);
        let Some(line) = faulty(&text) else { continue };
        for (count, names) in reached.iter_mut().zip(NAMES) {
            *count += usize::from(off_by_one(line, names.as_bytes()));
        }
    }
    println!("names lines off by one byte: {reached:?}");
    assert!(reached.iter().all(|&count| count > 0), "{reached:?}");
}
