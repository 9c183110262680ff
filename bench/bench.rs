//! bench DIR MODE [MS|cg]: MODE baseline (fast.rs), engine (the proved archive) or floor (a loop that looks at each byte).
//! bench DIR same: whether baseline and engine print the same bytes for every DIR/*.txt; the status is 1 where they don't.
//!
//! Loads every DIR/*.txt, then runs 100 stretches of MS/100 ms over all of them and prints the least and the median per text and byte.
//! cg: exactly 20 rounds, for callgrind with --toggle-collect='*one_round*'; prints the bytes read.
#[path = "fast.rs"]
mod fast;
use std::hint::black_box;
use std::path::PathBuf;
use std::process::ExitCode;
use std::time::Instant;

const ROOM: usize = 655_424;

extern "C" {
    fn noskjerf_run(text: *const u8, text_len: usize, page: *mut u8, page_len: usize) -> i64;
}

fn engine(text: &[u8], page: &mut [u8]) -> usize {
    // the slices are this function's own, and the archive keeps none of them
    let count = unsafe { noskjerf_run(text.as_ptr(), text.len(), page.as_mut_ptr(), page.len()) };
    count as usize
}

#[inline(never)]
fn floor(text: &[u8]) -> usize {
    let (mut lines, mut i) = (0, 0);
    while i < text.len() {
        lines += (text[i] == b'\n') as usize;
        i += 1;
        black_box(());
    }
    lines
}

#[inline(never)]
fn one_round(texts: &[Vec<u8>], mode: &str, out: &mut Vec<u8>, page: &mut [u8]) -> usize {
    let mut bytes = 0;
    for text in texts {
        let text = black_box(text);
        bytes += match mode {
            "baseline" => {
                out.clear();
                fast::run(text, out);
                black_box(&*out).len()
            }
            "engine" => black_box(engine(text, page)),
            "floor" => floor(text),
            _ => panic!("mode"),
        }
    }
    bytes
}

fn names_of(folder: &str) -> Vec<PathBuf> {
    let all = std::fs::read_dir(folder).unwrap().map(|entry| entry.unwrap().path());
    let mut names: Vec<_> = all.filter(|name| name.extension().is_some_and(|end| end == "txt")).collect();
    names.sort();
    names
}

/// Whether baseline and engine print the same bytes for a text, in a store and on a page that other texts were printed with.
fn is_same(text: &[u8], out: &mut Vec<u8>, page: &mut [u8]) -> bool {
    out.clear();
    fast::run(text, out);
    let count = engine(text, page);
    out[..] == page[..count]
}

/// Names the texts that differ; answers the exit status.
fn same(folder: &str) -> ExitCode {
    let (mut out, mut page) = (Vec::new(), vec![0; ROOM]);
    let names = names_of(folder);
    let differing = names.iter().filter(|name| !is_same(&std::fs::read(name).unwrap(), &mut out, &mut page));
    let differ = differing.inspect(|name| println!("differs: {}", name.display())).count();
    println!("{folder}: {} texts, {differ} differ", names.len());
    ExitCode::from(u8::from(names.is_empty() || differ > 0))
}

fn main() -> ExitCode {
    let words: Vec<String> = std::env::args().collect();
    let (folder, mode) = (&words[1], &words[2]);
    if mode == "same" {
        return same(folder);
    }
    measure(folder, mode, words.get(3).map(String::as_str));
    ExitCode::SUCCESS
}

/// Prints what a text and a byte take; or, for callgrind, the bytes read.
fn measure(folder: &str, mode: &str, how: Option<&str>) {
    let texts: Vec<Vec<u8>> = names_of(folder).iter().map(|name| std::fs::read(name).unwrap()).collect();
    let bytes: usize = texts.iter().map(Vec::len).sum();
    let mut out = Vec::with_capacity(1 << 18);
    let mut page = vec![0; ROOM];
    let mut round = || black_box(one_round(&texts, mode, &mut out, &mut page));
    if how == Some("cg") {
        (0..20).for_each(|_| { round(); });
        println!("{}", bytes * 20);
        return;
    }
    let ms: u128 = how.map_or(150, |word| word.parse().unwrap());
    (0..3).for_each(|_| { round(); });
    let start = Instant::now();
    round();
    let once = start.elapsed().as_nanos().max(100);
    // 100 short stretches: on a shared machine the least of them is what the code costs
    let rounds = (ms * 10_000 / once).max(1);
    let mut all: Vec<f64> = (0..100)
        .map(|_| {
            let start = Instant::now();
            (0..rounds).for_each(|_| { round(); });
            start.elapsed().as_nanos() as f64 / rounds as f64
        })
        .collect();
    all.sort_by(f64::total_cmp);
    let count = texts.len() as f64;
    println!("{folder} {mode} {} bytes {:.1} ns/text (median {:.1}) {:.3} ns/byte", bytes / texts.len(), all[0] / count, all[50] / count, all[0] / bytes as f64);
}
