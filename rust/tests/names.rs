//! The ten names lines of Case T, each damaged in every way that a comparison by words of eight bytes could miss: by paper 01 each is 17 on that very line,
//! and nothing is printed but the pages of the intervals accepted before it.

use noskjerf::print;

/// Case T, and its page, as paper 01 gives them.
const CASE_T: &[u8] = include_bytes!("../../crates/mitigate/stdin");
const PAGE_T: &[u8] = include_bytes!("../../crates/mitigate/stdout");

/// Lines of names, in paper 01's order: six of the opening, four of an interval.
const NAMES: [&[u8]; 10] = [
    b"month\n",
    b"portfolio seller\n",
    b"resource portfolio start\n",
    b"resource end price\n",
    b"resource mw heat\n",
    b"resource gas rate allowance om msc soc fee\n",
    b"constraint shadow\n",
    b"resource lmp dispatch available floor\n",
    b"resource constraint factor\n",
    b"parameter\n",
];

fn lines(text: &[u8]) -> Vec<Vec<u8>> {
    text.split_inclusive(|&byte| byte == b'\n').map(<[u8]>::to_vec).collect()
}

/// Case T with another month, so that the lines after it stand at other offsets.
fn case_t(month: &str) -> Vec<Vec<u8>> {
    let mut lines = lines(CASE_T);
    lines[1] = format!("{month}\n").into_bytes();
    lines
}

/// Case T with its interval a second time.
fn twice(month: &str) -> Vec<Vec<u8>> {
    let mut lines = case_t(month);
    let interval = lines.iter().position(|line| line == NAMES[6]).unwrap();
    lines.extend_from_within(interval..);
    lines
}

/// Where each names line stands, the last one that is so.
fn places(lines: &[Vec<u8>], names: &[&[u8]]) -> Vec<usize> {
    names
        .iter()
        .map(|names| lines.iter().rposition(|line| line == names).unwrap())
        .collect()
}

/// What is printed where a line is faulty, after some pages.
fn refused(pages: &[u8], line: usize) -> Vec<u8> {
    let mut printed = pages.to_vec();
    printed.extend_from_slice(format!("refusal line\n17 {}\n", line + 1).as_bytes());
    printed
}

/// One byte of a line changed, at every place to several values.
fn changed(line: &[u8]) -> Vec<Vec<u8>> {
    let mut found = Vec::new();
    for at in 0..line.len() {
        let byte = line[at];
        let values = [byte.wrapping_add(1), byte.wrapping_sub(1), byte ^ 128, byte ^ 32, 0, 10, 32, 255];
        for value in values.into_iter().filter(|&value| value != byte) {
            let mut other = line.to_vec();
            other[at] = value;
            found.push(other);
        }
    }
    found
}

/// Two bytes of a line exchanged.
fn exchanged(line: &[u8]) -> Vec<Vec<u8>> {
    let mut found = Vec::new();
    for first in 0..line.len() {
        for second in (first + 1..line.len()).filter(|&second| line[second] != line[first]) {
            let mut other = line.to_vec();
            other.swap(first, second);
            found.push(other);
        }
    }
    found
}

/// A byte put in or taken away, at every place.
fn moved(line: &[u8]) -> Vec<Vec<u8>> {
    let mut found = Vec::new();
    for at in 0..line.len() {
        let (before, after) = line.split_at(at);
        found.push([before, b"x", after].concat());
        found.push([before, &after[1..]].concat());
    }
    found
}

/// A line cut after each count of its bytes, 7, 8, 9, 15, 16 and 17 among them, and closed.
fn cut(line: &[u8]) -> Vec<Vec<u8>> {
    (0..line.len() - 1).map(|count| [&line[..count], b"\n"].concat()).collect()
}

/// The first bytes of a line, without the rest: where a text ends before them it may just end.
fn begun(line: &[u8]) -> Vec<Vec<u8>> {
    (1..line.len()).map(|count| line[..count].to_vec()).collect()
}

/// Every damaged form of a line prints that this line is faulty, after these pages, in the text and at its very end; says how many were tried.
fn tried_in(lines: &[Vec<u8>], place: usize, pages: &[u8]) -> usize {
    let line = &lines[place];
    let damaged = [changed(line), exchanged(line), moved(line), cut(line)].concat();
    let last = [damaged.clone(), begun(line)].concat();
    let wanted = refused(pages, place);
    for (forms, after) in [(&damaged, &lines[place + 1..]), (&last, &[])] {
        for form in forms {
            let text = [lines[..place].concat(), form.clone(), after.concat()].concat();
            assert_eq!(
                print(&text),
                wanted,
                "{:?} for {:?}",
                String::from_utf8_lossy(form),
                String::from_utf8_lossy(line)
            );
        }
    }
    damaged.len() + last.len()
}

#[test]
fn every_names_line_is_needed_whole() {
    let mut tried = 0;
    for month in ["1", "25", "100", "1000"] {
        let lines = case_t(month);
        assert_eq!(print(&lines.concat()), PAGE_T);
        for place in places(&lines, &NAMES) {
            tried += tried_in(&lines, place, b"");
        }
    }
    assert!(tried > 20_000, "{tried} damaged lines tried");
}

#[test]
fn also_in_a_second_interval() {
    let lines = twice("25");
    for place in places(&lines, &NAMES[6..]) {
        tried_in(&lines, place, PAGE_T);
    }
}
