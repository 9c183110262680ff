//! The texts of the project, each NAME.txt with what it prints in NAME.out, through the wrapper.

use noskjerf::{print, run, Finding, Output, Page, Refusal, TextHour};
use std::fmt::Write;
use std::fs;
use std::path::{Path, PathBuf};

struct Case {
    name: String,
    text: Vec<u8>,
    printed: Vec<u8>,
}

/// Every case of the project, by name.
fn cases() -> Vec<Case> {
    let folder = Path::new(env!("CARGO_MANIFEST_DIR")).join("../crates/text_cases/data");
    let files = fs::read_dir(folder).unwrap().map(|file| file.unwrap().path());
    let mut texts: Vec<PathBuf> = files.filter(|path| path.extension() == Some("txt".as_ref())).collect();
    texts.sort();
    texts.into_iter().map(case).collect()
}

fn case(path: PathBuf) -> Case {
    Case {
        name: path.file_stem().unwrap().to_string_lossy().into_owned(),
        text: fs::read(&path).unwrap(),
        printed: fs::read(path.with_extension("out")).unwrap(),
    }
}

/// An output's pages and refusal, printed again.
fn printed_again(output: &Output) -> String {
    let mut text: String = output.pages.iter().map(page_text).collect();
    if let Some(Refusal { number, line }) = output.refusal {
        writeln!(text, "refusal line\n{number} {line}").unwrap();
    }
    text
}

fn page_text(page: &Page) -> String {
    let i = page.interval;
    let mut text = String::from("interval constraint verdict demand left\n");
    for verdict in &page.verdicts {
        let finding = match verdict.finding {
            Finding::Competitive => 0,
            Finding::NonCompetitive => 1,
            Finding::NotBinding => 2,
        };
        writeln!(text, "{i} {} {finding} {} {}", verdict.constraint, verdict.demand, verdict.left).unwrap();
    }
    text += "interval constraint portfolio withheld\n";
    for seller in &page.sellers {
        writeln!(text, "{i} {} {} {}", seller.constraint, seller.portfolio, seller.withheld).unwrap();
    }
    text += "interval resource end price\n";
    for curve in &page.curves {
        for step in &curve.steps {
            writeln!(text, "{i} {} {} {}", curve.resource, step.end, step.price).unwrap();
        }
    }
    text
}

/// A text in pieces: each line that begins an interval begins a piece.
fn pieces(text: &[u8]) -> Vec<Vec<u8>> {
    let mut pieces = vec![Vec::new()];
    for line in lines(text) {
        if line.starts_with(b"constraint shadow") {
            pieces.push(Vec::new());
        }
        pieces.last_mut().unwrap().extend_from_slice(line);
    }
    pieces
}

/// The pages of a text driven piece by piece, and the refusal that stopped it.
fn driven(text: &[u8]) -> (Vec<Page>, Option<Refusal>) {
    let pieces = pieces(text);
    let mut hour = match TextHour::open(&pieces[0]) {
        Ok(hour) => hour,
        Err(refusal) => return (Vec::new(), Some(refusal)),
    };
    let mut pages = Vec::new();
    for piece in &pieces[1..] {
        let before = hour.clone();
        match hour.interval(piece) {
            Ok(page) => pages.push(page),
            Err(refusal) => {
                assert_eq!(hour, before);
                return (pages, Some(refusal));
            }
        }
    }
    assert_eq!(hour.text(), text);
    assert_eq!(hour.accepted(), pages.len());
    (pages, None)
}

#[test]
fn there_are_151_cases() {
    assert_eq!(cases().len(), 151);
}

#[test]
fn every_case_prints_its_bytes() {
    for case in cases() {
        assert_eq!(print(&case.text), case.printed, "{}", case.name);
    }
}

#[test]
fn what_is_read_from_the_bytes_is_all_of_them() {
    for case in cases() {
        let output = run(&case.text);
        assert_eq!(output.bytes, case.printed, "{}", case.name);
        assert_eq!(printed_again(&output).as_bytes(), case.printed, "{}", case.name);
    }
}

/// The text so far of each interval that an hour takes prints the pages so far, and the whole text the same bytes again and again.
#[test]
fn printouts_of_one_hour_do_not_differ() {
    for case in cases() {
        let printed = print(&case.text);
        assert_eq!(print(&case.text), printed, "{}", case.name);
        let pieces = pieces(&case.text);
        let mut hour = match TextHour::open(&pieces[0]) {
            Ok(hour) => hour,
            Err(_) => continue,
        };
        let mut pages = String::new();
        for piece in &pieces[1..] {
            let page = match hour.interval(piece) {
                Ok(page) => page,
                Err(_) => break,
            };
            pages += &page_text(&page);
            assert_eq!(print(hour.text()), pages.as_bytes(), "{}", case.name);
            assert!(printed.starts_with(pages.as_bytes()), "{}", case.name);
        }
        if hour.text() == case.text {
            assert_eq!(printed, pages.as_bytes(), "{}", case.name);
        }
    }
}

/// A run prints a good part before it sees what follows it, or that the text is too long; an hour takes the part whole or not at all.
#[test]
fn an_hour_answers_as_a_run_does() {
    for case in cases() {
        let output = run(&case.text);
        let (pages, refusal) = driven(&case.text);
        assert_eq!(refusal, output.refusal, "{}", case.name);
        if pages != output.pages {
            assert!(matches!(refusal, Some(Refusal { number: 17 | 18, .. })), "{}", case.name);
            let common = pages.len().min(output.pages.len());
            assert_eq!(pages[..common], output.pages[..common], "{}", case.name);
        }
    }
}

/// What an hour has to say of a text that is to be one part, after some text and so many pages: the part is the shortest start of the
/// text that is accepted, and the first line after it is at fault.
fn refusal_of_one_part(before: &[u8], pages: usize, text: &[u8]) -> Option<Refusal> {
    let lines_before = lines(before).count();
    let whole = run(&[before, text].concat()).refusal;
    if matches!(whole, Some(Refusal { number: 18, .. })) {
        return whole;
    }
    let at = |line: usize| {
        Some(Refusal {
            number: 17,
            line: (lines_before + line) as u64,
        })
    };
    let mut start = before.to_vec();
    for (line, bytes) in (1..).zip(lines(text)) {
        start.extend_from_slice(bytes);
        let output = run(&start);
        if output.refusal.is_none() && output.pages.len() == pages {
            return if start.len() == before.len() + text.len() {
                None
            } else {
                at(line + 1)
            };
        }
    }
    whole.or(at(1))
}

fn lines(text: &[u8]) -> impl Iterator<Item = &[u8]> {
    text.split_inclusive(|&byte| byte == b'\n')
}

#[test]
fn a_text_of_several_parts_is_refused_on_the_line_after_the_first() {
    for case in cases().iter().filter(|case| lines(&case.text).count() < 400) {
        let opened = TextHour::open(&case.text).err();
        assert_eq!(opened, refusal_of_one_part(b"", 0, &case.text), "{}", case.name);
        let opening = &pieces(&case.text)[0];
        if let Ok(mut hour) = TextHour::open(opening) {
            let rest = &case.text[opening.len()..];
            let taken = hour.interval(rest).err();
            assert_eq!(taken, refusal_of_one_part(opening, 1, rest), "{}", case.name);
        }
    }
}

#[test]
fn many_threads_with_little_stack_run_at_once() {
    let threads: Vec<_> = (0..4)
        .map(|_| {
            std::thread::Builder::new()
                .stack_size(1 << 20)
                .spawn(every_case_prints_its_bytes)
                .unwrap()
        })
        .collect();
    for thread in threads {
        thread.join().unwrap();
    }
}
