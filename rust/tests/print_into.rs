//! Printing on a page of the caller's own.

use noskjerf::{print_into, ROOM};
use std::fs;
use std::path::Path;

/// What a byte of a page is before a call.
const BEFORE: u8 = 0xA5;

/// A file of Case T.
fn of_t(name: &str) -> Vec<u8> {
    let folder = Path::new(env!("CARGO_MANIFEST_DIR")).join("../crates/mitigate");
    fs::read(folder.join(name)).unwrap()
}

/// Checks what a text prints on a page of some length, and that the page's other bytes stay as they were.
fn check(text: &[u8], length: usize, printed: &[u8]) {
    let mut page = vec![BEFORE; length];
    assert_eq!(print_into(text, &mut page), Some(printed.len()));
    let (front, rest) = page.split_at(printed.len());
    assert_eq!(front, printed);
    assert!(rest.iter().all(|&byte| byte == BEFORE));
}

#[test]
fn bytes_past_the_count_are_untouched() {
    let (text, printed) = (of_t("stdin"), of_t("stdout"));
    check(&text, ROOM, &printed);
    check(&text, ROOM + 100, &printed);
    check(b"", ROOM, b"refusal line\n17 1\n");
}

#[test]
fn an_opening_prints_nothing() {
    let text = of_t("stdin");
    let opening = text.windows(10).position(|bytes| bytes == b"constraint").unwrap();
    check(&text[..opening], ROOM, b"");
}

#[test]
fn a_shorter_page_is_answered_and_untouched() {
    for text in [of_t("stdin"), Vec::new()] {
        for length in [0, 1, ROOM - 1] {
            let mut page = vec![BEFORE; length];
            assert_eq!(print_into(&text, &mut page), None);
            assert!(page.iter().all(|&byte| byte == BEFORE));
        }
    }
}

#[test]
fn a_page_serves_again() {
    let mut page = vec![BEFORE; ROOM];
    for _ in 0..2 {
        let count = print_into(&of_t("stdin"), &mut page).unwrap();
        assert_eq!(page[..count], of_t("stdout"));
        assert_eq!(print_into(b"", &mut page), Some(18));
        assert_eq!(page[..18], *b"refusal line\n17 1\n");
    }
}
