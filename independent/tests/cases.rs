//! Every text of the project's cases gives the output beside it, byte for byte.

use std::fs;
use std::path::{Path, PathBuf};

fn texts() -> Vec<PathBuf> {
    let directory = Path::new(env!("CARGO_MANIFEST_DIR")).join("../crates/text_cases/data");
    let entries = fs::read_dir(directory)
        .unwrap()
        .map(|entry| entry.unwrap().path());
    let mut texts: Vec<PathBuf> = entries
        .filter(|path| path.extension().is_some_and(|kind| kind == "txt"))
        .collect();
    texts.sort();
    texts
}

fn agrees(text: &Path) -> bool {
    let expected = fs::read(text.with_extension("out")).unwrap();
    let found = independent::run(&fs::read(text).unwrap());
    if found != expected {
        let name = text.file_stem().unwrap().to_string_lossy();
        let (found, expected) = (
            String::from_utf8_lossy(&found),
            String::from_utf8_lossy(&expected),
        );
        println!("{name}\nfound:\n{found}\nexpected:\n{expected}");
        return false;
    }
    true
}

#[test]
fn all_cases() {
    let texts = texts();
    assert_eq!(texts.len(), 151);
    let agreeing = texts.iter().filter(|text| agrees(text)).count();
    assert_eq!(agreeing, texts.len(), "{agreeing} of {} agree", texts.len());
}
