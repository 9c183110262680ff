//! Shrinking a text on which two programs differ.

/// Leaves out runs of pieces, long runs first, as long as the rest still differs.
fn without_pieces(pieces: Vec<&[u8]>, differs: &dyn Fn(&[u8]) -> bool) -> Vec<u8> {
    let mut kept = pieces;
    let mut run = kept.len();
    while run > 0 {
        let mut start = 0;
        while start < kept.len() {
            let end = (start + run).min(kept.len());
            let rest = [&kept[..start], &kept[end..]].concat();
            if differs(&rest.concat()) {
                kept = rest;
            } else {
                start = end;
            }
        }
        run /= 2;
    }
    kept.concat()
}

fn without_lines(text: &[u8], differs: &dyn Fn(&[u8]) -> bool) -> Vec<u8> {
    without_pieces(
        text.split_inclusive(|&byte| byte == b'\n').collect(),
        differs,
    )
}

fn without_bytes(text: &[u8], differs: &dyn Fn(&[u8]) -> bool) -> Vec<u8> {
    without_pieces(text.chunks(1).collect(), differs)
}

/// A shorter text that still differs: whole lines are left out first, then bytes, until neither
/// helps.
pub fn shrink(text: &[u8], differs: &dyn Fn(&[u8]) -> bool) -> Vec<u8> {
    let mut shrunk = text.to_vec();
    if !differs(text) {
        return shrunk;
    }
    loop {
        let shorter = without_bytes(&without_lines(&shrunk, differs), differs);
        if shorter.len() == shrunk.len() {
            return shorter;
        }
        shrunk = shorter;
    }
}

#[cfg(test)]
mod tests {
    use super::*;

    #[test]
    fn shrinks_to_what_makes_the_difference() {
        let text = b"month\n25\nportfolio seller\n0 1\n1 7\n2 0\n";
        let has_seven = |text: &[u8]| text.contains(&b'7');
        assert_eq!(shrink(text, &has_seven), b"7");
        let two_lines = |text: &[u8]| text.iter().filter(|&&byte| byte == b'\n').count() >= 2;
        assert_eq!(shrink(text, &two_lines), b"\n\n");
    }

    #[test]
    fn keeps_a_text_without_difference() {
        assert_eq!(shrink(b"month\n", &|_| false), b"month\n");
    }

    #[test]
    fn shrinks_to_the_empty_text() {
        assert_eq!(shrink(b"month\n25\n", &|_| true), b"");
    }
}
