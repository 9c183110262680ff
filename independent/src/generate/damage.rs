//! Damaged texts: bytes and lines changed, dropped, doubled, swapped, cut.

use super::random::Random;

fn lines(text: &[u8]) -> Vec<Vec<u8>> {
    text.split_inclusive(|&byte| byte == b'\n')
        .map(<[u8]>::to_vec)
        .collect()
}

fn is_names_line(line: &[u8]) -> bool {
    line.first().is_some_and(u8::is_ascii_lowercase)
}

/// A line; names lines, the lines beside them and the last line come more often than others.
fn some_line(rng: &mut Random, lines: &[Vec<u8>]) -> usize {
    let any = rng.below(lines.len());
    let names: Vec<usize> = (0..lines.len())
        .filter(|&index| is_names_line(&lines[index]))
        .collect();
    match rng.below(6) {
        0 if !names.is_empty() => rng.pick(&names),
        1 if !names.is_empty() => (rng.pick(&names) + 1).min(lines.len() - 1),
        2 if !names.is_empty() => rng.pick(&names).saturating_sub(1),
        3 => lines.len() - 1,
        _ => any,
    }
}

/// A byte that the form knows, or any.
fn some_byte(rng: &mut Random) -> u8 {
    let known = b"0123456789 -\n\n\r\t+ax";
    match rng.below(5) {
        0 => rng.below(256) as u8,
        _ => rng.pick(known),
    }
}

fn change_bytes(rng: &mut Random, text: &mut Vec<u8>) {
    let at = rng.below(text.len());
    match rng.below(4) {
        0 => text.insert(at, some_byte(rng)),
        1 => {
            text.remove(at);
        }
        2 => text[at] ^= 1 << rng.below(8),
        _ => text[at] = some_byte(rng),
    }
}

fn change_lines(rng: &mut Random, text: &mut Vec<u8>) {
    let mut lines = lines(text);
    let at = some_line(rng, &lines);
    match rng.below(6) {
        0 => {
            lines.remove(at);
        }
        1 => lines.insert(at, lines[at].clone()),
        2 if at > 0 => lines.swap(at - 1, at),
        3 => {
            let other = rng.below(lines.len());
            lines.swap(at, other);
        }
        4 => lines.insert(at, b"\n".to_vec()),
        _ => {
            let other = rng.below(lines.len());
            lines[at] = lines[other].clone();
        }
    }
    *text = lines.concat();
}

fn cut(rng: &mut Random, text: &mut Vec<u8>) {
    match rng.below(3) {
        0 => {
            text.pop();
        }
        1 => text.truncate(rng.below(text.len())),
        _ => {
            let mut lines = lines(text);
            lines.truncate(rng.below(lines.len()));
            *text = lines.concat();
        }
    }
}

/// What may stand in a number's place.
fn field_instead(rng: &mut Random, field: &str) -> String {
    let digits = field.trim_start_matches('-');
    match rng.below(16) {
        0 => format!("0{field}"),
        1 => "-0".into(),
        2 => "00".into(),
        3 => format!("-0{digits}"),
        4 => "1000000000000".into(),
        5 => "-1000000000000".into(),
        6 => "999999999999".into(),
        7 => "-999999999999".into(),
        8 => format!("+{digits}"),
        9 => "-".into(),
        10 => String::new(),
        11 => format!("--{digits}"),
        12 => format!("{field}-"),
        13 => format!("{:0>12}", digits),
        14 => format!("{field}.0"),
        _ => format!("-{digits}"),
    }
}

/// Changes one field of a values line.
fn change_field(rng: &mut Random, text: &mut Vec<u8>) {
    let mut lines = lines(text);
    let at = some_line(rng, &lines);
    let line = String::from_utf8_lossy(&lines[at])
        .trim_end_matches('\n')
        .to_string();
    let mut fields: Vec<String> = line.split(' ').map(String::from).collect();
    let column = rng.below(fields.len());
    match rng.below(8) {
        0 => {
            fields.remove(column);
        }
        1 => fields.insert(column, fields[column].clone()),
        2 => fields.insert(column, String::new()),
        _ => fields[column] = field_instead(rng, &fields[column].clone()),
    }
    lines[at] = format!("{}\n", fields.join(" ")).into_bytes();
    *text = lines.concat();
}

/// Spaces and carriage returns at one line, or at every line.
fn change_blanks(rng: &mut Random, text: &mut Vec<u8>) {
    let mut lines = lines(text);
    let at = some_line(rng, &lines);
    let line = &mut lines[at];
    let end = line.len() - 1;
    match rng.below(6) {
        0 => line.insert(end, b'\r'),
        1 => line.insert(end, b' '),
        2 => line.insert(0, b' '),
        3 => line.insert(rng.below(end + 1), b' '),
        4 => line
            .iter_mut()
            .filter(|byte| **byte == b' ')
            .for_each(|byte| *byte = b'\t'),
        _ => line.insert(rng.below(end + 1), b'\n'),
    }
    *text = lines.concat();
}

/// One byte of a names line.
fn change_names(rng: &mut Random, text: &mut Vec<u8>) {
    let mut lines = lines(text);
    let names: Vec<usize> = (0..lines.len())
        .filter(|&index| is_names_line(&lines[index]))
        .collect();
    if names.is_empty() {
        return;
    }
    let line = &mut lines[rng.pick(&names)];
    let at = rng.below(line.len());
    match rng.below(4) {
        0 => {
            line.remove(at);
        }
        1 => line.insert(at, b'a' + rng.below(26) as u8),
        2 => line[at] = line[at].to_ascii_uppercase(),
        _ => line[at] = b'a' + rng.below(26) as u8,
    }
    *text = lines.concat();
}

/// A whole table gone, doubled or before its neighbour.
fn change_tables(rng: &mut Random, text: &mut Vec<u8>) {
    let mut tables: Vec<Vec<u8>> = Vec::new();
    for line in lines(text) {
        match tables.last_mut() {
            Some(table) if !is_names_line(&line) => table.extend(line),
            _ => tables.push(line),
        }
    }
    let at = rng.below(tables.len());
    match rng.below(3) {
        0 => {
            tables.remove(at);
        }
        1 => tables.insert(at, tables[at].clone()),
        _ => tables.swap(at, at.saturating_sub(1)),
    }
    *text = tables.concat();
}

/// Lines after the last line due.
fn append(rng: &mut Random, text: &mut Vec<u8>) {
    let more: [&[u8]; 9] = [
        b"\n",
        b"x",
        b"100\n",
        b"-\n",
        b"0 0 0\n",
        b"month\n",
        b"constraint shadow\n",
        b"constraint shadow",
        b"constraint shadow\nresource lmp dispatch available floor\n",
    ];
    text.extend_from_slice(rng.pick(&more));
}

/// All line ends with a carriage return, or a byte order mark.
fn change_all(rng: &mut Random, text: &mut Vec<u8>) {
    if rng.once_in(3) {
        *text = [b"\xef\xbb\xbf".to_vec(), text.clone()].concat();
        return;
    }
    let from = rng.below(text.len());
    let (head, tail) = text.split_at(from);
    let closed = lines(tail)
        .into_iter()
        .map(|line| match line.strip_suffix(b"\n") {
            Some(line) => [line, b"\r\n".as_slice()].concat(),
            None => line,
        });
    *text = [head.to_vec(), closed.collect::<Vec<_>>().concat()].concat();
}

pub fn damage(rng: &mut Random, text: &mut Vec<u8>) {
    if text.is_empty() {
        return;
    }
    match rng.below(24) {
        0..=3 => change_bytes(rng, text),
        4..=7 => change_lines(rng, text),
        8..=9 => cut(rng, text),
        10..=14 => change_field(rng, text),
        15..=17 => change_blanks(rng, text),
        18..=19 => change_names(rng, text),
        20 => change_tables(rng, text),
        21..=22 => append(rng, text),
        _ => change_all(rng, text),
    }
}
