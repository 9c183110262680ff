//! Hours driven part by part: what is accepted, what is refused on which line, and that a refusal changes nothing.

use noskjerf::{run, Page, Refusal, TextHour, MAX_TEXT};

const OPENING: &str = "\
month
25
portfolio seller
0 1
resource portfolio start
0 0 10000
resource end price
0 15000 300000
0 30000 900000
resource mw heat
0 10000 10000
0 20000 9000
0 30000 9500
resource gas rate allowance om msc soc fee
0 40000 0 0 20000 1000 3000 50
";

const INTERVAL: &str = "\
constraint shadow
0 500000
resource lmp dispatch available floor
0 600000 20000 30000 0
resource constraint factor
0 0 -500000
parameter
100
";

fn opened() -> TextHour {
    TextHour::open(OPENING.as_bytes()).unwrap()
}

/// An hour that has taken some intervals.
fn after(intervals: usize) -> TextHour {
    let mut hour = opened();
    for _ in 0..intervals {
        hour.interval(INTERVAL.as_bytes()).unwrap();
    }
    hour
}

/// The number and line of an opening's refusal.
fn refused_opening(text: &str) -> (u8, u64) {
    let Refusal { number, line } = TextHour::open(text.as_bytes()).unwrap_err();
    (number, line)
}

/// The number and line of an interval's refusal, which leaves the hour as it was.
fn refused(hour: &mut TextHour, part: &str) -> (u8, u64) {
    let before = hour.clone();
    let Refusal { number, line } = hour.interval(part.as_bytes()).unwrap_err();
    assert_eq!(*hour, before);
    (number, line)
}

fn prices(page: &Page) -> Vec<i64> {
    page.curves[0].steps.iter().map(|step| step.price).collect()
}

#[test]
fn four_intervals_are_taken_and_a_fifth_is_not() {
    let mut hour = opened();
    assert_eq!((hour.accepted(), hour.lines()), (0, 15));
    for i in 1..=4 {
        let page = hour.interval(INTERVAL.as_bytes()).unwrap();
        assert_eq!(page.interval, i);
        assert_eq!((hour.accepted(), hour.lines()), (i, 15 + 8 * i as u64));
    }
    assert_eq!(refused(&mut hour, INTERVAL), (12, 55));
    assert_eq!(hour.text(), [OPENING, &INTERVAL.repeat(4)].concat().as_bytes());
    assert_eq!(run(hour.text()).accepted().unwrap().len(), 4);
}

#[test]
fn a_cut_carries_on() {
    let mut hour = opened();
    // floor price 500000: lmp 749900 less 250000 and 100 more
    let dear = hour.interval(INTERVAL.replace("600000", "749900").as_bytes()).unwrap();
    assert_eq!(prices(&dear), [300000, 500000]);
    let cheap = hour.interval(INTERVAL.as_bytes()).unwrap();
    assert_eq!(prices(&cheap), [300000, 378402, 444403, 488402]);
    let dear_again = hour.interval(INTERVAL.replace("600000", "749900").as_bytes()).unwrap();
    assert_eq!(prices(&dear_again), [300000, 378402, 444403, 488402]);
}

#[test]
fn a_mended_part_follows_a_refused_one() {
    let mut hour = after(1);
    assert_eq!(refused(&mut hour, &INTERVAL.replace("-500000", "-1000001")), (15, 31));
    assert_eq!(refused(&mut hour, &INTERVAL.replace("0 500000", "0 0500000")), (17, 25));
    assert_eq!(hour.interval(INTERVAL.as_bytes()).unwrap().interval, 2);
}

/// The line within the part of an interval's refusal.
fn line_in_part(hour: &mut TextHour, part: &str) -> Option<u64> {
    let refusal = hour.interval(part.as_bytes()).unwrap_err();
    hour.line_in_part(&refusal)
}

#[test]
fn a_refusal_has_its_line_within_the_part() {
    for intervals in 0..4 {
        let hour = &mut after(intervals);
        assert_eq!(line_in_part(hour, ""), Some(1));
        assert_eq!(line_in_part(hour, "constraint shadow\n"), Some(2));
        assert_eq!(line_in_part(hour, &INTERVAL.replace("0 600000", "0 0600000")), Some(4));
        assert_eq!(line_in_part(hour, &INTERVAL.replace("-500000", "-1000001")), Some(8));
        assert_eq!(line_in_part(hour, &INTERVAL.repeat(2)), Some(9));
        assert_eq!(line_in_part(hour, &"\n".repeat(MAX_TEXT)), None);
    }
    assert_eq!(line_in_part(&mut after(4), INTERVAL), Some(8));
}

#[test]
fn an_opening_is_refused_by_its_own_lines() {
    assert_eq!(refused_opening(""), (17, 1));
    assert_eq!(refused_opening("month\n25\n"), (17, 3));
    assert_eq!(refused_opening(&OPENING.replace("25", "0")), (9, 15));
    assert_eq!(refused_opening(OPENING.strip_suffix('\n').unwrap()), (17, 15));
    assert_eq!(refused_opening(INTERVAL), (17, 1));
}

#[test]
fn an_opening_is_one_part() {
    assert_eq!(refused_opening(&format!("{OPENING}\n")), (17, 16));
    assert_eq!(refused_opening(&format!("{OPENING}{OPENING}")), (17, 16));
    assert_eq!(refused_opening(&format!("{OPENING}{INTERVAL}")), (17, 16));
    assert_eq!(refused_opening(&format!("{OPENING}constraint shadow")), (17, 16));
    // the interval after it is bad as well, in its text or in its values
    assert_eq!(refused_opening(&format!("{OPENING}constraint shadow\nx\n")), (17, 16));
    assert_eq!(refused_opening(&format!("{OPENING}{}", INTERVAL.replace("100", "101"))), (17, 16));
    // the opening itself is refused first
    assert_eq!(refused_opening(&format!("{}{INTERVAL}", OPENING.replace("25", "0"))), (9, 15));
    assert_eq!(refused_opening(&format!("{}{INTERVAL}", OPENING.replace("25", "025"))), (17, 2));
}

#[test]
fn a_part_is_whole() {
    let mut hour = after(1);
    assert_eq!(refused(&mut hour, ""), (17, 24));
    assert_eq!(refused(&mut hour, "constraint shadow\n"), (17, 25));
    assert_eq!(refused(&mut hour, INTERVAL.strip_suffix('\n').unwrap()), (17, 31));
    assert_eq!(refused(&mut hour, INTERVAL.strip_suffix("100\n").unwrap()), (17, 31));
    // what was refused is not kept: its end alone is no part
    assert_eq!(refused(&mut hour, "100\n"), (17, 24));
    assert_eq!(refused(&mut hour, OPENING), (17, 24));
}

#[test]
fn a_part_is_one() {
    let mut hour = after(1);
    let bad = INTERVAL.replace("100", "101");
    assert_eq!(refused(&mut hour, &INTERVAL.repeat(2)), (17, 32));
    assert_eq!(refused(&mut hour, &INTERVAL.repeat(9)), (17, 32));
    assert_eq!(refused(&mut hour, &format!("{INTERVAL}{bad}")), (17, 32));
    assert_eq!(refused(&mut hour, &format!("{INTERVAL}constraint shadow")), (17, 32));
    assert_eq!(refused(&mut hour, &format!("{INTERVAL}constraint shadow\nx\n")), (17, 32));
    assert_eq!(refused(&mut hour, &format!("{INTERVAL}\n")), (17, 32));
    assert_eq!(refused(&mut hour, &format!("{INTERVAL}\n{INTERVAL}")), (17, 32));
    assert_eq!(refused(&mut hour, &format!("{INTERVAL}x")), (17, 32));
    // the first part itself is refused first
    assert_eq!(refused(&mut hour, &format!("{bad}{INTERVAL}")), (15, 31));
    assert_eq!(refused(&mut hour, &format!("\n{INTERVAL}")), (17, 24));
    assert_eq!(refused(&mut hour, &format!("constraint shadow\n{INTERVAL}")), (17, 25));
    assert_eq!(refused(&mut after(4), &INTERVAL.repeat(2)), (12, 55));
    assert_eq!(refused(&mut after(3), &INTERVAL.repeat(2)), (17, 48));
}

#[test]
fn the_whole_text_is_bounded() {
    let mut hour = after(3);
    let left = MAX_TEXT - hour.text().len();
    assert_eq!(refused(&mut hour, &"\n".repeat(left)), (17, 40));
    assert_eq!(refused(&mut hour, &"\n".repeat(left + 1)), (18, 1));
    let long = format!("{INTERVAL}{}", "\n".repeat(left));
    assert_eq!(refused(&mut hour, &long), (18, 1));
    let begins_twice = "constraint shadow\n".repeat(left);
    assert_eq!(refused(&mut hour, &begins_twice), (18, 1));
    assert_eq!(refused_opening(&begins_twice), (18, 1));
}
