//! An hour driven by text, interval by interval.

use crate::{run, Page, Refusal};

/// The names line that begins the part of an interval. It stands nowhere else in a text that is accepted.
const INTERVAL: &[u8] = b"constraint shadow";

/// A trading hour that was opened, and the intervals it has taken so far.
///
/// An hour is the text accepted so far. Each call adds the text of one part, every line closed by its newline, and answers that part
/// alone. A cut made in one interval carries on to the next. A refused call leaves the hour as it was, so that a mended part may follow.
///
/// Lines are counted from the start of the hour's whole text; [`TextHour::line_in_part`] gives a refusal's line within its part. The rules of the
/// text hold as if it came at once, with one more, since a call takes one part:
///
/// - A part that ends early, or whose last line is not closed by a newline, is refused: 17.
/// - So is an empty part: 17, on the line after the last.
/// - A text with more than its part is refused even if the part is good: 17, on the first line after the part. Nothing of it is taken.
/// - The whole text may have 65,536 bytes; a part that would make it longer is refused: 18, line 1.
/// - A fifth interval is refused: 12.
///
/// Each call runs the hour's whole text again, at most five parts. [`Hour`](crate::Hour) takes numbers instead, has no bound of 65,536 bytes,
/// and takes five-minute passes too.
///
/// ```
/// use noskjerf::TextHour;
///
/// let opening = b"\
/// month
/// 25
/// portfolio seller
/// 0 1
/// resource portfolio start
/// 0 0 10000
/// resource end price
/// 0 15000 300000
/// 0 30000 900000
/// resource mw heat
/// 0 10000 10000
/// 0 20000 9000
/// 0 30000 9500
/// resource gas rate allowance om msc soc fee
/// 0 40000 0 0 20000 1000 3000 50
/// ";
/// let interval = "\
/// constraint shadow
/// 0 500000
/// resource lmp dispatch available floor
/// 0 600000 20000 30000 0
/// resource constraint factor
/// 0 0 -500000
/// parameter
/// 100
/// ";
/// let mut hour = TextHour::open(opening)?;
///
/// // dispatch above what is available is refused, and the hour stays open
/// let refusal = hour.interval(interval.replace("20000 30000", "40000 30000").as_bytes()).unwrap_err();
/// assert_eq!((refusal.number, refusal.line), (16, 23));
/// assert_eq!(hour.line_in_part(&refusal), Some(8));
/// assert_eq!(hour.accepted(), 0);
///
/// let page = hour.interval(interval.as_bytes())?;
/// assert_eq!(page.interval, 1);
/// assert_eq!(page.curves[0].steps[1].price, 378402);
/// # Ok::<(), noskjerf::Refusal>(())
/// ```
#[derive(Clone, Debug, PartialEq, Eq)]
pub struct TextHour {
    text: Vec<u8>,
    lines: u64,
    accepted: usize,
}

impl TextHour {
    /// Opens an hour with the first six tables of a text, from `month` to the costs.
    pub fn open(opening: &[u8]) -> Result<TextHour, Refusal> {
        one_part(run(opening).refusal, interval_starts(opening).next())?;
        Ok(TextHour {
            text: opening.to_vec(),
            lines: count_lines(opening),
            accepted: 0,
        })
    }

    /// Takes an interval: the last four tables of a text, from `constraint shadow` to `parameter`. A parameter `-` is missing and means 0.
    pub fn interval(&mut self, part: &[u8]) -> Result<Page, Refusal> {
        let text = [&self.text, part].concat();
        let output = run(&text);
        let surplus = interval_starts(part).nth(1).map(|line| self.lines + line);
        one_part(output.refusal, surplus)?;
        let page = output.pages.into_iter().nth(self.accepted);
        let page = page.ok_or(not_of_the_form(self.lines + 1))?;
        self.lines = count_lines(&text);
        self.text = text;
        self.accepted += 1;
        Ok(page)
    }

    /// How many intervals were accepted, 0 to 4.
    pub fn accepted(&self) -> usize {
        self.accepted
    }

    /// How many lines the text accepted so far has.
    pub fn lines(&self) -> u64 {
        self.lines
    }

    /// The line, counted from 1 within the part, of the refusal that the last call answered. None for 18, which is said of the whole text.
    pub fn line_in_part(&self, refusal: &Refusal) -> Option<u64> {
        match refusal.number {
            18 => None,
            _ => refusal.line.checked_sub(self.lines),
        }
    }

    /// The text accepted so far. [`run`] gives the same pages for it.
    pub fn text(&self) -> &[u8] {
        &self.text
    }
}

/// Refuses a text that was to be one part: as the engine does, or for the line that begins a second part, whichever line comes first.
fn one_part(refusal: Option<Refusal>, surplus: Option<u64>) -> Result<(), Refusal> {
    let surplus = surplus.map(not_of_the_form);
    match refusal.into_iter().chain(surplus).min_by_key(|refusal| refusal.line) {
        Some(refusal) => Err(refusal),
        None => Ok(()),
    }
}

fn not_of_the_form(line: u64) -> Refusal {
    Refusal { number: 17, line }
}

/// The numbers, from 1, of the lines that begin an interval.
fn interval_starts(text: &[u8]) -> impl Iterator<Item = u64> + '_ {
    let lines = text.split(|&byte| byte == b'\n').zip(1..);
    lines.filter(|(line, _)| *line == INTERVAL).map(|(_, number)| number)
}

fn count_lines(text: &[u8]) -> u64 {
    text.iter().map(|&byte| u64::from(byte == b'\n')).sum()
}
