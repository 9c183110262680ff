//! Local market power mitigation, as a safe library over the proved engine Noskjerf.
//!
//! A text holds the tables that open a trading hour and those of its intervals: bids and costs, then shadow prices, shift factors and
//! dispatch. [`run`] runs a text. Each accepted interval gives a [`Page`]: the verdict on every constraint, the sellers named, and the
//! bid curve of every resource after mitigation. What is wrong with a text is a [`Refusal`], a number from 1 to 18 and a line. The
//! project's `docs/FORMAT.md` describes the text and `docs/REFUSALS.md` the refusals.
//!
//! ```
//! use noskjerf::{run, Finding};
//!
//! let text = b"\
//! month
//! 25
//! portfolio seller
//! 0 1
//! resource portfolio start
//! 0 0 10000
//! resource end price
//! 0 15000 300000
//! 0 30000 900000
//! resource mw heat
//! 0 10000 10000
//! 0 20000 9000
//! 0 30000 9500
//! resource gas rate allowance om msc soc fee
//! 0 40000 0 0 20000 1000 3000 50
//! constraint shadow
//! 0 500000
//! resource lmp dispatch available floor
//! 0 600000 20000 30000 0
//! resource constraint factor
//! 0 0 -500000
//! parameter
//! 100
//! ";
//! let output = run(text);
//! assert_eq!(output.refusal, None);
//!
//! let page = &output.pages[0];
//! assert_eq!(page.verdicts[0].finding, Finding::NonCompetitive);
//! assert_eq!(page.sellers[0].portfolio, 0);
//!
//! // the bid of resource 0 was 300000 and 900000; the second step is cut
//! let prices: Vec<i64> = page.curves[0].steps.iter().map(|step| step.price).collect();
//! assert_eq!(prices, [300000, 378402, 444403, 488402]);
//! ```
//!
//! [`Hour`] drives an hour in numbers, without a text: intervals, five-minute passes, curves, one bid for the hour, whether and why a cap
//! applies, and who leaves every binding constraint short together. [`TextHour`] drives one by the text of its parts. [`judgement`] judges
//! one bid, works out one default energy bid or joins the two parts of a contracted unit's, and lists the bids for a classroom; [`gas`] takes
//! the gas price from a book of published prices.
//!
//! [`designation`] keeps the sixty-day tally of a constraint, by which it is designated where an assessment fails.
//!
//! # Building
//!
//! The engine is a static library for Linux on x86-64, `libnoskjerf.a`, which `./archive` writes to the project's `target/lib`. The crate
//! needs Rust 1.63 and no other crate. A program outside the project names the crate's folder in its `Cargo.toml`:
//!
//! ```toml
//! [dependencies]
//! noskjerf = { path = "../noskjerf/rust" }
//! ```
//!
//! The library is looked for in `target/lib` beside that folder. Where it stands elsewhere, the environment variable `NOSKJERF_LIB` names its
//! folder as an absolute path. A program that has a copy in its own folder `lib` says so in its `.cargo/config.toml`:
//!
//! ```toml
//! [env]
//! NOSKJERF_LIB = { value = "lib", relative = true }
//! ```
//!
//! # Units
//!
//! Quantities are hundredths of a MW and prices 0.0001 dollar per MWh. Shift factors are millionths, so that demand, left and withheld
//! are in hundred-millionths of a MW.
//!
//! # Threads
//!
//! The engine keeps nothing between calls; any number of threads may call it at once. A call takes at most 144 KB of stack, less than Rust
//! gives a thread (2 MiB); a thread made with a smaller one should have 1 MiB.

#![deny(unsafe_code)]
#![warn(missing_docs)]

pub mod designation;
#[allow(unsafe_code)]
mod ffi;
pub mod gas;
pub mod hour;
pub mod judgement;
mod output;
mod refusal;
mod text_hour;

pub use hour::Hour;
pub use output::{Curve, Finding, Output, Page, Seller, Step, Verdict};
pub use refusal::{Refusal, Refused};
pub use text_hour::TextHour;

/// How many bytes a text may have; a longer one is refused (18).
pub const MAX_TEXT: usize = 65_536;

/// How many bytes a page has to have for [`print_into`].
pub const ROOM: usize = 655_424;

/// What a text prints, byte for byte what the program `mitigate` writes for it.
///
/// ```
/// assert_eq!(noskjerf::print(b"month\n025\n"), b"refusal line\n17 2\n");
/// ```
pub fn print(text: &[u8]) -> Vec<u8> {
    printed(text).0
}

/// Puts what a text prints on a page of the caller's own, from its first byte on, and answers how many bytes that took: none where the text
/// opens an hour and has no interval. The page's bytes past the count stay as they were.
///
/// Answers `None` where the page has fewer than [`ROOM`] bytes, whatever the text prints; the page is then untouched.
///
/// ```
/// let mut page = vec![0; noskjerf::ROOM];
/// for text in [b"month\n025\n", b"month\n1 5\n"] {
///     let count = noskjerf::print_into(text, &mut page).unwrap();
///     assert_eq!(&page[..count], b"refusal line\n17 2\n");
/// }
/// assert_eq!(noskjerf::print_into(b"", &mut page[1..]), None);
/// ```
pub fn print_into(text: &[u8], page: &mut [u8]) -> Option<usize> {
    ffi::run(text, page, &mut [0; 2])
}

/// What a text prints, and its refusal.
fn printed(text: &[u8]) -> (Vec<u8>, Option<Refusal>) {
    let mut page = vec![0; ROOM];
    let mut told = [0; 2];
    let count = ffi::run(text, &mut page, &mut told).expect("the page has the room that the engine asks for");
    page.truncate(count);
    page.shrink_to_fit();
    (page, Refusal::told(told))
}

/// Runs a text: what it prints, read into pages, and its refusal.
///
/// Intervals are printed one by one, so that the pages of those before a refusal are there beside it.
///
/// ```
/// let output = noskjerf::run(b"month\n025\n");
/// assert!(output.pages.is_empty());
/// let refusal = output.refusal.unwrap();
/// assert_eq!((refusal.number, refusal.line), (17, 2));
/// ```
pub fn run(text: &[u8]) -> Output {
    let (bytes, refusal) = printed(text);
    Output::of(bytes, refusal)
}
