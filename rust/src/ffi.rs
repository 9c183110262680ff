//! The static library's functions, made safe. This is the only module with unsafe code.
//!
//! The functions read and write within the lengths that are passed and nowhere else, they keep no pointer, and the buffers they write are
//! lent for change, so that they overlap nothing.

/// How many numbers the two buffers of a default curve have: how many steps, the start and eleven ends; eleven prices.
pub const EDGES: usize = 2 + PRICES;
pub const PRICES: usize = 11;

/// How many classroom bids there are.
pub const CLASSROOM: usize = 37;

/// A book of gas prices, and the market and the trading day that it is asked for.
pub struct Asked<'a> {
    pub day_ahead: &'a [u32],
    pub real_time: &'a [u32],
    pub market: u32,
    pub day: u32,
}

/// A part of a joined curve, with the end and the price of its steps in turn.
pub struct Part<'a> {
    pub start: i64,
    pub count: usize,
    pub steps: &'a [i64],
}

extern "C" {
    fn noskjerf_told(text: *const u8, text_len: usize, page: *mut u8, page_len: usize, told: *mut u64, told_len: usize) -> i64;

    fn noskjerf_bid(month: u64, start: i64, count: usize, steps: *const i64, steps_len: usize) -> u64;

    fn noskjerf_default(
        count: usize,
        points: *const i64,
        points_len: usize,
        charges: *const i64,
        charges_len: usize,
        edges: *mut u64,
        edges_len: usize,
        prices: *mut i64,
        prices_len: usize,
    ) -> i64;

    fn noskjerf_gas_run(
        day_ahead: *const u32,
        day_ahead_len: usize,
        real_time: *const u32,
        real_time_len: usize,
        market: u32,
        day: u32,
    ) -> usize;

    fn noskjerf_gas_default(
        day_ahead: *const u32,
        day_ahead_len: usize,
        real_time: *const u32,
        real_time_len: usize,
        market: u32,
        day: u32,
        count: usize,
        points: *const i64,
        points_len: usize,
        charges: *const i64,
        charges_len: usize,
        edges: *mut u64,
        edges_len: usize,
        prices: *mut i64,
        prices_len: usize,
    ) -> i64;

    fn noskjerf_join(
        proxy_start: i64,
        proxy_count: usize,
        proxy_steps: *const i64,
        proxy_steps_len: usize,
        above_start: i64,
        above_count: usize,
        above_steps: *const i64,
        above_steps_len: usize,
        edges: *mut u64,
        edges_len: usize,
        prices: *mut i64,
        prices_len: usize,
    ) -> i64;

    fn noskjerf_classroom(k: usize, edges: *mut u64, edges_len: usize, prices: *mut i64, prices_len: usize) -> i64;
}

/// Puts what a text prints on the page, and the number and line of its refusal into `told`, 0 and 0 where nothing is refused; answers
/// how many bytes were printed, or none where the page is too small.
pub fn run(text: &[u8], page: &mut [u8], told: &mut [u64; 2]) -> Option<usize> {
    // SAFETY: each pointer comes with the length of its slice
    let count = unsafe {
        noskjerf_told(
            text.as_ptr(),
            text.len(),
            page.as_mut_ptr(),
            page.len(),
            told.as_mut_ptr(),
            told.len(),
        )
    };
    usize::try_from(count).ok()
}

/// The refusal of a bid whose steps hold end and price in turn, or 0.
pub fn bid(month: u64, start: i64, count: usize, steps: &[i64]) -> u64 {
    // SAFETY: the pointer comes with the length of its slice
    unsafe { noskjerf_bid(month, start, count, steps.as_ptr(), steps.len()) }
}

/// The refusal of costs whose points hold mw and heat in turn; or 0, and the buffers filled.
pub fn default(count: usize, points: &[i64], charges: &[i64; 7], edges: &mut [u64; EDGES], prices: &mut [i64; PRICES]) -> i64 {
    // SAFETY: each pointer comes with the length of its slice
    unsafe {
        noskjerf_default(
            count,
            points.as_ptr(),
            points.len(),
            charges.as_ptr(),
            charges.len(),
            edges.as_mut_ptr(),
            edges.len(),
            prices.as_mut_ptr(),
            prices.len(),
        )
    }
}

/// How many numbers of the market's list are its run, or 0.
pub fn gas_run(asked: &Asked<'_>) -> usize {
    // SAFETY: each pointer comes with the length of its slice
    unsafe {
        noskjerf_gas_run(
            asked.day_ahead.as_ptr(),
            asked.day_ahead.len(),
            asked.real_time.as_ptr(),
            asked.real_time.len(),
            asked.market,
            asked.day,
        )
    }
}

/// As `default`, with the book's price for the gas price; the refusal may be that of the book.
pub fn gas_default(
    asked: &Asked<'_>,
    count: usize,
    points: &[i64],
    charges: &[i64; 7],
    edges: &mut [u64; EDGES],
    prices: &mut [i64; PRICES],
) -> i64 {
    // SAFETY: each pointer comes with the length of its slice
    unsafe {
        noskjerf_gas_default(
            asked.day_ahead.as_ptr(),
            asked.day_ahead.len(),
            asked.real_time.as_ptr(),
            asked.real_time.len(),
            asked.market,
            asked.day,
            count,
            points.as_ptr(),
            points.len(),
            charges.as_ptr(),
            charges.len(),
            edges.as_mut_ptr(),
            edges.len(),
            prices.as_mut_ptr(),
            prices.len(),
        )
    }
}

/// The refusal of two parts of a joined curve; or 0, and the buffers filled.
pub fn join(proxy: &Part<'_>, above: &Part<'_>, edges: &mut [u64; EDGES], prices: &mut [i64; PRICES]) -> i64 {
    // SAFETY: each pointer comes with the length of its slice
    unsafe {
        noskjerf_join(
            proxy.start,
            proxy.count,
            proxy.steps.as_ptr(),
            proxy.steps.len(),
            above.start,
            above.count,
            above.steps.as_ptr(),
            above.steps.len(),
            edges.as_mut_ptr(),
            edges.len(),
            prices.as_mut_ptr(),
            prices.len(),
        )
    }
}

/// 0, and the buffers filled with a classroom bid; or 1 past the last.
pub fn classroom(k: usize, edges: &mut [u64; EDGES], prices: &mut [i64; PRICES]) -> i64 {
    // SAFETY: each pointer comes with the length of its slice
    unsafe { noskjerf_classroom(k, edges.as_mut_ptr(), edges.len(), prices.as_mut_ptr(), prices.len()) }
}

mod hours {
    /// How many numbers an hour is, one resource of an opening, the verdicts of an interval and one of them, and why, and one resource of it.
    pub const STATE: usize = 3411;
    pub const BLOCK: usize = 80;
    pub const VERDICTS: usize = 32 * VERDICT;
    pub const VERDICT: usize = 20;
    pub const CAUSES: usize = 64 * CAUSE;
    pub const CAUSE: usize = 4;

    /// How many numbers are found of sellers together.
    pub const FOUND: usize = 3;

    /// How many numbers the two buffers of a mitigated curve have: how many steps, the start and twenty ends; twenty prices.
    pub const HOUR_EDGES: usize = 2 + HOUR_PRICES;
    pub const HOUR_PRICES: usize = 20;

    type State = [i64; STATE];
    type Taking = unsafe extern "C" fn(
        *mut i64,
        usize,
        usize,
        *const i64,
        usize,
        usize,
        *const i64,
        usize,
        *const i64,
        usize,
        i64,
        *mut i64,
        usize,
    ) -> i64;
    type Asking = unsafe extern "C" fn(*const i64, usize, usize, *mut u64, usize, *mut i64, usize) -> i64;

    extern "C" {
        #[cfg(test)]
        fn noskjerf_state_room() -> usize;

        fn noskjerf_open(
            month: i64,
            portfolios: usize,
            sellers: *const i64,
            sellers_len: usize,
            resources: usize,
            blocks: *const i64,
            blocks_len: usize,
            state: *mut i64,
            state_len: usize,
        ) -> i64;

        fn noskjerf_interval(
            state: *mut i64,
            state_len: usize,
            constraints: usize,
            shadow: *const i64,
            shadow_len: usize,
            resources: usize,
            outputs: *const i64,
            outputs_len: usize,
            factors: *const i64,
            factors_len: usize,
            parameter: i64,
            verdicts: *mut i64,
            verdicts_len: usize,
        ) -> i64;

        fn noskjerf_pass(
            state: *mut i64,
            state_len: usize,
            constraints: usize,
            shadow: *const i64,
            shadow_len: usize,
            resources: usize,
            outputs: *const i64,
            outputs_len: usize,
            factors: *const i64,
            factors_len: usize,
            parameter: i64,
            verdicts: *mut i64,
            verdicts_len: usize,
        ) -> i64;

        fn noskjerf_why(
            state: *const i64,
            state_len: usize,
            constraints: usize,
            shadow: *const i64,
            shadow_len: usize,
            resources: usize,
            outputs: *const i64,
            outputs_len: usize,
            factors: *const i64,
            factors_len: usize,
            parameter: i64,
            causes: *mut i64,
            causes_len: usize,
        ) -> i64;

        fn noskjerf_pivotal(
            state: *const i64,
            state_len: usize,
            constraints: usize,
            shadow: *const i64,
            shadow_len: usize,
            resources: usize,
            outputs: *const i64,
            outputs_len: usize,
            factors: *const i64,
            factors_len: usize,
            parameter: i64,
            budget: u64,
            found: *mut u64,
            found_len: usize,
        ) -> i64;

        fn noskjerf_curve(
            state: *const i64,
            state_len: usize,
            r: usize,
            edges: *mut u64,
            edges_len: usize,
            prices: *mut i64,
            prices_len: usize,
        ) -> i64;

        fn noskjerf_five_minute(
            state: *const i64,
            state_len: usize,
            r: usize,
            edges: *mut u64,
            edges_len: usize,
            prices: *mut i64,
            prices_len: usize,
        ) -> i64;

        fn noskjerf_hour_bid(
            state: *const i64,
            state_len: usize,
            r: usize,
            edges: *mut u64,
            edges_len: usize,
            prices: *mut i64,
            prices_len: usize,
        ) -> i64;

        fn noskjerf_default_of(
            state: *const i64,
            state_len: usize,
            r: usize,
            edges: *mut u64,
            edges_len: usize,
            prices: *mut i64,
            prices_len: usize,
        ) -> i64;
    }

    /// What an hour is opened from: a mark for each portfolio, and a block for each of the resources.
    pub struct Opening<'a> {
        pub month: i64,
        pub sellers: &'a [i64],
        pub resources: usize,
        pub blocks: &'a [i64],
    }

    /// An interval or a pass: a shadow price for each constraint, four numbers for each of the resources, and the factors.
    pub struct Interval<'a> {
        pub shadow: &'a [i64],
        pub resources: usize,
        pub outputs: &'a [i64],
        pub factors: &'a [i64],
        pub parameter: i64,
    }

    /// How many numbers an hour has to have.
    #[cfg(test)]
    pub fn state_room() -> usize {
        // SAFETY: takes nothing
        unsafe { noskjerf_state_room() }
    }

    /// The refusal of an opening; or 0, and the hour in `state`.
    pub fn open(opening: &Opening<'_>, state: &mut State) -> i64 {
        // SAFETY: each pointer comes with the length of its slice
        unsafe {
            noskjerf_open(
                opening.month,
                opening.sellers.len(),
                opening.sellers.as_ptr(),
                opening.sellers.len(),
                opening.resources,
                opening.blocks.as_ptr(),
                opening.blocks.len(),
                state.as_mut_ptr(),
                state.len(),
            )
        }
    }

    /// The refusal of an interval; or 0, the hour as it leaves it, and its verdicts.
    pub fn interval(state: &mut State, interval: &Interval<'_>, verdicts: &mut [i64; VERDICTS]) -> i64 {
        take(noskjerf_interval, state, interval, verdicts)
    }

    /// The same of a pass.
    pub fn pass(state: &mut State, pass: &Interval<'_>, verdicts: &mut [i64; VERDICTS]) -> i64 {
        take(noskjerf_pass, state, pass, verdicts)
    }

    fn take(call: Taking, state: &mut State, interval: &Interval<'_>, verdicts: &mut [i64; VERDICTS]) -> i64 {
        // SAFETY: each pointer comes with the length of its slice
        unsafe {
            call(
                state.as_mut_ptr(),
                state.len(),
                interval.shadow.len(),
                interval.shadow.as_ptr(),
                interval.shadow.len(),
                interval.resources,
                interval.outputs.as_ptr(),
                interval.outputs.len(),
                interval.factors.as_ptr(),
                interval.factors.len(),
                interval.parameter,
                verdicts.as_mut_ptr(),
                verdicts.len(),
            )
        }
    }

    /// The refusal of an interval's values; or 0, and whether it would cap each resource's bid, and why.
    pub fn why(state: &State, interval: &Interval<'_>, causes: &mut [i64; CAUSES]) -> i64 {
        // SAFETY: each pointer comes with the length of its slice
        unsafe {
            noskjerf_why(
                state.as_ptr(),
                state.len(),
                interval.shadow.len(),
                interval.shadow.as_ptr(),
                interval.shadow.len(),
                interval.resources,
                interval.outputs.as_ptr(),
                interval.outputs.len(),
                interval.factors.as_ptr(),
                interval.factors.len(),
                interval.parameter,
                causes.as_mut_ptr(),
                causes.len(),
            )
        }
    }

    /// The refusal of an interval's values, or 26; or 0, the fewest sellers that leave it short together, the sets tried and the floor.
    pub fn pivotal(state: &State, interval: &Interval<'_>, budget: u64, found: &mut [u64; FOUND]) -> i64 {
        // SAFETY: each pointer comes with the length of its slice
        unsafe {
            noskjerf_pivotal(
                state.as_ptr(),
                state.len(),
                interval.shadow.len(),
                interval.shadow.as_ptr(),
                interval.shadow.len(),
                interval.resources,
                interval.outputs.as_ptr(),
                interval.outputs.len(),
                interval.factors.as_ptr(),
                interval.factors.len(),
                interval.parameter,
                budget,
                found.as_mut_ptr(),
                found.len(),
            )
        }
    }

    /// The curve of a resource: 0, and the buffers filled.
    pub fn curve(state: &State, r: usize, edges: &mut [u64; HOUR_EDGES], prices: &mut [i64; HOUR_PRICES]) -> i64 {
        ask(noskjerf_curve, state, r, edges, prices)
    }

    /// The same of its five-minute curve.
    pub fn five_minute(state: &State, r: usize, edges: &mut [u64; HOUR_EDGES], prices: &mut [i64; HOUR_PRICES]) -> i64 {
        ask(noskjerf_five_minute, state, r, edges, prices)
    }

    /// The same of its bid for the hour, or 20.
    pub fn hour_bid(state: &State, r: usize, edges: &mut [u64; HOUR_EDGES], prices: &mut [i64; HOUR_PRICES]) -> i64 {
        ask(noskjerf_hour_bid, state, r, edges, prices)
    }

    /// The same of its default curve, in buffers of a default curve.
    pub fn default_of(state: &State, r: usize, edges: &mut [u64; super::EDGES], prices: &mut [i64; super::PRICES]) -> i64 {
        ask(noskjerf_default_of, state, r, edges, prices)
    }

    fn ask(call: Asking, state: &State, r: usize, edges: &mut [u64], prices: &mut [i64]) -> i64 {
        // SAFETY: each pointer comes with the length of its slice
        unsafe {
            call(
                state.as_ptr(),
                state.len(),
                r,
                edges.as_mut_ptr(),
                edges.len(),
                prices.as_mut_ptr(),
                prices.len(),
            )
        }
    }
}

pub use hours::*;

mod days {
    /// How many numbers a tally is, the hours of its designation, and the marks of a day.
    pub const TALLY: usize = 122;
    pub const HOURS: usize = 2;
    pub const MARKS: usize = 2;

    extern "C" {
        fn noskjerf_day(tally: *mut u32, tally_len: usize, day: u32, bound: u32, noncompetitive: u32) -> i64;

        fn noskjerf_designation(tally: *const u32, tally_len: usize, hours: *mut u32, hours_len: usize) -> i64;

        fn noskjerf_mark(marks: *mut u32, marks_len: usize, hour: usize, findings: *const i64, findings_len: usize) -> i64;
    }

    /// The refusal of a trading day; or 0, and the tally as it leaves it.
    pub fn day(tally: &mut [u32; TALLY], day: u32, bound: u32, noncompetitive: u32) -> i64 {
        // SAFETY: the pointer comes with the length of its slice
        unsafe { noskjerf_day(tally.as_mut_ptr(), tally.len(), day, bound, noncompetitive) }
    }

    /// The number of the default verdict, and how many hours are bound and non-competitive.
    pub fn designation(tally: &[u32; TALLY], hours: &mut [u32; HOURS]) -> i64 {
        // SAFETY: each pointer comes with the length of its slice
        unsafe { noskjerf_designation(tally.as_ptr(), tally.len(), hours.as_mut_ptr(), hours.len()) }
    }

    /// Marks an hour by the numbers of its findings.
    pub fn mark(marks: &mut [u32; MARKS], hour: usize, findings: &[i64]) -> i64 {
        // SAFETY: each pointer comes with the length of its slice
        unsafe { noskjerf_mark(marks.as_mut_ptr(), marks.len(), hour, findings.as_ptr(), findings.len()) }
    }
}

pub use days::*;
