//! The archive's function, made safe. This is the only module with unsafe code.
//!
//! It reads and writes within the lengths that are passed and nowhere else, keeps no pointer, and the buffers that it writes are lent for change,
//! so that they overlap nothing.

/// How many numbers the two buffers have: how many steps, the start and eleven ends; eleven prices.
pub const EDGES: usize = 2 + PRICES;
pub const PRICES: usize = 11;

extern "C" {
    fn noskjerf_hydro(
        low: i64,
        high: i64,
        heat: i64,
        gas: i64,
        hubs: usize,
        horizon: usize,
        hub_prices: *const i64,
        hub_prices_len: usize,
        edges: *mut u64,
        edges_len: usize,
        prices: *mut i64,
        prices_len: usize,
    ) -> i64;
}

/// The quantities, heat rate and gas price, the counts, and the prices of each hub in turn.
pub struct Asked<'a> {
    pub low: i64,
    pub high: i64,
    pub heat: i64,
    pub gas: i64,
    pub hubs: usize,
    pub horizon: usize,
    pub hub_prices: &'a [i64],
}

/// The refusal; or 0, and the buffers filled.
pub fn hydro(asked: &Asked<'_>, edges: &mut [u64; EDGES], prices: &mut [i64; PRICES]) -> i64 {
    // SAFETY: each pointer comes with the length of its slice
    unsafe {
        noskjerf_hydro(
            asked.low,
            asked.high,
            asked.heat,
            asked.gas,
            asked.hubs,
            asked.horizon,
            asked.hub_prices.as_ptr(),
            asked.hub_prices.len(),
            edges.as_mut_ptr(),
            edges.len(),
            prices.as_mut_ptr(),
            prices.len(),
        )
    }
}
