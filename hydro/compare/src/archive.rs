//! The archive's function by its C name, with buffers that are looked at to the last number.

use hydro_independent::generate::{price_at, MONTHS};
use hydro_independent::Hydro;
use noskjerf_hydro as _;

/// The start, and the end and price of each step; or a refusal.
pub type Answer = Result<(i64, Vec<(i64, i64)>), u8>;

const EDGES: usize = 13;
const PRICES: usize = 11;

/// What stands in the buffers before a call, with room past what is written.
const BEFORE: i64 = 0x5a5a_5a5a;
const PAST: usize = 2;

extern "C" {
    fn noskjerf_hydro(
        low: i64,
        high: i64,
        heat: i64,
        gas: i64,
        hubs: usize,
        horizon: usize,
        hub_prices: *const i64,
        hub_prices_len: usize,
        edges: *mut u64,
        edges_len: usize,
        prices: *mut i64,
        prices_len: usize,
    ) -> i64;
}

/// The table as the archive takes it: the prices of each hub in turn.
pub fn table(hydro: &Hydro) -> Vec<i64> {
    let of_hub = |hub| (0..2 + MONTHS).map(move |j| crate::small(price_at(hub, j)));
    hydro.hubs.iter().flat_map(of_hub).collect()
}

/// What the archive answers with this table.
pub fn ask(hydro: &Hydro, table: &[i64]) -> Answer {
    let mut edges = [BEFORE as u64; EDGES + PAST];
    let mut prices = [BEFORE; PRICES + PAST];
    // SAFETY: each pointer comes with the length of its slice
    let number = unsafe {
        noskjerf_hydro(
            crate::small(hydro.lowest),
            crate::small(hydro.highest),
            crate::small(hydro.h),
            crate::small(hydro.gas),
            hydro.hub_count as usize,
            hydro.horizon as usize,
            table.as_ptr(),
            table.len(),
            edges.as_mut_ptr(),
            edges.len(),
            prices.as_mut_ptr(),
            prices.len(),
        )
    };
    let edges = edges.map(|edge| i64::try_from(edge).expect("an edge is small"));
    if number != 0 {
        assert!(edges == [BEFORE; EDGES + PAST] && prices == [BEFORE; PRICES + PAST], "{hydro:?}");
        return Err(number.try_into().expect("a refusal is a small number"));
    }
    Ok(curve(&edges, &prices))
}

fn curve(edges: &[i64; EDGES + PAST], prices: &[i64; PRICES + PAST]) -> (i64, Vec<(i64, i64)>) {
    let count = usize::try_from(edges[0]).expect("a count");
    let (ends, rest) = edges[2..].split_at(count);
    let (steps, none) = prices.split_at(count);
    assert_eq!(rest, [&vec![0; PRICES - count][..], &[BEFORE; PAST]].concat());
    assert_eq!(none, [&vec![0; PRICES - count][..], &[BEFORE; PAST]].concat());
    (edges[1], ends.iter().copied().zip(steps.iter().copied()).collect())
}
