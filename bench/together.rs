//! together SHAPE straight|engine [cg]: how long the search for sellers that leave 32 binding constraints short together takes, all 65,535 sets of
//! 16 net sellers tried; straight is the same search written straight in Rust.
//! together same: whether both find the same for every shape, with all sets tried and with few; the status is 1 where they don't.
//!
//! cg: one search, for callgrind with --toggle-collect='*one_round*'. Else the least time of 20.
//! SHAPE is alike (on every constraint any 8 sellers suffice), all (only all together), own (each of the last four constraints needs a seller of
//! its own, the others any).
use std::hint::black_box;
use std::process::ExitCode;
use std::time::Instant;

const STATE: usize = 3411;
const BLOCK: usize = 80;
const SELLERS: usize = 16;
const CONSTRAINTS: usize = 32;
const RESOURCES: usize = 64;
const SHAPES: [&str; 3] = ["alike", "all", "own"];

extern "C" {
    fn noskjerf_open(
        month: i64, portfolios: usize, sellers: *const i64, sellers_len: usize, resources: usize, blocks: *const i64, blocks_len: usize,
        state: *mut i64, state_len: usize,
    ) -> i64;
    fn noskjerf_pivotal(
        state: *const i64, state_len: usize, constraints: usize, shadow: *const i64, shadow_len: usize, resources: usize, outputs: *const i64,
        outputs_len: usize, factors: *const i64, factors_len: usize, parameter: i64, budget: u64, found: *mut u64, found_len: usize,
    ) -> i64;
}

/// An hour's cells, and an interval of 64 resources, four of each seller.
struct Asked {
    state: Vec<i64>,
    shadow: Vec<i64>,
    outputs: Vec<i64>,
    factors: Vec<i64>,
}

/// The best set, the sets tried and the floor.
type Found = [u64; 3];

fn owner(resource: usize) -> usize {
    resource % SELLERS
}

fn opened() -> Vec<i64> {
    let mut blocks = vec![0; BLOCK * RESOURCES];
    for resource in 0..RESOURCES {
        let block = &mut blocks[BLOCK * resource..][..BLOCK];
        block[0] = owner(resource) as i64;
        block[1..5].copy_from_slice(&[0, 1, 10, 2]);
        block[25] = 1;
        block[56..60].copy_from_slice(&[0, 1, 10, 1]);
    }
    let (sellers, mut state) = ([1; SELLERS], vec![0; STATE]);
    // the slices are this function's own, and the archive keeps none of them
    let answer = unsafe {
        noskjerf_open(25, SELLERS, sellers.as_ptr(), SELLERS, RESOURCES, blocks.as_ptr(), blocks.len(), state.as_mut_ptr(), STATE)
    };
    assert_eq!(answer, 0);
    state
}

/// Each resource has 100 available, of which `dispatch` is dispatched.
fn asked(shape: &str) -> Asked {
    let (dispatch, own) = match shape {
        // 64 × 100 of supply: without 8 sellers, 32 × 100 of it, less than 64 × 51 is left, and without 7 more
        "alike" => (51, 0),
        // less than 64 × 1 is left without all alone
        "all" => (1, 0),
        "own" => (100, 4),
        _ => panic!("shape"),
    };
    let mut factors = vec![-1; CONSTRAINTS * RESOURCES];
    for resource in 0..RESOURCES {
        for constraint in CONSTRAINTS - own..CONSTRAINTS {
            let is_own = owner(resource) == SELLERS - 1 - (constraint - (CONSTRAINTS - own));
            factors[CONSTRAINTS * resource + constraint] = if is_own { -1 } else { 0 };
        }
    }
    Asked {
        state: opened(),
        shadow: vec![1; CONSTRAINTS],
        outputs: (0..RESOURCES).flat_map(|_| [0, dispatch, 100, 0]).collect(),
        factors,
    }
}

fn engine(asked: &Asked, budget: u64) -> Found {
    let mut found = [0; 3];
    // as above
    let answer = unsafe {
        noskjerf_pivotal(
            asked.state.as_ptr(), STATE, CONSTRAINTS, asked.shadow.as_ptr(), CONSTRAINTS, RESOURCES, asked.outputs.as_ptr(), asked.outputs.len(),
            asked.factors.as_ptr(), asked.factors.len(), 0, budget, found.as_mut_ptr(), 3,
        )
    };
    assert_eq!(answer, 0);
    found
}

// ---- the same straight

/// A constraint: supply less demand, and what each seller can withhold.
struct Path {
    over: i64,
    amounts: [i64; SELLERS],
}

impl Path {
    fn is_short(&self, set: u32) -> bool {
        let members = (0..SELLERS).filter(|p| set >> p & 1 == 1);
        self.over < members.map(|p| self.amounts[p]).sum()
    }

    fn need(&self) -> usize {
        let mut amounts = self.amounts;
        amounts.sort_unstable_by(|a, b| b.cmp(a));
        let mut withheld = 0;
        let enough = amounts.iter().position(|amount| {
            withheld += amount;
            self.over < withheld
        });
        enough.map_or(0, |last| last + 1)
    }
}

fn path(asked: &Asked, constraint: usize) -> Path {
    let mut path = Path { over: 0, amounts: [0; SELLERS] };
    for resource in 0..RESOURCES {
        let effectiveness = (-asked.factors[CONSTRAINTS * resource + constraint]).max(0);
        let [_, dispatch, available, floor] = asked.outputs[4 * resource..][..4] else { unreachable!() };
        path.over += effectiveness * (available - dispatch);
        path.amounts[owner(resource)] += effectiveness * (available - floor);
    }
    path
}

fn straight(asked: &Asked, budget: u64) -> Found {
    let paths: Vec<Path> = (0..CONSTRAINTS).map(|constraint| path(asked, constraint)).collect();
    let works = |set: u32| paths.iter().all(|path| path.is_short(set));
    let mut best = (1 << SELLERS) - 1;
    if !works(best) {
        return [0; 3];
    }
    let mut tried = 0;
    for set in 1u32..1 << SELLERS {
        if tried == budget {
            break;
        }
        tried += 1;
        if set.count_ones() < best.count_ones() && works(set) {
            best = set;
        }
    }
    let floor = paths.iter().map(Path::need).max().unwrap_or(0);
    [best.into(), tried, floor as u64]
}

// ---- both

#[inline(never)]
fn one_round(asked: &Asked, mode: &str) -> Found {
    match mode {
        "straight" => straight(black_box(asked), u64::MAX),
        "engine" => engine(black_box(asked), u64::MAX),
        _ => panic!("mode"),
    }
}

fn same() -> ExitCode {
    let budgets = [0, 1, 254, 255, 256, 32_767, 65_534, 65_535, u64::MAX];
    let pairs = SHAPES.iter().flat_map(|shape| budgets.iter().map(move |&budget| (asked(shape), budget)));
    let differ = pairs.filter(|(asked, budget)| straight(asked, *budget) != engine(asked, *budget)).count();
    println!("together: {} searches, {differ} differ", SHAPES.len() * budgets.len());
    ExitCode::from(u8::from(differ > 0))
}

fn main() -> ExitCode {
    let words: Vec<String> = std::env::args().collect();
    if words[1] == "same" {
        return same();
    }
    let (asked, mode) = (asked(&words[1]), &words[2]);
    if words.len() > 3 {
        println!("{:?}", black_box(one_round(&asked, mode)));
        return ExitCode::SUCCESS;
    }
    let times = (0..20).map(|_| {
        let start = Instant::now();
        black_box(one_round(&asked, mode));
        start.elapsed().as_micros()
    });
    println!("{} {mode} {} µs", words[1], times.min().unwrap());
    ExitCode::SUCCESS
}
