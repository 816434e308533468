//! How long each side takes: the same for both parts of the benchmark.

use std::hint::black_box;
use std::time::{Duration, Instant};

/// A case of one part: accesses on one hart, which go through any of the part's sides.
pub trait Timed: Sized + 'static {
    /// The part's word on the command line.
    const PART: &'static str;
    /// What stands above the lines of its table.
    const HEAD: &'static str;
    /// What is timed.
    type Side: Copy;
    /// All sides: plain Rust, the C call, then others.
    const SIDES: &'static [Self::Side];

    /// All cases.
    fn all() -> Vec<Self>;
    /// The case at a place among all.
    fn at(place: usize) -> Option<Self>;
    /// Compares what the sides give for every access of the cases: what was compared, or where they differ.
    fn agree(cases: &[Self]) -> Result<String, String>;

    /// The first columns of its line.
    fn columns(&self) -> String;
    /// How many accesses it has.
    fn accesses(&self) -> usize;
    /// How many a round makes through each side, at the least: it goes over all of them as often as that takes.
    fn round(&self) -> usize {
        1 << 16
    }
    /// The symbols of plain Rust's function and of the C call.
    fn symbols(&self) -> [&'static str; COUNTED];
    /// All accesses through a side, so many times over.
    fn run(&self, side: Self::Side, times: usize);
}

/// The instructions of so many sides are counted: plain Rust's and the C call's.
pub const COUNTED: usize = 2;

/// Nanoseconds for one access.
pub struct Times {
    /// The median of the rounds.
    pub median: f64,
    /// The least of them.
    pub least: f64,
}

impl Times {
    /// Those of the rounds.
    fn of(mut rounds: Vec<f64>) -> Times {
        rounds.sort_by(f64::total_cmp);
        Times {
            median: rounds[rounds.len() / 2],
            least: rounds[0],
        }
    }
}

/// The times of each case's sides: in each round every case, all its sides in turn, each round beginning with another one.
pub fn measure<C: Timed>(cases: &[C], rounds: usize) -> Vec<Vec<Times>> {
    let sides = C::SIDES.len();
    let mut nanoseconds = vec![vec![Vec::new(); sides]; cases.len()];
    for round in 0..rounds {
        for (case, taken) in cases.iter().zip(&mut nanoseconds) {
            let times = case.round().div_ceil(case.accesses());
            for turn in 0..sides {
                let at = (round + turn) % sides;
                let all = time(case, C::SIDES[at], times, round).as_nanos() as f64;
                taken[at].push(all / (times * case.accesses()) as f64);
            }
        }
    }
    let times = |sides: Vec<Vec<f64>>| sides.into_iter().map(Times::of).collect();
    nanoseconds.into_iter().map(times).collect()
}

/// The time that a side takes for all accesses, so many times over, in a round.
fn time<C: Timed>(case: &C, side: C::Side, times: usize, round: usize) -> Duration {
    let mut taken = Duration::ZERO;
    lower(round % DEPTHS, &mut || {
        let begin = Instant::now();
        case.run(side, times);
        taken = begin.elapsed();
    });
    taken
}

/// A load waits for an earlier store whose address has the same low 12 bits. Where the stack lies to the hart's words is
/// another matter in each run of the program, so the rounds go through this many depths of the stack, over 4096 bytes together.
const DEPTHS: usize = 9;

/// Calls `run` with the stack lower, so many times 512 bytes and a little.
#[inline(never)]
fn lower(times: usize, run: &mut dyn FnMut()) {
    let frame = black_box([0_u64; 64]);
    if times == 0 {
        run();
    } else {
        lower(times - 1, run);
    }
    black_box(&frame);
}
