//! Times of library and Rust in one run, side by side, printed as ratios (below 1: the library is faster).

mod colour;
mod flat;
mod session;
mod tree;
mod weighted;

use crate::compare::predictors::rust_guess_row;
use crate::library::{self, Rows};
use crate::random::Random;
use decoder::predict::{Predictor, private_error_weight};
use std::hint::black_box;
use std::time::Instant;

const ROUNDS: usize = 21;
const SIDE: usize = 1024;

pub fn all() {
    guess_rows();
    error_weights();
    colour::all();
    weighted::all();
    tree::all();
    flat::all();
    session::all();
}

fn seconds(work: impl FnOnce()) -> f64 {
    let start = Instant::now();
    work();
    start.elapsed().as_secs_f64()
}

/// Times of both (library, Rust), one right after the other, either first.
fn pair(library_first: bool, library: impl FnOnce(), rust: impl FnOnce()) -> (f64, f64) {
    if library_first {
        let t = seconds(library);
        (t, seconds(rust))
    } else {
        let t = seconds(rust);
        (seconds(library), t)
    }
}

fn sorted(numbers: impl Iterator<Item = f64>) -> Vec<f64> {
    let mut all: Vec<f64> = numbers.collect();
    all.sort_by(f64::total_cmp);
    all
}

fn median(numbers: impl Iterator<Item = f64>) -> f64 {
    let all = sorted(numbers);
    all[all.len() / 2]
}

/// The median over the rounds of each round's own ratio, so that a slow spell of the machine cancels.
fn report(what: &str, times: &[(f64, f64)], calls: usize) {
    println!("{}", line(what, times, calls));
}

fn line(what: &str, times: &[(f64, f64)], calls: usize) -> String {
    let ratios = sorted(times.iter().map(|t| t.0 / t.1));
    let (ratio, low, high) = (ratios[ratios.len() / 2], ratios[0], ratios[ratios.len() - 1]);
    let library = median(times.iter().map(|t| t.0)) / calls as f64 * 1e9;
    let rust = median(times.iter().map(|t| t.1)) / calls as f64 * 1e9;
    format!(
        "{what:<31} library/Rust {ratio:.3} (rounds {low:.3} to {high:.3}; {library:.2} ns, {rust:.2} ns)"
    )
}

/// A plane like a scanned gel: a slowly rising ground, lanes of soft bands, noise; 16-bit values.
fn gel() -> Vec<i32> {
    let mut random = Random::new(10);
    let mut plane: Vec<f64> = (0..SIDE * SIDE)
        .map(|k| 2500.0 + 0.8 * (k % SIDE) as f64 + 0.5 * (k / SIDE) as f64 + random.below(160) as f64)
        .collect();
    for band in 0..96 {
        let (lane, middle) = (60 + 82 * (band % 12), 20 + random.below(SIDE - 40));
        let (strength, height) = (500.0 + random.below(50_000) as f64, 3.0 + random.below(6) as f64);
        for (y, x) in (0..SIDE).flat_map(|y| (lane - 50..lane + 50).map(move |x| (y, x))) {
            let (dx, dy) = ((x as f64 - lane as f64) / 18.0, (y as f64 - middle as f64) / height);
            plane[y * SIDE + x] += strength * (-(dx * dx * dx * dx + dy * dy)).exp();
        }
    }
    plane.into_iter().map(|v| v.min(65_535.0) as i32).collect()
}

/// Row y of the plane and what lies above it: absent rows are empty.
fn rows(plane: &[i32], y: usize) -> Rows<'_> {
    let row = |back: usize| if y < back { &[][..] } else { &plane[(y - back) * SIDE..][..SIDE] };
    Rows { row: row(0), top: row(1), toptop: row(2) }
}

fn guess_rows() {
    let plane = gel();
    let predictors: Vec<_> =
        (0..Predictor::NUM_PREDICTORS).map(|p| Predictor::try_from(p).unwrap()).collect();
    let wp_pred = 12_345;
    let mut guesses = [vec![0i64; SIDE], vec![0i64; SIDE]];
    let [ours, theirs] = &mut guesses;
    for (&predictor, y) in predictors.iter().flat_map(|p| (0..SIDE).map(move |y| (p, y))) {
        let status = library::guess_row(rows(&plane, y), y, predictor as u32, wp_pred, ours);
        rust_guess_row(rows(&plane, y), y, predictor, wp_pred, theirs);
        assert!(status == 0 && ours == theirs, "{predictor:?}, row {y}: the guesses differ");
    }
    println!(
        "{SIDE}x{SIDE} plane, a row in one call, all guesses equal; median of {ROUNDS} rounds, times of a pixel"
    );
    let mut times = vec![Vec::new(); predictors.len()];
    for round in 0..ROUNDS {
        for (p, &predictor) in predictors.iter().enumerate() {
            let library = || {
                for y in 0..SIDE {
                    let p = black_box(predictor as u32);
                    black_box(library::guess_row(black_box(rows(&plane, y)), y, p, wp_pred, ours));
                    black_box(&mut *ours);
                }
            };
            let rust = || {
                for y in 0..SIDE {
                    rust_guess_row(black_box(rows(&plane, y)), y, black_box(predictor), wp_pred, theirs);
                    black_box(&mut *theirs);
                }
            };
            times[p].push(pair((round + p) % 2 == 0, library, rust));
        }
    }
    for (predictor, times) in predictors.iter().zip(&times) {
        report(&format!("{:>2} {predictor:?}", *predictor as u32), times, SIDE * SIDE);
    }
    let sum = |round: usize| times.iter().fold((0.0, 0.0), |s, t| (s.0 + t[round].0, s.1 + t[round].1));
    let totals: Vec<_> = (0..ROUNDS).map(sum).collect();
    report("all 14 together", &totals, SIDE * SIDE * predictors.len());
}

/// The Rust's weight, kept a call as the library's is.
#[inline(never)]
extern "C" fn rust_error_weight(x: u32, m: u32) -> u32 {
    private_error_weight(x, m)
}

fn error_weights() {
    let mut random = Random::new(11);
    let asks: Vec<(u32, u32)> = (0..1 << 16)
        .map(|_| ((random.next() >> 32 >> random.below(32)) as u32, random.below(16) as u32))
        .collect();
    let times: Vec<_> = (0..ROUNDS)
        .map(|round| {
            let library = || {
                for &(x, m) in black_box(&asks) {
                    black_box(library::error_weight(x, m));
                }
            };
            let rust = || {
                for &(x, m) in black_box(&asks) {
                    black_box(rust_error_weight(x, m));
                }
            };
            pair(round % 2 == 0, library, rust)
        })
        .collect();
    println!(
        "error_weight, {} calls through the C interface; median of {ROUNDS} rounds, times of a call",
        asks.len()
    );
    report("error_weight", &times, asks.len());
}
