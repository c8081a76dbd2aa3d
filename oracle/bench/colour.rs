//! The colour step on three planes of a million words.
//! Its time does not hang on the words, so each call goes on with what the last one left.

use super::{ROUNDS, SIDE, line, median, seconds, sorted};
use crate::library;
use crate::random::Random;
use decoder::frame::modular::ModularChannel;
use decoder::frame::modular::transforms::{RctOp, RctPermutation};
use decoder::image::Image;
use decoder::rct::{self, OPERATIONS, do_rct_step};
use std::hint::black_box;

const WORDS: usize = SIDE * SIDE;

/// Where a step in another order takes more than so many copyings, every ratio is printed.
const MOST_COPIES: f64 = 1.5;

pub fn all() {
    let mut random = Random::new(18);
    let mut channels = [(); 3].map(|_| {
        let words = (0..WORDS).map(|_| random.below(65_536) as i32).collect();
        ModularChannel { data: Image::of((SIDE, SIDE), words) }
    });
    operations(&mut channels);
    orders(&mut channels);
    nothing(&mut channels);
}

fn library_step(channels: &mut [ModularChannel; 3], operation: u32, order: u32) {
    let planes = channels.each_mut().map(|channel| channel.data.cells());
    let status = library::do_rct_step(black_box(planes), black_box(operation), black_box(order));
    assert_eq!(status, 0);
}

fn rust_step(channels: &mut [ModularChannel; 3], operation: RctOp) {
    do_rct_step(black_box(&mut channels.each_mut()), black_box(operation), RctPermutation::Rgb);
}

#[inline(always)]
fn each(a: &mut [i32], b: &mut [i32], c: &mut [i32], step: impl Fn(&mut i32, &mut i32, &mut i32)) {
    a.iter_mut().zip(b).zip(c).for_each(|((a, b), c)| step(a, b, c));
}

/// The operations as one would write them by hand: should the stand-in for the SIMD crate, or an
/// image's rows, keep the compiler from making vector code of the Rust's own, this shows it.
#[inline(never)]
fn plain_step(a: &mut [i32], b: &mut [i32], c: &mut [i32], operation: RctOp) {
    match operation {
        RctOp::Noop => {}
        RctOp::AddFirstToThird => each(a, b, c, |a, _, c| *c = c.wrapping_add(*a)),
        RctOp::AddFirstToSecond => each(a, b, c, |a, b, _| *b = b.wrapping_add(*a)),
        RctOp::AddFirstToSecondAndThird => each(a, b, c, |a, b, c| {
            *b = b.wrapping_add(*a);
            *c = c.wrapping_add(*a);
        }),
        RctOp::AddAvgToSecond => each(a, b, c, |a, b, c| *b = b.wrapping_add(a.wrapping_add(*c) >> 1)),
        RctOp::AddFirstToThirdAndAvgToSecond => each(a, b, c, |a, b, c| {
            *c = c.wrapping_add(*a);
            *b = b.wrapping_add(a.wrapping_add(*c) >> 1);
        }),
        RctOp::YCoCg => each(a, b, c, |a, b, c| {
            let y = a.wrapping_sub(*c >> 1);
            let green = c.wrapping_add(y);
            let blue = y.wrapping_sub(*b >> 1);
            (*a, *b, *c) = (blue.wrapping_add(*b), green, blue);
        }),
    }
}

fn plain_step_on(channels: &mut [ModularChannel; 3], operation: RctOp) {
    let [a, b, c] = black_box(channels.each_mut().map(|channel| channel.data.cells()));
    plain_step(a, b, c, black_box(operation));
}

fn copy(channels: &mut [ModularChannel; 3], targets: &mut [Vec<i32>; 3]) {
    for (channel, target) in channels.iter_mut().zip(targets) {
        black_box(target).copy_from_slice(black_box(channel.data.cells()));
    }
}

/// Times of several, one right after the other, each of them first in its turn.
fn in_turn<const N: usize>(first: usize, mut run: impl FnMut(usize)) -> [f64; N] {
    let mut took = [0.0; N];
    for which in (0..N).map(|turn| (first + turn) % N) {
        took[which] = seconds(|| run(which));
    }
    took
}

/// All three answer alike, on what the channels hold.
fn assert_equal(channels: &mut [ModularChannel; 3], operation: u32) {
    let before = channels.each_mut().map(|channel| channel.data.cells().to_vec());
    let name = OPERATIONS[operation as usize];
    let [library, rust, plain] = [0, 1, 2].map(|which| {
        for (channel, words) in channels.iter_mut().zip(&before) {
            channel.data.cells().copy_from_slice(words);
        }
        match which {
            0 => library_step(channels, operation, 0),
            1 => rust_step(channels, name),
            _ => plain_step_on(channels, name),
        }
        channels.each_mut().map(|channel| channel.data.cells().to_vec())
    });
    assert!(library == rust && plain == rust, "{name:?}: the planes differ");
}

/// Order 0: library, Rust and plain loop in turn on the same planes.
fn operations(channels: &mut [ModularChannel; 3]) {
    (1..=6).for_each(|operation| assert_equal(channels, operation));
    println!(
        "do_rct_step on three {SIDE}x{SIDE} planes, order 0, answers equal; median of {ROUNDS} rounds, \
         times of a triple"
    );
    let mut times = vec![Vec::new(); OPERATIONS.len()];
    for round in 0..ROUNDS {
        for (k, &operation) in OPERATIONS.iter().enumerate().skip(1) {
            times[k].push(in_turn::<3>(round + k, |which| match which {
                0 => library_step(channels, operation as u32, 0),
                1 => rust_step(channels, operation),
                _ => plain_step_on(channels, operation),
            }));
        }
    }
    for (operation, times) in OPERATIONS.iter().zip(&times).skip(1) {
        let [rust, plain] = [1, 2].map(|which| median(times.iter().map(|t| t[which])));
        // The library is held against the faster of the two.
        let (best, name, other, slower) = if rust <= plain {
            (1, "its own do_rct_step", "a plain loop", plain)
        } else {
            (2, "a plain loop", "its own do_rct_step", rust)
        };
        let pairs: Vec<_> = times.iter().map(|t| (t[0], t[best])).collect();
        let line = line(&format!("{} {operation:?}", *operation as u32), &pairs, WORDS);
        println!("{line}; Rust is {name}, {other} takes {:.2} ns", slower / WORDS as f64 * 1e9);
    }
}

/// The other orders, with every operation, against copying three such planes into three others.
fn orders(channels: &mut [ModularChannel; 3]) {
    let steps: Vec<_> = rct::steps().filter(|&(_, order)| order != 0).collect();
    let mut targets = [(); 3].map(|_| vec![0; WORDS]);
    let mut times = vec![Vec::new(); steps.len()];
    for round in 0..ROUNDS {
        for (k, &(operation, order)) in steps.iter().enumerate() {
            times[k].push(in_turn::<2>(round + k, |which| match which {
                0 => library_step(channels, operation, order),
                _ => copy(channels, &mut targets),
            }));
        }
    }
    let ratios: Vec<f64> = times.iter().map(|times| median(times.iter().map(|t| t[0] / t[1]))).collect();
    let ranked = sorted(ratios.iter().copied());
    let (best, worst) = (ranked[0], ranked[ranked.len() - 1]);
    let copying = median(times.iter().flatten().map(|t| t[1])) / WORDS as f64 * 1e9;
    println!(
        "orders 1 to 5, operations 0 to 6: library/copying of three planes, worst {worst:.3}, best {best:.3}, \
         median {:.3} ({copying:.2} ns)",
        ranked[ranked.len() / 2]
    );
    if worst > MOST_COPIES {
        for ((operation, order), ratio) in steps.iter().zip(&ratios) {
            println!("  operation {operation}, order {order}: {ratio:.3}");
        }
    }
}

/// Operation 0 in order 0 leaves the planes: no time worth naming.
fn nothing(channels: &mut [ModularChannel; 3]) {
    let calls = 1000;
    let time =
        median((0..ROUNDS).map(|_| seconds(|| (0..calls).for_each(|_| library_step(channels, 0, 0)))));
    println!("operation 0 in order 0: {:.1} ns a call", time / calls as f64 * 1e9);
}
