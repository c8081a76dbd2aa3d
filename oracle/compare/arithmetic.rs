//! Module 1: highest set bit and error weight.

use super::Tally;
use crate::library;
use crate::random::Random;
use decoder::predict::private_error_weight;
use decoder::util::floor_log2_nonzero;

pub fn all() {
    highest_bits();
    error_weights();
}

/// The numbers within 70 of each of the first powers of two, modulo 2^64.
fn around_powers(count: u32) -> impl Iterator<Item = u64> {
    (0..count).flat_map(|bit| (0..=140u64).map(move |d| (1u64 << bit).wrapping_add(d).wrapping_sub(70)))
}

fn highest_bits() {
    let mut tally = Tally::new("floor_log2_nonzero");
    let mut check =
        |x| tally.case(floor_log2_nonzero(x), library::floor_log2_nonzero(x), || format!("x {x}"));
    (0..1 << 16).for_each(&mut check); // 0 too: the Rust answers 127
    around_powers(64).for_each(&mut check);
    let mut random = Random::new(1);
    for shift in 0..64 {
        (0..1_000_000).for_each(|_| check((random.next() | 1 << 63) >> shift));
    }
}

fn error_weights() {
    let mut tally = Tally::new("error_weight");
    let mut check = |x: u32, m: u32| {
        let owed = if m > 15 { -12 } else { private_error_weight(x, m) as i64 };
        tally.refused += (m > 15) as u64;
        tally.case(owed, library::error_weight(x, m), || format!("x {x}, m {m}"));
    };
    let near = around_powers(33).filter_map(|x| u32::try_from(x).ok());
    for x in (0..1 << 20).chain(near) {
        (0..=16).for_each(|m| check(x, m));
    }
    let mut random = Random::new(2);
    for _ in 0..10_000_000 {
        check(random.sized(), random.below(16) as u32);
    }
    for _ in 0..1_000_000 {
        check(random.sized(), random.sized().max(16));
    }
}
