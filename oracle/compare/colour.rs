//! Module 9, colour: every operation in every order, and what is refused.

use super::Tally;
use crate::library;
use crate::random::Random;
use decoder::rct;

/// Words on either side of a lent part, which a call must leave.
/// Odd, so that the parts begin and end anywhere within a vector register's width.
const MARGIN: usize = 5;

/// Around 0, around powers of two that halving and adding cross, and at the ends.
#[rustfmt::skip]
const EDGES: [i32; 40] = [
    0, 1, -1, 2, -2, 3, -3, 4, -4, 5, -5, 255, 256, -256,
    (1 << 15) - 1, 1 << 15, -1 << 15, (-1 << 15) - 1,
    (1 << 16) - 1, 1 << 16, -1 << 16, (-1 << 16) - 1,
    1 << 29, -1 << 29, 0x5555_5555, -0x5555_5556,
    (1 << 30) - 1, 1 << 30, (1 << 30) + 1, (-1 << 30) - 1, -1 << 30, (-1 << 30) + 1,
    i32::MIN, i32::MIN + 1, i32::MIN + 2, i32::MIN + 3,
    i32::MAX, i32::MAX - 1, i32::MAX - 2, i32::MAX - 3,
];

/// Numbers that are no operation and, but for 6, no order; of some, fewer bits would be one.
const NO_STEP: [u32; 13] =
    [7, 8, 9, 41, 42, 255, 256, 65_535, 65_536, 1 << 31, u32::MAX - 6, u32::MAX - 5, u32::MAX];

pub fn all() {
    edges();
    random_planes();
    short_planes();
    large_planes();
    refusals();
}

/// Document 01's refusal, if any: 14 before 11.
fn refusal(lens: [usize; 3], operation: u32, order: u32) -> u32 {
    if operation > 6 || order > 5 {
        14
    } else if lens != [lens[0]; 3] {
        11
    } else {
        0
    }
}

/// Three planes, each with a margin of random words on either side.
struct Planes([Vec<i32>; 3]);

impl Planes {
    fn new(random: &mut Random, triples: &[[i32; 3]]) -> Self {
        Planes([0, 1, 2].map(|k| {
            let margins = [(); 2].map(|_| [(); MARGIN].map(|_| random.word()));
            let words = triples.iter().map(|triple| triple[k]);
            margins[0].into_iter().chain(words).chain(margins[1]).collect()
        }))
    }

    fn any(random: &mut Random, len: usize) -> Self {
        let triples: Vec<_> = (0..len).map(|_| random.three()).collect();
        Self::new(random, &triples)
    }

    fn lent(&mut self, lens: [usize; 3]) -> [&mut [i32]; 3] {
        let mut lens = lens.into_iter();
        self.0.each_mut().map(|plane| &mut plane[MARGIN..][..lens.next().unwrap()])
    }

    /// The three words at one place, the margins counted.
    fn at(&self, place: usize) -> [i32; 3] {
        self.0.each_ref().map(|plane| plane[place])
    }
}

/// One call with parts of these lengths, then all words of the planes, margins and unlent ones too.
fn check(tally: &mut Tally, before: &Planes, lens: [usize; 3], rows: usize, operation: u32, order: u32) {
    let mut owed = Planes(before.0.clone());
    let refusal = refusal(lens, operation, order);
    if refusal == 0 {
        let planes = owed.lent(lens);
        let size = (lens[0] / rows, rows);
        let restored = rct::restored(planes.each_ref().map(|p| &**p), size, operation, order);
        planes.into_iter().zip(restored).for_each(|(plane, words)| plane.copy_from_slice(&words));
        tally.cases += lens[0].saturating_sub(1) as u64; // every triple is a case
    }
    let mut library = Planes(before.0.clone());
    let status = library::do_rct_step(library.lent(lens), operation, order);
    // The first place that differs, if any, in any of the three.
    let end = before.0[0].len();
    let differs = (0..end).find(|&place| owed.at(place) != library.at(place));
    let place = differs.unwrap_or(MARGIN);
    tally.refused += (refusal != 0) as u64;
    tally.case((refusal, owed.at(place)), (status, library.at(place)), || {
        let (before, word) = (before.at(place), place as isize - MARGIN as isize);
        format!("operation {operation}, order {order}, lengths {lens:?}, word {word} of each, {before:?}")
    });
}

/// All triples of the edges, as three planes.
fn edges() {
    let mut tally = Tally::new("do_rct_step, all triples of 40 edges");
    let triples: Vec<_> =
        EDGES.iter().flat_map(|&a| EDGES.iter().flat_map(move |&b| EDGES.map(|c| [a, b, c]))).collect();
    let planes = Planes::new(&mut Random::new(13), &triples);
    for (operation, order) in rct::steps() {
        check(&mut tally, &planes, [triples.len(); 3], 1, operation, order);
    }
}

fn random_planes() {
    let mut tally = Tally::new("do_rct_step, 10 million random triples");
    let len = 10_000_000;
    let planes = Planes::any(&mut Random::new(14), len);
    for (operation, order) in rct::steps() {
        check(&mut tally, &planes, [len; 3], 1, operation, order);
    }
}

fn short_planes() {
    let mut tally = Tally::new("do_rct_step, planes of 0 to 70 words");
    let random = &mut Random::new(15);
    for len in (0..=70).flat_map(|len| [len; 5]) {
        let planes = Planes::any(random, len);
        for (operation, order) in rct::steps() {
            check(&mut tally, &planes, [len; 3], 1, operation, order);
        }
    }
}

/// In rows, as the Rust has them; the library knows of no rows.
fn large_planes() {
    let (width, rows) = (1031, 1025);
    let mut tally = Tally::new("do_rct_step, planes of 1,056,775 words");
    let planes = Planes::any(&mut Random::new(16), width * rows);
    for (operation, order) in rct::steps() {
        check(&mut tally, &planes, [width * rows; 3], rows, operation, order);
    }
}

/// Numbers on both sides of their limits with lengths of every kind, equal ones too.
fn refusals() {
    let mut tally = Tally::new("do_rct_step, numbers and lengths refused");
    let random = &mut Random::new(17);
    let some = [0, 1, 2, 5, 16, 33];
    let mut lengths: Vec<[usize; 3]> =
        some.iter().flat_map(|&a| some.iter().flat_map(move |&b| some.map(|c| [a, b, c]))).collect();
    // One length that differs from the others in its high bits alone.
    lengths.extend([[65_537, 1, 1], [1, 65_537, 1], [1, 1, 65_537]]);
    for lens in lengths {
        let planes = Planes::any(random, lens.into_iter().max().unwrap());
        for operation in (0..=6).chain(NO_STEP) {
            for order in (0..=6).chain(NO_STEP) {
                check(&mut tally, &planes, lens, 1, operation, order);
            }
        }
    }
}
