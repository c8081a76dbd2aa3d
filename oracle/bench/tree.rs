//! Validation of trees of three sizes, and the cells of a million pixels by three masks.

use super::{ROUNDS, SIDE, gel, pair, report};
use crate::compare::cells::rust_fill_row;
use crate::compare::tree::{grown, nodes_of};
use crate::library::{self, Pixel};
use crate::random::Random;
use decoder::frame::modular::tree::{private_compute_properties, private_validate_tree};
use decoder::image::Image;
use decoder::predict::PredictionData;
use std::hint::black_box;
use std::slice::{from_raw_parts, from_raw_parts_mut};

const NODES: usize = 1_048_575;
const WORK: usize = 10_762;
const PIXELS: usize = SIDE * SIDE;

pub fn all() {
    validations();
    rows();
    fillings();
}

/// Bushy trees whose leaves can all be reached, so that each node is visited; of the small ones as many calls
/// as make about a million nodes.
fn validations() {
    println!(
        "validate_tree with its shape check against the Rust's, which has none, all accepted; \
         median of {ROUNDS} rounds, times of a node"
    );
    let random = &mut Random::new(34);
    let mut work = vec![0; WORK];
    let mut told = [0; 5];
    for nodes in [1_001, 100_001, NODES] {
        let properties = (0..24).map(|k| 10 * k).collect();
        let style =
            grown::Style { splits: nodes / 2, properties, leaf_in: 10, astray_in: 0, at_ends: false };
        let words = grown::tree(random, &style);
        let tree = nodes_of(&words);
        let calls = NODES / nodes;
        let status = library::validate_tree(&words, &mut work, &mut told);
        assert!(status == 0 && private_validate_tree(&tree, 256).is_ok(), "{nodes} nodes: refused");
        let times: Vec<_> = (0..ROUNDS)
            .map(|round| {
                let library = || {
                    for _ in 0..calls {
                        black_box(library::validate_tree(black_box(&words), &mut work, &mut told));
                    }
                };
                let rust = || {
                    for _ in 0..calls {
                        black_box(private_validate_tree(black_box(&tree), black_box(256))).unwrap();
                    }
                };
                pair(round % 2 == 0, library, rust)
            })
            .collect();
        report(&format!("{nodes} nodes"), &times, nodes * calls);
    }
}

/// Position and gradient; all that the neighbours give; every group with eight references.
const MASKS: [(&str, u32, usize); 3] = [
    ("position and gradient", 0x30c, 0),
    ("cells 2 to 15", 0xffff, 0),
    ("every group, 8 references", u32::MAX, 8),
];

/// The Rust's filling behind the same C interface, so that a call costs both the same; an image of reference
/// rows stands for the row, and the weighted property is not looked at.
#[inline(never)]
#[rustfmt::skip] // as in library.rs
unsafe extern "C" fn rust_compute_properties(
    mask: u32, x: usize, y: usize, data: *const i32, data_len: usize, _wp_property: i32,
    references: &Image<i32>, references_len: usize, cells: *mut i32, cells_len: usize,
    _told: *mut i64, told_len: usize,
) -> u32 {
    if data_len < 7 || told_len < 5 || references_len != references.size().0 {
        return 8;
    }
    let (data, cells) = unsafe { (from_raw_parts(data, data_len), from_raw_parts_mut(cells, cells_len)) };
    private_compute_properties(PredictionData::of(data), SIDE, None, x, y, references, cells, mask);
    0
}

#[inline(always)]
#[rustfmt::skip]
fn rust_fill(pixel: Pixel, image: &Image<i32>, cells: &mut [i32], told: &mut [i64]) -> u32 {
    let Pixel { mask, x, y, data, wp_property, references } = pixel;
    unsafe {
        rust_compute_properties(
            mask, x, y, data.as_ptr(), data.len(), wp_property, image, references.len(),
            cells.as_mut_ptr(), cells.len(), told.as_mut_ptr(), told.len(),
        )
    }
}

/// The neighbours of each pixel of the gel, seven words a pixel.
fn neighbours() -> Vec<i32> {
    let plane = Image::of((SIDE, SIDE), gel());
    (0..PIXELS).flat_map(|k| PredictionData::get(&plane, k % SIDE, k / SIDE).words()).collect()
}

/// A row in one call, the same reference row for each of its pixels.
fn rows() {
    let data = neighbours();
    println!(
        "fill_row, {SIDE}x{SIDE} pixels, a row in one call, no weighted state, all cells equal; \
         median of {ROUNDS} rounds, times of a pixel"
    );
    for (name, mask, refs) in MASKS {
        let row: Vec<i32> = (0..refs as i32).collect();
        let references = Image::of((refs, SIDE), row.repeat(SIDE));
        let [mut ours, mut theirs] = [[1i32; 24]; 2];
        let rows = || data.chunks_exact(7 * SIDE).enumerate();
        for (y, data) in rows() {
            let status = library::fill_row(mask, y, data, &row, &mut ours);
            rust_fill_row(mask, y, data.as_chunks().0, &references, &mut theirs);
            assert!(status == 0 && ours == theirs, "{name}, row {y}: the cells differ");
        }
        let times: Vec<_> = (0..ROUNDS)
            .map(|round| {
                let library = || {
                    for (y, data) in rows() {
                        black_box(library::fill_row(black_box(mask), y, data, &row, &mut ours));
                        black_box(&mut ours);
                    }
                };
                let rust = || {
                    for (y, data) in rows() {
                        rust_fill_row(black_box(mask), y, data.as_chunks().0, &references, &mut theirs);
                        black_box(&mut theirs);
                    }
                };
                pair(round % 2 == 0, library, rust)
            })
            .collect();
        report(name, &times, PIXELS);
    }
}

/// A call for each pixel of the gel, neighbours given.
fn fillings() {
    let data = neighbours();
    let sevens = data.as_chunks::<7>().0;
    println!(
        "compute_properties, a call a pixel of {SIDE}x{SIDE}, no weighted state, all cells equal; \
         median of {ROUNDS} rounds, times of a call"
    );
    for (name, mask, refs) in MASKS {
        let references = Image::of((refs, SIDE), (0..(refs * SIDE) as i32).collect());
        let pixel = |k: usize| Pixel {
            mask: black_box(mask),
            x: k % SIDE,
            y: k / SIDE,
            data: &sevens[k],
            wp_property: 0,
            references: references.row(k % SIDE),
        };
        let [mut ours, mut theirs] = [[1i32; 24]; 2];
        let [mut told, mut spare] = [[0; 5]; 2];
        for k in 0..PIXELS {
            let status = library::compute_properties(pixel(k), &mut ours, &mut told);
            let rust = rust_fill(pixel(k), &references, &mut theirs, &mut spare);
            assert!(status == 0 && rust == 0 && ours == theirs, "{name}, pixel {k}: the cells differ");
        }
        let times: Vec<_> = (0..ROUNDS)
            .map(|round| {
                let library = || {
                    for k in 0..PIXELS {
                        black_box(library::compute_properties(pixel(k), &mut ours, &mut told));
                    }
                    black_box(&mut ours);
                };
                let rust = || {
                    for k in 0..PIXELS {
                        black_box(rust_fill(pixel(k), &references, &mut theirs, &mut spare));
                    }
                    black_box(&mut theirs);
                };
                pair(round % 2 == 0, library, rust)
            })
            .collect();
        report(name, &times, PIXELS);
    }
}
