//! Flattening of trees of three sizes, and both walks over the pixels of a strip of the gel.

use super::{ROUNDS, SIDE, gel, pair, report};
use crate::compare::flat::narrow;
use crate::compare::tree::{grown, nodes_of};
use crate::library;
use crate::random::Random;
use decoder::frame::modular::tree::{FlatTree, TreeNode, private_compute_properties, private_predict};
use decoder::image::Image;
use decoder::predict::PredictionData;
use std::collections::VecDeque;
use std::hint::black_box;
use std::ops::Range;

const NODES: usize = 1_048_575;
const PIXELS: usize = 64 * SIDE;

pub fn all() {
    flattenings();
    walks();
}

/// Bushy trees; of the small ones as many calls as make about a million nodes. The library's ring and output are lent
/// once, the Rust makes its own.
fn flattenings() {
    println!(
        "build_flat_tree with its tests of shape and offsets against the Rust's, which has none, all records equal; \
         median of {ROUNDS} rounds, times of a node"
    );
    let random = &mut Random::new(45);
    let mut told = [0; 5];
    for nodes in [1_001, 100_001, NODES] {
        let properties = (0..24).map(|k| 10 * k).collect();
        let style =
            grown::Style { splits: nodes / 2, properties, leaf_in: 10, astray_in: 0, at_ends: false };
        let mut words = grown::tree(random, &style);
        narrow(&mut words);
        let tree = nodes_of(&words);
        let calls = NODES / nodes;
        let [mut ring, mut output] = [nodes + 1, 6 * (2 * nodes - 1)].map(|len| vec![0; len]);
        let status = library::build_flat_tree(&words, &mut ring, &mut output, &mut told);
        let records = FlatTree::of(&tree).unwrap().words();
        assert!(status == 0 && output.starts_with(&records), "{nodes} nodes: the records differ");
        let times: Vec<_> = (0..ROUNDS)
            .map(|round| {
                let library = || {
                    for _ in 0..calls {
                        let words = black_box(&words);
                        black_box(library::build_flat_tree(words, &mut ring, &mut output, &mut told));
                        black_box(&mut output);
                    }
                };
                let rust = || {
                    for _ in 0..calls {
                        black_box(FlatTree::of(black_box(&tree)).unwrap());
                    }
                };
                pair(round % 2 == 0, library, rust)
            })
            .collect();
        report(&format!("{nodes} nodes"), &times, nodes * calls);
    }
}

/// The neighbours and the sixteen cells of each pixel of a strip, without a weighted state.
fn strip() -> (Vec<i32>, Vec<i32>) {
    let plane = Image::of((SIDE, SIDE), gel());
    let none = Image::of((0, 0), Vec::new());
    let mut cells = [0; 16];
    let (mut data, mut all) = (Vec::new(), Vec::new());
    for (y, x) in (400..400 + PIXELS / SIDE).flat_map(|y| (0..SIDE).map(move |x| (y, x))) {
        let seven = PredictionData::get(&plane, x, y);
        private_compute_properties(seven, SIDE, None, x, y, &none, &mut cells, 0xffff);
        data.extend(seven.words());
        all.extend(cells);
    }
    (data, all)
}

/// A tree of so many splits as an encoder grows it: each halves the pixels that reach it, by one of its cells, and each
/// leaf is reached by some.
pub fn fitted(
    random: &mut Random,
    splits: usize,
    properties: Range<usize>,
    cells: &[[i32; 16]],
) -> Vec<i32> {
    let mut words = Vec::new();
    let mut open = VecDeque::from([(0..cells.len()).collect::<Vec<_>>()]);
    let (mut made, mut leaves) = (0, 0);
    while let Some(mut pixels) = open.pop_front() {
        let property = properties.start + random.below(properties.len());
        pixels.sort_by_key(|&k| -cells[k][property] as i64);
        let half = pixels.len() / 2;
        let value = pixels.get(half).map_or(0, |&k| cells[k][property]);
        let over = pixels.iter().filter(|&&k| cells[k][property] > value).count();
        if made == splits || over == 0 {
            assert!(made == splits || !open.is_empty(), "no pixels left to split");
            words.extend([-1, random.below(14) as i32, random.below(64) as i32 - 32, 1, leaves]);
            leaves += 1;
            continue;
        }
        let first = 2 * made as i32 + 1;
        words.extend([property as i32, value, first, first + 1, 0]);
        made += 1;
        let rest = pixels.split_off(over);
        open.extend([pixels, rest]);
    }
    words
}

#[inline(never)]
fn rust_walks(tree: &[TreeNode], cells: &mut [[i32; 16]], data: &[[i32; 7]], guesses: &mut [i64]) {
    for ((guess, cells), seven) in guesses.iter_mut().zip(cells).zip(data) {
        *guess = private_predict(tree, PredictionData::of(seven), None, cells).guess;
    }
}

#[inline(never)]
fn rust_flat_walks(tree: &FlatTree, cells: &mut [[i32; 16]], data: &[[i32; 7]], guesses: &mut [i64]) {
    for ((guess, cells), seven) in guesses.iter_mut().zip(cells).zip(data) {
        *guess = tree.predict(PredictionData::of(seven), None, cells).guess;
    }
}

fn walks() {
    println!(
        "predict and predict_flat, {PIXELS} pixels in one call, cells and neighbours given, all guesses equal; \
         median of {ROUNDS} rounds, times of a pixel"
    );
    let (data, cells) = strip();
    let random = &mut Random::new(46);
    for nodes in [1, 15, 325, 4_099] {
        let words = fitted(random, nodes / 2, 2..15, cells.as_chunks().0);
        let tree = nodes_of(&words);
        let flat = FlatTree::of(&tree).unwrap();
        let records = flat.words();
        let mut theirs_cells = cells.clone();
        let theirs_cells = theirs_cells.as_chunks_mut().0;
        let sevens = data.as_chunks().0;
        let [mut ours, mut theirs] = [vec![0i64; PIXELS], vec![0i64; PIXELS]];
        let status = library::walk_pixels(&words, &cells, &data, 0, &mut ours);
        rust_walks(&tree, theirs_cells, sevens, &mut theirs);
        assert!(
            words.len() == 5 * nodes && status == 0 && ours == theirs,
            "{nodes} nodes: the guesses differ"
        );
        let status = library::walk_flat_pixels(&records, &cells, &data, 0, &mut ours);
        assert!(status == 0 && ours == theirs, "{nodes} nodes: the flat guesses differ");
        rust_flat_walks(&flat, theirs_cells, sevens, &mut theirs);
        assert!(ours == theirs, "{nodes} nodes: the Rust's flat guesses differ");
        let times: Vec<_> = (0..ROUNDS)
            .map(|round| {
                let library = || {
                    black_box(library::walk_pixels(black_box(&words), &cells, &data, 0, &mut ours));
                    black_box(&mut ours);
                };
                let rust = || {
                    rust_walks(black_box(&tree), theirs_cells, sevens, &mut theirs);
                    black_box(&mut theirs);
                };
                pair(round % 2 == 0, library, rust)
            })
            .collect();
        report(&format!("direct, {nodes} nodes"), &times, PIXELS);
        let times: Vec<_> = (0..ROUNDS)
            .map(|round| {
                let library = || {
                    let records = black_box(&records);
                    black_box(library::walk_flat_pixels(records, &cells, &data, 0, &mut ours));
                    black_box(&mut ours);
                };
                let rust = || {
                    rust_flat_walks(black_box(&flat), theirs_cells, sevens, &mut theirs);
                    black_box(&mut theirs);
                };
                pair(round % 2 == 0, library, rust)
            })
            .collect();
        report(&format!("flat, {nodes} nodes"), &times, PIXELS);
    }
}
