//! Whole channels, pixel after pixel: by the size of the tree, with weights on and off, and in rows of other widths.

use super::flat::fitted;
use super::weighted::laid_out;
use super::{ROUNDS, SIDE, gel, pair, report};
use crate::compare::tree::nodes_of;
use crate::library::{self, Opening, Run, Written};
use crate::random::Random;
use decoder::frame::modular::tree::{Asked, Channel, FlatTree, private_used_property_mask};
use decoder::headers::modular::{DEFAULTS, WeightedHeader};
use decoder::image::Image;
use std::hint::black_box;

const PIXELS: usize = SIDE * SIDE;
const CELLS: usize = 16;

pub fn all() {
    println!(
        "run_channel, {SIDE}x{SIDE} pixels, ask and put of each, against a plain loop over the Rust's get_rows, predict_flat \
         and\n  update_errors, contexts, plane, cells and memory equal; median of {ROUNDS} rounds, times of a pixel"
    );
    let gel = gel();
    let whole = laid_out(&gel, SIDE);
    for (nodes, weights) in [1, 15, 325].into_iter().flat_map(|nodes| [(nodes, true), (nodes, false)]) {
        let on = if weights { "on" } else { "off" };
        Packed::of(&whole, nodes, weights).time(&format!("{nodes} nodes, weights {on}"));
    }
    println!(
        "run_rows, the same by unpack_row, a call for each row, against the same loop; times of a pixel"
    );
    for (nodes, weights) in [1, 15, 325].into_iter().flat_map(|nodes| [(nodes, true), (nodes, false)]) {
        let on = if weights { "on" } else { "off" };
        let packed = Packed::of(&whole, nodes, weights);
        packed.time_by(library::run_rows, &format!("by rows: {nodes} nodes, weights {on}"));
    }
    println!("run_channel in rows of other widths, and the first rows alone; 15 nodes, weights on");
    for width in [64, 16_384] {
        Packed::of(&laid_out(&gel, width), 15, true)
            .time(&format!("width {width}, {} rows", PIXELS / width));
    }
    for rows in [16, 128] {
        let first = Image::of((SIDE, rows), gel[..SIDE * rows].to_vec());
        Packed::of(&first, 15, true).time(&format!("width {SIDE}, {rows} rows"));
    }
}

/// A tree for channels of one size.
struct Packing {
    size: (usize, usize),
    weights: bool,
    mask: u32,
    flat: FlatTree,
}

impl Packing {
    fn of(size: (usize, usize), weights: bool, words: &[i32]) -> Self {
        let nodes = nodes_of(words);
        let (mask, flat) = (private_used_property_mask(&nodes), FlatTree::of(&nodes).unwrap());
        Packing { size, weights, mask, flat }
    }

    /// The Rust's channel, row by row; its state is made anew, where the library clears the memory that it is lent.
    #[inline(always)]
    fn run(&self, plane: &mut [i32], mut value: impl FnMut(usize, Asked) -> i32) -> Channel {
        let (width, rows) = self.size;
        let (header, none) = (WeightedHeader::of(&DEFAULTS), Image::of((0, 0), Vec::new()));
        let header = if self.weights { Some(&header) } else { None };
        let mut channel = Channel::new(header, width, self.mask, CELLS, [0, 0]);
        for y in 0..rows {
            channel.row(&self.flat, &none, plane, y, |asked| value(y, asked));
        }
        channel
    }
}

/// What an image packs to, by a tree that is fitted to its pixels.
struct Packed {
    packing: Packing,
    residuals: Vec<i32>,
}

#[inline(never)]
fn rust_run_channel(packed: &Packed, plane: &mut [i32], contexts: &mut [u32]) -> Channel {
    let width = packed.packing.size.0;
    packed.packing.run(plane, |y, asked| {
        let k = y * width + asked.x;
        contexts[k] = asked.result.context;
        asked.unpacked(packed.residuals[k])
    })
}

impl Packed {
    fn of(image: &Image<i32>, nodes: usize, weights: bool) -> Self {
        let (size, mut plane) = (image.size(), vec![0; image.size().0 * image.size().1]);
        // First the cells of some pixels, by which the tree is grown.
        let mut some = Vec::new();
        let leaf = Packing { mask: 0xffff, ..Packing::of(size, weights, &[-1, 0, 0, 1, 0]) };
        leaf.run(&mut plane, |y, asked| {
            if asked.x % 16 == y % 16 {
                some.push(asked.cells.try_into().unwrap());
            }
            image.row(y)[asked.x]
        });
        let properties = if weights { 2..16 } else { 2..15 };
        let mut words = fitted(&mut Random::new(50), nodes / 2, properties, &some);
        assert_eq!(words.len(), 5 * nodes);
        if nodes == 1 {
            words[1] = if weights { 6 } else { 5 }; // the weighted predictor, the gradient
        }
        let packing = Packing::of(size, weights, &words);
        let mut residuals = Vec::new();
        packing.run(&mut plane, |y, asked| {
            residuals.push((image.row(y)[asked.x] as i64 - asked.result.guess) as i32);
            image.row(y)[asked.x]
        });
        Packed { packing, residuals }
    }

    fn time(&self, what: &str) {
        self.time_by(library::run_channel, what);
    }

    fn time_by(&self, run: Run, what: &str) {
        let Packing { size: (width, _), weights, mask, flat, .. } = &self.packing;
        let (pixels, records) = (self.residuals.len(), flat.words());
        let opening =
            Opening { width: *width, header: &DEFAULTS, weights: *weights, mask: *mask, numbers: [0, 0] };
        let [mut ours, mut theirs] = [(); 2].map(|_| (vec![0; pixels], vec![0; pixels]));
        let mut cells = [1; CELLS];
        let mut memory = vec![1; if *weights { 10 * (width + 2) } else { 0 }];
        let mut library = || {
            let (plane, contexts) = (&mut ours.0[..], &mut ours.1[..]);
            let written = Written { plane, contexts, cells: &mut cells, memory: &mut memory };
            let (opening, residuals) = (black_box(opening), black_box(&self.residuals));
            black_box(run(opening, &[], black_box(&records), residuals, written))
        };
        let mut rust = || black_box(rust_run_channel(black_box(self), &mut theirs.0, &mut theirs.1));
        let (status, channel) = (library(), rust());
        let times: Vec<_> =
            (0..ROUNDS).map(|round| pair(round % 2 == 0, || _ = library(), || drop(rust()))).collect();
        let state = channel.weights.iter().flat_map(|state| state.positions());
        let equal = ours == theirs && cells == channel.cells[..];
        assert!(
            status == 0 && equal && state.eq(memory.as_chunks().0.iter().copied()),
            "{what}: the channels differ"
        );
        report(what, &times, pixels);
    }
}
