//! Channels of every size with accepted trees, to be unpacked by both.

use crate::compare::cells::some_mask;
use crate::compare::flat::narrow;
use crate::compare::tree::grown::{self, Style};
use crate::compare::tree::nodes_of;
use crate::compare::weighted::{some_header, some_plane};
use crate::library::Opening;
use crate::random::Random;
use decoder::frame::modular::tree::Channel as Rust;
use decoder::frame::modular::tree::{FlatTree, private_used_property_mask, private_validate_tree};
use decoder::headers::modular::WeightedHeader;

/// The properties to split on end here.
const PROPERTIES: usize = 41;

/// What a channel is unpacked from.
pub struct Channel {
    pub width: usize,
    pub rows: usize,
    pub header: [u32; 11],
    pub weights: bool,
    pub mask: u32,
    pub numbers: [i32; 2],
    pub flat: FlatTree,
    pub records: Vec<i32>,
    pub residuals: Vec<i32>,
    /// How many references a pixel has.
    pub references: usize,
    /// How many cells are lent.
    pub cells: usize,
}

impl Channel {
    /// With at most so many references a pixel.
    pub fn any(random: &mut Random, (width, rows): (usize, usize), most: usize) -> Self {
        let (kind, filling) = (random.below(6), random.below(6));
        let header = some_header(random, kind);
        let residuals = some_plane(random, filling, width, rows);
        let splits = random.below(21) + if random.once_in(10) { 140 } else { 0 };
        let words = accepted(random, splits);
        let nodes = nodes_of(&words);
        let (any, own) = (some_mask(random), private_used_property_mask(&nodes));
        let mask = random.one_of(&[own, own, own, any]);
        let flat = FlatTree::of(&nodes).unwrap();
        let references = random.one_of(&[0, 1, most]).min(random.below(most + 1));
        let needed = PROPERTIES.max(16 + references);
        Channel {
            width,
            rows,
            header,
            weights: random.once_in(2),
            mask,
            numbers: [random.word(), random.word()],
            records: flat.words(),
            flat,
            residuals,
            references,
            cells: needed + random.below(3),
        }
    }

    pub fn opening(&self) -> Opening<'_> {
        let &Channel { width, ref header, weights, mask, numbers, .. } = self;
        Opening { width, header, weights, mask, numbers }
    }

    /// The Rust's, before its first pixel.
    pub fn rust(&self) -> Rust {
        let header = WeightedHeader::of(&self.header);
        let header = if self.weights { Some(&header) } else { None };
        Rust::new(header, self.width, self.mask, self.cells, self.numbers)
    }

    pub fn inputs(&self) -> String {
        let Channel { width, rows, header, weights, mask, numbers, records, .. } = self;
        format!(
            "width {width}, {rows} rows, header {header:?}, weights {weights}, mask {mask:#x}, numbers {numbers:?}, \
             records {records:?}, {} references, {} cells",
            self.references, self.cells
        )
    }
}

/// A tree that the Rust accepts. Most have their values near 0, where small samples lie; multipliers are 1, of any size, or
/// large.
fn accepted(random: &mut Random, splits: usize) -> Vec<i32> {
    loop {
        let mut properties: Vec<i32> =
            (0..1 + random.below(16)).map(|_| random.below(PROPERTIES) as i32).collect();
        properties.sort();
        properties.dedup();
        let leaf_in = random.one_of(&[2, 3, 5, 100]);
        let style = Style { splits, properties, leaf_in, astray_in: 0, at_ends: random.once_in(2) };
        let mut words = grown::tree(random, &style);
        narrow(&mut words);
        if !random.once_in(4) {
            gather(random, &mut words);
        }
        let kind = random.below(4);
        for node in words.as_chunks_mut::<5>().0.iter_mut().filter(|node| node[0] < 0) {
            let large = u32::MAX - random.below(3) as u32;
            node[3] = match kind {
                0 => 1,
                1 => random.sized() as i32,
                2 => random.one_of(&[1, 2, large]) as i32,
                _ => node[3],
            };
            node[2] = if kind == 0 { node[2] % 100 } else { node[2] };
        }
        if private_validate_tree(&nodes_of(&words), 256).is_ok() {
            return words;
        }
    }
}

/// The values of each property in their order, but side by side around one value: the ranges stay as empty as they were.
fn gather(random: &mut Random, words: &mut [i32]) {
    let (step, near) = (random.one_of(&[1, 3, 50, 5000]), random.below(21) as i32 - 10);
    let nodes = words.as_chunks_mut::<5>().0;
    for property in 0..PROPERTIES as i32 {
        let mut values: Vec<i32> =
            nodes.iter().filter(|node| node[0] == property).map(|node| node[1]).collect();
        values.sort();
        values.dedup();
        for node in nodes.iter_mut().filter(|node| node[0] == property) {
            let place = values.binary_search(&node[1]).unwrap() as i32;
            node[1] = near + step * (place - values.len() as i32 / 2);
        }
    }
}
