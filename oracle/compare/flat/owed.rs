//! What document 01 owes for a walk or a flattening: modules 7 and 8, written out.

use crate::compare::tree::owed::{DONE, Told, in_form, nodes, shape, told};
use decoder::predict::{PredictionData, Predictor};

pub const MOST_RECORDS: usize = 2_097_149;

/// What a walk takes beside the list.
#[derive(Clone, Copy, Debug)]
pub struct Pixel<'a> {
    pub cells: &'a [i32],
    pub data: &'a [i32; 7],
    pub wp_pred: i64,
}

impl Pixel<'_> {
    /// "Guess plus offset wraps at 64 bits."
    fn answer(&self, predictor: i32, offset: i32, multiplier: i32, context: i32, hops: i64) -> Told {
        let predictor = Predictor::try_from(predictor as u32).unwrap();
        let guess = predictor.predict_one(PredictionData::of(self.data), self.wp_pred);
        answer(guess.wrapping_add(offset as i64), multiplier as u32, context as u32, hops)
    }
}

pub fn answer(guess: i64, multiplier: u32, context: u32, hops: i64) -> Told {
    told(0, &[guess, multiplier as i64, context as i64, hops])
}

/// "A walk tests 1, 2, 5, then 16 cells (10), then only the nodes it enters, at each 3, 4, 10."
pub fn walk(words: &[i32], pixel: Pixel) -> Told {
    let nodes = match nodes(words) {
        Ok([]) => return told(5, &[0]),
        Ok(nodes) => nodes,
        Err(refused) => return refused,
    };
    if pixel.cells.len() < 16 {
        return told(10, &[16]);
    }
    let (mut place, mut hops) = (0, 0);
    loop {
        let node = &nodes[place];
        if !in_form(node) {
            return told(3, &[place as i64]);
        }
        let &[property, value, left, right, id] = node;
        if property < 0 {
            return pixel.answer(value, left, right, id, hops);
        }
        // "children must lie later and inside the list, the direct walk also needing right = left+1; else 4"
        let [left, right] = [left, right].map(|child| child as u32 as usize);
        if left <= place || right != left + 1 || right >= nodes.len() {
            return told(4, &[place as i64]);
        }
        let Some(&cell) = pixel.cells.get(property as usize) else {
            return told(10, &[property as i64 + 1]);
        };
        place = if cell > value { left } else { right };
        hops += 1;
    }
}

/// The halves of a record's last word, the first low.
fn halves(word: i32) -> [usize; 2] {
    [word as u32 as usize & 0xffff, word as u32 as usize >> 16]
}

pub fn record_in_form(record: &[i32; 6]) -> bool {
    match record {
        [0..=255, .., last] => halves(*last).iter().all(|&property| property <= 255),
        [-1, 0..=13, _, 0, _, last] => halves(*last)[1] == 0,
        _ => false,
    }
}

/// The same over records: "Properties, child properties included, must have cells; else 10, for the largest."
pub fn walk_flat(words: &[i32], pixel: Pixel) -> Told {
    let records: &[[i32; 6]] = match words.as_chunks() {
        ([], []) => return told(5, &[0]),
        (records, []) if records.len() <= MOST_RECORDS => records,
        (_, []) => return told(2, &[0]),
        _ => return told(1, &[0]),
    };
    if pixel.cells.len() < 16 {
        return told(10, &[16]);
    }
    let (mut place, mut hops) = (0, 0);
    loop {
        let record = &records[place];
        if !record_in_form(record) {
            return told(3, &[place as i64]);
        }
        let &[property, value, left_value, right_value, first, last] = record;
        let [left, right] = halves(last);
        if property < 0 {
            return pixel.answer(value, left as u16 as i16 as i32, left_value, first, hops);
        }
        let first = first as u32 as usize;
        if first <= place || first + 3 >= records.len() {
            return told(4, &[place as i64]);
        }
        let largest = left.max(right).max(property as usize);
        if largest >= pixel.cells.len() {
            return told(10, &[largest as i64 + 1]);
        }
        let over = |property: usize, value: i32| pixel.cells[property] > value;
        place = first
            + match (over(property as usize, value), over(left, left_value), over(right, right_value)) {
                (true, true, _) => 0,
                (true, false, _) => 1,
                (false, _, true) => 2,
                (false, _, false) => 3,
            };
        hops += 1;
    }
}

/// 1 to 4, then 9, then 8, "the ring is tested before the output"; `DONE` where records are owed.
pub fn flattening(words: &[i32], ring: usize, output: usize) -> Told {
    let shape = shape(words);
    if shape != DONE || words.is_empty() {
        return shape;
    }
    let nodes: &[[i32; 5]] = words.as_chunks().0;
    let wide = |node: &[i32; 5]| node[0] < 0 && !(-32_768..=32_767).contains(&node[2]);
    if let Some(place) = nodes.iter().position(wide) {
        return told(9, &[place as i64]);
    }
    let n = nodes.len();
    match [(ring, n + 1), (output, 6 * (2 * n - 1))].iter().find(|(lent, needed)| lent < needed) {
        Some(&(_, needed)) => told(8, &[needed as i64]),
        None => DONE,
    }
}

/// "Records are 1 + 4·(splits at even depth)", of a sound list that is not empty.
pub fn record_count(words: &[i32]) -> usize {
    let nodes: &[[i32; 5]] = words.as_chunks().0;
    let even =
        depths(words).iter().zip(nodes).filter(|&(depth, node)| node[0] >= 0 && depth % 2 == 0).count();
    1 + 4 * even
}

/// Of each node of a sound list; a child lies after its parent.
pub fn depths(words: &[i32]) -> Vec<usize> {
    let nodes: &[[i32; 5]] = words.as_chunks().0;
    let mut depths = vec![0; nodes.len()];
    for (place, node) in nodes.iter().enumerate().filter(|(_, node)| node[0] >= 0) {
        for child in [node[2], node[3]] {
            depths[child as usize] = depths[place] + 1;
        }
    }
    depths
}

/// The place of the leaf that these cells lead to, in a sound list.
pub fn leaf_reached(words: &[i32], cells: &[i32]) -> usize {
    let nodes: &[[i32; 5]] = words.as_chunks().0;
    let mut place = 0;
    while let [property @ 0..=255, value, left, right, _] = nodes[place] {
        place = if cells[property as usize] > value { left as usize } else { right as usize };
    }
    place
}
