//! Random trees as lists of words, in the order that `Tree::read` writes them: level by level.

use crate::random::Random;
use std::collections::VecDeque;

const MIN: i32 = i32::MIN;
const MAX: i32 = i32::MAX;

/// How a tree is to be grown.
pub struct Style {
    pub splits: usize,
    /// The properties to split on, all different.
    pub properties: Vec<i32>,
    /// One node in so many that might be a split is a leaf: the fewer, the bushier.
    pub leaf_in: usize,
    /// One split in so many has any value, or one at an end of its range; 0: none, where there is room.
    pub astray_in: usize,
    /// Values lie next to an end of the range, or anywhere in it.
    pub at_ends: bool,
}

impl Style {
    /// Few properties or many, of all numbers; ranges that run empty soon, late or never.
    pub fn any(random: &mut Random, splits: usize) -> Self {
        let mut properties: Vec<i32> = (0..1 + random.below(5)).map(|_| property(random)).collect();
        properties.sort();
        properties.dedup();
        let leaf_in = random.one_of(&[2, 2, 3, 5, 100]);
        let astray_in = random.one_of(&[0, 0, 1, 3, 20]);
        Style { splits, properties, leaf_in, astray_in, at_ends: random.once_in(2) }
    }
}

/// A property, the ends of the mask's groups among them.
fn property(random: &mut Random) -> i32 {
    let any = random.below(256) as i32;
    random.one_of(&[any, any, any % 16, any % 40, 0, 7, 8, 9, 10, 15, 16, 31, 32, 255])
}

pub fn leaf(random: &mut Random) -> [i32; 5] {
    let (multiplier, id) = (random.word(), random.word());
    [-1, random.below(14) as i32, random.word(), multiplier, id]
}

/// A value that leaves both sides of the range something; there must be room.
fn within(random: &mut Random, at_ends: bool, (low, high): (i32, i32)) -> i32 {
    let anywhere = (low as i64 + random.below((high as i64 - low as i64) as usize) as i64) as i32;
    if at_ends { random.one_of(&[low, high - 1, anywhere]) } else { anywhere }
}

/// A sound tree of just so many splits.
pub fn tree(random: &mut Random, style: &Style) -> Vec<i32> {
    let Style { splits, properties, leaf_in, astray_in, at_ends } = style;
    let mut words = Vec::with_capacity(5 * (2 * splits + 1));
    // The ranges of each node that is still to come.
    let mut open = VecDeque::from([vec![(MIN, MAX); properties.len()]]);
    let mut k = 0;
    while let Some(mut ranges) = open.pop_front() {
        if k == *splits || (!open.is_empty() && random.once_in(*leaf_in)) {
            words.extend(leaf(random));
            continue;
        }
        let start = random.below(ranges.len());
        let has_room = |q: usize| ranges[q].0 < ranges[q].1;
        let roomy = (0..ranges.len()).map(|i| (start + i) % ranges.len()).find(|&q| has_room(q));
        let q = roomy.unwrap_or(start);
        let (low, high) = ranges[q];
        let value = if roomy.is_none() || (*astray_in > 0 && random.once_in(*astray_in)) {
            let any = random.word();
            random.one_of(&[low.wrapping_sub(1), low, high.wrapping_sub(1), high, high, any])
        } else {
            within(random, *at_ends, (low, high))
        };
        let first = 2 * k as i32 + 1;
        words.extend([properties[q], value, first, first + 1, 0]);
        k += 1;
        let mut left = ranges.clone();
        left[q].0 = value.saturating_add(1);
        ranges[q].1 = value;
        open.extend([left, ranges]);
    }
    words
}

/// A chain of splits, each on the side of the one before that `goes_left` says; each takes one value off the
/// range of its property.
pub fn chain(random: &mut Random, splits: usize, goes_left: impl Fn(usize) -> bool) -> Vec<i32> {
    let properties: [i32; 3] = std::array::from_fn(|_| property(random));
    let mut ranges = [(MIN, MAX); 256];
    let mut words = Vec::new();
    for k in 0..splits {
        let p = random.one_of(&properties);
        let (low, high) = ranges[p as usize];
        let left = goes_left(k);
        let value = if left { low } else { high - 1 };
        let first = 2 * k as i32 + 1;
        let split = [p, value, first, first + 1, 0];
        match (k, k > 0 && goes_left(k - 1)) {
            (0, _) => words.extend(split),
            (_, true) => words.extend([split, leaf(random)].concat()),
            (_, false) => words.extend([leaf(random), split].concat()),
        }
        let range = &mut ranges[p as usize];
        if left { range.0 = value + 1 } else { range.1 = value }
    }
    words.extend([leaf(random), leaf(random)].concat());
    words
}

/// One thing amiss: a word, a node more or fewer, two exchanged, or the list cut.
pub fn damage(random: &mut Random, words: &mut Vec<i32>) {
    let n = words.len() / 5;
    let any = random.word();
    if n == 0 {
        words.extend(leaf(random));
        return;
    }
    let k = random.below(n);
    let node = &mut words[5 * k..][..5];
    match random.below(12) {
        0 => node[0] = random.one_of(&[-2, MIN, 256, 257, MAX, any]),
        1 if node[0] >= 0 => node[4] = random.one_of(&[1, -1, MIN, any]),
        1 => node[1] = random.one_of(&[14, 15, -1, MIN, MAX, any]),
        2 => node[2] = random.one_of(&[node[2].wrapping_sub(1), node[2].wrapping_add(1), 0, -1, any]),
        3 => node[3] = random.one_of(&[node[3].wrapping_sub(1), node[3].wrapping_add(1), 0, -1, any]),
        4 => node.swap(2, 3),
        5 => words.truncate(5 * k),
        6 => (0..1 + random.below(4)).for_each(|_| words.extend(leaf(random))),
        7 if node[0] >= 0 => node.copy_from_slice(&leaf(random)),
        7 => {
            let first = 2 * random.below(n) as i32 + 1;
            node.copy_from_slice(&[property(random), any, first, first + 1, 0]);
        }
        8 => {
            let other = random.below(n);
            (0..5).for_each(|i| words.swap(5 * k + i, 5 * other + i));
        }
        9 => drop(words.drain(5 * k..5 * k + 5)),
        10 => {
            let copy = node.to_vec();
            words.splice(5 * k..5 * k, copy);
        }
        _ => words.truncate(words.len() - 1 - random.below(4)),
    }
}
