//! What document 01 owes for a list of words: its shape, the visit, and whether each leaf can be reached.

use std::collections::{BTreeMap, BTreeSet};

/// Words lent for details, more than any refusal has, and what they hold beforehand.
pub const LENT: usize = 8;
pub const UNTOLD: i64 = 0x5ea1_5ea1_5ea1_5ea1;

/// A status, and the words lent for details afterwards.
pub type Told = (u32, [i64; LENT]);

pub fn told(number: u32, details: &[i64]) -> Told {
    let mut words = [UNTOLD; LENT];
    words[..details.len()].copy_from_slice(details);
    (number, words)
}

pub const DONE: Told = (0, [UNTOLD; LENT]);
pub const MOST_NODES: usize = 1_048_575;
pub const WORK: usize = 10_762;

/// "Split: property 0..255, value, left, right, 0. Leaf: -1, predictor 0..13, offset, multiplier, id."
pub fn in_form(node: &[i32; 5]) -> bool {
    match node {
        [0..=255, _, _, _, 0] => true,
        [-1, 0..=13, _, _, _] => true,
        _ => false,
    }
}

/// 1, 2, or the nodes.
pub fn nodes(words: &[i32]) -> Result<&[[i32; 5]], Told> {
    match words.as_chunks() {
        (nodes, []) if nodes.len() <= MOST_NODES => Ok(nodes),
        (_, []) => Err(told(2, &[0])),
        _ => Err(told(1, &[0])),
    }
}

/// The mask's tests: 1, 2 and 3.
pub fn formed(words: &[i32]) -> Result<&[[i32; 5]], Told> {
    let nodes = nodes(words)?;
    match nodes.iter().position(|node| !in_form(node)) {
        Some(place) => Err(told(3, &[place as i64])),
        None => Ok(nodes),
    }
}

/// Every fault with its place, of which the lowest counts, 3 before 4.
pub fn shape(words: &[i32]) -> Told {
    let nodes = match nodes(words) {
        Ok([]) => return DONE,
        Ok(nodes) => nodes,
        Err(refused) => return refused,
    };
    let mut faults = Vec::new();
    let mut splits = 0;
    let mut too_long = None;
    for (place, node) in nodes.iter().enumerate() {
        if !in_form(node) {
            faults.push((place, 3));
        }
        // "one too long at the first place above twice the splits before it"
        if place > 2 * splits && too_long.is_none() {
            too_long = Some((place, 4));
        }
        if node[0] >= 0 {
            // "the k-th split from 0 has children 2k+1 and 2k+2, lying after it"
            let first = 2 * splits as i64 + 1;
            if [node[2] as i64, node[3] as i64] != [first, first + 1] || first <= place as i64 {
                faults.push((place, 4));
            }
            splits += 1;
        }
    }
    faults.extend(too_long);
    // "a list too short is reported at its length"
    if nodes.len() < 2 * splits + 1 {
        faults.push((nodes.len(), 4));
    }
    match faults.iter().min() {
        Some(&(place, number)) => told(number, &[place as i64]),
        None => DONE,
    }
}

/// "The visit goes depth first, left first; at each node depth is tested before range."
fn visit(
    nodes: &[[i32; 5]],
    place: usize,
    depth: usize,
    ranges: &mut [(i32, i32); 256],
) -> Result<(), Told> {
    if depth == 2_049 {
        return Err(told(6, &[place as i64]));
    }
    let [property @ 0..=255, value, left, right, _] = nodes[place] else { return Ok(()) };
    let (low, high) = ranges[property as usize];
    // "Left holds cell > value."
    if high <= value || value < low {
        return Err(told(7, &[place as i64, property as i64, value as i64, low as i64, high as i64]));
    }
    ranges[property as usize] = (value + 1, high);
    visit(nodes, left as usize, depth + 1, ranges)?;
    ranges[property as usize] = (low, value);
    visit(nodes, right as usize, depth + 1, ranges)?;
    ranges[property as usize] = (low, high);
    Ok(())
}

/// Of a sound list that is not empty.
pub fn visited(words: &[i32]) -> Told {
    match visit(words.as_chunks().0, 0, 0, &mut [(i32::MIN, i32::MAX); 256]) {
        Ok(()) => DONE,
        Err(refused) => refused,
    }
}

/// Whether every leaf is reached by some cells, by trying them: of each property that is split on the two
/// ends, and each split's value and the next, since between those no test changes.
pub fn each_leaf_reached(words: &[i32]) -> bool {
    let nodes: &[[i32; 5]] = words.as_chunks().0;
    let mut choices: BTreeMap<i32, BTreeSet<i32>> = BTreeMap::new();
    for &[property, value, ..] in nodes.iter().filter(|node| node[0] >= 0) {
        let next = value.saturating_add(1);
        choices.entry(property).or_default().extend([i32::MIN, value, next, i32::MAX]);
    }
    let choices: Vec<(i32, Vec<i32>)> =
        choices.into_iter().map(|(p, vs)| (p, vs.into_iter().collect())).collect();
    let mut reached = vec![false; nodes.len()];
    let mut cells = [0; 256];
    let count: usize = choices.iter().map(|(_, values)| values.len()).product();
    for number in 0..count {
        let mut rest = number;
        for (property, values) in &choices {
            cells[*property as usize] = values[rest % values.len()];
            rest /= values.len();
        }
        let mut place = 0;
        while let [property @ 0..=255, value, left, right, _] = nodes[place] {
            place = if cells[property as usize] > value { left as usize } else { right as usize };
        }
        reached[place] = true;
    }
    nodes.iter().zip(reached).all(|(node, reached)| node[0] >= 0 || reached)
}
