//! Writes answers of the Rust alone to a file, for a program that replays them without it.
//! README.md has the form of a record; this program never sees the library.

#[allow(dead_code)] // the comparisons grow more
#[path = "compare/tree/grown.rs"]
mod grown;
#[allow(dead_code)] // the comparisons draw more
mod random;

use decoder::error::Error;
use decoder::frame::modular::tree::{
    FlatTree, PredictionResult, TreeNode, private_compute_properties, private_predict,
    private_used_property_mask, private_validate_tree,
};
use decoder::headers::modular::{DEFAULTS, MOST, WeightedHeader};
use decoder::image::Image;
use decoder::predict::{PredictionData, Predictor, WeightedPredictorState, private_error_weight};
use decoder::rct;
use decoder::util::floor_log2_nonzero;
use random::{Random, SEED};

const MIN: i32 = i32::MIN;
const MAX: i32 = i32::MAX;

/// The records, 32 words each, and how many there are of each kind.
struct Records {
    bytes: Vec<u8>,
    counts: [u32; 15],
}

impl Records {
    /// One record: its kind, then each part from the next free word on; the rest is 0.
    fn add(&mut self, kind: usize, parts: &[&[i32]]) {
        let mut words = [&[kind as i32], parts.concat().as_slice()].concat();
        assert!(words.len() <= 32);
        words.resize(32, 0);
        self.bytes.extend(words.iter().flat_map(|w| w.to_le_bytes()));
        self.counts[kind] += 1;
    }
}

fn main() {
    let path = std::env::args().nth(1).expect("the file to write");
    let mut records = Records { bytes: Vec::new(), counts: [0; 15] };
    let random = &mut Random::new(12);
    highest_bits(&mut records, random);
    error_weights(&mut records, random);
    neighbours(&mut records, random);
    shortcuts(&mut records, random);
    guesses(&mut records, random);
    colours(&mut records, random);
    weighted_pixels(&mut records, random);
    trees(&mut records, random);
    cells(&mut records, random);
    walks(&mut records, random);
    std::fs::write(&path, &records.bytes).expect("a file that can be written");
    println!("seed {SEED:#x}; {} bytes", records.bytes.len());
    let names = [
        "floor_log2_nonzero",
        "error_weight",
        "get_rows",
        "update_for_interior_row",
        "predict_one",
        "do_rct_step",
        "predict_and_property",
        "update_errors",
        "used_property_mask",
        "validate_tree",
        "compute_properties",
        "predict",
        "build_flat_tree",
        "predict_flat",
    ];
    for (kind, name) in (1..).zip(names) {
        println!("kind {kind:>2} {name:<24}{:>5} records", records.counts[kind]);
    }
    println!("{:>37} in all", records.counts.iter().sum::<u32>());
}

/// Low and high half.
fn halves(x: i64) -> [i32; 2] {
    [x as i32, (x >> 32) as i32]
}

fn highest_bits(records: &mut Records, random: &mut Random) {
    let edges = (0..64).flat_map(|bit| [(1u64 << bit) - 1, 1 << bit, (1 << bit) + 1]);
    let inside: Vec<u64> = (0..64).map(|shift| (random.next() | 1 << 63) >> shift).collect();
    for x in edges.chain([u64::MAX]).chain(inside) {
        records.add(1, &[&halves(x as i64), &[floor_log2_nonzero(x) as i32]]);
    }
}

/// Every x of the table's own range and both sides of each power of two; then any x and m.
fn error_weights(records: &mut Records, random: &mut Random) {
    let edges = (6..32).flat_map(|bit| [(1u32 << bit) - 2, (1 << bit) - 1, 1 << bit, (1 << bit) + 1]);
    let mut asks: Vec<(u32, u32)> = (0..62)
        .chain(edges)
        .chain([u32::MAX - 1, u32::MAX])
        .flat_map(|x| [0, 1, 13, 15].map(|m| (x, m)))
        .collect();
    asks.extend((0..200).map(|_| (random.sized(), random.below(16) as u32)));
    for (x, m) in asks {
        records.add(2, &[&[x as i32, m as i32, private_error_weight(x, m) as i32]]);
    }
}

/// Six words of which the first `len` are filled: counted up, the ends of the range, or any.
fn six(random: &mut Random, filling: i32, len: usize, start: i32) -> [i32; 6] {
    let mut cells = [0; 6];
    for (k, cell) in cells[..len].iter_mut().enumerate() {
        *cell = match filling {
            0 => start + k as i32,
            1 => random.one_of(&[MIN, MAX]),
            _ => random.word(),
        };
    }
    cells
}

/// Every fallback: widths 1 to 6, every column, rows 0 to 3.
fn neighbours(records: &mut Records, random: &mut Random) {
    for (width, k) in (1..=6).flat_map(|width| (0..32).map(move |k| (width, k))) {
        let (y, filling) = (k / 8, k as i32 % 8);
        let [row, top, toptop] = [100, 200, 300].map(|start| six(random, filling, width, start));
        for x in 0..width {
            let seven =
                PredictionData::get_rows(&row[..width], &top[..width], &toptop[..width], x, y).words();
            records.add(3, &[&[width as i32, x as i32, y as i32], &row, &top, &toptop, &seven]);
        }
    }
}

/// The places that rows of six or fewer have for the shortcut, each with all four needs.
fn shortcuts(records: &mut Records, random: &mut Random) {
    for (len, x) in [(5, 2), (6, 2), (6, 3)] {
        for (needs, filling) in (0..4).flat_map(|needs| (0..25).map(move |f| (needs, f))) {
            let [top, toptop] = [200, 300].map(|start| six(random, filling, len, start));
            let (old, cur) = (random.seven(), random.word());
            let (above, two_above) = (&top[..len], &toptop[..len]);
            let seven = PredictionData::of(&old)
                .update_for_interior_row(above, two_above, x, cur, needs & 1 != 0, needs & 2 != 0)
                .words();
            records.add(4, &[&[len as i32, x as i32, cur, needs], &old, &top, &toptop, &seven]);
        }
    }
}

/// Neighbourhoods around each predictor's edges, and any; all fourteen on each.
fn guesses(records: &mut Records, random: &mut Random) {
    // left, top, topleft: document 01's edges, ties, and both ends of the range.
    #[rustfmt::skip]
    let corners = [
        [3, 7, 5], [0, -3, 9], [-3, 0, 9], [10, 20, 5], [10, 20, 14], [10, 20, 25],
        [10, 20, 10], [10, 20, 20], [20, 10, 5], [20, 10, 25], [7, 3, 5], [4, 4, 4], [-1, -2, -1],
        [MIN, MAX, 0], [MAX, MIN, -1], [MIN, MIN, MAX], [MAX, MAX, MIN], [MIN, MAX, MIN],
        [MAX, MIN, MAX], [MIN, MIN, MIN], [MAX, MAX, MAX], [MIN, 0, MAX], [0, MAX, MIN],
    ];
    let mut sevens: Vec<[i32; 7]> = corners
        .into_iter()
        .map(|[left, top, topleft]| {
            let [a, b, c, d] = [(); 4].map(|_| random.word());
            [left, top, a, topleft, b, c, d]
        })
        .collect();
    // AverageAll on both sides of its multiples of 16 (7·left + leftleft + 8), and at its extremes.
    sevens.extend([-40, -25, -24, -23, -9, -8, -7, 7, 8, 9].map(|leftleft| [0, 0, 0, 0, 0, leftleft, 0]));
    sevens.push([MAX, MAX, MIN, 0, MAX, MAX, MAX]);
    sevens.push([MIN, MIN, MAX, 0, MIN, MIN, MIN]);
    sevens.extend((0..65).map(|_| random.seven()));
    let mut guesses: Vec<i64> =
        vec![0, 1, -1, i64::MIN, i64::MAX, 1 << 32, -1 << 32, MIN as i64 - 1, MAX as i64 + 1];
    guesses.resize_with(sevens.len(), || random.long());
    for (seven, wp_pred) in sevens.into_iter().zip(guesses) {
        for p in 0..Predictor::NUM_PREDICTORS {
            let guess = Predictor::try_from(p).unwrap().predict_one(PredictionData::of(&seven), wp_pred);
            records.add(5, &[&[p as i32], &seven, &halves(wp_pred), &halves(guess)]);
        }
    }
}

/// Planes of one to four triples, every operation in every order: the edges, then any.
fn colours(records: &mut Records, random: &mut Random) {
    // Document 01's own; sums and halves that wrap; odd numbers on both sides of 0, which halving
    // must round down; the ends; words all different, so that each order shows.
    #[rustfmt::skip]
    let edges = [
        [100, 7, -3], [5, 0, -8], [MAX, 0, 1], [1, 2, 3],
        [0, 0, 0], [0, 0, 1], [0, 1, 0], [1, 0, 0],
        [0, 0, -1], [0, -1, 0], [-1, 0, 0], [-1, -1, -1],
        [-3, 0, 0], [0, -3, 0], [0, 0, -3], [-2, 5, -1],
        [MIN, MIN, MIN], [MAX, MAX, MAX], [MIN, MAX, 0], [MAX, MIN, -1],
        [MIN, 0, -1], [MIN, 1, MAX], [MAX, -1, MIN], [0, MIN, MAX],
        [0, MAX, MIN], [-1, MAX, MIN], [1 << 30, 0, 1 << 30], [-1 << 30, 0, (-1 << 30) - 1],
        [1, MAX, MIN + 1], [MAX - 1, MIN + 1, 2],
    ];
    for (operation, order) in rct::steps() {
        let mut triples = edges.to_vec();
        triples.resize_with(40, || random.three());
        let mut rest = triples.as_slice();
        for n in [1, 2, 3, 4].repeat(4) {
            let (some, later) = rest.split_at(n);
            rest = later;
            let mut before = [[0; 4]; 3];
            for (k, triple) in some.iter().enumerate() {
                (0..3).for_each(|plane| before[plane][k] = triple[plane]);
            }
            let planes = before.each_ref().map(|plane| &plane[..n]);
            let mut after = [[0; 4]; 3];
            for (words, restored) in after.iter_mut().zip(rct::restored(planes, (n, 1), operation, order)) {
                words[..n].copy_from_slice(&restored);
            }
            let head = [operation as i32, order as i32, n as i32];
            records.add(6, &[&head, before.as_flattened(), after.as_flattened()]);
        }
    }
}

/// One pixel of a weighted state, as two records that stand alone: 7 is its ask, 8 its ask and then its put.
/// A whole memory has no room in a record, so both have what an ask reads of it: the five words of N, NE and
/// NW, of which two may be one position, and the error of W, 0 in the first column. Of what the put writes, 8
/// has the five words of the pixel's own position; the sums of the next position in the other half (NE, but
/// in the last column) grow by the last four of these.
fn weighted_pixel(
    records: &mut Records,
    header: &[u32; 11],
    width: usize,
    (x, y): (usize, usize),
    state: &mut WeightedPredictorState,
    seven: &[i32; 7],
    value: i32,
) {
    let words = |k| state.position(k).map(|word| word as i32);
    let (here, n) = if y % 2 == 0 { (width + 2 + x, x) } else { (x, width + 2 + x) };
    let (ne, nw) = (if x + 1 < width { n + 1 } else { n }, if x > 0 { n - 1 } else { n });
    let w = if x > 0 { words(here - 1)[0] } else { 0 };
    let mut bytes = [0; 16];
    let numbers = header.iter().copied().chain([width, x, y].map(|number| number as u32));
    bytes.iter_mut().zip(numbers).for_each(|(byte, number)| *byte = number as u8);
    let small: Vec<i32> = bytes.as_chunks().0.iter().map(|&four| i32::from_le_bytes(four)).collect();
    let inputs = [&small, &seven[..5], &[value], &words(n), &words(ne), &words(nw), &[w]].concat();
    let (guess, property) = state.predict_and_property((x, y), width, &PredictionData::of(seven));
    state.update_errors(value, (x, y), width);
    records.add(7, &[&inputs, &halves(guess), &[property]]);
    records.add(8, &[&inputs, &state.position(here).map(|word| word as i32)]);
}

/// Planes of every width to 6 from opening on; then any memory, at the ends of the range and anywhere.
fn weighted_pixels(records: &mut Records, random: &mut Random) {
    let some_header = |random: &mut Random, kind: usize| match kind {
        0 => DEFAULTS,
        1 => [0; 11],
        2 => MOST,
        _ => MOST.map(|most| random.below(most as usize + 1) as u32),
    };
    for (width, filling) in (1..=6).flat_map(|width| (0..4).map(move |filling| (width, filling))) {
        let header = some_header(random, if filling < 2 { 0 } else { filling });
        let mut state = WeightedPredictorState::new(&WeightedHeader::of(&header), width).unwrap();
        let plane: Vec<i32> = (0..4 * width)
            .map(|k| match filling {
                0 => 10 * (k % width + 1) as i32, // document 01's: width 4, put 10
                1 => 1000 + random.below(64) as i32,
                2 => random.one_of(&[MIN, MAX]),
                _ => random.word(),
            })
            .collect();
        for (y, x) in (0..4).flat_map(|y| (0..width).map(move |x| (y, x))) {
            let row = |back: usize| if y < back { &[][..] } else { &plane[(y - back) * width..][..width] };
            let seven = PredictionData::get_rows(row(0), row(1), row(2), x, y).words();
            let value = plane[y * width + x];
            weighted_pixel(records, &header, width, (x, y), &mut state, &seven, value);
        }
    }
    for k in 0..240 {
        let (header, width) = (some_header(random, k / 6 % 4), 1 + k % 6);
        let mut state = WeightedPredictorState::new(&WeightedHeader::of(&header), width).unwrap();
        let ends = random.once_in(2);
        let any = |random: &mut Random| if ends { random.one_of(&[MIN, MAX, 0]) } else { random.word() };
        let memory: Vec<[u32; 5]> =
            (0..2 * (width + 2)).map(|_| [(); 5].map(|_| any(random) as u32)).collect();
        state.fill(&memory);
        let place = (random.below(width), random.below(4));
        let (seven, value) = ([(); 7].map(|_| any(random)), any(random));
        weighted_pixel(records, &header, width, place, &mut state, &seven, value);
    }
}

/// A tree of at most 8 splits in 12 words: which nodes are splits, a bit a node; how many nodes; the splits'
/// properties, a byte each; their values. The rest follows: children lie where `Tree::read` puts them, and
/// leaves are those of `put_leaves`.
fn packed(words: &[i32]) -> [i32; 12] {
    let nodes: &[[i32; 5]] = words.as_chunks().0;
    let splits = nodes.iter().enumerate().filter(|(_, node)| node[0] >= 0);
    let mut packed = [0; 12];
    packed[1] = nodes.len() as i32;
    let mut properties = [0; 8];
    for (k, (place, node)) in splits.enumerate() {
        assert_eq!([node[2], node[3]], [2 * k as i32 + 1, 2 * k as i32 + 2]);
        packed[0] |= 1 << place;
        properties[k] = node[0] as u8;
        packed[4 + k] = node[1];
    }
    for (word, four) in packed[2..4].iter_mut().zip(properties.as_chunks().0) {
        *word = i32::from_le_bytes(*four);
    }
    packed
}

/// No two leaves of a tree are alike: each is made from its place.
fn put_leaves(words: &mut [i32]) {
    let nodes = words.as_chunks_mut::<5>().0.iter_mut();
    for (place, node) in (0..).zip(nodes).filter(|(_, node)| node[0] < 0) {
        *node = [-1, place % 14, if place % 2 == 1 { -3 } else { 100 * place }, place + 1, place];
    }
}

/// Document 01's trees, then any of up to 8 splits: first the masks of all, then the verdicts.
fn trees(records: &mut Records, random: &mut Random) {
    let leaf = [-1, 0, 0, 1, 0];
    let split = |property, value, k| [property, value, 2 * k + 1, 2 * k + 2, 0];
    let mut trees = vec![leaf.to_vec()];
    for value in [MAX, MAX - 1, 0, MIN] {
        trees.push([split(0, value, 0), leaf, leaf].concat());
    }
    for property in [0, 1, 7, 8, 9, 10, 15, 16, 31, 32, 40, 254, 255] {
        trees.push([split(property, 0, 0), leaf, leaf].concat());
    }
    for (property, value) in [(9, 4), (9, 5), (9, 6), (9, MIN), (9, MAX - 1), (9, MAX), (8, 5)] {
        let child = split(property, value, 1);
        trees.push([split(9, 5, 0), child, leaf, leaf, leaf].concat());
        trees.push([split(9, 5, 0), leaf, child, leaf, leaf].concat());
    }
    for k in 0..300 {
        let style = grown::Style::any(random, k % 9);
        trees.push(grown::tree(random, &style));
    }
    trees.iter_mut().for_each(|words| put_leaves(words));
    let nodes = |words: &[i32]| -> Vec<TreeNode> { words.as_chunks().0.iter().map(TreeNode::of).collect() };
    for words in &trees {
        records.add(9, &[&packed(words), &[private_used_property_mask(&nodes(words)) as i32]]);
    }
    for words in &trees {
        let verdict = match private_validate_tree(&nodes(words), 256) {
            Ok(()) => [0; 5],
            Err(Error::TreeSplitOnEmptyRange(property, value, low, high)) => {
                [7, property as i32, value, low, high]
            }
            Err(other) => panic!("{other:?}"),
        };
        records.add(10, &[&packed(words), &verdict]);
    }
}

/// Each bit of the mask alone and groups of them, with no references, one and two; every other pixel with a
/// weighted state on any memory. Beforehand cell k holds 100 + k, but for cell 9.
fn cells(records: &mut Records, random: &mut Random) {
    let groups = [0, 3, 12, 0xf0, 0x300, 0x7c00, 0x8000, 0xffff_0000, u32::MAX, 0x7fff, 0xffff];
    let masks: Vec<u32> = (0..32).map(|bit| 1 << bit).chain(groups).collect();
    for k in 0..8 * masks.len() {
        let any = random.next() as u32;
        let mask = if k < 7 * masks.len() { masks[k % masks.len()] } else { any };
        let (width, header) = (6, WeightedHeader::of(&DEFAULTS));
        let (x, y) = (random.below(width), random.below(4));
        let (seven, old) = (random.seven(), random.word());
        let memory = random.memory(width);
        let [mut state, mut equal] = WeightedPredictorState::alike(&header, width, &memory);
        let weighted = k % 2 == 1;
        let property = match weighted {
            true => equal.predict_and_property((x, y), width, &PredictionData::of(&seven)).1,
            false => 0,
        };
        let row: Vec<i32> = (0..k / 2 % 3).map(|_| random.word()).collect();
        let references = Image::of((row.len(), width), row.repeat(width));
        let mut after: [i32; 18] = std::array::from_fn(|cell| 100 + cell as i32);
        after[9] = old;
        let wp_state = if weighted { Some(&mut state) } else { None };
        let data = PredictionData::of(&seven);
        private_compute_properties(data, width, wp_state, x, y, &references, &mut after, mask);
        assert_eq!(after[..2], [100, 101]);
        let head = [mask as i32, x as i32, y as i32];
        let mut two = [0; 2];
        two[..row.len()].copy_from_slice(&row);
        let middle = [old, property, row.len() as i32];
        records.add(11, &[&head, &seven[..6], &middle, &two, &after[2..]]);
    }
}

/// Every tree with splits on the first sixteen cells, on cells next to its values or any: first the direct walks, then
/// the flat records one by one, then the flat walks. Cells 4 to 10 are the seven neighbours too.
fn walks(records: &mut Records, random: &mut Random) {
    let mut asks = Vec::new();
    for k in 0..240 {
        let style = grown::Style::any(random, k % 9);
        let mut words = grown::tree(random, &style);
        let mut cells = [(); 16].map(|_| random.word());
        put_leaves(&mut words);
        for node in words.as_chunks_mut::<5>().0.iter_mut().filter(|node| node[0] >= 0) {
            node[0] %= 16;
            if random.once_in(2) {
                cells[node[0] as usize] = node[1].saturating_add(random.below(2) as i32);
            }
        }
        asks.push((words, cells));
    }
    let nodes = |words: &[i32]| -> Vec<TreeNode> { words.as_chunks().0.iter().map(TreeNode::of).collect() };
    // The Rust counts no hops: they are the leaf's depth, found by going back up, or half of it rounded up.
    let depth = |words: &[i32], leaf: u32| {
        let (mut place, mut depth) = (leaf as i32, 0);
        while place > 0 {
            let is_parent = |node: &[i32; 5]| node[0] >= 0 && (node[2] == place || node[3] == place);
            place = words.as_chunks().0.iter().position(is_parent).unwrap() as i32;
            depth += 1;
        }
        depth
    };
    let answer = |result: PredictionResult, hops: u32| {
        let [low, high] = halves(result.guess);
        [low, high, (result.context | result.multiplier << 8 | hops << 16) as i32]
    };
    for (words, cells) in &asks {
        let seven = PredictionData::of(&cells[4..]);
        let result = private_predict(&nodes(words), seven, None, &mut cells.clone());
        let hops = depth(words, result.context);
        records.add(12, &[&packed(words), cells, &answer(result, hops)]);
    }
    for (k, (words, _)) in asks.iter().enumerate() {
        let six = FlatTree::of(&nodes(words)).unwrap().words();
        let six: &[[i32; 6]] = six.as_chunks().0;
        for (place, record) in six.iter().enumerate().skip(k % 3).step_by(if k < 18 { 1 } else { 3 }) {
            records.add(13, &[&packed(words), &[six.len() as i32, place as i32], record]);
        }
    }
    for (words, cells) in &asks {
        let seven = PredictionData::of(&cells[4..]);
        let result = FlatTree::of(&nodes(words)).unwrap().predict(seven, None, &mut cells.clone());
        let hops = depth(words, result.context).div_ceil(2);
        records.add(14, &[&packed(words), cells, &answer(result, hops)]);
    }
}
