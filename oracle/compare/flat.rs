//! Modules 7 and 8: flattening, the direct walk and the flat walk.

pub mod owed;

use super::Tally;
use super::tree::owed::{DONE, MOST_NODES, Told, UNTOLD, told};
use super::tree::{MARGIN, UNTOUCHED, grown, nodes_of};
use crate::library;
use crate::random::Random;
use decoder::frame::modular::tree::{FlatTree, PredictionResult, TreeNode, private_predict};
use decoder::headers::modular::{DEFAULTS, WeightedHeader};
use decoder::predict::{PredictionData, WeightedPredictorState};
use grown::Style;
use owed::{MOST_RECORDS, Pixel};

pub fn all() {
    println!(
        "build_flat_tree: status, details, count, every word of ring and output and {MARGIN} lent past each; predict, \
         predict_flat:\n  guess, multiplier, context and hops; against the Rust's build_flat_tree, predict and \
         predict_flat, and document 01's rules"
    );
    sound();
    shapes();
    large();
    weighed();
    wide_guesses();
    damaged();
    damaged_records();
    lent();
    limits();
    pixels();
    too_short();
}

/// Every offset as its low 16 bits, so that flattening takes it.
pub fn narrow(words: &mut [i32]) {
    for node in words.as_chunks_mut::<5>().0.iter_mut().filter(|node| node[0] < 0) {
        node[2] = node[2] as i16 as i32;
    }
}

/// Cells on both sides of the tree's own values, or any.
fn some_cells(random: &mut Random, words: &[i32], len: usize) -> Vec<i32> {
    let mut cells: Vec<i32> = (0..len).map(|_| random.word()).collect();
    for node in words.as_chunks::<5>().0 {
        let near = node[1].saturating_add(random.below(2) as i32);
        match cells.get_mut(node[0] as usize) {
            Some(cell) if node[0] >= 0 && random.once_in(3) => *cell = near,
            _ => {}
        }
    }
    cells
}

/// The library's records where there are any; ring and output are lent so many words.
fn flatten(tally: &mut Tally, words: &[i32], lent: [usize; 2], owed: Told, records: &[i32]) -> Vec<i32> {
    let [mut ring, mut output] = lent.map(|len| vec![UNTOUCHED; len]);
    let mut details = DONE.1;
    let status = library::build_flat_tree(words, &mut ring, &mut output, &mut details);
    let cleared = if owed.0 == 0 && !words.is_empty() { words.len() / 5 + 1 } else { 0 };
    let ring_amiss =
        ring.iter().enumerate().find(|&(k, &word)| word != if k < cleared { 0 } else { UNTOUCHED });
    let output_amiss =
        output.iter().enumerate().find(|&(k, &word)| word != *records.get(k).unwrap_or(&UNTOUCHED));
    tally.refused += (owed.0 != 0) as u64;
    tally.case((owed, None, None), ((status, details), ring_amiss, output_amiss), || {
        format!("{lent:?} words lent, words {words:?}, owed records {records:?}")
    });
    output.truncate(records.len());
    output
}

/// What flattening a list of words needs.
fn needed(words: &[i32]) -> [usize; 2] {
    let n = words.len() / 5;
    if n == 0 { [0, 0] } else { [n + 1, 6 * (2 * n - 1)] }
}

fn walked(words: &[i32], pixel: Pixel) -> Told {
    let mut details = DONE.1;
    let status = library::predict(words, pixel.cells, pixel.data, pixel.wp_pred, &mut details);
    (status, details)
}

fn walked_flat(records: &[i32], pixel: Pixel) -> Told {
    let mut details = DONE.1;
    let status = library::predict_flat(records, pixel.cells, pixel.data, pixel.wp_pred, &mut details);
    (status, details)
}

fn with_hops(result: PredictionResult, hops: usize) -> Told {
    owed::answer(result.guess, result.multiplier, result.context, hops as i64)
}

/// A sound tree whose offsets are narrow, with the Rust's two forms of it and the library's records.
struct Grown {
    words: Vec<i32>,
    nodes: Vec<TreeNode>,
    flat: FlatTree,
    records: Vec<i32>,
    depths: Vec<usize>,
    most: usize,
}

struct Checks {
    flattenings: Tally,
    walks: Tally,
    flat_walks: Tally,
}

impl Checks {
    fn new(names: [&'static str; 3]) -> Self {
        let [flattenings, walks, flat_walks] = names.map(Tally::new);
        Checks { flattenings, walks, flat_walks }
    }

    /// Flattened by both.
    fn grown(&mut self, mut words: Vec<i32>) -> Grown {
        narrow(&mut words);
        let nodes = nodes_of(&words);
        let flat = FlatTree::of(&nodes).expect("the closing test, which never fires");
        let owed = flat.words();
        let count = owed.len() / 6;
        assert_eq!(count, owed::record_count(&words), "the records of {words:?}");
        let lent = needed(&words).map(|len| len + MARGIN);
        let records = flatten(&mut self.flattenings, &words, lent, told(0, &[count as i64]), &owed);
        let most = words.as_chunks::<5>().0.iter().map(|node| node[0]).max().unwrap().max(15) as usize;
        Grown { depths: owed::depths(&words), words, nodes, flat, records, most }
    }

    /// Both walks, the Rust's without a weighted state; the cells are enough.
    fn walk(&mut self, tree: &Grown, cells: &mut [i32], data: &[i32; 7]) {
        let depth = tree.depths[owed::leaf_reached(&tree.words, cells)];
        let seven = PredictionData::of(data);
        let direct = with_hops(private_predict(&tree.nodes, seven, None, cells), depth);
        let flat = with_hops(tree.flat.predict(seven, None, cells), depth.div_ceil(2));
        self.both(tree, Pixel { cells, data, wp_pred: 0 }, direct, flat);
    }

    fn both(&mut self, tree: &Grown, pixel: Pixel, direct: Told, flat: Told) {
        assert_eq!(
            direct,
            owed::walk(&tree.words, pixel),
            "document 01's walk of {:?}, {pixel:?}",
            tree.words
        );
        assert_eq!(
            flat,
            owed::walk_flat(&tree.records, pixel),
            "its flat walk of {:?}, {pixel:?}",
            tree.records
        );
        self.walks
            .case(direct, walked(&tree.words, pixel), || format!("words {:?}, {pixel:?}", tree.words));
        self.flat_walks.case(flat, walked_flat(&tree.records, pixel), || {
            format!("records {:?}, {pixel:?}", tree.records)
        });
    }

    /// Both walks by document 01's rules alone; cells may be too few.
    fn by_rules(&mut self, words: &[i32], records: &[i32], pixel: Pixel) {
        let [direct, flat] = [owed::walk(words, pixel), owed::walk_flat(records, pixel)];
        self.walks.refused += (direct.0 != 0) as u64;
        self.flat_walks.refused += (flat.0 != 0) as u64;
        self.walks.case(direct, walked(words, pixel), || format!("words {words:?}, {pixel:?}"));
        self.flat_walks
            .case(flat, walked_flat(records, pixel), || format!("records {records:?}, {pixel:?}"));
    }
}

/// Of up to 41 nodes; cells just enough or more, and then too few.
fn sound() {
    let mut checks = Checks::new([
        "build_flat_tree, sound trees to 41 nodes",
        "predict, the same, cells enough or too few",
        "predict_flat, the same",
    ]);
    let random = &mut Random::new(37);
    for _ in 0..1_000_000 {
        let splits = random.below(21);
        let style = Style::any(random, splits);
        let tree = checks.grown(grown::tree(random, &style));
        for _ in 0..2 {
            let len = tree.most + 1 + random.one_of(&[0, 0, 3]);
            let mut cells = some_cells(random, &tree.words, len);
            let data = random.seven();
            checks.walk(&tree, &mut cells, &data);
            cells.truncate(random.below(len));
            let pixel = Pixel { cells: &cells, data: &data, wp_pred: random.long() };
            checks.by_rules(&tree.words, &tree.records, pixel);
        }
    }
}

/// All lists of so many splits: `is_split` of each place, the children of those before it.
fn each_shape(splits: usize, is_split: &mut Vec<bool>, seen: &mut impl FnMut(&[bool])) {
    let made = is_split.iter().filter(|&&is| is).count();
    if is_split.len() == 2 * made + 1 {
        if made == splits {
            seen(is_split);
        }
        return;
    }
    for next in [false, true] {
        if !next || made < splits {
            is_split.push(next);
            each_shape(splits, is_split, seen);
            is_split.pop();
        }
    }
}

/// Every shape of up to 10 splits, split k on property k, each leaf reached.
fn shapes() {
    let mut checks = Checks::new([
        "build_flat_tree, all shapes to 10 splits",
        "predict, the same, each leaf",
        "predict_flat, the same",
    ]);
    let random = &mut Random::new(38);
    for splits in 0..=10 {
        each_shape(splits, &mut Vec::new(), &mut |is_split| {
            let mut words = Vec::new();
            let mut parents = vec![(0, false); is_split.len()];
            let mut k = 0;
            for (place, &split) in is_split.iter().enumerate() {
                if split {
                    let first = 2 * k as i32 + 1;
                    words.extend([k as i32, random.word().min(i32::MAX - 1), first, first + 1, 0]);
                    parents[2 * k + 1] = (place, true);
                    parents[2 * k + 2] = (place, false);
                    k += 1;
                } else {
                    words.extend(grown::leaf(random));
                }
            }
            let tree = checks.grown(words);
            for leaf in (0..is_split.len()).filter(|&place| !is_split[place]) {
                let mut cells = [0; 16].map(|_: i32| random.word());
                let mut place = leaf;
                while place > 0 {
                    let (parent, left) = parents[place];
                    let value = tree.words[5 * parent + 1];
                    let property = tree.words[5 * parent] as usize;
                    cells[property] = if left { value + 1 } else { value };
                    place = parent;
                }
                assert_eq!(owed::leaf_reached(&tree.words, &cells), leaf);
                checks.walk(&tree, &mut cells, &random.seven());
            }
        });
    }
}

/// From 100,001 nodes to the limit, bushy and thin, and chains of up to 500,000 splits: flattening has no depth limit.
fn large() {
    let mut checks =
        Checks::new(["build_flat_tree, to 1,048,575 nodes", "predict, the same", "predict_flat, the same"]);
    let random = &mut Random::new(39);
    let most = MOST_NODES / 2;
    let mut trees = Vec::new();
    for (splits, leaf_in) in
        [(50_000, 2), (50_001, 10), (130_000, 100), (most - 1, 10), (most, 2), (most, 10)]
    {
        let properties = (0..24).map(|k| 10 * k + random.below(10) as i32).collect();
        let style = Style { splits, properties, leaf_in, astray_in: 0, at_ends: false };
        trees.push(grown::tree(random, &style));
    }
    for splits in [2_048, 2_049, 60_000, 500_000] {
        let turns = random.next();
        trees.push(grown::chain(random, splits, |k| turns >> (k % 64) & 1 != 0));
    }
    for words in trees {
        let tree = checks.grown(words);
        for _ in 0..200 {
            let mut cells: Vec<i32> = (0..256).map(|_| random.next() as i32).collect();
            checks.walk(&tree, &mut cells, &random.seven());
        }
    }
}

/// With a state on any memory, whose guess is what an equal state answers.
fn weighed() {
    let mut checks = Checks::new([
        "build_flat_tree, for a weighted state",
        "predict, a weighted state",
        "predict_flat, the same",
    ]);
    let random = &mut Random::new(40);
    for _ in 0..200_000 {
        let splits = random.below(6);
        let style = Style::any(random, splits);
        let mut words = grown::tree(random, &style);
        for node in words.as_chunks_mut::<5>().0.iter_mut().filter(|node| node[0] < 0) {
            node[1] = random.one_of(&[6, 6, node[1]]);
        }
        let tree = checks.grown(words);
        let width = 1 + random.below(6);
        let memory = random.memory(width);
        let header = WeightedHeader::of(&DEFAULTS);
        let [mut state, mut second, mut equal] = WeightedPredictorState::alike(&header, width, &memory);
        let mut cells = some_cells(random, &tree.words, tree.most + 1);
        let data = random.seven();
        let seven = PredictionData::of(&data);
        let wp_pred = equal.predict_and_property((0, 0), width, &seven).0;
        let depth = tree.depths[owed::leaf_reached(&tree.words, &cells)];
        let direct = private_predict(&tree.nodes, seven, Some((&mut state, width)), &mut cells);
        let flat = tree.flat.predict(seven, Some((&mut second, width)), &mut cells);
        let pixel = Pixel { cells: &cells, data: &data, wp_pred };
        checks.both(&tree, pixel, with_hops(direct, depth), with_hops(flat, depth.div_ceil(2)));
    }
}

/// Guesses of the weighted predictor at both ends of 64 bits, where the offset makes the sum wrap; any offset in the
/// direct walk.
fn wide_guesses() {
    let mut checks = Checks::new([
        "build_flat_tree, of a leaf",
        "predict, guess and offset that wrap",
        "predict_flat, the same",
    ]);
    let random = &mut Random::new(41);
    let cells = [0; 16];
    for _ in 0..200_000 {
        let [offset, multiplier, id] = [random.word(), random.word(), random.word()];
        let wide = vec![-1, 6, offset, multiplier, id];
        let tree = checks.grown(wide.clone());
        let near =
            [i64::MIN, i64::MAX].map(|end| end.wrapping_sub(offset as i64 + random.below(5) as i64 - 2));
        let any = random.long();
        let wp_pred = random.one_of(&[near[0], near[1], i64::MIN, i64::MAX, any]);
        let pixel = Pixel { cells: &cells, data: &random.seven(), wp_pred };
        let direct = owed::answer(wp_pred.wrapping_add(offset as i64), multiplier as u32, id as u32, 0);
        checks.walks.case(direct, walked(&wide, pixel), || format!("words {wide:?}, {pixel:?}"));
        let flat = wp_pred.wrapping_add(offset as i16 as i64);
        checks.flat_walks.case(
            owed::answer(flat, multiplier as u32, id as u32, 0),
            walked_flat(&tree.records, pixel),
            || format!("records {:?}, {pixel:?}", tree.records),
        );
    }
}

/// Up to three things amiss in a list of nodes: 1, 3, 4 and 9 at every place in flattening, and in the direct walk those
/// of the nodes that it enters.
fn damaged() {
    let mut flattenings = Tally::new("build_flat_tree, damaged trees");
    let mut walks = Tally::new("predict, damaged trees");
    let random = &mut Random::new(42);
    for _ in 0..1_000_000 {
        let splits = random.below(21);
        let style = Style::any(random, splits);
        let mut words = grown::tree(random, &style);
        narrow(&mut words);
        (0..1 + random.below(3)).for_each(|_| grown::damage(random, &mut words));
        let lent = needed(&words).map(|len| len + MARGIN);
        let mut owed = owed::flattening(&words, lent[0], lent[1]);
        let mut records = Vec::new();
        if owed == DONE {
            let flat = FlatTree::of(&nodes_of(&words)).expect("the closing test, which never fires");
            records = flat.words();
            owed = told(0, &[records.len() as i64 / 6]);
        }
        flatten(&mut flattenings, &words, lent, owed, &records);
        let len = random.one_of(&[0, 15, 16, 17, 40, 255, 256]);
        let cells = some_cells(random, &words, len);
        let pixel = Pixel { cells: &cells, data: &random.seven(), wp_pred: random.long() };
        let owed = owed::walk(&words, pixel);
        walks.refused += (owed.0 != 0) as u64;
        walks.case(owed, walked(&words, pixel), || format!("words {words:?}, {pixel:?}"));
    }
}

/// One thing amiss in a list of records: a word, a record more or fewer, two exchanged, or the list cut.
pub fn damage_record(random: &mut Random, records: &mut Vec<i32>) {
    let n = records.len() / 6;
    let any = random.word();
    if n == 0 {
        records.extend([-1, random.below(14) as i32, any, 0, any, any & 0xffff]);
        return;
    }
    let k = random.below(n);
    let record = &mut records[6 * k..][..6];
    let first = record[4];
    let last = record[5];
    match random.below(9) {
        0 => record[0] = random.one_of(&[-2, -1, i32::MIN, 256, i32::MAX, 0, any]),
        1 if record[0] < 0 => record[1] = random.one_of(&[14, -1, i32::MIN, i32::MAX, any]),
        1 => record[1] = any,
        2 if record[0] < 0 => record[3] = random.one_of(&[1, -1, 0, any]),
        2 | 3 => {
            let n = n as i32;
            let edges = [
                first.wrapping_sub(1),
                first.wrapping_add(1),
                k as i32,
                k as i32 + 1,
                n - 4,
                n - 3,
                0,
                -1,
                any,
            ];
            record[4] = random.one_of(&edges);
        }
        4 => {
            let edges = [last | 256, last ^ 1 << 16, last | 256 << 16, last | 255, 0xff_00ff, -1, any];
            record[5] = random.one_of(&edges);
        }
        5 => records.truncate(6 * k),
        6 => records.extend([-1, 0, 1, 0, 0, 0]),
        7 => {
            let other = random.below(n);
            (0..6).for_each(|i| records.swap(6 * k + i, 6 * other + i));
        }
        _ => records.truncate(records.len() - 1 - random.below(5)),
    }
}

/// Records with up to three things amiss: 1, 3, 4, 5 and 10 of those that the flat walk enters.
fn damaged_records() {
    let mut tally = Tally::new("predict_flat, damaged records");
    let random = &mut Random::new(43);
    for _ in 0..1_000_000 {
        let splits = random.below(21);
        let style = Style::any(random, splits);
        let mut words = grown::tree(random, &style);
        narrow(&mut words);
        let mut records = FlatTree::of(&nodes_of(&words)).unwrap().words();
        (0..1 + random.below(3)).for_each(|_| damage_record(random, &mut records));
        let len = random.one_of(&[0, 15, 16, 17, 40, 255, 256]);
        let cells = some_cells(random, &words, len);
        let pixel = Pixel { cells: &cells, data: &random.seven(), wp_pred: random.long() };
        let owed = owed::walk_flat(&records, pixel);
        tally.refused += (owed.0 != 0) as u64;
        tally.case(owed, walked_flat(&records, pixel), || format!("records {records:?}, {pixel:?}"));
    }
}

/// Rings and outputs of every kind of length (8, the ring first), with now and then an offset that is too wide (9, before
/// both) at the ends of its range; an empty list needs none.
fn lent() {
    let mut tally = Tally::new("build_flat_tree, lent words of any length");
    let random = &mut Random::new(44);
    for round in 0..500_000 {
        let splits = random.below(21);
        let style = Style::any(random, splits);
        let mut words = grown::tree(random, &style);
        narrow(&mut words);
        match round % 8 {
            0 => words.clear(),
            1 => grown::damage(random, &mut words),
            2 => {
                let edges = [-32_769, -32_768, 32_767, 32_768, i32::MIN, i32::MAX];
                for node in words.as_chunks_mut::<5>().0.iter_mut().filter(|node| node[0] < 0) {
                    node[2] = if random.once_in(4) { random.one_of(&edges) } else { node[2] };
                }
            }
            _ => {}
        }
        let lent = needed(&words).map(|len| {
            let anywhere = random.below(len + 1);
            random.one_of(&[0, anywhere, len.saturating_sub(1), len, len, len, len + 1, 2 * len])
        });
        let mut owed = owed::flattening(&words, lent[0], lent[1]);
        let mut records = Vec::new();
        if owed == DONE {
            records = FlatTree::of(&nodes_of(&words)).unwrap().words();
            owed = told(0, &[records.len() as i64 / 6]);
        }
        flatten(&mut tally, &words, lent, owed, &records);
    }
}

/// Around the most nodes and the most records: 1, 2 and 5, before the cells.
fn limits() {
    let mut tally = Tally::new("predict, predict_flat, build_flat_tree: 1, 2, 5");
    let data = [0; 7];
    let leaf = [-1, 0, 0, 1, 0];
    let record = [-1, 0, 1, 0, 0, 0];
    for cells in [&[][..], &[0; 16]] {
        let pixel = Pixel { cells, data: &data, wp_pred: 0 };
        for n in [0, 1, MOST_NODES, MOST_NODES + 1] {
            for cut in 0..5.min(5 * n + 1) {
                let mut words = leaf.repeat(n);
                words.truncate(words.len() - cut);
                let owed = owed::walk(&words, pixel);
                tally.refused += (owed.0 != 0) as u64;
                tally.case(owed, walked(&words, pixel), || format!("{} words of leaves", words.len()));
                let owed = match owed::flattening(&words, 0, 0) {
                    DONE => told(0, &[0]),
                    refused => refused,
                };
                flatten(&mut tally, &words, [0, 0], owed, &[]);
            }
        }
        for n in [0, 1, MOST_RECORDS, MOST_RECORDS + 1] {
            for cut in 0..6.min(6 * n + 1) {
                let mut records = record.repeat(n);
                records.truncate(records.len() - cut);
                let owed = owed::walk_flat(&records, pixel);
                tally.refused += (owed.0 != 0) as u64;
                tally.case(owed, walked_flat(&records, pixel), || {
                    format!("{} words of leaves", records.len())
                });
            }
        }
    }
}

/// Many pixels in one call, as the bench has them: a guess for each, 0 where its walk is refused; 8 where the cells or
/// the neighbours are too few.
fn pixels() {
    let mut tally = Tally::new("walk_pixels, walk_flat_pixels");
    let random = &mut Random::new(47);
    for _ in 0..100_000 {
        let splits = random.below(6);
        let style = Style::any(random, splits);
        let mut words = grown::tree(random, &style);
        narrow(&mut words);
        let records = FlatTree::of(&nodes_of(&words)).unwrap().words();
        let pixels = random.below(6);
        let [sixteens, sevens] = [16, 7].map(|size| {
            let len = size * pixels + random.one_of(&[0, 1, size - 1, size]);
            if random.once_in(8) { random.below(len + 1) } else { len }
        });
        let cells: Vec<i32> = (0..sixteens / 16).flat_map(|_| some_cells(random, &words, 16)).collect();
        let cells = [cells, vec![0; sixteens % 16]].concat();
        let data: Vec<i32> = (0..sevens).map(|_| random.word()).collect();
        let wp_pred = random.long();
        let few = sixteens / 16 < pixels || sevens / 7 < pixels;
        let guess = |k: usize, walk: &dyn Fn(Pixel) -> Told| {
            let data: &[i32; 7] = data[7 * k..][..7].try_into().unwrap();
            let (number, details) = walk(Pixel { cells: &cells[16 * k..][..16], data, wp_pred });
            if number == 0 { details[0] } else { 0 }
        };
        let owed = |walk: &dyn Fn(Pixel) -> Told| match few {
            true => (8, vec![UNTOLD; pixels]),
            false => (0, (0..pixels).map(|k| guess(k, walk)).collect()),
        };
        let owed =
            [owed(&|pixel| owed::walk(&words, pixel)), owed(&|pixel| owed::walk_flat(&records, pixel))];
        let [mut direct, mut flat] = [vec![UNTOLD; pixels], vec![UNTOLD; pixels]];
        let statuses = [
            library::walk_pixels(&words, &cells, &data, wp_pred, &mut direct),
            library::walk_flat_pixels(&records, &cells, &data, wp_pred, &mut flat),
        ];
        tally.refused += few as u64;
        tally.case(owed, [(statuses[0], direct), (statuses[1], flat)], || {
            format!("words {words:?}, records {records:?}, cells {cells:?}, data {data:?}, {wp_pred}")
        });
    }
}

/// Lists that are too short for the C functions: 8 before all else, and nothing is written.
fn too_short() {
    let mut tally = Tally::new("predict, predict_flat, build_flat_tree: 8");
    let words = [-1, 0, 0, 1, 0];
    for (len, seven) in (0..=5).flat_map(|len| (0..=7).map(move |seven| (len, seven))) {
        if (len, seven) == (5, 7) {
            continue;
        }
        let mut details = vec![UNTOLD; len];
        let [mut ring, mut output] = [vec![UNTOUCHED; 2], vec![UNTOUCHED; 6]];
        let data = vec![0; seven];
        let mut statuses = vec![
            library::predict(&words, &[0; 16], &data, 0, &mut details),
            library::predict_flat(&words, &[], &data, 0, &mut details),
        ];
        if len < 5 {
            statuses.push(library::build_flat_tree(&words, &mut ring, &mut output, &mut details));
        }
        tally.refused += 1;
        let owed = (vec![8; statuses.len()], vec![UNTOLD; len], vec![UNTOUCHED; 2], vec![UNTOUCHED; 6]);
        tally.case(owed, (statuses, details, ring, output), || {
            format!("{len} words for details, {seven} of data")
        });
    }
}
