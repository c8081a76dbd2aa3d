//! Modules 5 and 6: the mask, the shape and the validation of trees, small, damaged, large and deep.

pub mod grown;
pub mod owed;

use super::Tally;
use crate::library;
use crate::random::Random;
use decoder::bit_reader::BitReader;
use decoder::error::Error;
use decoder::frame::modular::tree::{Tree, TreeNode, private_used_property_mask, private_validate_tree};
use decoder::util::MemoryTracker;
use grown::Style;
use owed::{DONE, MOST_NODES, Told, UNTOLD, WORK, told};

/// Words lent past those that are needed, and what all lent words hold: a call must leave them, or clear them.
pub const MARGIN: usize = 5;
pub const UNTOUCHED: i32 = 0x5ea1_5ea1;

pub fn all() {
    println!(
        "check_shape, validate_tree, property_mask: status, details, every word of the work area and {MARGIN} lent past \
         it; against\n  the Rust's validate_tree, compute_used_property_mask and Tree::read, and document 01's rules"
    );
    sound();
    searched();
    damaged();
    chains();
    large();
    lent();
    too_short();
}

/// The Rust's nodes, of words in form.
pub fn nodes_of(words: &[i32]) -> Vec<TreeNode> {
    words.as_chunks().0.iter().map(TreeNode::of).collect()
}

/// The Rust's verdict on a sound list; 7 without its place and 6 without any detail, which the Rust does not tell.
fn placeless(verdict: Result<(), Error>) -> Told {
    match verdict {
        Ok(()) => DONE,
        Err(Error::TreeTooTall(2_049, 2_048)) => told(6, &[]),
        Err(Error::TreeSplitOnEmptyRange(property, value, low, high)) => {
            told(7, &[property as i64, value as i64, low as i64, high as i64])
        }
        Err(other) => panic!("the Rust says {other:?}"),
    }
}

fn without_place((number, details): Told) -> Told {
    match number {
        6 => told(6, &[]),
        7 => told(7, &details[1..5]),
        _ => (number, details),
    }
}

/// What `Tree::read` makes of the symbols of these nodes: whether it asks for each and for no more, and its tree.
fn read_back(nodes: &[[i32; 5]]) -> (bool, Result<Vec<[i32; 5]>, Error>) {
    let mut symbols = Vec::new();
    for &[first, second, third, ..] in nodes {
        match first {
            0.. => symbols.extend([first as u32 + 1, second as u32]),
            _ => symbols.extend([0, second as u32, third as u32, 0, 0]), // a multiplier of 1
        }
    }
    let mut br = BitReader { symbols: &symbols, asked: 0 };
    let tree = Tree::read(&mut br, u32::MAX as usize, &MemoryTracker);
    (br.asked == symbols.len(), tree.map(|tree| tree.nodes.iter().map(TreeNode::words).collect()))
}

/// The same but for multiplier and id, which `Tree::read` gives itself.
fn alike(ours: &[[i32; 5]], theirs: &[[i32; 5]]) -> bool {
    let told = |node: &[i32; 5]| if node[0] < 0 { [-1, node[1], node[2], 0, 0] } else { *node };
    ours.iter().map(told).eq(theirs.iter().map(told))
}

struct Checks {
    shapes: Tally,
    verdicts: Tally,
    masks: Tally,
    reads: Tally,
    work: Vec<i32>,
}

impl Checks {
    fn new(names: [&'static str; 4]) -> Self {
        let [shapes, verdicts, masks, reads] = names.map(Tally::new);
        Checks { shapes, verdicts, masks, reads, work: vec![UNTOUCHED; WORK + MARGIN] }
    }

    /// All three calls and the Rust's reading; the verdict that is owed.
    fn tree(&mut self, words: &[i32]) -> Told {
        let shape = owed::shape(words);
        self.shape(words, shape);
        self.mask(words);
        self.read(words, shape);
        let owed = if shape != DONE || words.is_empty() { shape } else { self.rust_verdict(words) };
        verdict(&mut self.verdicts, words, &mut self.work, owed, shape == DONE && !words.is_empty());
        owed
    }

    fn shape(&mut self, words: &[i32], owed: Told) {
        let mut details = DONE.1;
        let status = library::check_shape(words, &mut details);
        self.shapes.refused += (owed.0 != 0) as u64;
        self.shapes.case(owed, (status, details), || format!("words {words:?}"));
    }

    fn mask(&mut self, words: &[i32]) {
        let owed = match owed::formed(words) {
            Ok(_) => told(0, &[private_used_property_mask(&nodes_of(words)) as i64]),
            Err(refused) => refused,
        };
        let mut details = DONE.1;
        let status = library::property_mask(words, &mut details);
        self.masks.refused += (owed.0 != 0) as u64;
        self.masks.case(owed, (status, details), || format!("words {words:?}"));
    }

    /// A list in form is sound exactly if `Tree::read` writes it.
    fn read(&mut self, words: &[i32], shape: Told) {
        let Ok(nodes) = owed::formed(words) else { return };
        if nodes.is_empty() {
            return; // `Tree::read` writes a node at least
        }
        let (whole, tree) = read_back(nodes);
        let same = whole && tree.as_ref().map_or(true, |theirs| alike(nodes, theirs));
        let children = nodes.iter().filter(|node| node[0] >= 0).zip(0..);
        let placed = children.map(|(node, k)| [node[2], node[3]] == [2 * k + 1, 2 * k + 2]).all(|is| is);
        let verdict = if shape == DONE { Some(without_place(owed::visited(words))) } else { None };
        let theirs = if same && placed { Some(placeless(tree.map(|_| ()))) } else { None };
        self.reads.refused += theirs.is_none() as u64;
        self.reads.case(theirs, verdict, || format!("words {words:?}"));
    }

    /// The Rust's verdict, with the place from document 01's visit.
    fn rust_verdict(&mut self, words: &[i32]) -> Told {
        let nodes = nodes_of(words);
        let most = words.as_chunks::<5>().0.iter().map(|node| node[0]).max().unwrap();
        let rust = placeless(private_validate_tree(&nodes, (most.max(0) + 1) as usize));
        let owed = owed::visited(words);
        assert_eq!(rust, without_place(owed), "document 01's visit of {words:?}");
        owed
    }
}

/// A validation with these words lent: cleared where the visit ran, as they were otherwise.
fn verdict(tally: &mut Tally, words: &[i32], work: &mut [i32], owed: Told, visited: bool) {
    work.fill(UNTOUCHED);
    let mut details = DONE.1;
    let status = library::validate_tree(words, work, &mut details);
    let left = |place: usize| if visited && place < WORK { 0 } else { UNTOUCHED };
    let amiss = work.iter().enumerate().find(|&(place, &word)| word != left(place));
    tally.refused += (owed.0 != 0) as u64;
    tally.case((owed, None), ((status, details), amiss), || {
        format!("{} words lent, words {words:?}", work.len())
    });
}

/// Of up to 41 nodes, each leaf in reach or not.
fn sound() {
    let mut checks = Checks::new([
        "check_shape, sound trees to 41 nodes",
        "validate_tree, the same",
        "property_mask, the same",
        "Tree::read, the same",
    ]);
    let random = &mut Random::new(25);
    for _ in 0..1_000_000 {
        let splits = random.below(21);
        let style = Style::any(random, splits);
        let words = grown::tree(random, &style);
        assert_eq!(checks.tree(&words), checks.rust_verdict(&words));
    }
}

/// Accepted exactly where each leaf is reached by some cells: found by trying.
fn searched() {
    let mut tally = Tally::new("validate_tree against a search of all cells");
    let random = &mut Random::new(26);
    let mut work = vec![0; WORK];
    for _ in 0..200_000 {
        let splits = random.below(6);
        let style = Style::any(random, splits);
        let words = grown::tree(random, &style);
        let accepted = library::validate_tree(&words, &mut work, &mut [0; 5]) == 0;
        tally.refused += !accepted as u64;
        tally.case(owed::each_leaf_reached(&words), accepted, || format!("words {words:?}"));
    }
}

/// Up to three things amiss: 1, 3 and 4 at every place.
fn damaged() {
    let mut checks = Checks::new([
        "check_shape, damaged trees",
        "validate_tree, the same",
        "property_mask, the same",
        "Tree::read, the same",
    ]);
    let random = &mut Random::new(27);
    for _ in 0..1_000_000 {
        let splits = random.below(21);
        let style = Style::any(random, splits);
        let mut words = grown::tree(random, &style);
        (0..1 + random.below(3)).for_each(|_| grown::damage(random, &mut words));
        checks.tree(&words);
    }
}

/// Around 2,048 splits, to the left, to the right and to both; the last with an empty side too, which the depth
/// hides from 2,049 on.
fn chains() {
    let mut checks = Checks::new([
        "check_shape, chains of 2,040 to 2,056 splits",
        "validate_tree, the same",
        "property_mask, the same",
        "Tree::read, the same",
    ]);
    let random = &mut Random::new(28);
    for (splits, way) in (2_040..=2_056).flat_map(|splits| (0..8).map(move |way| (splits, way))) {
        let turns = [0, u64::MAX, random.next(), 1 << (splits % 64)][way / 2];
        let mut words = grown::chain(random, splits, |k| turns >> (k % 64) & 1 != 0);
        if way % 2 == 1 {
            let last = words.as_chunks_mut::<5>().0.iter_mut().rfind(|node| node[0] >= 0).unwrap();
            last[1] = random.one_of(&[i32::MAX, i32::MAX, 0]);
        }
        let owed = checks.tree(&words);
        let accepted = way % 2 == 0 && splits <= 2_048;
        assert!(accepted == (owed == DONE) || way % 2 == 1, "a chain of {splits} splits: {owed:?}");
        assert!(
            splits <= 2_048 || owed.0 == 6 || way % 2 == 1 && owed.0 == 7,
            "a chain of {splits}: {owed:?}"
        );
    }
}

/// Around 100,000 nodes and at the limit; one past it is 2, before all but 1.
fn large() {
    let mut checks = Checks::new([
        "check_shape, to 1,048,577 nodes",
        "validate_tree, the same",
        "property_mask, the same",
        "Tree::read, the same",
    ]);
    let random = &mut Random::new(29);
    let most = MOST_NODES / 2;
    for splits in [50_000, 50_001, 60_000, 130_000, most - 1, most, most, most + 1] {
        for (leaf_in, astray_in) in [(2, 0), (10, 0), (10, splits)] {
            let properties = (0..24).map(|k| 10 * k + random.below(10) as i32).collect();
            let style = Style { splits, properties, leaf_in, astray_in, at_ends: false };
            let mut words = grown::tree(random, &style);
            checks.tree(&words);
            grown::damage(random, &mut words);
            checks.tree(&words);
        }
    }
    let leaves = |n: usize| [-1, 0, 0, 1, 0].repeat(n);
    for words in [
        leaves(MOST_NODES),
        leaves(MOST_NODES + 1),
        vec![-2; 5 * (MOST_NODES + 1)],
        vec![-2; 5 * MOST_NODES + 1],
    ] {
        checks.tree(&words);
    }
}

/// Work areas of every kind of length (8), of which an empty list needs none.
fn lent() {
    let mut tally = Tally::new("validate_tree, work areas of any length");
    let random = &mut Random::new(30);
    for round in 0..20_000 {
        let anywhere = random.below(WORK);
        let lent = random.one_of(&[0, 1, anywhere, WORK - 1, WORK, WORK + 1, 2 * WORK]);
        let splits = random.below(21);
        let style = Style::any(random, splits);
        let mut words = grown::tree(random, &style);
        match round % 8 {
            0 => words.clear(),
            1 => grown::damage(random, &mut words),
            _ => {}
        }
        let shape = owed::shape(&words);
        let (owed, visited) = match shape {
            DONE if words.is_empty() => (DONE, false),
            DONE if lent < WORK => (told(8, &[WORK as i64]), false),
            DONE => (owed::visited(&words), true),
            _ => (shape, false),
        };
        verdict(&mut tally, &words, &mut vec![UNTOUCHED; lent], owed, visited);
    }
}

/// A list for details that is too short for the C functions: 8 before all else, and nothing is written.
fn too_short() {
    let mut tally = Tally::new("check_shape, validate_tree, property_mask: 8");
    let lists = [vec![], vec![-2; 5], vec![-1, 0, 0, 0, 0], vec![0; 4]];
    for (len, words) in (0..5).flat_map(|len| lists.iter().map(move |words| (len, words))) {
        let mut details = vec![UNTOLD; len];
        let mut work = vec![UNTOUCHED; WORK];
        let statuses = [
            library::check_shape(words, &mut details),
            library::property_mask(words, &mut details),
            library::validate_tree(words, &mut work, &mut details),
        ];
        tally.refused += 1;
        let owed = ([8; 3], vec![UNTOLD; len], vec![UNTOUCHED; WORK]);
        tally.case(owed, (statuses, details, work), || format!("{len} words for details, words {words:?}"));
    }
}
