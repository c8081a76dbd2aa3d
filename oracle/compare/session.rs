//! Module 10: whole channels, pixel after pixel, against the Rust's own functions in a plain loop.

mod channel;
mod refused;
mod rows;
mod rules;

use super::Tally;
use super::neighbours::WIDEST;
use super::tree::owed::{DONE, LENT, told};
use super::tree::{MARGIN, UNTOUCHED};
use super::weighted::needed;
use crate::library::{self, Run, Session, Written};
use crate::random::Random;
use channel::Channel;
use decoder::frame::modular::tree::Channel as Rust;
use decoder::image::Image;

const UNTOUCHED_WORD: u32 = UNTOUCHED as u32;

pub fn all() {
    println!(
        "session: statuses, context, value and the session after each ask and each put; after each row every cell, every \
         word of the\n  memory and {MARGIN} lent past it; run_channel: every context, the plane, cells and memory at the end; \
         against the Rust's get_rows,\n  predict_flat and update_errors in a plain loop"
    );
    small();
    sizes();
    widest();
    whole();
    rows::all();
    refused::all();
}

/// The lists that tell a session.
type Lists = ([u64; 4], [i64; 6], [u32; 4]);

fn lists(session: &Session) -> Lists {
    let Session { place, found, settings, .. } = session;
    let lists = (place[..].try_into(), found[..].try_into(), settings[..].try_into());
    (lists.0.unwrap(), lists.1.unwrap(), lists.2.unwrap())
}

/// What an ask and its put leave: statuses, what was told, the session after each, the value.
#[derive(Debug, PartialEq)]
struct Pixel {
    statuses: [u32; 2],
    told: [i64; LENT],
    sessions: [Lists; 2],
    value: i32,
}

/// The library's channel, with what it was lent.
struct Ours {
    session: Session,
    plane: Vec<i32>,
    cells: Vec<i32>,
    memory: Vec<u32>,
}

impl Ours {
    /// Opened on words that are marked.
    fn open(channel: &Channel) -> Self {
        let Channel { width, rows, header, weights, cells, .. } = channel;
        let memory = if *weights { needed(*width) } else { 0 };
        let mut ours = Ours {
            session: Session {
                header: header.to_vec(),
                place: vec![u64::MAX; 4],
                found: vec![i64::MAX; 6],
                settings: vec![u32::MAX; 4],
            },
            plane: vec![UNTOUCHED; width * rows],
            cells: vec![UNTOUCHED; *cells],
            memory: vec![UNTOUCHED_WORD; memory + MARGIN],
        };
        let Ours { session, cells, memory, .. } = &mut ours;
        let mut details = DONE.1;
        let status = library::session_open(channel.opening(), session, cells, memory, &mut details);
        let fresh = ([*width as u64, 0, 0, 0], [0; 6], [*weights as u32, channel.mask, 1, 0]);
        assert_eq!((status, details), DONE, "{}", channel.inputs());
        assert_eq!(lists(session), fresh, "{}", channel.inputs());
        ours
    }

    /// One pixel, and what is told of it.
    #[inline(always)]
    fn step(&mut self, channel: &Channel, references: &[i32], k: usize) -> Pixel {
        let Ours { session, plane, cells, memory } = self;
        let mut details = DONE.1;
        let records = &channel.records;
        let ask = library::session_ask(session, plane, references, records, cells, memory, &mut details);
        let waiting = lists(session);
        let put = library::session_put(session, channel.residuals[k], plane, memory, &mut details);
        Pixel { statuses: [ask, put], told: details, sessions: [waiting, lists(session)], value: plane[k] }
    }

    /// The first cell and the first word of the memory that are not the Rust's, with its margin.
    fn differs(&self, rust: &Rust) -> (Option<usize>, Option<usize>) {
        let cell = (0..self.cells.len()).find(|&k| self.cells[k] != rust.cells[k]);
        (cell, memory_differs(rust, &self.memory))
    }
}

fn memory_differs(rust: &Rust, memory: &[u32]) -> Option<usize> {
    let owed = rust.weights.iter().flat_map(|state| state.positions().flatten());
    owed.chain([UNTOUCHED_WORD; MARGIN]).zip(memory).position(|(owed, &word)| owed != word)
}

/// A channel by both, each pixel a case in the first tally, each row one in the second.
fn check(tallies: &mut [Tally; 2], random: &mut Random, channel: &Channel) {
    let [pixels, rows] = tallies;
    let &Channel { width, mask, weights, references, .. } = channel;
    let (mut rust, mut ours) = (channel.rust(), Ours::open(channel));
    let mut theirs = vec![UNTOUCHED; ours.plane.len()];
    for y in 0..channel.rows {
        let words = (0..references * width).map(|_| random.word()).collect();
        let image = Image::of((references, width), words);
        rust.row(&channel.flat, &image, &mut theirs, y, |asked| {
            let (x, k) = (asked.x, y * width + asked.x);
            let found = asked.weights.map_or([0; 5], |state| state.found());
            let value = asked.unpacked(channel.residuals[k]);
            let result = asked.result;
            let session = |x: usize, y: usize, asked: u64| {
                let [p0, p1, p2, p3, pred] = found;
                (
                    [width as u64, x as u64, y as u64, asked],
                    [p0, p1, p2, p3, pred, result.guess],
                    [weights as u32, mask, 1, result.multiplier],
                )
            };
            let next = if x + 1 == width { session(0, y + 1, 0) } else { session(x + 1, y, 0) };
            let owed = Pixel {
                statuses: [0, 0],
                told: told(0, &[result.context as i64]).1,
                sessions: [session(x, y, 1), next],
                value,
            };
            let library = ours.step(channel, if references == 0 { &[] } else { image.row(x) }, k);
            pixels.case(owed, library, || {
                format!("{}, x {x}, y {y}, residuals {:?}", channel.inputs(), &channel.residuals[..=k])
            });
            value
        });
        rows.case((None, None), ours.differs(&rust), || {
            let residuals = &channel.residuals[..(y + 1) * width];
            format!("{}, after row {y}, residuals {residuals:?}", channel.inputs())
        });
    }
    assert!(ours.plane == theirs, "the planes differ: {}", channel.inputs());
}

/// Every width to 9 with every number of rows to 12.
fn small() {
    let mut tallies = [
        Tally::new("session, widths 1 to 9, 1 to 12 rows"),
        Tally::new("the same, cells and memory after each row"),
    ];
    let random = &mut Random::new(48);
    for (width, rows) in (1..=9).flat_map(|width| (1..=12).map(move |rows| (width, rows))) {
        for _ in 0..1200 {
            let channel = Channel::any(random, (width, rows), 25);
            check(&mut tallies, random, &channel);
        }
    }
}

/// Tall ones, middling ones, and wide ones to some thousands.
fn some_size(random: &mut Random) -> (usize, usize) {
    match random.below(5) {
        0 => (1 + random.below(9), 100 + random.below(600)),
        1 => (10 + random.below(61), 1 + random.below(100)),
        2 => (71 + random.below(230), 1 + random.below(12)),
        3 => (301 + random.below(2_000), 1 + random.below(6)),
        _ => (2_301 + random.below(7_000), 1 + random.below(3)),
    }
}

fn sizes() {
    let mut tallies = [
        Tally::new("session, widths to 9,300, to 699 rows"),
        Tally::new("the same, cells and memory after each row"),
    ];
    let random = &mut Random::new(49);
    while tallies[0].cases < 44_000_000 {
        let size = some_size(random);
        let channel = Channel::any(random, size, 6);
        check(&mut tallies, random, &channel);
    }
}

fn widest() {
    let mut tallies = [
        Tally::new("session, widths 65,535 and 65,536"),
        Tally::new("the same, cells and memory after each row"),
    ];
    let random = &mut Random::new(51);
    for (width, weights) in
        [WIDEST - 1, WIDEST].into_iter().flat_map(|width| [(width, true), (width, false)])
    {
        for rows in [1, 2, 5] {
            let channel = Channel { weights, ..Channel::any(random, (width, rows), 2) };
            check(&mut tallies, random, &channel);
        }
    }
}

/// Any size, the least and the widest among them.
fn any_size(random: &mut Random) -> (usize, usize) {
    match random.below(400) {
        0 => (WIDEST - random.below(2), 1 + random.below(4)),
        1..40 => (1 + random.below(9), 1 + random.below(12)),
        _ => some_size(random),
    }
}

/// A channel in one call, lent these references; the Rust takes those of the image for each row.
fn in_one_call(tally: &mut Tally, channel: &Channel, run: Run, lent: &[i32], image: &Image<i32>) {
    let &Channel { width, rows, .. } = channel;
    let mut rust = channel.rust();
    let pixels = width * rows;
    let mut theirs = (vec![0; pixels], vec![0; pixels]);
    for y in 0..rows {
        let (plane, contexts) = (&mut theirs.0, &mut theirs.1);
        rust.row(&channel.flat, image, plane, y, |asked| {
            contexts[y * width + asked.x] = asked.result.context;
            asked.unpacked(channel.residuals[y * width + asked.x])
        });
    }
    theirs.1.extend([UNTOUCHED_WORD; MARGIN]);
    let mut ours = (vec![UNTOUCHED; pixels], vec![UNTOUCHED_WORD; pixels + MARGIN]);
    let mut cells = vec![UNTOUCHED; channel.cells];
    let memory = if channel.weights { needed(width) } else { 0 };
    let mut memory = vec![UNTOUCHED_WORD; memory + MARGIN];
    let (plane, contexts) = (&mut ours.0[..], &mut ours.1[..]);
    let written = Written { plane, contexts, cells: &mut cells, memory: &mut memory };
    let status = run(channel.opening(), lent, &channel.records, &channel.residuals, written);
    // The first context and value that differ, if any.
    let k = (0..pixels + MARGIN).find(|&k| ours.0.get(k) != theirs.0.get(k) || ours.1[k] != theirs.1[k]);
    let at = k.unwrap_or(0);
    let seen = |(plane, contexts): &(Vec<i32>, Vec<u32>)| (k, plane.get(at).copied(), contexts[at]);
    tally.cases += pixels as u64 - 1;
    tally.case(
        (0, seen(&theirs), &rust.cells, None),
        (status, seen(&ours), &cells, memory_differs(&rust, &memory)),
        || format!("{}, references {lent:?}, residuals {:?}", channel.inputs(), channel.residuals),
    );
}

/// The same references for each pixel.
fn whole() {
    let mut tally = Tally::new("run_channel, a channel in one call");
    let random = &mut Random::new(52);
    while tally.cases < 50_000_000 {
        let size = any_size(random);
        let channel = Channel::any(random, size, 25);
        let row: Vec<i32> = (0..channel.references).map(|_| random.word()).collect();
        let image = Image::of((channel.references, channel.width), row.repeat(channel.width));
        in_one_call(&mut tally, &channel, library::run_channel, &row, &image);
    }
}
