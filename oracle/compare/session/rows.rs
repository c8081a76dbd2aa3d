//! Request [1] of document 02, a row in one call: whole channels, against the Rust's plain loop and the library's single calls.

use super::channel::Channel;
use super::{Ours, UNTOUCHED_WORD, any_size, in_one_call, lists, some_size};
use crate::compare::Tally;
use crate::compare::neighbours::WIDEST;
use crate::compare::tree::owed::{DONE, LENT};
use crate::compare::tree::{MARGIN, UNTOUCHED};
use crate::library::{self, Written};
use crate::random::Random;
use decoder::image::Image;

pub fn all() {
    println!(
        "session_row: status, what is told, every context, the row's values, every cell, every word of the memory and {MARGIN} \
         lent past\n  it after each row, against the same loop over the Rust's functions; the same and the session against \
         ask and put; run_rows as\n  run_channel"
    );
    small();
    sizes();
    widest();
    whole();
}

/// What a row's call answers: status, what was told, the contexts.
type Answer = (u32, [i64; LENT], Vec<u32>);

impl Ours {
    fn row(&mut self, channel: &Channel, references: &[i32], y: usize) -> Answer {
        let Ours { session, plane, cells, memory } = self;
        let (mut told, mut contexts) = (DONE.1, vec![UNTOUCHED_WORD; channel.width]);
        let written = Written { plane, contexts: &mut contexts, cells, memory };
        let residuals = &channel.residuals[y * channel.width..][..channel.width];
        let status =
            library::session_row(session, residuals, references, &channel.records, written, &mut told);
        (status, told, contexts)
    }

    /// The same pixels by ask and put.
    fn pixels(&mut self, channel: &Channel, references: &[i32], y: usize) -> Answer {
        let (width, each) = (channel.width, channel.references);
        let contexts = (0..width).map(|x| {
            let pixel = self.step(channel, &references[x * each..][..each], y * width + x);
            assert_eq!(pixel.statuses, [0, 0], "{}, x {x}, y {y}", channel.inputs());
            pixel.told[0] as u32
        });
        (0, DONE.1, contexts.collect())
    }
}

/// A channel by all three, each pixel a case of both tallies: the Rust's, and the single calls'.
fn check(tallies: &mut [Tally; 2], random: &mut Random, channel: &Channel) {
    let [rusts, singles] = tallies;
    let &Channel { width, references, .. } = channel;
    let (mut rust, mut single, mut ours) = (channel.rust(), Ours::open(channel), Ours::open(channel));
    let mut theirs = vec![UNTOUCHED; ours.plane.len()];
    for y in 0..channel.rows {
        let words: Vec<i32> = (0..references * width).map(|_| random.word()).collect();
        let image = Image::of((references, width), words.clone());
        let mut contexts = Vec::new();
        rust.row(&channel.flat, &image, &mut theirs, y, |asked| {
            contexts.push(asked.result.context);
            asked.unpacked(channel.residuals[y * width + asked.x])
        });
        let row = y * width..(y + 1) * width;
        let (answer, asked) = (ours.row(channel, &words, y), single.pixels(channel, &words, y));
        let inputs = || {
            let residuals = &channel.residuals[..row.end];
            format!("{}, row {y}, references {words:?}, residuals {residuals:?}", channel.inputs())
        };
        rusts.cases += width as u64 - 1;
        rusts.case(
            (&(0, DONE.1, contexts), &theirs[row.clone()], (None, None)),
            (&answer, &ours.plane[row.clone()], ours.differs(&rust)),
            inputs,
        );
        singles.cases += width as u64 - 1;
        singles.case(
            (&asked, lists(&single.session), &single.plane[row.clone()], &single.cells, &single.memory),
            (&answer, lists(&ours.session), &ours.plane[row.clone()], &ours.cells, &ours.memory),
            inputs,
        );
    }
    assert!(ours.plane == theirs && ours.plane == single.plane, "the planes differ: {}", channel.inputs());
}

/// Every width to 9 with every number of rows to 12.
fn small() {
    let mut tallies = [
        Tally::new("session_row, widths 1 to 9, 1 to 12 rows"),
        Tally::new("the same, against ask and put"),
    ];
    let random = &mut Random::new(57);
    for (width, rows) in (1..=9).flat_map(|width| (1..=12).map(move |rows| (width, rows))) {
        for _ in 0..900 {
            let channel = Channel::any(random, (width, rows), 25);
            check(&mut tallies, random, &channel);
        }
    }
}

fn sizes() {
    let mut tallies = [
        Tally::new("session_row, widths to 9,300, to 699 rows"),
        Tally::new("the same, against ask and put"),
    ];
    let random = &mut Random::new(58);
    while tallies[0].cases < 11_000_000 {
        let size = some_size(random);
        let channel = Channel::any(random, size, 6);
        check(&mut tallies, random, &channel);
    }
}

fn widest() {
    let mut tallies =
        [Tally::new("session_row, widths 65,535 and 65,536"), Tally::new("the same, against ask and put")];
    let random = &mut Random::new(59);
    for (width, weights) in
        [WIDEST - 1, WIDEST].into_iter().flat_map(|width| [(width, true), (width, false)])
    {
        for rows in [1, 3] {
            let channel = Channel { weights, ..Channel::any(random, (width, rows), 2) };
            check(&mut tallies, random, &channel);
        }
    }
}

/// A channel in one call, the same packed references for each row.
fn whole() {
    let mut tally = Tally::new("run_rows, a channel in one call");
    let random = &mut Random::new(60);
    while tally.cases < 20_000_000 {
        let size = any_size(random);
        let channel = Channel::any(random, size, 8);
        let &Channel { width, references, .. } = &channel;
        let packed: Vec<i32> = (0..references * width).map(|_| random.word()).collect();
        let image = Image::of((references, width), packed.clone());
        in_one_call(&mut tally, &channel, library::run_rows, &packed, &image);
    }
}
