//! Module 4: the weighted state over whole planes, on any memory, saved, restored and refused.

mod both;
pub mod refused;

use super::Tally;
use super::neighbours::{ROWS_END, WIDEST};
use crate::library;
use crate::random::Random;
use both::{Both, WORDS_END};
use decoder::headers::modular::{DEFAULTS, MOST};
use decoder::image::Image;
use decoder::predict::PredictionData;

/// Words lent past those that are needed, and what they hold: a call must leave them.
const MARGIN: usize = 3;
const UNTOUCHED: u32 = 0x5ea1_5ea1;

pub fn all() {
    println!(
        "weighted ask and put: statuses, guess, property, the four sub-predictions, their blend and the place; \
         after\n  each put every word of the memory and {MARGIN} lent past it (of widths past {WORDS_END} the two \
         positions put to, and every\n  word at a row's end); weigh_plane: every answer, the memory at the end"
    );
    opened();
    planes();
    widest_planes();
    any_memory();
    saved();
    decoded();
    refused::all();
}

pub fn needed(width: usize) -> usize {
    10 * (width + 2)
}

/// Defaults, any in range, all 0, all at their most, one at its most, one at 0.
pub fn some_header(random: &mut Random, kind: usize) -> [u32; 11] {
    let one = random.below(11);
    std::array::from_fn(|k| match kind {
        0 => DEFAULTS[k],
        1 => random.below(MOST[k] as usize + 1) as u32,
        2 => 0,
        4 if k != one => 0,
        5 if k == one => 0,
        _ => MOST[k],
    })
}

/// Noise around 0, a gentle ramp with noise, a steep one that wraps, any words, words rich in
/// the ends of the range, the two ends alone.
pub fn some_plane(random: &mut Random, filling: usize, width: usize, rows: usize) -> Vec<i32> {
    let ground = random.word();
    let [across, down] = [(); 2].map(|_| match filling {
        1 => random.below(65) as i32 - 32,
        _ => random.word(),
    });
    let ramp = |x: usize, y: usize| {
        ground.wrapping_add(across.wrapping_mul(x as i32)).wrapping_add(down.wrapping_mul(y as i32))
    };
    (0..width * rows)
        .map(|k| match filling {
            0 => random.below(17) as i32 - 8,
            1 => ramp(k % width, k / width).wrapping_add(random.below(9) as i32),
            2 => ramp(k % width, k / width),
            3 => random.next() as i32,
            4 => random.word(),
            _ => random.one_of(&[i32::MIN, i32::MAX]),
        })
        .collect()
}

/// The neighbours of a pixel, as the Rust fetches them.
fn seven(plane: &[i32], width: usize, x: usize, y: usize) -> [i32; 7] {
    let row = |back: usize| if y < back { &[][..] } else { &plane[(y - back) * width..][..width] };
    PredictionData::get_rows(row(0), row(1), row(2), x, y).words()
}

/// Every word that is needed is cleared, none past it.
fn opened() {
    let mut tally = Tally::new("weighted_open, all words");
    let random = &mut Random::new(19);
    for (width, kind) in (1..=300).chain([WIDEST - 1, WIDEST]).flat_map(|w| (0..6).map(move |k| (w, k))) {
        let mut memory: Vec<u32> = (0..needed(width)).map(|_| random.next() as u32).collect();
        memory.extend([UNTOUCHED; MARGIN]);
        let header = some_header(random, kind);
        let status = library::weighted_open(&header, width, &mut memory);
        let (own, past) = memory.split_at(needed(width));
        let uncleared = own.iter().position(|&word| word != 0);
        tally.case((0, None, &[UNTOUCHED; MARGIN][..]), (status, uncleared, past), || {
            format!("header {header:?}, width {width}")
        });
    }
}

/// A plane pixel by pixel, then in one call.
fn check_plane(tallies: &mut [Tally; 2], header: [u32; 11], width: usize, plane: &[i32]) {
    let [pixels, whole] = tallies;
    let (mut sevens, mut owed) = (Vec::new(), Vec::new());
    let mut both = Both::open(header, width);
    for _ in 0..plane.len() / width {
        both.row(pixels, plane, |data, pixel| {
            sevens.extend(data);
            owed.extend(&pixel.answer[..2]);
        });
    }
    owed.extend([UNTOUCHED as i64; MARGIN]);
    let mut answers = vec![UNTOUCHED as i64; owed.len()];
    both.memory.fill(UNTOUCHED);
    let status = library::weigh_plane(&header, width, &sevens, plane, &mut both.memory, &mut answers);
    // The first answer and the first position that differ, if any.
    let k = (0..owed.len()).find(|&k| owed[k] != answers[k]).unwrap_or(0);
    let at = both.differs().unwrap_or(0);
    whole.cases += plane.len() as u64 - 1;
    whole.case(
        (0, (k, owed[k]), (at, both.rust.position(at)), [UNTOUCHED; MARGIN]),
        (status, (k, answers[k]), (at, both.positions()[at]), both.margin()),
        || format!("header {header:?}, width {width}, plane {plane:?}"),
    );
}

/// Each kind of filling with each kind of header.
fn kinds() -> impl Iterator<Item = (usize, usize)> {
    (0..6).flat_map(|filling| (0..6).map(move |kind| (filling, kind)))
}

fn planes() {
    let mut tallies = [
        Tally::new("weighted ask and put, planes to 300 wide"),
        Tally::new("weigh_plane, the same planes"),
    ];
    let random = &mut Random::new(20);
    let mut check = |random: &mut Random, width: usize, rows: usize| {
        for (filling, kind) in kinds() {
            let (header, plane) = (some_header(random, kind), some_plane(random, filling, width, rows));
            check_plane(&mut tallies, header, width, &plane);
        }
    };
    for rows in 1..=12 {
        for _ in 0..100 {
            (1..=9).for_each(|width| check(random, width, rows));
        }
        (10..=70).for_each(|width| check(random, width, rows));
        for _ in 0..10 {
            let width = 71 + random.below(230);
            check(random, width, rows);
        }
    }
}

fn widest_planes() {
    let mut tallies =
        [Tally::new("weighted ask and put, widths to 65,536"), Tally::new("weigh_plane, the same planes")];
    let random = &mut Random::new(21);
    for (filling, kind) in [(1, 0), (3, 1), (5, 3)] {
        for width in [301 + random.below(10_000), WIDEST - 1, WIDEST] {
            let (header, plane) = (some_header(random, kind), some_plane(random, filling, width, 3));
            check_plane(&mut tallies, header, width, &plane);
        }
    }
}

/// One pixel anywhere, on any memory: the Rust's state is new, so it carries nothing from a put before.
fn any_memory() {
    let mut tally = Tally::new("weighted ask and put, any memory");
    let random = &mut Random::new(22);
    for round in 0..5_000_000 {
        let width = 1 + random.below(if round % 50 == 0 { 300 } else { 8 });
        let kind = random.below(6);
        let header = some_header(random, kind);
        let mut both = Both::open(header, width);
        both.fill(random);
        let anywhere = random.below(ROWS_END);
        let y = random.one_of(&[0, 1, 2, anywhere, ROWS_END - 2, ROWS_END - 1]);
        both.place = [width, random.below(width), y, 0].map(|word| word as u64);
        both.found = [(); 5].map(|_| random.long());
        let (place, memory) = (both.place, both.memory.clone());
        let (data, value) = (random.seven(), random.word());
        let [owed, library] = both.step(&data, value, true);
        tally.case(owed, library, || {
            format!("header {header:?}, place {place:?}, data {data:?}, value {value}, memory {memory:?}")
        });
    }
}

/// Saved at an even row; then any list restored, and two rows on from there.
fn saved() {
    let mut saves = Tally::new("save_state, all words");
    let mut restores = Tally::new("restore_state, all words");
    let mut pixels = Tally::new("weighted ask and put, before and after");
    let random = &mut Random::new(23);
    for round in 0..20_000 {
        let width = 1 + random.below(if round % 20 == 0 { 300 } else { 12 });
        let (rows, kind, filling) = (2 * random.below(5), random.below(6), random.below(6));
        let header = some_header(random, kind);
        let plane = some_plane(random, filling, width, rows + 2);
        let mut both = Both::open(header, width);
        if random.once_in(2) {
            both.fill(random);
        }
        (0..rows).for_each(|_| both.row(&mut pixels, &plane, |_, _| ()));

        let mut image = Image::new((width + 2, 5));
        both.rust.save_state(&mut image, width);
        let mut owed: Vec<u32> = image.cells().iter().map(|&word| word as u32).collect();
        owed.extend([UNTOUCHED; MARGIN]);
        let mut list = vec![UNTOUCHED; owed.len()];
        let status = library::save_state(&header, &both.place, &both.found, &both.memory, &mut list);
        saves.case((0, owed), (status, list), || {
            format!("header {header:?}, place {:?}, memory {:?}", both.place, both.memory)
        });

        let list: Vec<i32> = (0..5 * (width + 2)).map(|_| random.word()).collect();
        let words: Vec<u32> = list.iter().map(|&word| word as u32).chain([UNTOUCHED; MARGIN]).collect();
        both.rust.restore_state(&Image::of((width + 2, 5), list), width);
        let status = library::restore_state(&header, &both.place, &both.found, &mut both.memory, &words);
        let at = both.differs().unwrap_or(0);
        restores.case(
            (0, (at, both.rust.position(at)), [UNTOUCHED; MARGIN]),
            (status, (at, both.positions()[at]), both.margin()),
            || format!("header {header:?}, place {:?}, list {words:?}", both.place),
        );
        (0..2).for_each(|_| both.row(&mut pixels, &plane, |_, _| ()));
    }
}

/// The Rust's fused form of a row, from residuals: each value and property, every word at a row's end.
fn decoded() {
    let mut tally = Tally::new("decode_row against ask and put");
    let random = &mut Random::new(24);
    for round in 0..30_000 {
        let width = 1 + random.below(if round % 20 == 0 { 300 } else { 12 });
        let (rows, kind, filling) = (1 + random.below(12), random.below(6), random.below(6));
        let header = some_header(random, kind);
        let residuals = some_plane(random, filling, width, rows);
        let mut both = Both::open(header, width);
        let (mut theirs, mut ours) = (vec![0; width * rows], vec![0; width * rows]);
        for y in 0..rows {
            let (above, row) = theirs.split_at_mut(y * width);
            let back = |n: usize| if y < n { &[][..] } else { &above[(y - n) * width..][..width] };
            let (mut properties, mut read) = (Vec::new(), residuals[y * width..].iter());
            both.rust.decode_row(y, &mut row[..width], back(1), back(2), |property| {
                properties.push(property);
                *read.next().unwrap()
            });
            for (x, &property) in properties.iter().enumerate() {
                let k = y * width + x;
                let (ask, [guess, own, _]) = both.ask(&seven(&ours, width, x, y));
                ours[k] = guess.wrapping_add(residuals[k] as i64) as i32;
                let put = both.put(ours[k]);
                let at = if x + 1 == width { both.differs() } else { None };
                let (owed, given) =
                    ((0, 0, theirs[k], property as i64, None), (ask, put, ours[k], own, at));
                tally.case(owed, given, || {
                    let so_far = &residuals[..=k];
                    format!("header {header:?}, width {width}, x {x}, y {y}, residuals {so_far:?}")
                });
            }
        }
    }
}
