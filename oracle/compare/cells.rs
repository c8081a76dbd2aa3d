//! Module 5: the cells of a pixel, group by group of the mask.

use super::Tally;
use super::neighbours::{ROWS_END, WIDEST};
use crate::library::{self, Pixel};
use crate::random::Random;
use decoder::frame::modular::tree::private_compute_properties;
use decoder::headers::modular::{DEFAULTS, WeightedHeader};
use decoder::image::Image;
use decoder::predict::{PredictionData, WeightedPredictorState};

/// Words lent for details, and what they hold beforehand.
const LENT: usize = 8;
const UNTOLD: i64 = 0x5ea1_5ea1_5ea1_5ea1;

pub fn all() {
    println!(
        "compute_properties: status, details and every cell, against the Rust's with and without a weighted state"
    );
    filled();
    long_rows();
    weighed();
    rows();
    refused();
}

/// No bit, one, those of a group, all, any.
pub fn some_mask(random: &mut Random) -> u32 {
    let group = random.one_of(&[0b11, 0b1100, 0xf0, 0x300, 0x7c00, 0x8000, 0xffff_0000]);
    let (any, one) = (random.next() as u32, 1 << random.below(32));
    random.one_of(&[0, one, one, group, any & group, !group, any, u32::MAX, 0x7fff, 0xffff])
}

/// The status and the details; of a refusal with a detail that one comes first.
fn told(pixel: Pixel, cells: &mut [i32]) -> (u32, [i64; LENT]) {
    let mut details = [UNTOLD; LENT];
    (library::compute_properties(pixel, cells, &mut details), details)
}

/// Rows of references for columns up to `x`, the last of which the Rust reads.
pub fn references(row: &[i32], x: usize) -> Image<i32> {
    let mut words = vec![UNTOLD as i32; row.len() * x];
    words.extend(row);
    Image::of((row.len(), x + 1), words)
}

/// Without a weighted state the Rust's property is 0.
fn filled() {
    let mut tally = Tally::new("compute_properties, no weighted state");
    let random = &mut Random::new(31);
    for round in 0..3_000_000 {
        let row: Vec<i32> =
            (0..if random.once_in(3) { 0 } else { random.below(41) }).map(|_| random.word()).collect();
        // The Rust looks for row x of an image: where it has any, x is small, or now and then large.
        let x = match row.len() {
            0 => random.below(WIDEST),
            1..=3 if round % 1000 == 0 => WIDEST - 1 - random.below(3),
            _ => random.below(6),
        };
        let anywhere = random.below(ROWS_END);
        let y = random.one_of(&[0, 1, 2, anywhere, ROWS_END - 1]);
        let mask = some_mask(random);
        let needed = if mask >> 16 != 0 { 16 + row.len() } else { 16 };
        let spare = random.one_of(&[0, 1, 5]);
        let mut cells: Vec<i32> = (0..needed + spare).map(|_| random.word()).collect();
        let (before, data) = (cells.clone(), random.seven());
        let mut owed = cells.clone();
        let image = references(&row, x);
        let guess =
            private_compute_properties(PredictionData::of(&data), 0, None, x, y, &image, &mut owed, mask);
        assert_eq!(guess, 0);
        let pixel = Pixel { mask, x, y, data: &data, wp_property: 0, references: &row };
        let status = told(pixel, &mut cells);
        tally.case(((0, [UNTOLD; LENT]), owed), (status, cells), || format!("{pixel:?}, cells {before:?}"));
    }
}

/// Reference rows around 65,536 words and longer, which only what is lent bounds.
fn long_rows() {
    let mut tally = Tally::new("compute_properties, long reference rows");
    let random = &mut Random::new(35);
    for (len, mask) in [65_520, 65_536, 65_537, 100_000]
        .into_iter()
        .flat_map(|len| [0xffff, 0x10000].map(|mask| (len, mask)))
    {
        let row: Vec<i32> = (0..len).map(|_| random.word()).collect();
        let needed = if mask >> 16 != 0 { 16 + len } else { 16 };
        for lent in [needed - 1, needed] {
            let mut cells: Vec<i32> = (0..lent).map(|_| random.word()).collect();
            let (mut owed, data) = (cells.clone(), random.seven());
            let mut details = [UNTOLD; LENT];
            let number = if lent < needed {
                details[0] = needed as i64;
                10
            } else {
                let seven = PredictionData::of(&data);
                private_compute_properties(seven, 0, None, 0, 0, &references(&row, 0), &mut owed, mask);
                0
            };
            let pixel = Pixel { mask, x: 0, y: 0, data: &data, wp_property: 0, references: &row };
            let status = told(pixel, &mut cells);
            tally.refused += (number != 0) as u64;
            tally.case(((number, details), owed), (status, cells), || {
                format!("{len} references, {lent} cells")
            });
        }
    }
}

/// With a state on any memory; its property is what an equal state answers. Then any property, which cell 15
/// shows where the mask has its bit.
fn weighed() {
    let mut tally = Tally::new("compute_properties, a weighted state");
    let random = &mut Random::new(32);
    for _ in 0..300_000 {
        let width = 1 + random.below(6);
        let (x, y) = (random.below(width), random.below(4));
        let header = WeightedHeader::of(&DEFAULTS);
        let memory = random.memory(width);
        let [mut state, mut equal] = WeightedPredictorState::alike(&header, width, &memory);
        let (data, row) = (random.seven(), [random.word(), random.word()]);
        let property = equal.predict_and_property((x, y), width, &PredictionData::of(&data)).1;
        let mask = some_mask(random) | (random.below(2) << 15) as u32;
        let mut cells: Vec<i32> = (0..18).map(|_| random.word()).collect();
        let mut owed = cells.clone();
        let image = references(&row, x);
        let seven = PredictionData::of(&data);
        private_compute_properties(seven, width, Some(&mut state), x, y, &image, &mut owed, mask);
        let before = cells.clone();
        let pixel = Pixel { mask, x, y, data: &data, wp_property: property, references: &row };
        let status = told(pixel, &mut cells);
        tally.case(((0, [UNTOLD; LENT]), &owed), (status, &cells), || {
            format!("{pixel:?}, cells {before:?}")
        });

        let any = random.word();
        if mask >> 15 & 1 != 0 {
            owed[15] = any;
        }
        let pixel = Pixel { wp_property: any, ..pixel };
        let mut cells = before.clone();
        let status = told(pixel, &mut cells);
        tally.case(((0, [UNTOLD; LENT]), owed), (status, cells), || format!("{pixel:?}, cells {before:?}"));
    }
}

/// The Rust's cells after each pixel of a row, the same reference row for all.
#[inline(always)]
pub fn rust_fill_row(mask: u32, y: usize, sevens: &[[i32; 7]], references: &Image<i32>, cells: &mut [i32]) {
    for (x, seven) in sevens.iter().enumerate() {
        private_compute_properties(PredictionData::of(seven), 0, None, x, y, references, cells, mask);
    }
}

/// Rows of pixels in one call: what a pixel leaves, the next one finds. A row past 65,536 columns is filled up to there (11).
fn rows() {
    let mut tally = Tally::new("fill_row, a row in one call");
    let random = &mut Random::new(36);
    for round in 0..100_000 {
        let pixels = if round < 4 { WIDEST - 1 + round } else { random.below(41) };
        let row: Vec<i32> =
            (0..if round < 4 { 0 } else { random.below(5) }).map(|_| random.word()).collect();
        let y = random.one_of(&[0, 1, ROWS_END - 1, ROWS_END]);
        let mask = some_mask(random);
        let needed = if mask >> 16 != 0 { 16 + row.len() } else { 16 };
        let lent = random.one_of(&[needed, needed, needed + 3, needed - 1]);
        let mut data: Vec<i32> = (0..pixels).flat_map(|_| random.seven()).collect();
        let mut cells: Vec<i32> = (0..lent).map(|_| random.word()).collect();
        let mut owed = (0, cells.clone());
        if pixels > 0 && y >= ROWS_END {
            owed.0 = 11;
        } else if pixels > 0 && lent < needed {
            owed.0 = 10;
        } else {
            let sevens = &data.as_chunks().0[..pixels.min(WIDEST)];
            let references = Image::of((row.len(), pixels), row.repeat(pixels));
            rust_fill_row(mask, y, sevens, &references, &mut owed.1);
            owed.0 = if pixels > WIDEST { 11 } else { 0 };
        }
        data.extend(vec![0; random.below(7)]); // no whole pixel more
        let status = library::fill_row(mask, y, &data, &row, &mut cells);
        tally.refused += (owed.0 != 0) as u64;
        tally.case(owed, (status, cells), || {
            format!("mask {mask:#x}, y {y}, {pixels} pixels {data:?}, references {row:?}, {lent} cells")
        });
    }
}

/// A position past the picture (11) before too few cells (10); lists that are too short for the C function (8)
/// before both. Nothing is written.
fn refused() {
    let mut tally = Tally::new("compute_properties, refused");
    let random = &mut Random::new(33);
    for round in 0..300_000 {
        let row: Vec<i32> = (0..random.below(41)).map(|_| random.word()).collect();
        let mask = some_mask(random);
        let needed = if mask >> 16 != 0 { 16 + row.len() } else { 16 };
        let mut cells: Vec<i32> = (0..random.below(needed)).map(|_| random.word()).collect();
        let [x, y] = [(WIDEST, round % 2), (ROWS_END, round / 2 % 2)].map(|(end, past)| {
            let any = random.next() as usize;
            let beyond = random.one_of(&[end, end + 1, any.max(end), usize::MAX]);
            if past == 0 { random.below(end) } else { beyond }
        });
        let mut data: Vec<i32> = random.seven().to_vec();
        let mut details = vec![UNTOLD; 5];
        if random.once_in(8) {
            data.truncate(random.below(7));
        }
        if random.once_in(8) {
            details.truncate(random.below(5));
        }
        let mut owed = (0, details.clone(), cells.clone());
        owed.0 = if data.len() < 7 || details.len() < 5 {
            8
        } else if x >= WIDEST || y >= ROWS_END {
            owed.1[0] = 0;
            11
        } else {
            owed.1[0] = needed as i64;
            10
        };
        let wp_property = random.word();
        let pixel = Pixel { mask, x, y, data: &data, wp_property, references: &row };
        let status = library::compute_properties(pixel, &mut cells, &mut details);
        tally.refused += 1;
        tally.case(owed, (status, details, cells), || format!("{pixel:?}"));
    }
}
