//! Module 3: the fourteen predictors, one guess at a time and a row at a time.

use super::Tally;
use super::neighbours::{
    Cells, ROWS_END, WIDEST, describe, huge, rows_refused, some_rows, some_width, some_y,
};
use crate::library::{self, Rows};
use crate::random::Random;
use decoder::predict::{PredictionData, Predictor};

/// What lent guesses hold before a call.
const UNTOUCHED: i64 = 0x5ea1_5ea1_5ea1_5ea1;

pub fn all() {
    one_guess();
    one_guess_refused();
    guesses_of_rows();
}

fn one_guess() {
    let mut tally = Tally::new("predict_one, 14 on each neighbourhood");
    let random = &mut Random::new(7);
    let predictors: Vec<_> = (0..14).map(|p| Predictor::try_from(p).unwrap()).collect();
    for _ in 0..10_000_000 {
        let (seven, wp_pred) = (random.seven(), random.long());
        for (p, predictor) in predictors.iter().enumerate() {
            let mut guess = [UNTOUCHED];
            let status = library::predict_one(p as u32, &seven, wp_pred, &mut guess);
            tally.case(
                (0, predictor.predict_one(PredictionData::of(&seven), wp_pred)),
                (status, guess[0]),
                || format!("predictor {p} ({predictor:?}), data {seven:?}, wp_pred {wp_pred}"),
            );
        }
    }
}

/// Every length of data and room, with numbers of predictors on both sides of 13: 3 before 8.
fn one_guess_refused() {
    let mut tally = Tally::new("predict_one, all lengths, more numbers");
    let random = &mut Random::new(8);
    for p in (0..300).chain([1 << 16, (1 << 31) - 1, 1 << 31, u32::MAX - 13, u32::MAX]) {
        for (len, room) in (0..=9).flat_map(|len| (0..=2).map(move |room| (len, room))) {
            let (words, wp_pred) = ([random.seven(), random.seven()].concat(), random.long());
            let mut owed = (0, [UNTOUCHED; 2]);
            match Predictor::try_from(p) {
                Err(_) => owed.0 = 3,
                Ok(_) if len < 7 || room < 1 => owed.0 = 8,
                Ok(known) => owed.1[0] = known.predict_one(PredictionData::of(&words), wp_pred),
            }
            let mut lent = [UNTOUCHED; 2];
            let status = library::predict_one(p, &words[..len], wp_pred, &mut lent[..room]);
            tally.refused += (owed.0 != 0) as u64;
            tally.case(owed, (status, lent), || {
                format!("predictor {p}, data {:?}, room {room}, wp_pred {wp_pred}", &words[..len])
            });
        }
    }
}

/// The Rust's guesses of a row, pixel by pixel, as its decoder asks for them.
#[inline(never)]
pub fn rust_guess_row(rows: Rows, y: usize, predictor: Predictor, wp_pred: i64, guesses: &mut [i64]) {
    let Rows { row, top, toptop } = rows;
    for (x, guess) in guesses[..row.len()].iter_mut().enumerate() {
        let data = PredictionData::get_rows(row, top, toptop, x, y);
        *guess = predictor.predict_one(data, wp_pred);
    }
}

fn guesses_of_rows() {
    let mut tally = Tally::new("guess_row, each guess or refusal");
    let random = &mut Random::new(9);
    let cells = Cells::new(random, WIDEST + 1000);
    let mut lent = [vec![UNTOUCHED; WIDEST + 9], vec![UNTOUCHED; WIDEST + 9]];
    for round in 0..140_000 {
        let width = match round % 1000 {
            0..14 => some_width(random), // wide rows for each predictor, but seldom
            k => 1 + random.below(if k % 3 == 0 { 300 } else { 8 }),
        };
        let (mut p, mut y, wp_pred) = (round % 14, some_y(random), random.long());
        let fault = random.below(30);
        let rows = some_rows(&cells, random, width, y, fault);
        match fault {
            6 => y = ROWS_END,
            7 => y = huge(random),
            _ => {}
        }
        // The other two faults come alone and together with those: 11 before 3 before 8.
        if random.once_in(10) {
            p = random.sized().max(14);
        }
        let width = rows.row.len();
        let most = width.min(WIDEST);
        let room = if random.once_in(10) { random.below(most + 1) } else { most + random.below(9) };
        let owed = match Predictor::try_from(p) {
            _ if rows_refused(rows, 0, y) => 11,
            Err(_) => 3,
            Ok(_) if room < width => 8,
            Ok(known) => {
                rust_guess_row(rows, y, known, wp_pred, &mut lent[0]);
                0
            }
        };
        let status = library::guess_row(rows, y, p, wp_pred, &mut lent[1][..room]);
        // The first word that differs, if any, in the row or past it.
        let end = most + 8;
        let x = (0..end).find(|&x| lent[0][x] != lent[1][x]).unwrap_or(end);
        tally.refused += (owed != 0) as u64;
        tally.cases += if owed == 0 { width as u64 - 1 } else { 0 };
        tally.case((owed, lent[0][x]), (status, lent[1][x]), || {
            format!(
                "predictor {p}, wp_pred {wp_pred}, room {room}, guess {x} of row: {}",
                describe(rows, x, y)
            )
        });
        lent.iter_mut().for_each(|b| b[..end].fill(UNTOUCHED));
    }
}
