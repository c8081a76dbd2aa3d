//! What document 01 owes for a call on any lists: module 10, written out, with the Rust's functions for a pixel.

use crate::compare::cells::references;
use crate::compare::flat::owed::{MOST_RECORDS, Pixel, walk_flat};
use crate::compare::neighbours::{ROWS_END, WIDEST};
use crate::compare::tree::owed::{DONE, Told, told};
use crate::compare::weighted::needed;
use crate::compare::weighted::refused::FAR;
use crate::library::{self, Opening, Session};
use decoder::frame::modular::tree::private_compute_properties;
use decoder::headers::modular::{MOST, WeightedHeader};
use decoder::predict::{PredictionData, WeightedPredictorState};

/// All that a call can be lent; `opening` is width, whether weights are on, and the mask.
#[derive(Clone, Debug, PartialEq)]
pub struct Lent {
    pub opening: (usize, bool, u32),
    pub numbers: [i32; 2],
    pub session: Session,
    pub plane: Vec<i32>,
    pub references: Vec<i32>,
    pub records: Vec<i32>,
    pub cells: Vec<i32>,
    pub memory: Vec<u32>,
    pub told: Vec<i64>,
    pub residual: i32,
}

#[derive(Clone, Copy, Debug, PartialEq)]
pub enum Call {
    Open,
    Ask,
    Put,
}

/// Numbered refusals stop at the first.
type Passed = Result<(), Told>;

fn test(holds: bool, number: u32, detail: usize) -> Passed {
    if holds { Ok(()) } else { Err(told(number, &[detail as i64])) }
}

impl Lent {
    /// The library's answer.
    pub fn call(&mut self, call: Call) -> u32 {
        let Lent { opening, numbers, session, plane, references, records, cells, memory, told, residual } =
            self;
        match call {
            Call::Open => {
                let &mut (width, weights, mask) = opening;
                let header = session.header.clone();
                let opening = Opening { width, header: &header, weights, mask, numbers: *numbers };
                library::session_open(opening, session, cells, memory, told)
            }
            Call::Ask => library::session_ask(session, plane, references, records, cells, memory, told),
            Call::Put => library::session_put(session, *residual, plane, memory, told),
        }
    }

    /// The number owed; what is lent becomes what is owed of it.
    pub fn owed(&mut self, call: Call) -> u32 {
        let Session { header, place, found, settings } = &self.session;
        let short = header.len() < 11 || place.len() < 4 || found.len() < 6 || settings.len() < 4;
        if short || self.told.len() < 5 {
            return 8; // the C function's own, before all else
        }
        let (number, details) = match call {
            Call::Open => self.open(),
            Call::Ask => self.ask(),
            Call::Put => self.put(),
        };
        for (word, detail) in self.told.iter_mut().zip(details).filter(|&(_, detail)| detail != DONE.1[0]) {
            *word = detail;
        }
        number
    }

    pub fn header_in_range(&self) -> Passed {
        test(self.session.header.iter().zip(MOST).all(|(&value, most)| value <= most), 12, 0)
    }

    fn memory_lent(&self, weights: bool, width: usize) -> Passed {
        test(!weights || self.memory.len() >= needed(width), 8, needed(width))
    }

    fn open(&mut self) -> Told {
        let (width, weights, mask) = self.opening;
        let arguments = || {
            self.header_in_range()?;
            test((1..=WIDEST).contains(&width), 11, 0)?;
            self.memory_lent(weights, width)?;
            test(self.cells.len() >= 16, 10, 16)
        };
        if let Err(refused) = arguments() {
            return refused;
        }
        // "sets cells 0 and 1 to the two 32-bit numbers given and clears the rest once"
        self.cells.fill(0);
        self.cells[..2].copy_from_slice(&self.numbers);
        if weights {
            self.memory[..needed(width)].fill(0);
        }
        self.session.place[..4].copy_from_slice(&[width as u64, 0, 0, 0]);
        self.session.found[..6].fill(0);
        self.session.settings[..4].copy_from_slice(&[weights as u32, mask, 1, 0]);
        DONE
    }

    fn width(&self) -> usize {
        self.session.place[0] as usize
    }

    fn weights(&self) -> bool {
        self.session.settings[0] != 0
    }

    /// "A plane is packed rows of the width"; the pixel is one of it.
    pub fn is_pixel(&self) -> Passed {
        let [width, x, y] = [0, 1, 2].map(|k| self.session.place[k] as usize);
        let packed = (1..=WIDEST).contains(&width) && self.plane.len() % width == 0;
        test(packed && x < width && y < ROWS_END && y < self.plane.len() / width, 11, 0)
    }

    pub fn is_turn(&self, asked: bool) -> bool {
        self.session.settings[2] != 0 && (self.session.place[3] != 0) == asked
    }

    /// An equal state of the Rust's, at this memory.
    fn state(&self) -> WeightedPredictorState {
        let words = &self.memory[..needed(self.width())];
        let header = WeightedHeader::of(self.session.header[..11].try_into().unwrap());
        let [state] = WeightedPredictorState::alike(&header, self.width(), words.as_chunks().0);
        state
    }

    fn ask(&mut self) -> Told {
        let mask = self.session.settings[1];
        let cells = if mask >> 16 != 0 { 16 + self.references.len() } else { 16 };
        let arguments = || {
            self.header_in_range()?;
            self.is_pixel()?;
            test(self.is_turn(false), 13, 0)?;
            test(self.records.len() % 6 == 0, 1, 0)?;
            test(self.records.len() / 6 <= MOST_RECORDS, 2, 0)?;
            test(!self.records.is_empty(), 5, 0)?;
            self.memory_lent(self.weights(), self.width())?;
            test(self.cells.len() >= cells, 10, cells)
        };
        if let Err(refused) = arguments() {
            return refused;
        }
        let [width, x, y] = [0, 1, 2].map(|k| self.session.place[k] as usize);
        let row = |back: usize| if y < back { &[][..] } else { &self.plane[(y - back) * width..][..width] };
        let data = PredictionData::get_rows(row(0), row(1), row(2), x, y);
        let mut state = self.weights().then(|| self.state());
        let image = references(&self.references, x);
        let wp_pred =
            private_compute_properties(data, width, state.as_mut(), x, y, &image, &mut self.cells, mask);
        let (number, details) =
            walk_flat(&self.records, Pixel { cells: &self.cells, data: &data.words(), wp_pred });
        if number != 0 {
            // "leaves that pixel's cells filled and the session closed"
            self.session.settings[2] = 0;
            return (number, details);
        }
        let [guess, multiplier, context, ..] = details;
        self.session.place[3] = 1;
        self.session.found[..5].copy_from_slice(&state.map_or([0; 5], |state| state.found()));
        self.session.found[5] = guess;
        self.session.settings[3] = multiplier as u32;
        told(0, &[context])
    }

    fn put(&mut self) -> Told {
        let possible = self.session.found[..5].iter().all(|found| (-FAR..FAR).contains(found));
        let arguments = || {
            self.header_in_range()?;
            self.is_pixel()?;
            test(self.is_turn(true) && (possible || !self.weights()), 13, 0)?;
            self.memory_lent(self.weights(), self.width())
        };
        if let Err(refused) = arguments() {
            return refused;
        }
        let [width, x, y] = [0, 1, 2].map(|k| self.session.place[k] as usize);
        let product = self.residual as i128 * self.session.settings[3] as i128;
        let value = (self.session.found[5] as i128 + product) as i32;
        self.plane[y * width + x] = value;
        if self.weights() {
            let mut state = self.state();
            state.find(self.session.found[..5].try_into().unwrap());
            state.update_errors(value, (x, y), width);
            let words: Vec<u32> = state.positions().flatten().collect();
            self.memory[..words.len()].copy_from_slice(&words);
        }
        let next = if x + 1 == width { [0, y + 1, 0] } else { [x + 1, y, 0] };
        self.session.place[1..4].copy_from_slice(&next.map(|word| word as u64));
        DONE
    }
}
