//! The library's state and the Rust's, side by side.

use super::{MARGIN, UNTOUCHED, needed, seven};
use crate::compare::Tally;
use crate::library;
use crate::random::Random;
use decoder::headers::modular::WeightedHeader;
use decoder::predict::{PredictionData, WeightedPredictorState};

/// The last width of which every word is looked at after every put.
pub const WORDS_END: usize = 300;

/// What an ask and its put leave: statuses, answer, found, the place after each, and the words of
/// one position, the first that differs if any does.
#[derive(Debug, PartialEq)]
pub struct Pixel {
    statuses: [u32; 2],
    pub answer: [i64; 3],
    found: [i64; 5],
    places: [[u64; 4]; 2],
    at: (usize, [u32; 5]),
    margin: [u32; MARGIN],
}

/// The library's state, as lists, and the Rust's.
pub struct Both {
    pub header: [u32; 11],
    pub place: [u64; 4],
    pub found: [i64; 5],
    pub memory: Vec<u32>,
    pub rust: WeightedPredictorState,
}

impl Both {
    /// Opened on words that are not 0.
    pub fn open(header: [u32; 11], width: usize) -> Self {
        let mut memory = vec![UNTOUCHED; needed(width) + MARGIN];
        assert_eq!(library::weighted_open(&header, width, &mut memory), 0);
        let rust = WeightedPredictorState::new(&WeightedHeader::of(&header), width).unwrap();
        Both { header, place: [width as u64, 0, 0, 0], found: [0; 5], memory, rust }
    }

    /// Any words in both memories: any, rich in the ends of the range, the ends alone, or small ones.
    pub fn fill(&mut self, random: &mut Random) {
        let kind = random.below(4);
        let words = needed(self.place[0] as usize);
        for (k, word) in self.memory[..words].iter_mut().enumerate() {
            *word = match kind {
                0 => random.next() as u32,
                1 => random.word() as u32,
                2 => random.one_of(&[0, 1, (1 << 31) - 1, 1 << 31, u32::MAX]),
                _ if k % 5 == 0 => (random.below(129) as i32 - 64) as u32,
                _ => random.sized() >> 16,
            };
        }
        self.rust.fill(self.memory[..words].as_chunks().0);
    }

    /// The memory's positions, without the words past them.
    pub fn positions(&self) -> &[[u32; 5]] {
        self.memory[..needed(self.place[0] as usize)].as_chunks().0
    }

    pub fn margin(&self) -> [u32; MARGIN] {
        *self.memory.last_chunk().unwrap()
    }

    /// The first position whose words differ.
    #[inline(always)]
    pub fn differs(&self) -> Option<usize> {
        self.rust.positions().zip(self.positions()).position(|(owed, words)| owed != *words)
    }

    pub fn ask(&mut self, data: &[i32; 7]) -> (u32, [i64; 3]) {
        let mut answer = [UNTOUCHED as i64; 3];
        let Both { header, place, found, memory, .. } = self;
        (library::weighted_ask(header, place, found, memory, data, &mut answer), answer)
    }

    pub fn put(&mut self, value: i32) -> u32 {
        library::weighted_put(&self.header, &mut self.place, &self.found, &mut self.memory, value)
    }

    /// One pixel of both: what is owed, and what the library gives.
    #[inline(always)]
    pub fn step(&mut self, data: &[i32; 7], value: i32, all_words: bool) -> [Pixel; 2] {
        let [width, x, y, _] = self.place.map(|word| word as usize);
        let (guess, property) = self.rust.predict_and_property((x, y), width, &PredictionData::of(data));
        self.rust.update_errors(value, (x, y), width);
        let (ask, answer) = self.ask(data);
        let waiting = self.place;
        let put = self.put(value);

        let halves = [width + 2, 0];
        let (here, next) = (halves[y % 2] + x, halves[1 - y % 2] + x + 1);
        let differs = if all_words {
            self.differs()
        } else {
            [here, next].into_iter().find(|&k| self.rust.position(k) != self.positions()[k])
        };
        let at = differs.unwrap_or(here);
        let after = if x + 1 == width { [width, 0, y + 1, 0] } else { [width, x + 1, y, 0] };
        let owed = Pixel {
            statuses: [0, 0],
            answer: [guess, property as i64, UNTOUCHED as i64],
            found: self.rust.found(),
            places: [[width, x, y, 1], after].map(|place| place.map(|word| word as u64)),
            at: (at, self.rust.position(at)),
            margin: [UNTOUCHED; MARGIN],
        };
        let library = Pixel {
            statuses: [ask, put],
            answer,
            found: self.found,
            places: [waiting, self.place],
            at: (at, self.positions()[at]),
            margin: self.margin(),
        };
        [owed, library]
    }

    /// The row that is due, each pixel a case; the neighbours and what is owed are handed on.
    pub fn row(&mut self, tally: &mut Tally, plane: &[i32], mut each: impl FnMut(&[i32; 7], &Pixel)) {
        let (width, y) = (self.place[0] as usize, self.place[2] as usize);
        for x in 0..width {
            let data = seven(plane, width, x, y);
            let all_words = width <= WORDS_END || x + 1 == width;
            let [owed, library] = self.step(&data, plane[y * width + x], all_words);
            each(&data, &owed);
            tally.case(owed, library, || {
                let so_far = &plane[..y * width + x + 1];
                format!("header {:?}, width {width}, x {x}, y {y}, plane {so_far:?}", self.header)
            });
        }
    }
}
