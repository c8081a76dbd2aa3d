//! What is refused: every set of faults, each in one of its forms; nothing may be written.

use super::{Tally, UNTOUCHED, needed, seven, some_header, some_plane};
use crate::compare::neighbours::{ROWS_END, WIDEST};
use crate::library;
use crate::random::Random;
use decoder::headers::modular::MOST;

/// What an ask finds lies from minus this on and below it; a put tells whether it does (13).
pub const FAR: i64 = 1 << 40;

pub fn all() {
    calls();
    planes();
}

#[derive(Clone, Copy, Debug, PartialEq)]
enum Call {
    Open,
    Ask,
    Put,
    Save,
    Restore,
}
use Call::*;

impl Call {
    fn has(self, fault: Fault) -> bool {
        !matches!((self, fault), (Open, Turn) | (Open | Ask | Put, Saved))
    }
}

/// In the order that they are told in: document 01's, after lists too short to tell a state.
#[derive(Clone, Copy, Debug, PartialEq)]
enum Fault {
    List,
    Header,
    Place,
    Turn,
    Memory,
    Saved,
}
use Fault::*;

const FAULTS: [(Fault, u32); 6] =
    [(List, 8), (Header, 12), (Place, 11), (Turn, 13), (Memory, 8), (Saved, 8)];

/// All that a call can be lent.
#[derive(Clone, Debug, PartialEq)]
struct Lent {
    header: Vec<u32>,
    place: Vec<u64>,
    found: Vec<i64>,
    memory: Vec<u32>,
    data: Vec<i32>,
    answer: Vec<i64>,
    saved: Vec<u32>,
    value: i32,
}

impl Lent {
    /// For a call that is due.
    fn due(random: &mut Random, call: Call) -> Self {
        let (kind, width) = (random.below(6), 2 + random.below(6));
        let (x, y) = (random.below(width), random.below(ROWS_END));
        let place = match call {
            Open => [width, 0, 0, 0],
            Ask | Put => [width, x, y, (call == Put) as usize],
            Save | Restore => [width, 0, y & !1, 0],
        };
        Lent {
            header: some_header(random, kind).to_vec(),
            place: place.map(|word| word as u64).to_vec(),
            found: (0..5).map(|_| random.one_of(&[-FAR, FAR - 1, 0])).collect(),
            memory: (0..needed(width)).map(|_| random.word() as u32).collect(),
            data: random.seven().to_vec(),
            answer: vec![UNTOUCHED as i64; 2],
            saved: vec![UNTOUCHED; 5 * (width + 2)],
            value: random.word(),
        }
    }

    fn spoil(&mut self, random: &mut Random, call: Call, fault: Fault) {
        let (width, huge) = (self.place[0], random.one_of(&[1 << 32, 1 << 63, u64::MAX - 1, u64::MAX]));
        let one_past = random.once_in(2);
        let lists = match call {
            Open => 1,
            Ask => 5,
            _ => 3,
        };
        match (fault, call) {
            (Header, _) => {
                let k = random.below(11);
                self.header[k] = if one_past { MOST[k] + 1 } else { random.sized().max(MOST[k] + 1) };
            }
            (Place, _) if random.once_in(16) => {
                // Words enough for that width, so that it alone is at fault.
                self.place[0] = WIDEST as u64 + 1;
                self.memory.resize(needed(WIDEST + 1), UNTOUCHED);
                self.saved.resize(5 * (WIDEST + 3), UNTOUCHED);
            }
            (Place, _) => match random.below(if call == Open { 2 } else { 4 }) {
                0 => self.place[0] = 0,
                1 => self.place[0] = if one_past { WIDEST as u64 + 1 } else { huge },
                // Of a save the row is a matter of turn.
                2 if matches!(call, Ask | Put) => {
                    self.place[2] = if one_past { ROWS_END as u64 } else { huge }
                }
                _ => self.place[1] = if one_past { width } else { huge },
            },
            (Turn, Ask) => self.place[3] = random.one_of(&[1, 2, huge]),
            (Turn, Put) if one_past => self.place[3] = 0,
            (Turn, Put) => {
                // What no ask can have found: one past the ends, or farther.
                self.found[random.below(5)] = random.one_of(&[-FAR - 1, FAR, i64::MIN, i64::MAX]);
            }
            (Turn, _) => match random.below(4) {
                0 => self.place[3] = 1,
                1 => self.place[1] = 1 + random.below(width as usize - 1) as u64,
                2 => self.place[2] |= 1,
                _ => self.place[2] = ROWS_END as u64,
            },
            (Memory, _) => cut(random, &mut self.memory),
            (Saved, _) => cut(random, &mut self.saved),
            (List, _) => match random.below(lists) {
                0 => cut(random, &mut self.header),
                1 => cut(random, &mut self.place),
                2 => cut(random, &mut self.found),
                3 => cut(random, &mut self.data),
                _ => cut(random, &mut self.answer),
            },
        }
    }

    fn call(&mut self, call: Call) -> u32 {
        let Lent { header, place, found, memory, data, answer, saved, value } = self;
        match call {
            Open => library::weighted_open(header, place[0] as usize, memory),
            Ask => library::weighted_ask(header, place, found, memory, data, answer),
            Put => library::weighted_put(header, place, found, memory, *value),
            Save => library::save_state(header, place, found, memory, saved),
            Restore => library::restore_state(header, place, found, memory, saved),
        }
    }
}

/// One word short, or any number of them.
pub fn cut<T>(random: &mut Random, list: &mut Vec<T>) {
    let len = if random.once_in(2) { list.len() - 1 } else { random.below(list.len()) };
    list.truncate(len);
}

fn calls() {
    let mut tally = Tally::new("weighted state, five calls, sets of faults");
    let random = &mut Random::new(25);
    let calls = [Open, Ask, Put, Save, Restore];
    for (call, set) in calls.into_iter().flat_map(|call| (0..64).map(move |set| (call, set))) {
        let faults: Vec<_> = (0..6).filter(|bit| set >> bit & 1 == 1).map(|bit| FAULTS[bit]).collect();
        if !faults.iter().all(|&(fault, _)| call.has(fault)) {
            continue;
        }
        let owed = faults.first().map_or(0, |&(_, number)| number);
        for _ in 0..300 {
            let mut lent = Lent::due(random, call);
            // From the last, so that none undoes one that is told before it.
            faults.iter().rev().for_each(|&(fault, _)| lent.spoil(random, call, fault));
            let before = lent.clone();
            let status = lent.call(call);
            let written = owed != 0 && lent != before; // what a call that is done writes is compared elsewhere
            tally.refused += (owed != 0) as u64;
            tally.case((owed, false), (status, written), || format!("{call:?}, {faults:?}, {before:?}"));
        }
    }
}

/// A whole plane: one fault at a time.
fn planes() {
    let mut tally = Tally::new("weigh_plane, one fault");
    let random = &mut Random::new(26);
    for round in 0..20_000 {
        let (kind, mut width, rows) = (random.below(6), 1 + random.below(8), 1 + random.below(4));
        let mut header = some_header(random, kind).to_vec();
        let plane = some_plane(random, 4, width, rows);
        let mut data: Vec<i32> =
            (0..plane.len()).flat_map(|k| seven(&plane, width, k % width, k / width)).collect();
        let mut memory = vec![UNTOUCHED; needed(width)];
        let mut answers = vec![UNTOUCHED as i64; 2 * plane.len()];
        let (k, owed) = (random.below(11), [0, 12, 11, 11, 8, 8, 8, 8][round % 8]);
        match round % 8 {
            0 => {}
            1 => header[k] = MOST[k] + 1,
            2 => width = 0,
            3 => width = random.one_of(&[WIDEST + 1, 1 << 32, usize::MAX]),
            4 => cut(random, &mut header),
            5 => cut(random, &mut data),
            6 => cut(random, &mut memory),
            _ => cut(random, &mut answers),
        }
        let status = library::weigh_plane(&header, width, &data, &plane, &mut memory, &mut answers);
        let marks = memory.iter().map(|&word| word as i64).chain(answers);
        let written = owed != 0 && marks.into_iter().any(|word| word != UNTOUCHED as i64);
        tally.refused += (owed != 0) as u64;
        tally.case((owed, false), (status, written), || {
            format!("fault {}, header {header:?}, width {width}, plane {plane:?}", round % 8)
        });
    }
}
