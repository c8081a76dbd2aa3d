//! What is refused, against document 01's rules: sets of faults on any session, and sessions with faults on their way.

mod rows;

use super::rules::{Call, Lent};
use super::{MARGIN, UNTOUCHED};
use crate::compare::Tally;
use crate::compare::cells::some_mask;
use crate::compare::flat::damage_record;
use crate::compare::flat::owed::MOST_RECORDS;
use crate::compare::neighbours::{ROWS_END, WIDEST};
use crate::compare::tree::owed::DONE;
use crate::compare::weighted::refused::{FAR, cut};
use crate::compare::weighted::{needed, some_header};
use crate::library::{self, Opening, Session, Written};
use crate::random::Random;
use Call::*;
use decoder::headers::modular::MOST;

pub fn all() {
    println!(
        "session, refused: status, details and every lent word, against document 01's rules, written out in \
         compare/session/rules.rs"
    );
    faults();
    limits();
    ways();
    runs();
    rows::all();
}

/// In the order that they are told in: lists too short to tell a session, then document 01's.
#[derive(Clone, Copy, Debug, PartialEq)]
enum Fault {
    List,
    Header,
    Place,
    Turn,
    Count,
    Empty,
    Memory,
    Cells,
}
use Fault::*;

const FAULTS: [(Fault, u32); 8] =
    [(List, 8), (Header, 12), (Place, 11), (Turn, 13), (Count, 1), (Empty, 5), (Memory, 8), (Cells, 10)];

impl Call {
    fn has(self, fault: Fault) -> bool {
        match fault {
            List | Header | Place | Memory => true,
            Turn => self != Open,
            Count | Empty => self == Ask,
            Cells => self != Put,
        }
    }
}

/// Cells that the records of `some_records` test.
const CELLS: usize = 24;

fn some_leaf(random: &mut Random) -> [i32; 6] {
    let [multiplier, context, offset] = [(); 3].map(|_| random.word());
    [-1, random.below(14) as i32, multiplier, 0, context, offset & 0xffff]
}

/// A leaf, or a split over four of them.
fn some_records(random: &mut Random) -> Vec<i32> {
    if random.once_in(2) {
        return some_leaf(random).to_vec();
    }
    let [a, b, c] = [(); 3].map(|_| random.below(CELLS) as i32);
    let [u, v, w] = [(); 3].map(|_| random.below(9) as i32 - 4);
    let split = [a, u, v, w, 1, b | c << 16];
    split_over(random, split)
}

fn split_over(random: &mut Random, split: [i32; 6]) -> Vec<i32> {
    let leaves = [(); 4].map(|_| some_leaf(random));
    [split.to_vec(), leaves.concat()].concat()
}

impl Lent {
    /// For a call that is due, at any pixel of any plane, on any memory.
    fn due(random: &mut Random, call: Call) -> Self {
        let (kind, width, rows) = (random.below(6), 2 + random.below(6), 1 + random.below(4));
        let (x, y, asked) = (random.below(width), random.below(rows), (call == Put) as usize);
        let (weights, mask) = (random.once_in(2), some_mask(random));
        let far = [-FAR, FAR - 1, 0, 1000, -1000];
        let mut found: Vec<i64> = (0..5).map(|_| random.one_of(&far)).collect();
        found.push(random.long());
        Lent {
            opening: (width, weights, mask),
            numbers: [random.word(), random.word()],
            session: Session {
                header: some_header(random, kind).to_vec(),
                place: [width, x, y, asked].map(|word| word as u64).to_vec(),
                found,
                settings: vec![weights as u32, mask, 1, random.word() as u32],
            },
            plane: (0..width * rows).map(|_| random.word()).collect(),
            references: (0..random.below(9)).map(|_| random.word()).collect(),
            records: some_records(random),
            cells: (0..CELLS).map(|_| random.word()).collect(),
            memory: (0..needed(width) + MARGIN).map(|_| random.word() as u32).collect(),
            told: vec![DONE.1[0]; 5 + random.below(3)],
            residual: random.word(),
        }
    }

    fn spoil(&mut self, random: &mut Random, call: Call, fault: Fault) {
        let huge = random.one_of(&[1 << 32, 1 << 63, u64::MAX - 1, u64::MAX]);
        let one_past = random.once_in(2);
        let width = self.opening.0;
        let Session { header, place, found, settings } = &mut self.session;
        match fault {
            List => match random.below(5) {
                0 => cut(random, header),
                1 => cut(random, place),
                2 => cut(random, found),
                3 => cut(random, settings),
                _ => self.told.truncate(random.below(5)),
            },
            Header => {
                let k = random.below(11);
                header[k] = if one_past { MOST[k] + 1 } else { random.sized().max(MOST[k] + 1) };
            }
            Place if call == Open || random.once_in(4) => {
                let wide = random.one_of(&[0, WIDEST as u64 + 1, huge]);
                self.opening.0 = wide as usize;
                place[0] = wide;
            }
            Place => match random.below(4) {
                0 => place[1] = if one_past { width as u64 } else { huge },
                1 => {
                    let rows = (self.plane.len() / width) as u64;
                    place[2] = random.one_of(&[rows, ROWS_END as u64, huge]);
                }
                2 => self.plane.push(UNTOUCHED), // no whole row
                _ => self.plane.clear(),
            },
            Turn if random.once_in(3) => settings[2] = 0,
            Turn if call == Put && one_past => {
                // With weights on, what no ask can have found.
                found[random.below(5)] = random.one_of(&[-FAR - 1, FAR, i64::MIN, i64::MAX]);
            }
            Turn => place[3] ^= 1,
            Count => {
                let words = 1 + random.below(5);
                self.records.extend(vec![0; words]);
            }
            Empty => self.records.truncate(self.records.len() % 6),
            Memory => {
                let len = if one_past { needed(width) - 1 } else { random.below(needed(width)) };
                self.memory.truncate(len);
            }
            Cells => {
                let few = random.below(16);
                self.cells.truncate(random.one_of(&[15, 16 + self.references.len().max(1) - 1, few]));
            }
        }
    }
}

/// One call by both on what is lent, which becomes what is owed.
fn check(tally: &mut Tally, lent: &mut Lent, call: Call, made: impl FnOnce() -> String) -> u32 {
    let before = lent.clone();
    let mut ours = lent.clone();
    let owed = lent.owed(call);
    let status = ours.call(call);
    tally.refused += (owed != 0) as u64;
    if owed != status || ours != *lent {
        tally.case((owed, &*lent), (status, &ours), || format!("{}, {call:?} on {before:?}", made()));
    }
    tally.cases += 1;
    owed
}

/// Every set of faults in every call, each in one of its forms.
fn faults() {
    let mut tally = Tally::new("session, three calls, sets of faults");
    let random = &mut Random::new(53);
    for (call, set) in [Open, Ask, Put].into_iter().flat_map(|call| (0..256).map(move |set| (call, set))) {
        let faults: Vec<_> = (0..8).filter(|bit| set >> bit & 1 == 1).map(|bit| FAULTS[bit]).collect();
        if !faults.iter().all(|&(fault, _)| call.has(fault)) {
            continue;
        }
        let first = faults.first().map_or(0, |&(_, number)| number);
        let rounds = if faults.len() < 2 { 20_000 } else { 1_000 };
        for _ in 0..rounds {
            let mut lent = Lent::due(random, call);
            // From the last, so that none undoes one that is told before it.
            faults.iter().rev().for_each(|&(fault, _)| lent.spoil(random, call, fault));
            // Weights off, memory and what was found are not looked at; cells may be enough all the same.
            let on = if call == Open { lent.opening.1 } else { lent.session.settings.first() != Some(&0) };
            let owed = check(&mut tally, &mut lent, call, || format!("{faults:?}"));
            assert!(owed == first || !on || matches!(first, 0 | 10 | 13), "{faults:?}: {owed}");
        }
    }
}

/// Widths and records around their limits.
fn limits() {
    let mut tally = Tally::new("session, widths and records at their limits");
    let random = &mut Random::new(54);
    for (width, weights) in
        [0, 1, WIDEST - 1, WIDEST, WIDEST + 1].into_iter().flat_map(|width| [(width, true), (width, false)])
    {
        for call in [Open, Ask, Put] {
            let mut lent = Lent::due(random, call);
            lent.opening.0 = width;
            lent.opening.1 = weights;
            lent.session.settings[0] = weights as u32;
            lent.session.place[..3].copy_from_slice(&[width as u64, width.saturating_sub(1) as u64, 1]);
            lent.plane = (0..2 * width).map(|_| random.word()).collect();
            lent.references.truncate(1);
            for memory in [needed(width), needed(width) - 1] {
                lent.memory.resize(memory, UNTOUCHED as u32);
                check(&mut tally, &mut lent.clone(), call, String::new);
            }
        }
    }
    let leaf = [-1, 0, 1, 0, 0, 0];
    for (count, past) in [1, MOST_RECORDS, MOST_RECORDS + 1]
        .into_iter()
        .flat_map(|count| (0..6).map(move |past| (count, past)))
    {
        let mut lent = Lent::due(random, Ask);
        lent.records = leaf.repeat(count);
        lent.records.extend(vec![0; past]);
        for fault in [None, Some(Header), Some(Turn), Some(Memory), Some(Cells)] {
            let mut lent = lent.clone();
            fault.into_iter().for_each(|fault| lent.spoil(random, Ask, fault));
            check(&mut tally, &mut lent, Ask, || format!("{count} records and {past} words"));
        }
    }
}

/// Sessions from opening on, with calls out of turn, faults that pass and records that are damaged: after a walk that is
/// refused each call is 13, but for 11 and 12.
fn ways() {
    let mut tally = Tally::new("session, calls with faults on their way");
    let random = &mut Random::new(55);
    let mut closed = 0u64;
    for _ in 0..100_000 {
        let mut lent = Lent::due(random, Open);
        check(&mut tally, &mut lent, Open, String::new);
        let often = random.one_of(&[4, 10, 50]);
        let damaged_in = random.one_of(&[3, 20, 200]);
        for _ in 0..random.below(4 * lent.plane.len() + 4) {
            let due = if lent.session.place[3] == 0 { Ask } else { Put };
            let call = if random.once_in(often) { random.one_of(&[Ask, Put]) } else { due };
            lent.residual = if random.once_in(2) { random.word() } else { random.below(9) as i32 - 4 };
            lent.told.fill(DONE.1[0]);
            if random.once_in(damaged_in) {
                damage_record(random, &mut lent.records);
            }
            if random.once_in(often) {
                let (fault, _) = random.one_of(&FAULTS);
                let mut spoilt = lent.clone();
                spoilt.spoil(random, call, fault);
                // A spoilt call that goes through is not gone on from.
                check(&mut tally, &mut spoilt, call, || format!("{fault:?}"));
                continue;
            }
            let lived = lent.session.settings[2];
            let owed = check(&mut tally, &mut lent, call, String::new);
            closed += (lived != lent.session.settings[2]) as u64;
            assert!(lived != 0 || matches!(owed, 11 | 13), "a closed session: {owed}");
        }
    }
    drop(tally);
    println!("  of these, {closed} walks were refused and closed their sessions");
}

/// Whole channels in one call that end at a refusal: of the lists' lengths, of opening, of a pixel past the plane or of a
/// walk over damaged records. What the pixels before it left stands.
fn runs() {
    let mut tally = Tally::new("run_channel, refused on its way");
    let random = &mut Random::new(56);
    for _ in 0..200_000 {
        let mut owed = Lent::due(random, Open);
        owed.told.truncate(5);
        let residuals: Vec<i32> = (0..random.below(owed.plane.len() + 3)).map(|_| random.word()).collect();
        let mut contexts = vec![UNTOUCHED as u32; residuals.len() + random.below(3)];
        if random.once_in(2) {
            (0..1 + random.below(2)).for_each(|_| damage_record(random, &mut owed.records));
        }
        if random.once_in(4) {
            let fault = random.one_of(&[Header, Place, Memory, Cells]);
            owed.spoil(random, Open, fault);
        }
        match random.below(16) {
            0 => cut(random, &mut owed.session.header),
            1 => contexts.truncate(random.below(contexts.len() + 1)),
            _ => {}
        }
        let mut ours = owed.clone();
        let before = owed.clone();
        let mut told = contexts.clone();
        let short = owed.session.header.len() < 11 || contexts.len() < residuals.len();
        let status = if short { 8 } else { owed.run(&residuals, &mut told) };
        let (width, weights, mask) = ours.opening;
        let (header, numbers) = (&before.session.header, before.numbers);
        let opening = Opening { width, header, weights, mask, numbers };
        let Lent { plane, cells, memory, .. } = &mut ours;
        let written = Written { plane, contexts: &mut contexts, cells, memory };
        let number =
            library::run_channel(opening, &before.references, &before.records, &residuals, written);
        tally.refused += (status != 0) as u64;
        tally.case(
            (status, &owed.plane, &told, &owed.cells, &owed.memory),
            (number, &ours.plane, &contexts, &ours.cells, &ours.memory),
            || format!("residuals {residuals:?} on {before:?}"),
        );
    }
}

impl Lent {
    /// Open, then ask and put in turn to the first refusal.
    fn run(&mut self, residuals: &[i32], contexts: &mut [u32]) -> u32 {
        let mut number = self.owed(Open);
        for (residual, context) in residuals.iter().zip(contexts) {
            for call in [Ask, Put] {
                if number == 0 {
                    self.residual = *residual;
                    number = self.owed(call);
                }
                if number == 0 {
                    *context = self.told[0] as u32;
                }
            }
        }
        number
    }
}
