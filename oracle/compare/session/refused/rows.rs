//! Rows that are refused: document 02's tests of a row, then what documents 01 and 02 owe for the single calls of its pixels.

use super::super::UNTOUCHED_WORD;
use super::{Call, Call::*, Fault, Fault::*, Lent, UNTOUCHED, damage_record, some_leaf, split_over};
use crate::compare::Tally;
use crate::compare::neighbours::WIDEST;
use crate::compare::tree::owed::DONE;
use crate::compare::weighted::needed;
use crate::compare::weighted::refused::cut;
use crate::library::{self, Opening, Session, Written};
use crate::random::Random;

pub fn all() {
    println!(
        "session_row, refused: status, details, how many pixels were put and every lent word, against document 02's tests and \
         then the\n  rules of ask and put, and against the library's own ask and put"
    );
    faults();
    limits();
    halfway();
    ways();
    runs();
}

/// Faults in the order that they are told in.
#[derive(Clone, Copy, Debug, PartialEq)]
enum RowFault {
    Of(Fault),
    /// List lengths other than the width, references no multiple of it.
    Lengths,
    /// Not at a row's start.
    Start,
}
use RowFault::*;

const FAULTS: [(RowFault, u32); 10] = [
    (Of(List), 8),
    (Of(Header), 12),
    (Of(Place), 11),
    (Lengths, 11),
    (Start, 13),
    (Of(Turn), 13),
    (Of(Count), 1),
    (Of(Empty), 5),
    (Of(Memory), 8),
    (Of(Cells), 10),
];

/// The cell that has the column.
const COLUMN: i32 = 3;

/// All that a row's call is lent; the references are packed.
#[derive(Clone, Debug, PartialEq)]
struct Row {
    lent: Lent,
    residuals: Vec<i32>,
    contexts: Vec<u32>,
}

impl Row {
    /// For the row that the session stands before. The references are still one pixel's.
    fn of(random: &mut Random, mut lent: Lent) -> Self {
        let width = lent.opening.0;
        lent.told = vec![DONE.1[0]; 6 + random.below(3)];
        let small = random.once_in(2);
        let residual = |_| if small { random.below(9) as i32 - 4 } else { random.word() };
        Row { residuals: (0..width).map(residual).collect(), contexts: vec![UNTOUCHED_WORD; width], lent }
    }

    fn due(random: &mut Random) -> Self {
        let mut lent = Lent::due(random, Ask);
        lent.session.place[1] = 0;
        Row::of(random, lent)
    }

    /// As many references for each pixel.
    fn pack(&mut self, random: &mut Random, width: usize) {
        let words = self.lent.references.len() * width;
        self.lent.references = (0..words).map(|_| random.word()).collect();
    }

    /// Packed, with faults from the last to the first, so that none undoes one that is told before it.
    fn spoil(&mut self, random: &mut Random, faults: &[(RowFault, u32)]) {
        let width = self.lent.opening.0;
        let lengths = faults.iter().any(|fault| fault.0 == Lengths);
        for &(fault, _) in faults.iter().rev() {
            match fault {
                Of(List) if random.once_in(6) => self.lent.told.truncate(5),
                Of(fault) => self.lent.spoil(random, Ask, fault),
                Start => self.lent.session.place[1] = 1 + random.below(width - 1) as u64,
                Lengths => {}
            }
        }
        self.pack(random, width);
        if lengths {
            match random.below(6) {
                0 => cut(random, &mut self.residuals),
                1 => self.residuals.push(random.word()),
                2 => cut(random, &mut self.contexts),
                3 => self.contexts.push(UNTOUCHED_WORD),
                _ => {
                    let past = 1 + random.below(width - 1);
                    self.lent.references.extend(vec![UNTOUCHED; past]);
                }
            }
        }
    }

    /// The library's answer.
    fn call(&mut self) -> u32 {
        let Row { lent, residuals, contexts } = self;
        let Lent { session, plane, references, records, cells, memory, told, .. } = lent;
        let written = Written { plane, contexts, cells, memory };
        library::session_row(session, residuals, references, records, written, told)
    }

    /// "11 for list lengths other than the width or references no multiple of it, 13 when not at a row's start": 12 comes before both.
    fn tests(&self) -> u32 {
        let Row { lent, residuals, contexts } = self;
        let [width, x] = [0, 1].map(|k| lent.session.place[k] as usize);
        let sized = |length: usize| length == width;
        if lent.header_in_range().is_err() {
            12
        } else if lent.is_pixel().is_err()
            || !sized(residuals.len())
            || !sized(contexts.len())
            || lent.references.len() % width != 0
        {
            11
        } else if !lent.is_turn(false) || x != 0 {
            13
        } else {
            0
        }
    }

    /// The number owed, and how many pixels were put; what is lent becomes what is owed of it, each pixel by single calls.
    fn owed(&mut self, by: fn(&mut Lent, Call) -> u32) -> (u32, usize) {
        let Session { header, place, found, settings } = &self.lent.session;
        let short = header.len() < 11 || place.len() < 4 || found.len() < 6 || settings.len() < 4;
        if short || self.lent.told.len() < 6 {
            return (8, 0); // the C function's own, before all else
        }
        let (number, detail, pixels) = match self.tests() {
            0 => self.pixels(by),
            number => (number, 0, 0),
        };
        if number != 0 {
            self.lent.told[0] = detail;
            self.lent.told[5] = pixels as i64;
        }
        (number, pixels)
    }

    fn pixels(&mut self, by: fn(&mut Lent, Call) -> u32) -> (u32, i64, usize) {
        let Row { lent, residuals, contexts } = self;
        let each = lent.references.len() / residuals.len();
        let packed = std::mem::take(&mut lent.references);
        let told = std::mem::replace(&mut lent.told, DONE.1.to_vec());
        let residual = lent.residual;
        let mut end = (0, 0, residuals.len());
        for k in 0..residuals.len() {
            lent.references = packed[k * each..][..each].to_vec();
            lent.residual = residuals[k];
            let number = by(lent, Ask);
            if number != 0 {
                end = (number, lent.told[0], k);
                break;
            }
            contexts[k] = lent.told[0] as u32;
            assert_eq!(by(lent, Put), 0, "a put after its ask, pixel {k}");
        }
        lent.references = packed;
        lent.told = told;
        lent.residual = residual;
        end
    }
}

/// One row by all on what is lent, which becomes what is owed.
fn check(tally: &mut Tally, row: &mut Row, made: impl FnOnce() -> String) -> (u32, usize) {
    let before = row.clone();
    let [mut ours, mut singles] = [(); 2].map(|_| row.clone());
    let owed = row.owed(Lent::owed);
    let status = ours.call();
    let called = singles.owed(Lent::call);
    tally.refused += (owed.0 != 0) as u64;
    if owed.0 != status || called != owed || ours != *row || ours != singles {
        tally.case((owed.0, &*row, owed, &singles), (status, &ours, called, &ours), || {
            format!("{}, on {before:?}", made())
        });
    }
    tally.cases += 1;
    owed
}

/// Every set of faults, each in one of its forms.
fn faults() {
    let mut tally = Tally::new("session_row, sets of faults");
    let random = &mut Random::new(61);
    for set in 0..1 << FAULTS.len() {
        let faults: Vec<_> =
            (0..FAULTS.len()).filter(|bit| set >> bit & 1 == 1).map(|bit| FAULTS[bit]).collect();
        let first = faults.first().map_or(0, |&(_, number)| number);
        let rounds = if faults.len() < 2 { 20_000 } else { 1_000 };
        for _ in 0..rounds {
            let mut row = Row::due(random);
            row.spoil(random, &faults);
            // Weights off, the memory is not looked at; cells may be enough all the same.
            let on = row.lent.session.settings.first() != Some(&0);
            let (owed, _) = check(&mut tally, &mut row, || format!("{faults:?}"));
            assert!(owed == first || !on || matches!(first, 0 | 10), "{faults:?}: {owed}");
        }
    }
}

/// Widths around their limits and of 1, lists a word short, exact and a word long.
fn limits() {
    let mut tally = Tally::new("session_row, widths and lists at their limits");
    let random = &mut Random::new(62);
    let around = |n: usize| [n.saturating_sub(1), n, n + 1];
    for (width, weights) in [0, 1, 2, WIDEST - 1, WIDEST, WIDEST + 1]
        .into_iter()
        .flat_map(|width| [(width, true), (width, false)])
    {
        for (residuals, contexts) in
            around(width).into_iter().flat_map(|a| around(width).into_iter().map(move |b| (a, b)))
        {
            for (references, y) in [0, 1, width, 2 * width, 2 * width + 1].into_iter().zip([0, 1, 0, 1, 2])
            {
                let mut row = Row::due(random);
                let lent = &mut row.lent;
                lent.opening.0 = width;
                lent.session.settings[0] = weights as u32;
                lent.session.place[..3].copy_from_slice(&[width as u64, 0, y]);
                lent.plane = (0..2 * width).map(|_| random.word()).collect();
                lent.references = (0..references).map(|_| random.word()).collect();
                lent.memory.resize(needed(width), UNTOUCHED_WORD);
                row.residuals = (0..residuals).map(|_| random.word()).collect();
                row.contexts = vec![UNTOUCHED_WORD; contexts];
                // The rules make a state of the Rust's for each pixel: where weights are on, wide rows are those refused.
                if width < 9 || !weights || row.tests() != 0 {
                    check(&mut tally, &mut row, String::new);
                }
            }
        }
    }
}

/// Trees that split on the column over four leaves, one of them damaged: pixels before it stay, those past it are untouched.
fn halfway() {
    let mut tally = Tally::new("session_row, a damaged record in mid-row");
    let random = &mut Random::new(65);
    let (mut closed, mut late, mut put) = (0u64, 0u64, 0u64);
    for _ in 0..300_000 {
        let mut lent = Lent::due(random, Ask);
        let most = if random.once_in(10_000) { 3_000 } else { 24 };
        let (width, rows) = (1 + random.below(most), 1 + random.below(4));
        lent.opening.0 = width;
        lent.session.place[..3].copy_from_slice(&[width as u64, 0, random.below(rows) as u64]);
        lent.session.settings[1] |= 1 << COLUMN;
        lent.plane = (0..width * rows).map(|_| random.word()).collect();
        lent.memory = (0..needed(width)).map(|_| random.word() as u32).collect();
        let [u, v, w] = [(); 3].map(|_| random.below(width + 1) as i32 - 1);
        lent.records = split_over(random, [COLUMN, u, v, w, 1, COLUMN | COLUMN << 16]);
        (0..4).for_each(|_| lent.records.extend(some_leaf(random)));
        let damaged = &mut lent.records[6 * (1 + random.below(4))..][..6];
        match random.below(4) {
            0 => damaged[1] = 14,
            1 => damaged[0] = -2,
            2 => damaged.copy_from_slice(&[0, 0, 0, 0, random.below(2) as i32, 0]), // four that lie before it
            _ => damaged.copy_from_slice(&[255, 0, 0, 0, 5, 0]), // a cell that is not there
        }
        let mut row = Row::of(random, lent);
        row.pack(random, width);
        let (number, pixels) = check(&mut tally, &mut row, String::new);
        if number != 0 {
            closed += (row.lent.session.settings[2] == 0) as u64;
            late += (pixels != 0) as u64;
            put += pixels as u64;
            assert!(row.contexts[pixels..].iter().all(|&word| word == UNTOUCHED_WORD));
        }
    }
    drop(tally);
    println!(
        "  of these, {closed} closed their sessions, {late} of them past a row's first pixel, with {put} pixels put"
    );
}

/// Sessions from opening on, row after row, with single calls and faults between and records that are damaged.
fn ways() {
    let mut tally = Tally::new("session_row, rows with faults on their way");
    let random = &mut Random::new(63);
    let (mut closed, mut late) = (0u64, 0u64);
    for _ in 0..150_000 {
        let mut lent = Lent::due(random, Open);
        assert_eq!(lent.owed(Open), 0);
        let width = lent.opening.0;
        let each = lent.references.len();
        let (often, damaged_in) = (random.one_of(&[4, 10, 50]), random.one_of(&[1, 2, 5, 20]));
        for _ in 0..1 + random.below(lent.plane.len() / width + 2) {
            lent.references = (0..each).map(|_| random.word()).collect();
            lent.residual = random.below(9) as i32 - 4;
            if random.once_in(often) {
                for _ in 0..1 + random.below(2 * width) {
                    let due = if lent.session.place[3] == 0 { Ask } else { Put };
                    lent.owed(due);
                }
            }
            if random.once_in(damaged_in) {
                damage_record(random, &mut lent.records);
            }
            let mut row = Row::of(random, lent);
            if random.once_in(often) {
                let mut spoilt = row.clone();
                let fault = random.one_of(&FAULTS);
                spoilt.spoil(random, &[fault]);
                check(&mut tally, &mut spoilt, || format!("{fault:?}"));
            }
            row.pack(random, width);
            let lived = row.lent.session.settings[2];
            let (owed, pixels) = check(&mut tally, &mut row, String::new);
            let shut = lived != row.lent.session.settings[2];
            closed += shut as u64;
            late += (shut && pixels != 0) as u64;
            assert!(lived != 0 || matches!(owed, 11 | 13), "a closed session: {owed}");
            lent = row.lent;
        }
    }
    drop(tally);
    println!(
        "  of these, {closed} walks were refused and closed their sessions, {late} of them past a row's first pixel"
    );
}

/// Whole channels by rows that end at a refusal: of the lists' lengths, of opening, of a row past the plane or of a walk.
fn runs() {
    let mut tally = Tally::new("run_rows, refused on its way");
    let random = &mut Random::new(64);
    for _ in 0..200_000 {
        let mut lent = Lent::due(random, Open);
        let width = lent.opening.0;
        if random.once_in(2) {
            (0..1 + random.below(2)).for_each(|_| damage_record(random, &mut lent.records));
        }
        if random.once_in(4) {
            let fault = random.one_of(&[Header, Place, Memory, Cells]);
            lent.spoil(random, Open, fault);
        }
        let words = lent.references.len() * width + if random.once_in(16) { 1 } else { 0 };
        lent.references = (0..words).map(|_| random.word()).collect();
        let residuals = random.below(lent.plane.len() + 2 * width + 1);
        let residuals: Vec<i32> = (0..residuals).map(|_| random.word()).collect();
        let mut contexts = vec![UNTOUCHED_WORD; residuals.len() + random.below(3)];
        match random.below(16) {
            0 => cut(random, &mut lent.session.header),
            1 => contexts.truncate(random.below(contexts.len() + 1)),
            _ => {}
        }
        let before = lent.clone();
        let mut ours = lent.clone();
        let mut owed = contexts.clone();
        let short = lent.session.header.len() < 11 || contexts.len() < residuals.len();
        let number = if short { 8 } else { lent.run_rows(random, &residuals, &mut owed) };
        let (width, weights, mask) = before.opening;
        let (header, numbers) = (&before.session.header, before.numbers);
        let opening = Opening { width, header, weights, mask, numbers };
        let Lent { plane, cells, memory, .. } = &mut ours;
        let written = Written { plane, contexts: &mut contexts, cells, memory };
        let status = library::run_rows(opening, &before.references, &before.records, &residuals, written);
        tally.refused += (number != 0) as u64;
        tally.case(
            (number, &lent.plane, &owed, &lent.cells, &lent.memory),
            (status, &ours.plane, &contexts, &ours.cells, &ours.memory),
            || format!("residuals {residuals:?} on {before:?}"),
        );
    }
}

impl Lent {
    /// Open, then each whole row to the first refusal.
    fn run_rows(&mut self, random: &mut Random, residuals: &[i32], contexts: &mut [u32]) -> u32 {
        let mut number = self.owed(Open);
        if number != 0 {
            return number;
        }
        let width = self.opening.0;
        for (residuals, contexts) in residuals.chunks_exact(width).zip(contexts.chunks_exact_mut(width)) {
            if number == 0 {
                let mut row = Row::of(random, self.clone());
                row.residuals = residuals.to_vec();
                number = row.owed(Lent::owed).0;
                contexts.copy_from_slice(&row.contexts);
                *self = row.lent;
            }
        }
        number
    }
}
