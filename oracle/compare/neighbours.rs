//! Module 2: the plain fetch and the interior shortcut.

use super::Tally;
use crate::library::{self, Rows, Shift};
use crate::random::Random;
use decoder::predict::PredictionData;

pub const WIDEST: usize = 65_536;
pub const ROWS_END: usize = 1 << 30;
const FLAGS: [(bool, bool); 4] = [(false, false), (false, true), (true, false), (true, true)];

/// What lent words hold before a call: those that the call should leave must still hold it.
const UNTOUCHED: i32 = 0x5ea1_5ea1;

pub fn all() {
    narrow_rows();
    any_rows();
    shortcut_on_narrow_rows();
    shortcut_on_any_rows();
}

/// Document 01's rule for 11 in a plain fetch.
pub fn rows_refused(Rows { row, top, toptop }: Rows, x: usize, y: usize) -> bool {
    let width = row.len();
    width == 0
        || width > WIDEST
        || x >= width
        || y >= ROWS_END
        || (y >= 1 && top.len() != width)
        || (y >= 2 && toptop.len() != width)
}

/// Document 01's rule for 11 in the shortcut.
fn shift_refused(top: &[i32], toptop: &[i32], s: Shift) -> bool {
    let above = s.x >= 2 && s.x < top.len().saturating_sub(2) && top.len() <= WIDEST;
    let two_above = !s.needs_toptop || (s.x < toptop.len() && toptop.len() <= WIDEST);
    !(above && two_above)
}

/// Status and lent words owed: 11 comes before 8, and a refusal writes nothing.
fn owed(wrong: bool, short: bool, answer: impl FnOnce() -> PredictionData) -> (u32, [i32; 9]) {
    let mut lent = [UNTOUCHED; 9];
    if wrong || short {
        return (if wrong { 11 } else { 8 }, lent);
    }
    lent[..7].copy_from_slice(&answer().words());
    (0, lent)
}

/// The cells of a row that a call at x may look at.
fn near(row: &[i32], x: usize) -> String {
    let (from, to) = (x.saturating_sub(2).min(row.len()), x.saturating_add(3).min(row.len()));
    format!("{} cells, from {from}: {:?}", row.len(), &row[from..to])
}

pub fn describe(rows: Rows, x: usize, y: usize) -> String {
    let [row, top, toptop] = [rows.row, rows.top, rows.toptop].map(|r| near(r, x));
    format!("x {x}, y {y}; row {row}; top {top}; toptop {toptop}")
}

fn check_fetch(tally: &mut Tally, rows: Rows, x: usize, y: usize, room: usize) {
    let owed = owed(rows_refused(rows, x, y), room < 7, || {
        PredictionData::get_rows(rows.row, rows.top, rows.toptop, x, y)
    });
    let mut lent = [UNTOUCHED; 9];
    let status = library::get_rows(rows, x, y, &mut lent[..room]);
    tally.refused += (owed.0 != 0) as u64;
    tally.case(owed, (status, lent), || format!("room {room}, {}", describe(rows, x, y)));
}

fn check_shift(tally: &mut Tally, old: &[i32], top: &[i32], toptop: &[i32], s: Shift, room: usize) {
    // the C function reads its data first: fewer than seven words of it are 8 before anything is 11
    let short = old.len() < 7 || room < 7;
    let owed = owed(old.len() >= 7 && shift_refused(top, toptop, s), short, || {
        PredictionData::of(old).update_for_interior_row(
            top,
            toptop,
            s.x,
            s.cur,
            s.needs_top,
            s.needs_toptop,
        )
    });
    let mut lent = [UNTOUCHED; 9];
    let status = library::update_for_interior_row(old, top, toptop, s, &mut lent[..room]);
    tally.refused += (owed.0 != 0) as u64;
    tally.case(owed, (status, lent), || {
        let [top, toptop] = [top, toptop].map(|r| near(r, s.x));
        format!("room {room}, {s:?}, data {old:?}; top {top}; toptop {toptop}")
    });
}

/// Three rows' worth of words, from which parts are lent.
pub struct Cells([Vec<i32>; 3]);

impl Cells {
    pub fn new(random: &mut Random, count: usize) -> Self {
        Cells([(); 3].map(|_| (0..count).map(|_| random.word()).collect()))
    }

    /// A part of row `which`, anywhere in it.
    fn part(&self, random: &mut Random, which: usize, len: usize) -> &[i32] {
        let all = &self.0[which];
        &all[random.below(all.len() - len + 1)..][..len]
    }
}

fn narrow_rows() {
    let mut tally = Tally::new("get_rows, widths 0 to 8, all lengths above");
    let mut random = Random::new(3);
    let lengths = || (0..=9).flat_map(|above| (0..=9).map(move |two_above| (above, two_above)));
    for _ in 0..40 {
        let Cells([row, top, toptop]) = &Cells::new(&mut random, 10);
        for (width, (above, two_above)) in (0..=8).flat_map(|w| lengths().map(move |l| (w, l))) {
            let rows = Rows { row: &row[..width], top: &top[..above], toptop: &toptop[..two_above] };
            for y in [0, 1, 2, 3, ROWS_END - 1, ROWS_END] {
                (0..=width + 1).for_each(|x| check_fetch(&mut tally, rows, x, y, 7));
            }
        }
    }
}

pub fn some_width(random: &mut Random) -> usize {
    match random.below(8) {
        0..=2 => 1 + random.below(8),
        3..=5 => 1 + random.below(300),
        6 => 1 + random.below(WIDEST),
        _ => WIDEST - random.below(3),
    }
}

/// A column of the width, often near one of its ends.
fn some_column(random: &mut Random, width: usize) -> usize {
    match random.below(4) {
        0 => random.below(4).min(width - 1),
        1 => width - 1 - random.below(4).min(width - 1),
        _ => random.below(width),
    }
}

pub fn some_y(random: &mut Random) -> usize {
    let anywhere = random.below(ROWS_END);
    random.one_of(&[0, 1, 2, 3, ROWS_END - 1, anywhere])
}

/// A number so large that a sum with it would wrap.
pub fn huge(random: &mut Random) -> usize {
    usize::MAX - random.below(4)
}

/// 7 to 9 words, or too few once in `n` times.
fn some_room(random: &mut Random, n: usize) -> usize {
    if random.once_in(n) { random.below(7) } else { 7 + random.below(3) }
}

/// Rows that fit `y`; those not looked at have any length. A fault from 0 to 5 spoils a length.
pub fn some_rows<'a>(
    cells: &'a Cells,
    random: &mut Random,
    width: usize,
    y: usize,
    fault: usize,
) -> Rows<'a> {
    let any = [0, 1, width - 1, width, width + 1, WIDEST + 1];
    let mut lens = [0, 1, 2].map(|back| if y < back { random.one_of(&any) } else { width });
    match fault {
        0 => lens = [0; 3],
        1 => lens = [WIDEST + 1; 3],
        2 => lens[1] = width - 1,
        3 => lens[1] = width + 1,
        4 => lens[2] = width - 1,
        5 => lens[2] = width + 1,
        _ => {}
    }
    let [row, top, toptop] = [0, 1, 2].map(|k| cells.part(random, k, lens[k]));
    Rows { row, top, toptop }
}

fn any_rows() {
    let mut tally = Tally::new("get_rows, widths to 65,537");
    let random = &mut Random::new(4);
    let cells = Cells::new(random, WIDEST + 1000);
    for _ in 0..2_000_000 {
        let width = some_width(random);
        let (mut x, mut y) = (some_column(random, width), some_y(random));
        let fault = random.below(30); // two cases in three have none
        let rows = some_rows(&cells, random, width, y, fault);
        match fault {
            6 => x = rows.row.len(),
            7 => x = huge(random),
            8 => y = ROWS_END,
            9 => y = huge(random),
            _ => {}
        }
        let room = some_room(random, 16);
        check_fetch(&mut tally, rows, x, y, room);
    }
}

fn shortcut_on_narrow_rows() {
    let mut fetch = Tally::new("update_for_interior_row against a fetch");
    let mut tally = Tally::new("update_for_interior_row, rows of 0 to 10");
    let mut random = Random::new(5);
    for _ in 0..50 {
        let Cells([row, top, toptop]) = &Cells::new(&mut random, 10);
        let (old, cur) = (random.seven(), random.word());
        for (above, two_above) in (0..=10).flat_map(|a| (0..=10).map(move |b| (a, b))) {
            for x in (0..=above + 1).chain(usize::MAX - 3..=usize::MAX) {
                for (needs_top, needs_toptop) in FLAGS {
                    let shift = Shift { x, cur, needs_top, needs_toptop };
                    check_shift(&mut tally, &old, &top[..above], &toptop[..two_above], shift, 7);
                }
            }
        }
        // Document 01: both needs, y >= 2, one width: shifting the fetch at x-1 gives the fetch at x.
        for (width, x) in (5..=10).flat_map(|w| (2..w - 2).map(move |x| (w, x))) {
            let [row, top, toptop] = [row, top, toptop].map(|r| &r[..width]);
            let at = |x| PredictionData::get_rows(row, top, toptop, x, 2).words();
            let shift = Shift { x, cur: row[x - 1], needs_top: true, needs_toptop: true };
            let mut shifted = [UNTOUCHED; 7];
            let status = library::update_for_interior_row(&at(x - 1), top, toptop, shift, &mut shifted);
            fetch.case((0, at(x)), (status, shifted), || describe(Rows { row, top, toptop }, x, 2));
        }
    }
}

fn shortcut_on_any_rows() {
    let mut tally = Tally::new("update_for_interior_row, rows to 65,537");
    let random = &mut Random::new(6);
    let cells = Cells::new(random, WIDEST + 1000);
    for _ in 0..2_000_000 {
        let above = if random.once_in(20) { WIDEST + 1 } else { some_width(random).max(5) };
        let x = match random.below(12) {
            0 => random.below(3),
            1 => above - random.below(4),
            2 => huge(random),
            _ => 2 + some_column(random, above - 4),
        };
        let two_above = match random.below(12) {
            0 => x.min(WIDEST),
            1 => x.saturating_add(1).min(WIDEST),
            2 => WIDEST + 1,
            3 => random.below(WIDEST),
            _ => above,
        };
        let (top, toptop) = (cells.part(random, 1, above), cells.part(random, 2, two_above));
        let (needs_top, needs_toptop) = random.one_of(&FLAGS);
        let shift = Shift { x, cur: random.word(), needs_top, needs_toptop };
        let old = [random.seven(), random.seven()].concat();
        let (len, room) = (some_room(random, 20), some_room(random, 20));
        check_shift(&mut tally, &old[..len], top, toptop, shift, room);
    }
}
