//! The library's C functions; those that take slices stand behind safe ones.
//! Nothing checks these declarations against the library's source: keep the two equal by hand.

/// A row and the two above it. Rows that are not looked at may have any length.
#[derive(Clone, Copy)]
pub struct Rows<'a> {
    pub row: &'a [i32],
    pub top: &'a [i32],
    pub toptop: &'a [i32],
}

/// What the interior shortcut takes beside the data that it shifts.
#[derive(Clone, Copy, Debug)]
pub struct Shift {
    pub x: usize,
    pub cur: i32,
    pub needs_top: bool,
    pub needs_toptop: bool,
}

unsafe extern "C" {
    #[link_name = "matuviso_floor_log2_nonzero"]
    pub safe fn floor_log2_nonzero(x: u64) -> u32;
    /// The weight, or minus the refusal's number.
    #[link_name = "matuviso_error_weight"]
    pub safe fn error_weight(x: u32, m: u32) -> i64;
    fn matuviso_get_rows(
        row: *const i32, row_len: usize, top: *const i32, top_len: usize,
        toptop: *const i32, toptop_len: usize, x: usize, y: usize,
        seven: *mut i32, seven_len: usize,
    ) -> u32;
    fn matuviso_update_for_interior_row(
        data: *const i32, data_len: usize, top: *const i32, top_len: usize,
        toptop: *const i32, toptop_len: usize, x: usize, cur: i32,
        needs_top: bool, needs_toptop: bool, seven: *mut i32, seven_len: usize,
    ) -> u32;
    fn matuviso_predict_one(
        p: u32, data: *const i32, data_len: usize, wp_pred: i64,
        guess: *mut i64, guess_len: usize,
    ) -> u32;
    fn matuviso_guess_row(
        row: *const i32, row_len: usize, top: *const i32, top_len: usize,
        toptop: *const i32, toptop_len: usize, y: usize, p: u32, wp_pred: i64,
        guesses: *mut i64, guesses_len: usize,
    ) -> u32;
    fn matuviso_do_rct_step(
        a: *mut i32, a_len: usize, b: *mut i32, b_len: usize, c: *mut i32, c_len: usize,
        operation: u32, order: u32,
    ) -> u32;
    fn matuviso_weighted_open(
        header: *const u32, header_len: usize, width: usize, memory: *mut u32, memory_len: usize,
    ) -> u32;
    fn matuviso_weighted_ask(
        header: *const u32, header_len: usize, place: *mut u64, place_len: usize,
        found: *mut i64, found_len: usize, memory: *const u32, memory_len: usize,
        data: *const i32, data_len: usize, answer: *mut i64, answer_len: usize,
    ) -> u32;
    fn matuviso_weighted_put(
        header: *const u32, header_len: usize, place: *mut u64, place_len: usize,
        found: *const i64, found_len: usize, memory: *mut u32, memory_len: usize, value: i32,
    ) -> u32;
    fn matuviso_save_state(
        header: *const u32, header_len: usize, place: *const u64, place_len: usize,
        found: *const i64, found_len: usize, memory: *const u32, memory_len: usize,
        saved: *mut u32, saved_len: usize,
    ) -> u32;
    fn matuviso_restore_state(
        header: *const u32, header_len: usize, place: *const u64, place_len: usize,
        found: *const i64, found_len: usize, memory: *mut u32, memory_len: usize,
        saved: *const u32, saved_len: usize,
    ) -> u32;
    fn matuviso_weigh_plane(
        header: *const u32, header_len: usize, width: usize, data: *const i32, data_len: usize,
        plane: *const i32, plane_len: usize, memory: *mut u32, memory_len: usize,
        answers: *mut i64, answers_len: usize,
    ) -> u32;
    fn matuviso_property_mask(
        words: *const i32, words_len: usize, told: *mut i64, told_len: usize,
    ) -> u32;
    fn matuviso_check_shape(
        words: *const i32, words_len: usize, told: *mut i64, told_len: usize,
    ) -> u32;
    fn matuviso_validate_tree(
        words: *const i32, words_len: usize, work: *mut i32, work_len: usize,
        told: *mut i64, told_len: usize,
    ) -> u32;
    fn matuviso_compute_properties(
        mask: u32, x: usize, y: usize, data: *const i32, data_len: usize, wp_property: i32,
        references: *const i32, references_len: usize, cells: *mut i32, cells_len: usize,
        told: *mut i64, told_len: usize,
    ) -> u32;
    fn matuviso_fill_row(
        mask: u32, y: usize, data: *const i32, data_len: usize,
        references: *const i32, references_len: usize, cells: *mut i32, cells_len: usize,
    ) -> u32;
    fn matuviso_predict(
        words: *const i32, words_len: usize, cells: *const i32, cells_len: usize,
        data: *const i32, data_len: usize, wp_pred: i64, told: *mut i64, told_len: usize,
    ) -> u32;
    fn matuviso_predict_flat(
        words: *const i32, words_len: usize, cells: *const i32, cells_len: usize,
        data: *const i32, data_len: usize, wp_pred: i64, told: *mut i64, told_len: usize,
    ) -> u32;
    fn matuviso_build_flat_tree(
        words: *const i32, words_len: usize, ring: *mut i32, ring_len: usize,
        output: *mut i32, output_len: usize, told: *mut i64, told_len: usize,
    ) -> u32;
    fn matuviso_walk_pixels(
        words: *const i32, words_len: usize, cells: *const i32, cells_len: usize,
        data: *const i32, data_len: usize, wp_pred: i64, guesses: *mut i64, guesses_len: usize,
    ) -> u32;
    fn matuviso_walk_flat_pixels(
        words: *const i32, words_len: usize, cells: *const i32, cells_len: usize,
        data: *const i32, data_len: usize, wp_pred: i64, guesses: *mut i64, guesses_len: usize,
    ) -> u32;
    fn matuviso_session_open(
        width: usize, header: *const u32, header_len: usize, weights: bool, mask: u32,
        channel: i32, stream: i32, place: *mut u64, place_len: usize,
        found: *mut i64, found_len: usize, settings: *mut u32, settings_len: usize,
        cells: *mut i32, cells_len: usize, memory: *mut u32, memory_len: usize,
        told: *mut i64, told_len: usize,
    ) -> u32;
    fn matuviso_session_ask(
        header: *const u32, header_len: usize, place: *mut u64, place_len: usize,
        found: *mut i64, found_len: usize, settings: *mut u32, settings_len: usize,
        plane: *const i32, plane_len: usize, references: *const i32, references_len: usize,
        records: *const i32, records_len: usize, cells: *mut i32, cells_len: usize,
        memory: *const u32, memory_len: usize, told: *mut i64, told_len: usize,
    ) -> u32;
    fn matuviso_session_put(
        header: *const u32, header_len: usize, place: *mut u64, place_len: usize,
        found: *mut i64, found_len: usize, settings: *mut u32, settings_len: usize, residual: i32,
        plane: *mut i32, plane_len: usize, memory: *mut u32, memory_len: usize,
        told: *mut i64, told_len: usize,
    ) -> u32;
    fn matuviso_session_row(
        header: *const u32, header_len: usize, place: *mut u64, place_len: usize,
        found: *mut i64, found_len: usize, settings: *mut u32, settings_len: usize,
        residuals: *const i32, residuals_len: usize, references: *const i32, references_len: usize,
        records: *const i32, records_len: usize, plane: *mut i32, plane_len: usize,
        contexts: *mut u32, contexts_len: usize, cells: *mut i32, cells_len: usize,
        memory: *mut u32, memory_len: usize, told: *mut i64, told_len: usize,
    ) -> u32;
    fn matuviso_run_channel(
        width: usize, header: *const u32, header_len: usize, weights: bool, mask: u32,
        channel: i32, stream: i32, references: *const i32, references_len: usize,
        records: *const i32, records_len: usize, residuals: *const i32, residuals_len: usize,
        plane: *mut i32, plane_len: usize, contexts: *mut u32, contexts_len: usize,
        cells: *mut i32, cells_len: usize, memory: *mut u32, memory_len: usize,
    ) -> u32;
    fn matuviso_run_rows(
        width: usize, header: *const u32, header_len: usize, weights: bool, mask: u32,
        channel: i32, stream: i32, references: *const i32, references_len: usize,
        records: *const i32, records_len: usize, residuals: *const i32, residuals_len: usize,
        plane: *mut i32, plane_len: usize, contexts: *mut u32, contexts_len: usize,
        cells: *mut i32, cells_len: usize, memory: *mut u32, memory_len: usize,
    ) -> u32;
}

// In each call below a pointer and its length come from one slice, which lives through the call.
// The answer is 0, or a refusal's number.

#[inline(always)]
pub fn get_rows(rows: Rows, x: usize, y: usize, seven: &mut [i32]) -> u32 {
    let Rows { row, top, toptop } = rows;
    unsafe {
        matuviso_get_rows(
            row.as_ptr(), row.len(), top.as_ptr(), top.len(), toptop.as_ptr(), toptop.len(),
            x, y, seven.as_mut_ptr(), seven.len(),
        )
    }
}

#[inline(always)]
pub fn update_for_interior_row(
    data: &[i32], top: &[i32], toptop: &[i32], shift: Shift, seven: &mut [i32],
) -> u32 {
    let Shift { x, cur, needs_top, needs_toptop } = shift;
    unsafe {
        matuviso_update_for_interior_row(
            data.as_ptr(), data.len(), top.as_ptr(), top.len(), toptop.as_ptr(), toptop.len(),
            x, cur, needs_top, needs_toptop, seven.as_mut_ptr(), seven.len(),
        )
    }
}

#[inline(always)]
pub fn predict_one(p: u32, data: &[i32], wp_pred: i64, guess: &mut [i64]) -> u32 {
    unsafe {
        matuviso_predict_one(
            p, data.as_ptr(), data.len(), wp_pred, guess.as_mut_ptr(), guess.len(),
        )
    }
}

#[inline(always)]
pub fn guess_row(rows: Rows, y: usize, p: u32, wp_pred: i64, guesses: &mut [i64]) -> u32 {
    let Rows { row, top, toptop } = rows;
    unsafe {
        matuviso_guess_row(
            row.as_ptr(), row.len(), top.as_ptr(), top.len(), toptop.as_ptr(), toptop.len(),
            y, p, wp_pred, guesses.as_mut_ptr(), guesses.len(),
        )
    }
}

#[inline(always)]
pub fn do_rct_step([a, b, c]: [&mut [i32]; 3], operation: u32, order: u32) -> u32 {
    unsafe {
        matuviso_do_rct_step(
            a.as_mut_ptr(), a.len(), b.as_mut_ptr(), b.len(), c.as_mut_ptr(), c.len(),
            operation, order,
        )
    }
}

#[inline(always)]
pub fn weighted_open(header: &[u32], width: usize, memory: &mut [u32]) -> u32 {
    unsafe {
        matuviso_weighted_open(
            header.as_ptr(), header.len(), width, memory.as_mut_ptr(), memory.len(),
        )
    }
}

#[inline(always)]
pub fn weighted_ask(
    header: &[u32], place: &mut [u64], found: &mut [i64], memory: &[u32], data: &[i32],
    answer: &mut [i64],
) -> u32 {
    unsafe {
        matuviso_weighted_ask(
            header.as_ptr(), header.len(), place.as_mut_ptr(), place.len(),
            found.as_mut_ptr(), found.len(), memory.as_ptr(), memory.len(),
            data.as_ptr(), data.len(), answer.as_mut_ptr(), answer.len(),
        )
    }
}

#[inline(always)]
pub fn weighted_put(
    header: &[u32], place: &mut [u64], found: &[i64], memory: &mut [u32], value: i32,
) -> u32 {
    unsafe {
        matuviso_weighted_put(
            header.as_ptr(), header.len(), place.as_mut_ptr(), place.len(),
            found.as_ptr(), found.len(), memory.as_mut_ptr(), memory.len(), value,
        )
    }
}

#[inline(always)]
pub fn save_state(
    header: &[u32], place: &[u64], found: &[i64], memory: &[u32], saved: &mut [u32],
) -> u32 {
    unsafe {
        matuviso_save_state(
            header.as_ptr(), header.len(), place.as_ptr(), place.len(),
            found.as_ptr(), found.len(), memory.as_ptr(), memory.len(),
            saved.as_mut_ptr(), saved.len(),
        )
    }
}

#[inline(always)]
pub fn restore_state(
    header: &[u32], place: &[u64], found: &[i64], memory: &mut [u32], saved: &[u32],
) -> u32 {
    unsafe {
        matuviso_restore_state(
            header.as_ptr(), header.len(), place.as_ptr(), place.len(),
            found.as_ptr(), found.len(), memory.as_mut_ptr(), memory.len(),
            saved.as_ptr(), saved.len(),
        )
    }
}

#[inline(always)]
pub fn weigh_plane(
    header: &[u32], width: usize, data: &[i32], plane: &[i32], memory: &mut [u32],
    answers: &mut [i64],
) -> u32 {
    unsafe {
        matuviso_weigh_plane(
            header.as_ptr(), header.len(), width, data.as_ptr(), data.len(),
            plane.as_ptr(), plane.len(), memory.as_mut_ptr(), memory.len(),
            answers.as_mut_ptr(), answers.len(),
        )
    }
}

// Of a tree and of cells the refusal's details are told too, and the mask: from word 0 of `told` on.

#[inline(always)]
pub fn property_mask(words: &[i32], told: &mut [i64]) -> u32 {
    unsafe {
        matuviso_property_mask(words.as_ptr(), words.len(), told.as_mut_ptr(), told.len())
    }
}

#[inline(always)]
pub fn check_shape(words: &[i32], told: &mut [i64]) -> u32 {
    unsafe {
        matuviso_check_shape(words.as_ptr(), words.len(), told.as_mut_ptr(), told.len())
    }
}

#[inline(always)]
pub fn validate_tree(words: &[i32], work: &mut [i32], told: &mut [i64]) -> u32 {
    unsafe {
        matuviso_validate_tree(
            words.as_ptr(), words.len(), work.as_mut_ptr(), work.len(),
            told.as_mut_ptr(), told.len(),
        )
    }
}

/// What a filling takes beside the cells.
#[derive(Clone, Copy, Debug)]
pub struct Pixel<'a> {
    pub mask: u32,
    pub x: usize,
    pub y: usize,
    pub data: &'a [i32],
    pub wp_property: i32,
    pub references: &'a [i32],
}

#[inline(always)]
pub fn compute_properties(pixel: Pixel, cells: &mut [i32], told: &mut [i64]) -> u32 {
    let Pixel { mask, x, y, data, wp_property, references } = pixel;
    unsafe {
        matuviso_compute_properties(
            mask, x, y, data.as_ptr(), data.len(), wp_property,
            references.as_ptr(), references.len(), cells.as_mut_ptr(), cells.len(),
            told.as_mut_ptr(), told.len(),
        )
    }
}

#[inline(always)]
pub fn fill_row(mask: u32, y: usize, data: &[i32], references: &[i32], cells: &mut [i32]) -> u32 {
    unsafe {
        matuviso_fill_row(
            mask, y, data.as_ptr(), data.len(), references.as_ptr(), references.len(),
            cells.as_mut_ptr(), cells.len(),
        )
    }
}

// Of a walk the guess, the multiplier, the context and the hops are told, of a flattening the count of records.

#[inline(always)]
pub fn predict(words: &[i32], cells: &[i32], data: &[i32], wp_pred: i64, told: &mut [i64]) -> u32 {
    unsafe {
        matuviso_predict(
            words.as_ptr(), words.len(), cells.as_ptr(), cells.len(),
            data.as_ptr(), data.len(), wp_pred, told.as_mut_ptr(), told.len(),
        )
    }
}

#[inline(always)]
pub fn predict_flat(
    words: &[i32], cells: &[i32], data: &[i32], wp_pred: i64, told: &mut [i64],
) -> u32 {
    unsafe {
        matuviso_predict_flat(
            words.as_ptr(), words.len(), cells.as_ptr(), cells.len(),
            data.as_ptr(), data.len(), wp_pred, told.as_mut_ptr(), told.len(),
        )
    }
}

#[inline(always)]
pub fn build_flat_tree(
    words: &[i32], ring: &mut [i32], output: &mut [i32], told: &mut [i64],
) -> u32 {
    unsafe {
        matuviso_build_flat_tree(
            words.as_ptr(), words.len(), ring.as_mut_ptr(), ring.len(),
            output.as_mut_ptr(), output.len(), told.as_mut_ptr(), told.len(),
        )
    }
}

#[inline(always)]
pub fn walk_pixels(
    words: &[i32], cells: &[i32], data: &[i32], wp_pred: i64, guesses: &mut [i64],
) -> u32 {
    unsafe {
        matuviso_walk_pixels(
            words.as_ptr(), words.len(), cells.as_ptr(), cells.len(),
            data.as_ptr(), data.len(), wp_pred, guesses.as_mut_ptr(), guesses.len(),
        )
    }
}

#[inline(always)]
pub fn walk_flat_pixels(
    words: &[i32], cells: &[i32], data: &[i32], wp_pred: i64, guesses: &mut [i64],
) -> u32 {
    unsafe {
        matuviso_walk_flat_pixels(
            words.as_ptr(), words.len(), cells.as_ptr(), cells.len(),
            data.as_ptr(), data.len(), wp_pred, guesses.as_mut_ptr(), guesses.len(),
        )
    }
}

/// What a channel is opened with.
#[derive(Clone, Copy, Debug)]
pub struct Opening<'a> {
    pub width: usize,
    pub header: &'a [u32],
    pub weights: bool,
    pub mask: u32,
    /// Channel and stream.
    pub numbers: [i32; 2],
}

/// A session, told as lists: its header; width, x, y, and whether an ask waits; what was found and the guess; whether
/// weights are on, the mask, whether it lives, the multiplier.
#[derive(Clone, Debug, PartialEq)]
pub struct Session {
    pub header: Vec<u32>,
    pub place: Vec<u64>,
    pub found: Vec<i64>,
    pub settings: Vec<u32>,
}

// Of an ask the context is told.

#[inline(always)]
pub fn session_open(
    opening: Opening, session: &mut Session, cells: &mut [i32], memory: &mut [u32],
    told: &mut [i64],
) -> u32 {
    let Opening { width, header, weights, mask, numbers: [channel, stream] } = opening;
    let Session { place, found, settings, .. } = session;
    unsafe {
        matuviso_session_open(
            width, header.as_ptr(), header.len(), weights, mask, channel, stream,
            place.as_mut_ptr(), place.len(), found.as_mut_ptr(), found.len(),
            settings.as_mut_ptr(), settings.len(), cells.as_mut_ptr(), cells.len(),
            memory.as_mut_ptr(), memory.len(), told.as_mut_ptr(), told.len(),
        )
    }
}

#[inline(always)]
pub fn session_ask(
    session: &mut Session, plane: &[i32], references: &[i32], records: &[i32], cells: &mut [i32],
    memory: &[u32], told: &mut [i64],
) -> u32 {
    let Session { header, place, found, settings } = session;
    unsafe {
        matuviso_session_ask(
            header.as_ptr(), header.len(), place.as_mut_ptr(), place.len(),
            found.as_mut_ptr(), found.len(), settings.as_mut_ptr(), settings.len(),
            plane.as_ptr(), plane.len(), references.as_ptr(), references.len(),
            records.as_ptr(), records.len(), cells.as_mut_ptr(), cells.len(),
            memory.as_ptr(), memory.len(), told.as_mut_ptr(), told.len(),
        )
    }
}

#[inline(always)]
pub fn session_put(
    session: &mut Session, residual: i32, plane: &mut [i32], memory: &mut [u32], told: &mut [i64],
) -> u32 {
    let Session { header, place, found, settings } = session;
    unsafe {
        matuviso_session_put(
            header.as_ptr(), header.len(), place.as_mut_ptr(), place.len(),
            found.as_mut_ptr(), found.len(), settings.as_mut_ptr(), settings.len(), residual,
            plane.as_mut_ptr(), plane.len(), memory.as_mut_ptr(), memory.len(),
            told.as_mut_ptr(), told.len(),
        )
    }
}

/// What a channel or a row writes.
pub struct Written<'a> {
    pub plane: &'a mut [i32],
    pub contexts: &'a mut [u32],
    pub cells: &'a mut [i32],
    pub memory: &'a mut [u32],
}

/// Where refused, word 5 of `told` says how many pixels were put.
#[inline(always)]
pub fn session_row(
    session: &mut Session, residuals: &[i32], references: &[i32], records: &[i32], written: Written,
    told: &mut [i64],
) -> u32 {
    let Session { header, place, found, settings } = session;
    let Written { plane, contexts, cells, memory } = written;
    unsafe {
        matuviso_session_row(
            header.as_ptr(), header.len(), place.as_mut_ptr(), place.len(),
            found.as_mut_ptr(), found.len(), settings.as_mut_ptr(), settings.len(),
            residuals.as_ptr(), residuals.len(), references.as_ptr(), references.len(),
            records.as_ptr(), records.len(), plane.as_mut_ptr(), plane.len(),
            contexts.as_mut_ptr(), contexts.len(), cells.as_mut_ptr(), cells.len(),
            memory.as_mut_ptr(), memory.len(), told.as_mut_ptr(), told.len(),
        )
    }
}

/// A whole channel in one call: references, records, residuals, and what is written.
pub type Run = fn(Opening, &[i32], &[i32], &[i32], Written) -> u32;

#[inline(always)]
pub fn run_channel(
    opening: Opening, references: &[i32], records: &[i32], residuals: &[i32], written: Written,
) -> u32 {
    let Opening { width, header, weights, mask, numbers: [channel, stream] } = opening;
    let Written { plane, contexts, cells, memory } = written;
    unsafe {
        matuviso_run_channel(
            width, header.as_ptr(), header.len(), weights, mask, channel, stream,
            references.as_ptr(), references.len(), records.as_ptr(), records.len(),
            residuals.as_ptr(), residuals.len(), plane.as_mut_ptr(), plane.len(),
            contexts.as_mut_ptr(), contexts.len(), cells.as_mut_ptr(), cells.len(),
            memory.as_mut_ptr(), memory.len(),
        )
    }
}

/// A row in one call, the references for each; they lie packed.
#[inline(always)]
pub fn run_rows(
    opening: Opening, references: &[i32], records: &[i32], residuals: &[i32], written: Written,
) -> u32 {
    let Opening { width, header, weights, mask, numbers: [channel, stream] } = opening;
    let Written { plane, contexts, cells, memory } = written;
    unsafe {
        matuviso_run_rows(
            width, header.as_ptr(), header.len(), weights, mask, channel, stream,
            references.as_ptr(), references.len(), records.as_ptr(), records.len(),
            residuals.as_ptr(), residuals.len(), plane.as_mut_ptr(), plane.len(),
            contexts.as_mut_ptr(), contexts.len(), cells.as_mut_ptr(), cells.len(),
            memory.as_mut_ptr(), memory.len(),
        )
    }
}
