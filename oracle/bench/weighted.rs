//! Asks and puts of a plane of a million pixels, neighbours given, in rows of three widths.

use super::{ROUNDS, SIDE, gel, pair, report};
use crate::library;
use decoder::headers::modular::{DEFAULTS, WeightedHeader};
use decoder::image::Image;
use decoder::predict::{PredictionData, WeightedPredictorState};
use std::hint::black_box;

const PIXELS: usize = SIDE * SIDE;

/// The gel in rows of `width`: narrower, its strips one below the other; wider, its bands side by side.
pub fn laid_out(gel: &[i32], width: usize) -> Image<i32> {
    let rows = PIXELS / width;
    let from = |x: usize, y: usize| {
        (y % SIDE + x / SIDE * rows) * SIDE + x % SIDE + y / SIDE * width // one of the quotients is 0
    };
    Image::of((width, rows), (0..PIXELS).map(|k| gel[from(k % width, k / width)]).collect())
}

/// The Rust's guesses and properties, pixel by pixel, as its decoder asks for them.
#[inline(never)]
fn rust_weigh_plane(
    header: &WeightedHeader,
    width: usize,
    data: &[i32],
    plane: &[i32],
    answers: &mut [i64],
) -> WeightedPredictorState {
    let mut state = WeightedPredictorState::new(header, width).unwrap();
    let (sevens, answers) = (data.as_chunks::<7>().0, answers.as_chunks_mut::<2>().0);
    let rows = plane.chunks_exact(width).zip(sevens.chunks_exact(width));
    for (y, ((row, sevens), answers)) in rows.zip(answers.chunks_exact_mut(width)).enumerate() {
        for (x, ((&value, seven), answer)) in row.iter().zip(sevens).zip(answers).enumerate() {
            let (guess, property) = state.predict_and_property((x, y), width, &PredictionData::of(seven));
            *answer = [guess, property as i64];
            state.update_errors(value, (x, y), width);
        }
    }
    state
}

pub fn all() {
    let (gel, header) = (gel(), WeightedHeader::of(&DEFAULTS));
    println!(
        "weigh_plane, {PIXELS} pixels, ask and put of each, answers and memory equal; \
         median of {ROUNDS} rounds, times of a pixel"
    );
    for width in [SIDE, 64, 16_384] {
        let mut image = laid_out(&gel, width);
        let data: Vec<i32> =
            (0..PIXELS).flat_map(|k| PredictionData::get(&image, k % width, k / width).words()).collect();
        let plane: &[i32] = image.cells();
        let mut answers = [vec![0i64; 2 * PIXELS], vec![0i64; 2 * PIXELS]];
        let [ours, theirs] = &mut answers;
        let mut memory = vec![0; 10 * (width + 2)];
        let status = library::weigh_plane(&DEFAULTS, width, &data, plane, &mut memory, ours);
        let state = rust_weigh_plane(&header, width, &data, plane, theirs);
        let equal = ours == theirs && state.positions().eq(memory.as_chunks().0.iter().copied());
        assert!(status == 0 && equal, "width {width}: the answers differ");
        let times: Vec<_> = (0..ROUNDS)
            .map(|round| {
                let library = || {
                    let (header, data) = (black_box(&DEFAULTS), black_box(&data));
                    black_box(library::weigh_plane(header, width, data, plane, &mut memory, ours));
                    black_box(&mut *ours);
                };
                let rust = || {
                    let (header, data) = (black_box(&header), black_box(&data));
                    black_box(rust_weigh_plane(header, black_box(width), data, plane, theirs));
                    black_box(&mut *theirs);
                };
                pair(round % 2 == 0, library, rust)
            })
            .collect();
        report(&format!("width {width}"), &times, PIXELS);
    }
}
