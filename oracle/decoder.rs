//! The decoder's own files, unchanged, with small stand-ins for what they lean on.
//!
//! `target/oracle/decoder` is a link that `oracle/run` sets to the folder it is given.
//! The files name their surroundings as `crate::..`, so those modules stand here, at the root.

#![allow(dead_code)] // the decoder has more than is compared

use jxl_simd::SimdDescriptor;

// Opens with an attribute of its module, which `include!` does not take: hence a module by path.
#[rustfmt::skip] // a formatter follows such a path, and this file is not ours to change
#[path = "../target/oracle/decoder/util/fast_math.rs"]
mod fast_math;

// fast_math.rs takes these two from its parent; `floor_log2_nonzero` needs neither.
fn eval_rational_poly(_: f32, _: [f32; 3], _: [f32; 3]) -> f32 {
    unimplemented!("a stand-in")
}
fn eval_rational_poly_simd<D: SimdDescriptor>(_: D, _: D::F32Vec, _: [f32; 3], _: [f32; 3]) -> D::F32Vec {
    unimplemented!("a stand-in")
}

pub mod util {
    pub use crate::fast_math::floor_log2_nonzero;
    use std::collections::TryReserveError;

    pub trait TryVecExt<T>: Sized {
        fn try_from_elem(elem: T, count: usize) -> Result<Self, TryReserveError>;
    }

    impl<T: Clone> TryVecExt<T> for Vec<T> {
        fn try_from_elem(elem: T, count: usize) -> Result<Self, TryReserveError> {
            let mut all = Vec::new();
            all.try_reserve_exact(count)?;
            all.resize(count, elem);
            Ok(all)
        }
    }

    pub trait NewWithCapacity: Sized {
        fn new_with_capacity(capacity: usize) -> Result<Self, TryReserveError>;
    }

    impl<T> NewWithCapacity for Vec<T> {
        fn new_with_capacity(capacity: usize) -> Result<Self, TryReserveError> {
            let mut all = Vec::new();
            all.try_reserve(capacity)?;
            Ok(all)
        }
    }

    /// Has room for anything.
    pub struct MemoryTracker;

    impl MemoryTracker {
        pub fn check_alloc(&self, _: u64) -> crate::error::Result<()> {
            Ok(())
        }
    }

    pub mod tracing_wrappers {
        pub use tracing::instrument;

        macro_rules! trace {
            ($($said:tt)*) => {};
        }
        pub(crate) use trace;
    }
}

/// In place of a stream of bits: the symbols that the reader below is to hand out, and how many it has.
pub mod bit_reader {
    pub struct BitReader<'a> {
        pub symbols: &'a [u32],
        pub asked: usize,
    }
}

pub mod entropy_coding {
    pub mod decode {
        use crate::bit_reader::BitReader;
        use crate::error::Result;

        pub struct Histograms;

        impl Histograms {
            pub fn decode(_: usize, _: &mut BitReader, _: bool) -> Result<Self> {
                Ok(Histograms)
            }
        }

        pub struct SymbolReader;

        impl SymbolReader {
            pub fn new(_: &Histograms, _: &mut BitReader, _: Option<usize>) -> Result<Self> {
                Ok(SymbolReader)
            }

            /// The next symbol, 0 after the last: a tree of those ends.
            pub fn read_unsigned(&mut self, _: &Histograms, br: &mut BitReader, _: usize) -> u32 {
                let symbol = br.symbols.get(br.asked).copied().unwrap_or(0);
                br.asked += 1;
                symbol
            }

            /// A signed number is given as its bit pattern.
            pub fn read_signed(&mut self, h: &Histograms, br: &mut BitReader, context: usize) -> i32 {
                self.read_unsigned(h, br, context) as i32
            }

            pub fn check_final_state(&mut self, _: &Histograms, _: &mut BitReader) -> Result<()> {
                Ok(())
            }
        }
    }
}

pub mod error {
    use std::collections::TryReserveError;

    #[derive(Debug)]
    pub enum Error {
        InvalidPredictor(u32),
        OutOfMemory(TryReserveError),
        InvalidProperty(u32),
        TreeTooLarge(usize, usize),
        TreeTooTall(usize, usize),
        TreeSplitOnEmptyRange(u8, i32, i32, i32),
        TreeMultiplierTooLarge(u32, u32),
        TreeMultiplierBitsTooLarge(u32, u32),
    }

    impl From<TryReserveError> for Error {
        fn from(e: TryReserveError) -> Self {
            Error::OutOfMemory(e)
        }
    }

    pub type Result<T, E = Error> = std::result::Result<T, E>;
}

pub mod headers {
    pub mod modular {
        use crate::error::Result;

        /// Document 01's defaults and the ends of its ranges, in the order of the fields.
        pub const DEFAULTS: [u32; 11] = [16, 10, 7, 7, 7, 0, 0, 13, 12, 12, 12];
        pub const MOST: [u32; 11] = [31, 31, 31, 31, 31, 31, 31, 15, 15, 15, 15];

        /// The fields and the accessor of headers/modular.rs, without its reading from bits.
        #[derive(Debug, PartialEq, Clone)]
        pub struct WeightedHeader {
            pub p1c: u32,
            pub p2c: u32,
            pub p3ca: u32,
            pub p3cb: u32,
            pub p3cc: u32,
            pub p3cd: u32,
            pub p3ce: u32,
            pub w0: u32,
            pub w1: u32,
            pub w2: u32,
            pub w3: u32,
        }

        impl WeightedHeader {
            pub fn w(&self, i: usize) -> Result<u32> {
                Ok([self.w0, self.w1, self.w2, self.w3][i])
            }

            /// The oracle's own: of eleven values in the order of the fields, which is the library's too.
            pub fn of(&[p1c, p2c, p3ca, p3cb, p3cc, p3cd, p3ce, w0, w1, w2, w3]: &[u32; 11]) -> Self {
                Self { p1c, p2c, p3ca, p3cb, p3cc, p3cd, p3ce, w0, w1, w2, w3 }
            }
        }
    }
}

pub mod image {
    /// Packed rows; the decoder's own image adds padding and counts its memory.
    pub struct Image<T> {
        size: (usize, usize),
        cells: Vec<T>,
    }

    impl<T: Clone + Default> Image<T> {
        pub fn new(size: (usize, usize)) -> Self {
            Image { size, cells: vec![T::default(); size.0 * size.1] }
        }
        pub fn size(&self) -> (usize, usize) {
            self.size
        }
        pub fn row(&self, y: usize) -> &[T] {
            &self.cells[y * self.size.0..][..self.size.0]
        }
        pub fn row_mut(&mut self, y: usize) -> &mut [T] {
            &mut self.cells[y * self.size.0..][..self.size.0]
        }
    }

    // The oracle's own: a plane as one slice.
    impl<T> Image<T> {
        pub fn of(size: (usize, usize), cells: Vec<T>) -> Self {
            assert_eq!(size.0 * size.1, cells.len());
            Image { size, cells }
        }
        pub fn cells(&mut self) -> &mut [T] {
            &mut self.cells
        }
    }
}

pub mod frame {
    pub mod modular {
        use crate::image::Image;
        pub use crate::predict::{self, Predictor};

        pub mod tree {
            include!("../target/oracle/decoder/frame/modular/tree.rs");

            // The rest is the oracle's own. What only this module sees:

            use crate::headers::modular::WeightedHeader;

            #[inline(always)]
            pub fn private_validate_tree(tree: &[TreeNode], num_properties: usize) -> Result<()> {
                validate_tree(tree, num_properties)
            }

            pub fn private_used_property_mask(nodes: &[TreeNode]) -> u32 {
                Tree::compute_used_property_mask(nodes)
            }

            #[inline(always)]
            #[allow(clippy::too_many_arguments)]
            pub fn private_compute_properties(
                prediction_data: PredictionData,
                xsize: usize,
                wp_state: Option<&mut WeightedPredictorState>,
                x: usize,
                y: usize,
                references: &Image<i32>,
                property_buffer: &mut [i32],
                used_mask: u32,
            ) -> i64 {
                compute_properties(
                    prediction_data,
                    xsize,
                    wp_state,
                    x,
                    y,
                    references,
                    property_buffer,
                    used_mask,
                )
            }

            /// The walk alone: no group of the cells is filled. The weighted state is asked at (0, 0), if there is one.
            #[inline(always)]
            pub fn private_predict(
                tree: &[TreeNode],
                data: PredictionData,
                state: Option<(&mut WeightedPredictorState, usize)>,
                cells: &mut [i32],
            ) -> PredictionResult {
                let (state, xsize) = state.unzip();
                let none = Image::of((0, 0), Vec::new());
                predict(tree, data, xsize.unwrap_or(0), state, 0, 0, &none, cells, 0)
            }

            /// The flat tree, whose nodes only this module sees.
            pub struct FlatTree(Vec<FlatTreeNode>);

            impl FlatTree {
                #[inline(always)]
                pub fn of(nodes: &[TreeNode]) -> Result<Self> {
                    Tree::build_flat_tree(nodes).map(FlatTree)
                }

                /// In document 01's six words a record.
                pub fn words(&self) -> Vec<i32> {
                    let six = |node: &FlatTreeNode| {
                        let [left, right] = node.splitvals_or_multiplier;
                        let [low, high] = node.properties_or_offset.map(|half| half as u16 as u32);
                        let halves = (low | high << 16) as i32;
                        [
                            node.property0,
                            node.splitval0_or_predictor,
                            left,
                            right,
                            node.child_id as i32,
                            halves,
                        ]
                    };
                    self.0.iter().flat_map(six).collect()
                }

                /// As `private_predict`.
                #[inline(always)]
                pub fn predict(
                    &self,
                    data: PredictionData,
                    state: Option<(&mut WeightedPredictorState, usize)>,
                    cells: &mut [i32],
                ) -> PredictionResult {
                    let (state, xsize) = state.unzip();
                    let none = Image::of((0, 0), Vec::new());
                    predict_flat(&self.0, data, xsize.unwrap_or(0), state, 0, 0, &none, cells, 0)
                }
            }

            /// A channel in a plain loop over the functions above: what the session is held to.
            pub struct Channel {
                pub width: usize,
                pub mask: u32,
                /// None with weights off.
                pub weights: Option<WeightedPredictorState>,
                pub cells: Vec<i32>,
            }

            /// A pixel before its value is known: what is predicted, and what the prediction left.
            pub struct Asked<'a> {
                pub x: usize,
                pub result: PredictionResult,
                pub cells: &'a [i32],
                pub weights: Option<&'a WeightedPredictorState>,
            }

            impl Asked<'_> {
                /// The low 32 bits of guess + residual * multiplier.
                #[inline(always)]
                pub fn unpacked(&self, residual: i32) -> i32 {
                    let PredictionResult { guess, multiplier, .. } = self.result;
                    (guess as i32).wrapping_add(residual.wrapping_mul(multiplier as i32))
                }
            }

            impl Channel {
                /// With cells before the first pixel: channel and stream, then 0.
                pub fn new(
                    header: Option<&WeightedHeader>,
                    width: usize,
                    mask: u32,
                    cells: usize,
                    numbers: [i32; 2],
                ) -> Self {
                    let weights = header.map(|header| WeightedPredictorState::new(header, width).unwrap());
                    let mut cells = vec![0; cells];
                    cells[..2].copy_from_slice(&numbers);
                    Channel { width, mask, weights, cells }
                }

                /// Row y of a plane of packed rows, from what `value` gives for each pixel. The reference row of column x
                /// is row x of `references`.
                #[inline(always)]
                pub fn row(
                    &mut self,
                    tree: &FlatTree,
                    references: &Image<i32>,
                    plane: &mut [i32],
                    y: usize,
                    mut value: impl FnMut(Asked) -> i32,
                ) {
                    let Channel { width, mask, weights, cells } = self;
                    let (width, mask) = (*width, *mask);
                    let (above, row) = plane.split_at_mut(y * width);
                    let row = &mut row[..width];
                    let back = |n: usize| if y < n { &[][..] } else { &above[(y - n) * width..][..width] };
                    let (top, toptop) = (back(1), back(2));
                    for x in 0..width {
                        let data = PredictionData::get_rows(row, top, toptop, x, y);
                        let state = weights.as_mut();
                        let result =
                            predict_flat(&tree.0, data, width, state, x, y, references, cells, mask);
                        row[x] = value(Asked { x, result, cells, weights: weights.as_ref() });
                        if let Some(state) = weights {
                            state.update_errors(row[x], (x, y), width);
                        }
                    }
                }
            }

            impl TreeNode {
                /// Of five words in document 01's form.
                pub fn of(&[first, second, third, fourth, fifth]: &[i32; 5]) -> Self {
                    if first >= 0 {
                        let property = first.try_into().unwrap();
                        TreeNode::Split { property, val: second, left: third as u32, right: fourth as u32 }
                    } else {
                        let predictor = Predictor::try_from(second as u32).unwrap();
                        let (multiplier, id) = (fourth as u32, fifth as u32);
                        TreeNode::Leaf { predictor, offset: third, multiplier, id }
                    }
                }

                pub fn words(&self) -> [i32; 5] {
                    match *self {
                        TreeNode::Split { property, val, left, right } => {
                            [property as i32, val, left as i32, right as i32, 0]
                        }
                        TreeNode::Leaf { predictor, offset, multiplier, id } => {
                            [-1, predictor as i32, offset, multiplier as i32, id as i32]
                        }
                    }
                }
            }
        }

        /// The plane alone; the decoder's own channel knows more of its place in the picture.
        pub struct ModularChannel {
            pub data: Image<i32>,
        }

        pub mod transforms {
            /// An enum, and all of it in the order of document 01's numbers.
            macro_rules! numbered {
                ($name:ident, $all:ident: $($case:ident),*) => {
                    #[derive(Clone, Copy, Debug, PartialEq)]
                    pub enum $name { $($case),* }
                    pub const $all: &[$name] = &[$($name::$case),*];
                };
            }

            numbered!(RctOp, OPERATIONS: Noop, AddFirstToThird, AddFirstToSecond, AddFirstToSecondAndThird,
                AddAvgToSecond, AddFirstToThirdAndAvgToSecond, YCoCg);
            numbered!(RctPermutation, ORDERS: Rgb, Gbr, Brg, Rbg, Grb, Bgr);
        }
    }
}

pub mod predict {
    include!("../target/oracle/decoder/frame/modular/predict.rs");

    // The rest is the oracle's own.

    /// A door to a function that only this module sees.
    #[inline(always)]
    pub fn private_error_weight(x: u32, maxweight: u32) -> u32 {
        error_weight(x, maxweight)
    }

    impl PredictionData {
        /// The seven words in the order of the struct, which is the library's too.
        pub fn words(self) -> [i32; 7] {
            let Self { left, top, toptop, topleft, topright, leftleft, toprightright } = self;
            [left, top, toptop, topleft, topright, leftleft, toprightright]
        }

        /// Of the first seven words.
        #[inline(always)]
        pub fn of(words: &[i32]) -> Self {
            let &[left, top, toptop, topleft, topright, leftleft, toprightright] = &words[..7] else {
                unreachable!()
            };
            Self { left, top, toptop, topleft, topright, leftleft, toprightright }
        }
    }

    // What only this module sees of the state, in the library's order.
    impl WeightedPredictorState {
        /// Equal ones on this memory, so that one can be asked beforehand.
        pub fn alike<const N: usize>(
            header: &WeightedHeader,
            width: usize,
            memory: &[[u32; 5]],
        ) -> [Self; N] {
            [(); N].map(|_| {
                let mut state = Self::new(header, width).unwrap();
                state.fill(memory);
                state
            })
        }

        /// The four sub-predictions and what they blend to.
        #[inline(always)]
        pub fn found(&self) -> [i64; 5] {
            let [p0, p1, p2, p3] = self.prediction;
            [p0, p1, p2, p3, self.pred]
        }

        /// As if an ask had found these.
        pub fn find(&mut self, [p0, p1, p2, p3, pred]: [i64; 5]) {
            self.prediction = [p0, p1, p2, p3];
            self.pred = pred;
        }

        /// The five words of a position: its error, its four sums.
        #[inline(always)]
        pub fn position(&self, k: usize) -> [u32; 5] {
            let [e0, e1, e2, e3] = self.pred_errors_buffer[k];
            [self.error[k] as u32, e0, e1, e2, e3]
        }

        #[inline(always)]
        pub fn positions(&self) -> impl Iterator<Item = [u32; 5]> {
            (0..self.error.len()).map(|k| self.position(k))
        }

        /// The words become these; what is carried from the last put stays, and a new state carries nothing.
        pub fn fill(&mut self, positions: &[[u32; 5]]) {
            assert_eq!(positions.len(), self.error.len());
            for (k, &[error, ref sums @ ..]) in positions.iter().enumerate() {
                self.error[k] = error as i32;
                self.pred_errors_buffer[k] = *sums;
            }
        }
    }
}

pub mod rct {
    include!("../target/oracle/decoder/frame/modular/transforms/rct.rs");

    // The rest is the oracle's own.

    pub use crate::frame::modular::transforms::{OPERATIONS, ORDERS};

    /// Every operation in every order, by their numbers.
    pub fn steps() -> impl Iterator<Item = (u32, u32)> {
        (0..7).flat_map(|operation| (0..6).map(move |order| (operation, order)))
    }

    /// What becomes of three planes of packed rows of one size.
    pub fn restored(
        planes: [&[i32]; 3],
        size: (usize, usize),
        operation: u32,
        order: u32,
    ) -> [Vec<i32>; 3] {
        let mut channels = planes.map(|p| ModularChannel { data: Image::of(size, p.to_vec()) });
        let (operation, order) = (OPERATIONS[operation as usize], ORDERS[order as usize]);
        do_rct_step(&mut channels.each_mut(), operation, order);
        channels.map(|mut channel| channel.data.cells().to_vec())
    }
}
