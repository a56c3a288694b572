//! The comparison's tests, in one program.

mod agreement;
mod borders;
mod codes;
mod command;
mod factors;
mod fast_paths;
mod fast_rectangles;
mod fences;
mod generator;
mod low_delay;
mod offsets;
mod program;
mod recordings;
mod rectangles;
mod slice_codes;
mod threads;
mod wrong_decoders;
mod wrong_slices;
