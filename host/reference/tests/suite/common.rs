//! Helpers shared by the tests.

use reference::{Answer, Parameters};
pub use vectors::pieces::{bits, plain, subband_bytes};
pub use vectors::random::Random;
pub use vectors::runs::{run_decode, run_low_delay, run_synthesise, run_unpack};
pub use vectors::slices::{slice_bytes, sliced, uniform_slices};

/// The same parameters with these codeblock counts at one level.
pub fn with_codeblocks(p: &Parameters, level: usize, across: u32, down: u32) -> Parameters {
    let mut p = p.clone();
    p.codeblocks_across[level] = across;
    p.codeblocks_down[level] = down;
    p
}

/// A status and a place.
pub fn answer(status: u32, place: u64) -> Answer {
    Answer { status, place }
}
