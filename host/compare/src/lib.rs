//! Compares the proved library with the reference decoder on a great many inputs.
//!
//! A [`Case`] is one component with everything that the three jobs are given; its seed names it.
//! [`check()`] runs the jobs in a decoder and the reference and compares status, place, every entry of
//! every plane and the memory around them. [`Statistics`] tells what the cases reached.
//! [`mod@round_trip`] has the proved library undo the reference's analysis. A [`LowDelayCase`] is one picture
//! of low delay slices; [`check_low_delay`] unpacks it in a decoder and the reference, [`LowDelayStatistics`]
//! tells what the pictures reached. A [`Recording`] is a file for the proved program; [`check_recording`] has it read and compares what is written,
//! [`RecordingStatistics`] tells what the entries reached. [`mod@work`] does any of these for a range of
//! seeds, on threads.

mod bodies;
mod borders;
mod case;
mod check;
mod guarded;
mod lines;
mod low_delay;
mod parameters;
mod planes;
mod program;
mod recording_statistics;
mod recordings;
mod rectangles;
pub mod round_trip;
mod scale;
mod statistics;
pub mod work;

pub use case::{Case, Kind};
pub use check::{
    check, proved, proved_parameters, reference, results, Answers, Buffers, Decoder, Difference,
    Job, Outcome,
};
pub use low_delay::{
    check_low_delay, low_delay_result, proved_low_delay, proved_slices, reference_low_delay,
    slice_headers, LowDelayCase, LowDelayDecoder, LowDelayKind, LowDelayStatistics, SliceHeader,
};
pub use planes::{plane_of_kind, safe_size, PlaneKind};
pub use program::{first_difference, Program};
pub use recording_statistics::RecordingStatistics;
pub use recordings::{check_recording, unpack_entry, Recording, RecordingKind};
pub use statistics::Statistics;
