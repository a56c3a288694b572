//! Chooses the stored jobs and recordings, and has the reference decoder answer them; and writes the stored
//! table of quantiser factors.
//!
//! The reference was written from the papers alone. What is here was written with the proved code in
//! sight, so as to reach every case and every border of it; but what is here of low delay slices was written from
//! the papers too. So it is a crate of its own, and every answer comes from the reference.
//!
//! [`mod@synthesis_vectors`], [`mod@unpack_vectors`] and [`mod@low_delay_vectors`] make the stored jobs of the
//! three proved programs of these names, [`recording_vectors`] (with [`mod@difference_recordings`],
//! [`mod@refused_recordings`], [`mod@left_over_recordings`] and [`wrong_tables`]) and [`mod@samples`] the stored
//! recordings. They share the generator [`random`], the [`pieces`] of bodies and of [`slices`], [`pictures`],
//! [`levels`] of synthesis and [`runs`] of the jobs. [`mod@factors`] has the table that the proved code reads
//! factors from, [`offsets`] the numbers that show an offset, [`mod@headers`] what the headers of a body state.
//! [`command_line`] is what all commands above the reference read theirs with.

pub mod command_line;
pub mod difference_recordings;
pub mod factors;
pub mod headers;
pub mod left_over_recordings;
pub mod levels;
pub mod low_delay_vectors;
mod offset_jobs;
pub mod offsets;
pub mod pictures;
pub mod pieces;
pub mod random;
pub mod recording_vectors;
pub mod refused_recordings;
pub mod runs;
pub mod samples;
mod slice_jobs;
pub mod slices;
pub mod synthesis_vectors;
pub mod unpack_vectors;
pub mod wrong_tables;

/// The input of a proved program, and the output that is expected of it.
pub struct Vectors {
    pub input: Vec<u8>,
    pub output: String,
}

impl Vectors {
    /// The input and the output of these jobs, one after the other.
    fn of<Job>(jobs: &[Job], input: fn(&Job) -> Vec<u8>, output: fn(&Job) -> String) -> Vectors {
        Vectors {
            input: jobs.iter().flat_map(input).collect(),
            output: jobs.iter().map(output).collect(),
        }
    }
}
