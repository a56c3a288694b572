//! Tests of the stored vectors, recordings and factors: that they are those of the reference, and that the
//! first two reach what they are made for.

mod command;
mod common;
mod difference_recordings;
mod factors;
mod ffmpeg_recordings;
mod low_delay_vectors;
mod offsets;
mod recording_vectors;
mod samples;
mod synthesis_vectors;
mod unpack_vectors;
