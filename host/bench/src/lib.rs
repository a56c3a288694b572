//! Measures the proved decoder beside the reference decoder and libavcodec.
//!
//! [`components`] lists the components and makes them from a [`picture`]; [`decoders`] checks that all
//! decoders agree on one and times them in turn, by [`timing`] and [`clock`]; [`codeblocks`] times many
//! codeblocks, [`exact`] synthesise on large numbers, [`refusals`] calls that are refused, [`slices`] low delay
//! pictures. [`tables`] says
//! which table has what, [`report`] writes them. [`instructions`] counts instructions under valgrind.
//! [`libavcodec`] is there only where FFmpeg's libraries were found when this was built.

pub mod clock;
pub mod codeblocks;
pub mod components;
pub mod decoders;
pub mod exact;
pub mod instructions;
pub mod libavcodec;
pub mod picture;
pub mod refusals;
pub mod report;
pub mod slices;
pub mod tables;
pub mod timing;
