//! Wraps bodies into Dirac streams and compares the proved decoder with FFmpeg's.
//!
//! [`stream`] writes Dirac streams. A [`case::Case`] is a stream's worth of pictures; its seed names
//! it. [`peer`] has the `ffmpeg` command decode a stream. [`setting`] tells what it shows of samples,
//! [`eligibility`] which components its samples can confirm, and which samples are expected there, and
//! [`offsets`] where these show the offset of pictures that are not intra. [`compare`] puts it all together
//! and counts. [`low_delay`] does the same for low delay pictures.

pub mod case;
pub mod compare;
pub mod eligibility;
pub mod low_delay;
pub mod offsets;
pub mod peer;
pub mod proved;
pub mod setting;
pub mod stream;
