//! Tests that need no FFmpeg.

mod comparison;
mod eligibility;
mod generator;
mod low_delay;
mod offsets;
mod setting;
mod stored;
mod streams;
