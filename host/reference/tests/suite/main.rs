//! Tests of the reference decoder against document 01 and document 02's requests One, Three and Four.

mod command;
mod common;
mod common_mistakes;
mod difference_pictures;
mod filters;
mod left_over_bytes;
mod low_delay;
mod low_delay_encoder;
mod recordings;
mod refusals;
mod round_trips;
mod stated_values;
mod worked_case;
