//! The table of quantiser factors that the proved unpacker stores, as the source file that has it; and which
//! numbers would show that a factor is wrong.
//!
//! Every factor comes from [`quantiser_factor`], the reference's reading of document 01's formulas.

use reference::params::MAX_QUANTISER;
use reference::unpack::{quantiser_factor, quantiser_offset, scaled};

/// What the file says of itself.
const HEAD: &str = "\
// Document 02, request Two: the factor of each quantiser index. Nobody edits this file: in host/,
// `cargo run -p vectors -- factors ../crates/coefficients/src/factors.rt` writes it from document 01's formulas, and a test compares it.
";

/// `crates/coefficients/src/factors.rt`.
pub fn factors() -> String {
    let entries: Vec<String> = (0..=MAX_QUANTISER as u32)
        .map(|index| format!("    {}, // {index}\n", quantiser_factor(index)))
        .collect();
    format!(
        "{HEAD}pub const FACTORS: [u32; {}] = [\n{}];\n",
        entries.len(),
        entries.concat()
    )
}

/// Whether a number becomes another value if the factor of an index is one less, and also if it is one more, in
/// a picture that is intra or isn't. The offset is the right factor's; one made of the wrong factor would take
/// the value no nearer.
pub fn shows_factor(number: i64, index: u32, intra: bool) -> bool {
    let factor = quantiser_factor(index);
    let value = |factor| scaled(number, factor, quantiser_offset(index, intra));
    value(factor - 1) != value(factor) && value(factor) != value(factor + 1)
}
