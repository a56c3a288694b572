//! At which quantiser indices FFmpeg's samples show that a component that is not intra has an offset of
//! its own.

use crate::eligibility::{synthesise, Expected};
use crate::setting::{Setting, Shown};
use reference::params::{padded_width, Parameters, Subband};
use reference::unpack::{dequantise, quantiser_factor};
use std::collections::BTreeSet;
use vectors::headers::{headers, Header};

/// The quantiser indices of an accepted component that is not intra, but for those known already, at which
/// the intra offset would change a sample that FFmpeg shows.
pub fn told_apart(
    p: &Parameters,
    setting: Setting,
    body: &[u8],
    expected: &Expected,
    known: &BTreeSet<u32>,
) -> Vec<u32> {
    let mut indices = Vec::new();
    for Header { band, index, .. } in headers(p, body).expect("an accepted body") {
        let index = index.map(|index| index as u32);
        let Some(index) = index.filter(|index| !known.contains(index)) else {
            continue;
        };
        let coefficients = with_intra_offset(p, &band, index, &expected.coefficients);
        if coefficients != expected.coefficients && are_others(p, setting, &coefficients, expected)
        {
            indices.push(index);
        }
    }
    indices
}

/// Whether a sample that FFmpeg shows would be another with these coefficients. Where FFmpeg has no room
/// for them, no one knows.
fn are_others(p: &Parameters, setting: Setting, coefficients: &[i32], expected: &Expected) -> bool {
    synthesise(p, setting, coefficients).is_ok_and(|samples| {
        let others = setting.shown(p, &samples);
        let mut pairs = expected.shown.iter().zip(&others);
        pairs.any(|(shown, other)| matches!(shown, Shown::Whole(_)) && shown != other)
    })
}

/// A coefficient plane that is not intra, but for one subband, which has the intra offset.
fn with_intra_offset(p: &Parameters, band: &Subband, index: u32, coefficients: &[i32]) -> Vec<i32> {
    let row_width = padded_width(p);
    let mut plane = coefficients.to_vec();
    for y in band.top..band.top + band.height {
        for coefficient in &mut plane[y * row_width + band.left..][..band.width] {
            // The number that was read: the offset is at least 1, and with 2 added still below the factor. So
            // 4 times the value reaches the number times the factor, and not a factor more.
            let number = 4 * i64::from(*coefficient) / quantiser_factor(index);
            *coefficient = dequantise(number, index, true) as i32;
        }
    }
    plane
}
