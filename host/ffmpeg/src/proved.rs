//! The proved library, called with the reference's parameters.

use crate::low_delay::LowDelayPicture;
use crate::stream::COMPONENTS;
use compare::{proved_parameters, proved_slices};
use kafsillun::Error;
use reference::params::{padded_area, sample_area};
use reference::{LowDelay, Parameters};

/// What the proved library makes of a body.
pub struct Decoded {
    pub coefficients: Vec<i32>,
    pub samples: Vec<i32>,
}

/// Decodes a body in the proved library; the size and depth must be in range.
pub fn decode(p: &Parameters, body: &[u8]) -> Result<Decoded, Error> {
    let mut coefficients = vec![0; padded_area(p)];
    let mut work = vec![0; padded_area(p)];
    let mut samples = vec![0; sample_area(p)];
    kafsillun::decode(
        &proved_parameters(p),
        body,
        &mut coefficients,
        &mut work,
        &mut samples,
    )?;
    Ok(Decoded {
        coefficients,
        samples,
    })
}

/// Unpacks the slices of a picture in the proved library to the planes of luma, C1 and C2; answers the bytes
/// used, or the number of its refusal.
pub fn unpack_low_delay(
    p: &LowDelay,
    bytes: &[u8],
    [luma, first_chroma, second_chroma]: [&mut [i32]; COMPONENTS],
) -> Result<usize, u32> {
    kafsillun::unpack_low_delay(&proved_slices(p), bytes, luma, first_chroma, second_chroma)
        .map_err(|error| error.number())
}

/// The coefficients of a low delay picture's components; the sizes and the depth must be in range.
pub fn unpack_picture(picture: &LowDelayPicture) -> Result<[Vec<i32>; COMPONENTS], u32> {
    let mut planes = picture
        .components()
        .map(|component| vec![0; padded_area(&component)]);
    let lent = planes.each_mut().map(Vec::as_mut_slice);
    unpack_low_delay(&picture.parameters, &picture.bytes, lent)?;
    Ok(planes)
}

/// The samples that the proved library makes of a component's coefficients; the size and depth must be in range.
pub fn synthesise(p: &Parameters, coefficients: &[i32]) -> Result<Vec<i32>, Error> {
    let mut work = vec![0; padded_area(p)];
    let mut samples = vec![0; sample_area(p)];
    kafsillun::synthesise(&proved_parameters(p), coefficients, &mut work, &mut samples)?;
    Ok(samples)
}
