//! A safe interface to the proved decoder of Dirac wavelet pictures.
//!
//! The decoder works on one component at a time, of an intra picture or of a difference picture: core
//! syntax with variable-length codes, one quantiser for each subband, skipped codeblocks, intra DC
//! prediction, the inverse transform and the removal of padding; or it unpacks the three components of a
//! picture of low delay slices. There are four jobs: [`unpack`] makes coefficients of bytes, [`synthesise`]
//! makes samples of coefficients, [`decode`] does both; [`unpack_low_delay`] makes the coefficients of luma
//! and of both chroma components of slices, and [`synthesise`] then makes samples of each.
//!
//! Data are planes of `i32` that the caller provides. A coefficient or work plane needs exactly
//! [`Parameters::padded_area`] entries ([`LowDelay::padded_areas`] of a picture), a sample plane exactly
//! [`Parameters::sample_area`]; what they hold before the call doesn't matter.
//!
//! ```
//! use kafsillun::{decode, Parameters};
//!
//! # fn main() -> Result<(), kafsillun::Error> {
//! let p = Parameters { depth: 1, wavelet: 3, intra: true, ..Parameters::new(2, 2) };
//! let bytes = [0x30, 0x16, 0x30, 0x18, 0x30, 0x70, 0x30, 0x20];
//! let mut coefficients = vec![0; p.padded_area()?];
//! let mut work = vec![0; p.padded_area()?];
//! let mut samples = vec![0; p.sample_area()?];
//! let used = decode(&p, &bytes, &mut coefficients, &mut work, &mut samples)?;
//! assert_eq!(used, bytes.len()); // else some are left over
//! assert_eq!(coefficients, [10, 4, -2, 1]);
//! assert_eq!(samples, [9, 12, 7, 11]);
//! # Ok(())
//! # }
//! ```
//!
//! # Refusals
//!
//! A job refuses whatever it can't decode, with an [`Error`] that has the number, the place and a
//! message. What the planes hold afterwards is defined for every input:
//!
//! | Answer | Coefficients | Work | Samples |
//! |---|---|---|---|
//! | accepted | as unpacked | zeros | as synthesised |
//! | refused 1 to 5 or 13 | unchanged | unchanged | unchanged |
//! | refused 6 to 10 or 14 | zeros | zeros | zeros |
//!
//! This is about the planes a job may write: [`synthesise`] never changes the coefficients.
//!
//! Bytes left over are no fault of a component or a picture: [`unpack`], [`decode`] and
//! [`unpack_low_delay`] give the number of bytes used, and the caller knows how many there should be. The program that decodes recordings refuses a body
//! that is not used to its end, as 12.
//!
//! The library has no state, so threads may run jobs at once. A job needs some 32 KiB of stack,
//! [`unpack_low_delay`] some 56 KiB.

#![warn(missing_docs)]

mod error;
mod foreign;
mod low_delay;
mod parameters;

pub use error::{Error, Refusal};
pub use low_delay::LowDelay;
pub use parameters::Parameters;

/// Unpacks bytes to coefficients and gives the number of bytes used; those after them are not looked
/// at. Refuses with 1, 2, 4, 5 or 6 to 9.
///
/// ```
/// use kafsillun::{unpack, Parameters};
///
/// // One subband: 2 bytes of data, quantiser index 4, then the numbers 1, -2 and 3.
/// let mut coefficients = [0; 3];
/// let bytes = [0b011_00011, 0b0010_0111, 0b000010_00, 0xFF];
/// assert_eq!(unpack(&Parameters::new(3, 1), &bytes, &mut coefficients), Ok(3));
/// assert_eq!(coefficients, [3, -5, 7]);
///
/// // The number 1 at index 12, in an intra picture and in a difference picture.
/// for (intra, value) in [(true, 12), (false, 11)] {
///     let p = Parameters { intra, ..Parameters::new(1, 1) };
///     let bytes = [0b001_01000, 0b11_000000, 0b0010_0000];
///     assert_eq!(unpack(&p, &bytes, &mut coefficients[..1]), Ok(3));
///     assert_eq!(coefficients[0], value);
/// }
/// ```
pub fn unpack(p: &Parameters, bytes: &[u8], coefficients: &mut [i32]) -> Result<usize, Error> {
    // SAFETY: each pointer and length are of one slice, and the slices are apart.
    bytes_used(unsafe {
        foreign::kafsillun_unpack(
            p.to_foreign(),
            bytes.as_ptr(),
            bytes.len(),
            coefficients.as_mut_ptr(),
            coefficients.len(),
        )
    })
}

/// Synthesises samples from coefficients, and leaves zeros in the work plane. Refuses with 1, 2, 3, 5
/// or 10.
///
/// ```
/// use kafsillun::{synthesise, Parameters};
///
/// let p = Parameters { depth: 1, wavelet: 3, ..Parameters::new(2, 2) };
/// let (mut work, mut samples) = ([0; 4], [0; 4]);
/// assert_eq!(synthesise(&p, &[10, 4, -2, 1], &mut work, &mut samples), Ok(()));
/// assert_eq!(samples, [9, 12, 7, 11]);
/// ```
pub fn synthesise(
    p: &Parameters,
    coefficients: &[i32],
    work: &mut [i32],
    samples: &mut [i32],
) -> Result<(), Error> {
    // SAFETY: each pointer and length are of one slice, and the slices are apart.
    let used = bytes_used(unsafe {
        foreign::kafsillun_synthesise(
            p.to_foreign(),
            coefficients.as_ptr(),
            coefficients.len(),
            work.as_mut_ptr(),
            work.len(),
            samples.as_mut_ptr(),
            samples.len(),
        )
    })?;
    assert_eq!(used, 0, "synthesise reads no bytes");
    Ok(())
}

/// Unpacks bytes to coefficients, synthesises samples from them, and gives the number of bytes used;
/// those after them are not looked at. Leaves zeros in the work plane. Refuses with 1 to 10.
///
/// The crate's documentation has an example.
pub fn decode(
    p: &Parameters,
    bytes: &[u8],
    coefficients: &mut [i32],
    work: &mut [i32],
    samples: &mut [i32],
) -> Result<usize, Error> {
    // SAFETY: each pointer and length are of one slice, and the slices are apart.
    bytes_used(unsafe {
        foreign::kafsillun_decode(
            p.to_foreign(),
            bytes.as_ptr(),
            bytes.len(),
            coefficients.as_mut_ptr(),
            coefficients.len(),
            work.as_mut_ptr(),
            work.len(),
            samples.as_mut_ptr(),
            samples.len(),
        )
    })
}

/// Unpacks the slices of a picture to the coefficients of luma, C1 and C2, and gives the number of bytes
/// used; those after them are not looked at. Refuses with 1, 2, 5 to 9, 13 or 14; then all three planes are
/// unchanged, or all three are zeros.
///
/// ```
/// use kafsillun::{synthesise, unpack_low_delay, LowDelay};
///
/// # fn main() -> Result<(), kafsillun::Error> {
/// // Two slices side by side, of 4 and 5 bytes.
/// let p = LowDelay {
///     depth: 1,
///     intra: true,
///     slices_across: 2,
///     numerator: 9,
///     denominator: 2,
///     matrix: [2, 0, 0, 1, 0, 0, 0, 0, 0, 0, 0, 0, 0],
///     ..LowDelay::new((4, 2), (2, 2))
/// };
/// let bytes = [0x08, 0xF0, 0x8E, 0x5F, 0x04, 0x53, 0xCA, 0x47, 0x6F];
/// let [mut luma, mut first, mut second] = p.padded_areas()?.map(|area| vec![0; area]);
/// let used = unpack_low_delay(&p, &bytes, &mut luma, &mut first, &mut second)?;
/// assert_eq!(used, bytes.len()); // else some are left over
/// assert_eq!(luma, [5, 3, -3, 0, 0, 2, 3, 0]);
/// assert_eq!(first, [1, 0, 0, 0]);
/// assert_eq!(second, [-1, 4, 0, 0]);
///
/// // The samples of each component, by wavelet 3, which the sender states elsewhere.
/// let components = [
///     (p.luma(3), luma, vec![7, 2, 2, 2, 6, 4, 4, 4]),
///     (p.chroma(3), first, vec![1, 1, 1, 1]),
///     (p.chroma(3), second, vec![-3, 1, -3, 1]),
/// ];
/// for (component, coefficients, expected) in components {
///     let mut work = vec![0; component.padded_area()?];
///     let mut samples = vec![0; component.sample_area()?];
///     synthesise(&component, &coefficients, &mut work, &mut samples)?;
///     assert_eq!(samples, expected);
/// }
/// # Ok(())
/// # }
/// ```
pub fn unpack_low_delay(
    p: &LowDelay,
    bytes: &[u8],
    luma: &mut [i32],
    first_chroma: &mut [i32],
    second_chroma: &mut [i32],
) -> Result<usize, Error> {
    // SAFETY: each pointer and length are of one slice, and the slices are apart.
    let answer = unsafe {
        foreign::kafsillun_unpack_low_delay(
            p.to_foreign(),
            bytes.as_ptr(),
            bytes.len(),
            luma.as_mut_ptr(),
            luma.len(),
            first_chroma.as_mut_ptr(),
            first_chroma.len(),
            second_chroma.as_mut_ptr(),
            second_chroma.len(),
        )
    };
    used_or_refused(answer, |refusal, place| {
        Error::of_slices(refusal, place, p.slice_count())
    })
}

/// An acceptance's bytes used, or the refusal, of a job on one component.
fn bytes_used(answer: foreign::Answer) -> Result<usize, Error> {
    used_or_refused(answer, Error::new)
}

/// An acceptance's bytes used, or the error of a refusal and its place.
fn used_or_refused(
    answer: foreign::Answer,
    error: impl Fn(Refusal, usize) -> Error,
) -> Result<usize, Error> {
    if answer.status == 0 {
        return Ok(answer.place);
    }
    match Refusal::from_number(answer.status) {
        Some(refusal) => Err(error(refusal, answer.place)),
        None => panic!(
            "the library gave a status that it hasn't: {}",
            answer.status
        ),
    }
}
