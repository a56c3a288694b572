//! Low delay pictures that FFmpeg confirmed, in files.
//!
//! A file of pictures has for each its wavelet in one byte and the job of unpacking it, in the form of
//! [`vectors::low_delay_vectors`]. The text beside it has for each a line that names it, and a line with the
//! samples of each component:
//!
//! ```text
//! WxH chroma WxH depth D wavelet W slices AxD of N/D bytes N
//! 1 -2 3
//! 4
//! 5
//! ```

use super::case::LowDelayCase;
use super::compare::{compare_picture, expected_components, LowDelayCounts};
use super::LowDelayPicture;
use crate::eligibility::{Aside, Expected};
use crate::peer;
use crate::setting::Setting;
use crate::stream::{ChromaFormat, COMPONENTS};
use vectors::low_delay_vectors::{job, job_bytes, read_job};

/// How many pictures a file has.
pub const PICTURES_OF_FILE: usize = 12;

/// The most luma samples of a picture in a file.
const MOST_SAMPLES: u32 = 3000;

/// The least slices of a picture in a file.
const LEAST_SLICES: usize = 4;

/// The name of the file of a chroma format, without its ending.
pub fn file_name(chroma: ChromaFormat) -> String {
    chroma.name().replace(':', "")
}

/// A picture as it stands in a file.
pub fn picture_bytes(picture: &LowDelayPicture) -> Vec<u8> {
    let mut bytes = vec![picture.wavelet as u8];
    bytes.extend(job_bytes(&job(&picture.parameters, picture.bytes.clone())));
    bytes
}

/// The pictures of a file, or none where it is no such file.
pub fn read_pictures(mut file: &[u8]) -> Option<Vec<LowDelayPicture>> {
    let mut pictures = Vec::new();
    while let [wavelet, rest @ ..] = file {
        let (job, rest) = read_job(rest)?;
        pictures.push(LowDelayPicture {
            parameters: job.parameters,
            wavelet: (*wavelet).into(),
            bytes: job.bytes,
        });
        file = rest;
    }
    Some(pictures)
}

/// What stands in the text for a picture of these samples.
pub fn picture_text(picture: &LowDelayPicture, samples: &[Vec<i32>; COMPONENTS]) -> String {
    let p = &picture.parameters;
    let sizes = &p.picture;
    let mut text = format!(
        "{}x{} chroma {}x{} depth {} wavelet {} slices {}x{} of {}/{} bytes {}\n",
        sizes.luma_width,
        sizes.luma_height,
        sizes.chroma_width,
        sizes.chroma_height,
        sizes.depth,
        picture.wavelet,
        sizes.slices_across,
        sizes.slices_down,
        p.numerator,
        p.denominator,
        picture.bytes.len(),
    );
    for component in samples {
        let numbers: Vec<String> = component.iter().map(i32::to_string).collect();
        text.push_str(&(numbers.join(" ") + "\n"));
    }
    text
}

/// The samples of a picture, if it has slices enough, and FFmpeg gave them all and clipped none.
fn confirmed_samples(
    picture: &LowDelayPicture,
    setting: Setting,
    found: &[Vec<i32>; COMPONENTS],
) -> Option<[Vec<i32>; COMPONENTS]> {
    if picture.parameters.slice_count() < LEAST_SLICES {
        return None;
    }
    let mut counts = LowDelayCounts::default();
    let differences = compare_picture(picture, setting, found, &mut counts);
    if !differences.is_empty() || counts.components.whole < COMPONENTS as u64 {
        return None;
    }
    let [luma, first, second] = expected_components(picture, setting);
    let own = |component: Result<Expected, Aside>| {
        component
            .ok()
            .filter(|expected| expected.proved)
            .map(|expected| expected.samples)
    };
    Some([own(luma)?, own(first)?, own(second)?])
}

/// The file of a chroma format and its text: the first picture that FFmpeg confirms of each seed from a first
/// one on. An error is FFmpeg's failure to give pictures.
pub fn confirmed_pictures(
    chroma: ChromaFormat,
    first_seed: u64,
) -> Result<(Vec<u8>, String), String> {
    let (mut file, mut text) = (Vec::new(), String::new());
    let mut count = 0;
    for seed in first_seed.. {
        let case = LowDelayCase::from_seed(seed);
        let format = case.format;
        if format.chroma != chroma || format.width * format.height > MOST_SAMPLES {
            continue;
        }
        let found = peer::decode(&case.dirac_stream(), format, case.simd)?;
        let mut pairs = case.pictures.iter().zip(&found);
        let confirmed = pairs.find_map(|(picture, found)| {
            let samples = confirmed_samples(picture, case.setting(), found)?;
            Some((picture, samples))
        });
        let Some((picture, samples)) = confirmed else {
            continue;
        };
        file.extend(picture_bytes(picture));
        text.push_str(&picture_text(picture, &samples));
        count += 1;
        if count == PICTURES_OF_FILE {
            break;
        }
    }
    Ok((file, text))
}
