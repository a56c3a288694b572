//! The comparison of low delay cases, and what it counts.

use super::case::LowDelayCase;
use super::eligibility::check_slices;
use super::LowDelayPicture;
use crate::compare::{check_count, judge, Counts, Difference};
use crate::eligibility::{expected_without_codeblocks, Aside, Expected};
use crate::proved::Decoded;
use crate::setting::Setting;
use crate::stream::{ChromaFormat, COMPONENTS};
use crate::{peer, proved};
use std::collections::BTreeSet;
use std::fmt;

/// How components fared, and what was compared of slices.
#[derive(Clone, Debug, Default, PartialEq, Eq)]
pub struct LowDelayCounts {
    pub components: Counts,
    /// Of those compared, those of each chroma format.
    pub chroma_formats: [u64; ChromaFormat::ALL.len()],
    /// The pictures all of whose components were compared.
    pub pictures: u64,
    /// Their slices.
    pub slices: u64,
    /// The indices of these.
    pub indices: BTreeSet<u32>,
}

impl fmt::Display for LowDelayCounts {
    fn fmt(&self, f: &mut fmt::Formatter) -> fmt::Result {
        write!(f, "{}", self.components)?;
        let formats = ChromaFormat::ALL.iter().zip(self.chroma_formats);
        let formats: Vec<String> = formats
            .map(|(format, count)| format!("{}: {count}", format.name()))
            .collect();
        writeln!(f, "compared of {}", formats.join(", "))?;
        writeln!(
            f,
            "compared in all components: {} pictures, {} slices of {} indices",
            self.pictures,
            self.slices,
            self.indices.len()
        )
    }
}

/// Has FFmpeg and the proved library decode a case and compares; adds to the counts, and gives the
/// differences. An error is FFmpeg's failure to give the pictures.
pub fn compare(
    case: &LowDelayCase,
    counts: &mut LowDelayCounts,
) -> Result<Vec<Difference>, String> {
    let found = peer::decode(&case.dirac_stream(), case.format, case.simd)?;
    compare_with(case, &found, counts)
}

/// The same, with the pictures that FFmpeg gave.
pub fn compare_with(
    case: &LowDelayCase,
    found: &[[Vec<i32>; COMPONENTS]],
    counts: &mut LowDelayCounts,
) -> Result<Vec<Difference>, String> {
    check_count(found.len(), case.pictures.len())?;
    let mut differences = Vec::new();
    for (number, (picture, found)) in case.pictures.iter().zip(found).enumerate() {
        let before = counts.components.compared();
        for (component, what) in compare_picture(picture, case.setting(), found, counts) {
            differences.push(Difference {
                seed: case.seed,
                picture: number,
                component,
                parameters: format!("wavelet {}, {:?}", picture.wavelet, picture.parameters),
                setting: case.setting(),
                what,
            });
        }
        let compared = counts.components.compared() - before;
        counts.chroma_formats[case.format.chroma as usize] += compared;
        if compared == COMPONENTS as u64 {
            let indices = picture.indices();
            counts.pictures += 1;
            counts.slices += indices.len() as u64;
            counts.indices.extend(indices);
        }
    }
    Ok(differences)
}

/// Compares the components of a picture with what FFmpeg made of them; says which differ, and where.
pub(crate) fn compare_picture(
    picture: &LowDelayPicture,
    setting: Setting,
    found: &[Vec<i32>; COMPONENTS],
    counts: &mut LowDelayCounts,
) -> Vec<(usize, String)> {
    let components = picture.components();
    let expected = expected_components(picture, setting);
    (0..COMPONENTS)
        .filter_map(|k| {
            let counts = &mut counts.components;
            let what = judge(&components[k], setting, &expected[k], &found[k], counts)?;
            Some((k, what))
        })
        .collect()
}

/// What is expected of FFmpeg for each component of a picture, or why it is not eligible.
pub fn expected_components(
    picture: &LowDelayPicture,
    setting: Setting,
) -> [Result<Expected, Aside>; COMPONENTS] {
    let components = picture.components();
    let Ok(planes) = proved::unpack_picture(picture) else {
        return [0; COMPONENTS].map(|_| Err(Aside::Refused));
    };
    let slices = check_slices(picture);
    let mut planes = planes.into_iter();
    [0, 1, 2].map(|k| {
        let coefficients = planes.next().expect("a plane for each component");
        slices[k]?;
        let samples =
            proved::synthesise(&components[k], &coefficients).map_err(|_| Aside::Refused)?;
        let decoded = Decoded {
            coefficients,
            samples,
        };
        expected_without_codeblocks(&components[k], setting, decoded)
    })
}
