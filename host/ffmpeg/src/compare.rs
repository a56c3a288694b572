//! The comparison of cases, and what it counts.

use crate::case::{Case, Picture};
use crate::eligibility::{expected_samples, Aside, Expected};
use crate::offsets::told_apart;
use crate::setting::{Setting, Shown};
use crate::stream::{BitDepth, COMPONENTS};
use crate::{peer, proved};
use reference::Parameters;
use std::collections::BTreeSet;
use std::fmt;

/// A difference, with all that names it.
#[derive(Clone, Debug)]
pub struct Difference {
    pub seed: u64,
    pub picture: usize,
    pub component: usize,
    /// All parameters of the picture, as they are printed.
    pub parameters: String,
    pub setting: Setting,
    pub what: String,
}

impl fmt::Display for Difference {
    fn fmt(&self, f: &mut fmt::Formatter) -> fmt::Result {
        write!(
            f,
            "seed {}, picture {}, component {}: {}\n  {}\n  {:?}",
            self.seed, self.picture, self.component, self.what, self.parameters, self.setting
        )
    }
}

/// How components fared.
#[derive(Clone, Debug, Default, PartialEq, Eq)]
pub struct Counts {
    /// Compared in all samples.
    pub whole: u64,
    /// Compared where FFmpeg shows samples and doesn't clip them.
    pub in_part: u64,
    /// Of both, those that are not intra.
    pub not_intra: u64,
    /// The quantiser indices at which these show that their offset is not the intra one.
    pub told_apart: BTreeSet<u32>,
    /// Of both, those that FFmpeg decoded with its SIMD code.
    pub simd: u64,
    /// Of both, those of each bit depth.
    pub bit_depths: [u64; BitDepth::ALL.len()],
    /// Of both, those of each wavelet.
    pub wavelets: [u64; 7],
    /// Of both, those of each depth from 1 up.
    pub depths: [u64; 4],
    /// Samples compared.
    pub samples: u64,
    /// Components that differ.
    pub different: u64,
    /// Set aside, for each reason.
    pub aside: [u64; Aside::ALL.len()],
}

impl Counts {
    /// The components that were compared.
    pub fn compared(&self) -> u64 {
        self.whole + self.in_part
    }

    /// The components that were set aside.
    pub fn set_aside(&self) -> u64 {
        self.aside.iter().sum()
    }

    /// Counts one that was compared.
    fn add(&mut self, p: &Parameters, setting: Setting, expected: &Expected) {
        let samples = expected.samples_shown();
        if samples == expected.samples.len() {
            self.whole += 1;
        } else {
            self.in_part += 1;
        }
        self.not_intra += u64::from(!p.intra);
        self.simd += u64::from(setting.simd);
        self.bit_depths[setting.bit_depth as usize] += 1;
        self.wavelets[p.wavelet as usize] += 1;
        self.depths[p.depth as usize - 1] += 1;
        self.samples += samples as u64;
    }
}

impl fmt::Display for Counts {
    fn fmt(&self, f: &mut fmt::Formatter) -> fmt::Result {
        let compared = self.compared();
        let [eight, ten, twelve] = self.bit_depths;
        writeln!(
            f,
            "compared: {compared} components, {} samples",
            self.samples
        )?;
        writeln!(
            f,
            "  equal: {}, different: {}",
            compared - self.different,
            self.different
        )?;
        writeln!(
            f,
            "  whole: {}, where FFmpeg shows samples unclipped: {}",
            self.whole, self.in_part
        )?;
        writeln!(f, "  intra: {} components", compared - self.not_intra)?;
        if self.not_intra > 0 {
            writeln!(
                f,
                "  not intra: {} components, offsets told apart at {} indices",
                self.not_intra,
                self.told_apart.len()
            )?;
        }
        writeln!(
            f,
            "  with FFmpeg's SIMD code: {}, in plain C: {}",
            self.simd,
            compared - self.simd
        )?;
        writeln!(f, "  8 bits: {eight}, 10 bits: {ten}, 12 bits: {twelve}")?;
        writeln!(
            f,
            "  wavelets 0 to 6: {:?}, the last with FFmpeg's own halving",
            self.wavelets
        )?;
        writeln!(f, "  depths 1 to 4: {:?}", self.depths)?;
        writeln!(f, "set aside: {}", self.set_aside())?;
        for (reason, count) in Aside::ALL.iter().zip(self.aside) {
            if count > 0 {
                writeln!(f, "  {}: {count}", reason.reason())?;
            }
        }
        Ok(())
    }
}

/// Has FFmpeg and the proved library decode a case and compares; adds to the counts, and gives the
/// differences. An error is FFmpeg's failure to give the pictures.
pub fn compare(case: &Case, counts: &mut Counts) -> Result<Vec<Difference>, String> {
    let found = peer::decode(&case.dirac_stream(), case.format(), case.setting.simd)?;
    // The first is the reference picture.
    compare_with(case, found.get(1..).unwrap_or_default(), counts)
}

/// The same, with the pictures that FFmpeg gave after the reference picture.
pub fn compare_with(
    case: &Case,
    found: &[[Vec<i32>; COMPONENTS]],
    counts: &mut Counts,
) -> Result<Vec<Difference>, String> {
    check_count(found.len(), case.pictures.len())?;
    let mut differences = Vec::new();
    for (number, (picture, found)) in case.pictures.iter().zip(found).enumerate() {
        for (component, found) in found.iter().enumerate() {
            if let Some(what) = compare_component(picture, component, case.setting, found, counts) {
                differences.push(Difference {
                    seed: case.seed,
                    picture: number,
                    component,
                    parameters: format!("{:?}", picture.parameters),
                    setting: case.setting,
                    what,
                });
            }
        }
    }
    Ok(differences)
}

/// An error unless FFmpeg gave as many pictures as there are.
pub(crate) fn check_count(found: usize, expected: usize) -> Result<(), String> {
    if found == expected {
        Ok(())
    } else {
        Err(format!("FFmpeg gave {found} pictures"))
    }
}

/// Compares one component with what FFmpeg made of it; says where it differs.
fn compare_component(
    picture: &Picture,
    component: usize,
    setting: Setting,
    found: &[i32],
    counts: &mut Counts,
) -> Option<String> {
    let p = &picture.parameters;
    let body = &picture.bodies[component];
    let expected = proved::decode(p, body)
        .map_err(|_| Aside::Refused)
        .and_then(|decoded| expected_samples(p, setting, decoded));
    let difference = judge(p, setting, &expected, found, counts);
    if let (Ok(expected), None, false) = (&expected, &difference, p.intra) {
        let indices = told_apart(p, setting, body, expected, &counts.told_apart);
        counts.told_apart.extend(indices);
    }
    difference
}

/// Compares what is expected of FFmpeg for a component, if anything is, with what it made of it, and counts;
/// says where it differs.
pub(crate) fn judge(
    p: &Parameters,
    setting: Setting,
    expected: &Result<Expected, Aside>,
    found: &[i32],
    counts: &mut Counts,
) -> Option<String> {
    let expected = match expected {
        Ok(expected) => expected,
        Err(aside) => {
            counts.aside[*aside as usize] += 1;
            return None;
        }
    };
    let difference = difference(p, expected, found);
    if difference.is_none() && expected.samples_shown() == 0 {
        counts.aside[Aside::Clipped as usize] += 1;
        return None;
    }
    counts.add(p, setting, expected);
    counts.different += u64::from(difference.is_some());
    difference
}

/// The first sample that FFmpeg shows otherwise than is expected.
fn difference(p: &Parameters, expected: &Expected, found: &[i32]) -> Option<String> {
    let mut pairs = expected.shown.iter().zip(found);
    let differs = |(shown, found): (&Shown, &i32)| shown.number().is_some_and(|n| n != *found);
    let entry = pairs.position(differs)?;
    let (x, y) = (entry % p.width as usize, entry / p.width as usize);
    let sample = expected.samples[entry];
    let number = expected.shown[entry].number()?;
    Some(format!(
        "column {x}, row {y}: {sample} expected, shown as {number}; FFmpeg has {}",
        found[entry]
    ))
}
