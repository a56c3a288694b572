//! Low delay pictures: made from coefficients, checked, and timed.

use crate::components::{COUNTED_SIZE, FULL_SIZE, ONE_WAVELET};
use crate::decoders::{open_on_packet, Effort, Speeds};
use crate::picture;
use crate::timing::{take_turns, Timed};
use compare::proved_parameters;
use ffmpeg::low_delay::eligibility::check_slices;
use ffmpeg::low_delay::{bytes_for, components, default_matrix, part_bits, LowDelayPicture};
use ffmpeg::proved::unpack_low_delay;
use ffmpeg::stream::{BitDepth, ChromaFormat, Format, Stream, COMPONENTS};
use reference::params::{padded_area, sample_area};
use reference::{
    encode_low_delay, quantise_low_delay, LowDelay, QuantisedPicture, Rounding, SliceOptions,
};
use std::cell::RefCell;
use std::fmt::{self, Display, Formatter};
use vectors::pictures::picture_coefficients;
use vectors::slices::{sliced, uniform_slices};

/// The largest numerator.
const LARGEST_NUMERATOR: u32 = 65_535;

/// A picture to encode in slices.
#[derive(Clone, Copy, Debug, PartialEq)]
pub struct SlicePlan {
    pub size: (u32, u32),
    pub chroma: ChromaFormat,
    pub depth: u32,
    /// The luma samples of a slice, across and down.
    pub slice: (u32, u32),
    pub bits_a_sample: f64,
}

impl SlicePlan {
    /// A picture of depth 3 in slices of 32 x 16 samples, with about 2.5 bits a sample.
    pub const fn new(size: (u32, u32), chroma: ChromaFormat) -> SlicePlan {
        SlicePlan {
            size,
            chroma,
            depth: 3,
            slice: (32, 16),
            bits_a_sample: 2.5,
        }
    }

    /// Whether another picture has the same coefficients before they are quantised.
    fn has_coefficients_of(&self, other: &SlicePlan) -> bool {
        (self.size, self.chroma, self.depth) == (other.size, other.chroma, other.depth)
    }

    /// The form of the picture.
    fn format(&self) -> Format {
        Format {
            chroma: self.chroma,
            ..Format::full(self.size.0, self.size.1, BitDepth::Eight)
        }
    }

    /// The parameters, with slices of as many bytes as the bits give them.
    fn parameters(&self) -> LowDelay {
        let [luma, chroma, _] = self.format().sizes();
        let slices = (luma.0.div_ceil(self.slice.0), luma.1.div_ceil(self.slice.1));
        let samples = luma.0 * luma.1 + 2 * chroma.0 * chroma.1;
        let bytes = f64::from(samples) * self.bits_a_sample / 8.0 / f64::from(slices.0 * slices.1);
        let denominator = 16;
        let numerator = (bytes * f64::from(denominator)) as u32;
        let fraction = (numerator, denominator);
        let mut p = sliced(luma, chroma, self.depth, true, slices, fraction);
        p.picture.matrix = default_matrix(ONE_WAVELET);
        p
    }

    /// The coefficients of each component, which are of pictures of their own.
    fn coefficients(&self) -> [Vec<i32>; COMPONENTS] {
        let mut seed = 0;
        components(&self.parameters(), ONE_WAVELET).map(|component| {
            seed += 1;
            let samples = picture::samples(component.width, component.height, seed);
            picture_coefficients(&component, &samples)
        })
    }
}

/// The pictures of the table: every size of slices at one rate, and every rate with one size, in two chroma
/// formats; and another depth.
pub fn full_plans() -> Vec<SlicePlan> {
    let mut plans = Vec::new();
    for chroma in [ChromaFormat::HalfWidth, ChromaFormat::Full] {
        let plan = SlicePlan::new(FULL_SIZE, chroma);
        plans.extend([(16, 8), (64, 32)].map(|slice| SlicePlan { slice, ..plan }));
        plans.extend([1.5, 2.5, 4.0].map(|bits_a_sample| SlicePlan {
            bits_a_sample,
            ..plan
        }));
    }
    plans.push(SlicePlan {
        depth: 4,
        ..SlicePlan::new(FULL_SIZE, ChromaFormat::HalfWidth)
    });
    plans
}

/// The pictures whose instructions are counted.
pub fn counted_plans() -> Vec<SlicePlan> {
    let plan = SlicePlan::new(COUNTED_SIZE, ChromaFormat::HalfWidth);
    let slices = [(16, 8), (64, 32)];
    slices.map(|slice| SlicePlan { slice, ..plan }).to_vec()
}

/// The slices across, and as many down, of pictures that have the same numbers in ever more slices.
pub const GROWING_SLICES: [u32; 8] = [1, 2, 4, 8, 16, 32, 64, 128];

/// An encoded picture.
pub struct Sliced {
    pub plan: SlicePlan,
    pub picture: LowDelayPicture,
}

impl Display for Sliced {
    fn fmt(&self, f: &mut Formatter) -> fmt::Result {
        let SlicePlan { size, depth, .. } = self.plan;
        write!(
            f,
            "{} x {}, {}, depth {depth}, slices {}, {:.2} bits",
            size.0,
            size.1,
            self.plan.chroma.name(),
            self.slices(),
            self.bits_a_sample()
        )
    }
}

impl Sliced {
    /// The pictures of plans; or which plan has no bytes for its picture.
    pub fn of(plans: &[SlicePlan]) -> Result<Vec<Sliced>, String> {
        let mut known: Option<(SlicePlan, [Vec<i32>; COMPONENTS])> = None;
        let mut encoded = Vec::new();
        for plan in plans {
            let is_known = |(other, _): &(SlicePlan, _)| plan.has_coefficients_of(other);
            if !known.as_ref().is_some_and(is_known) {
                known = Some((*plan, plan.coefficients()));
            }
            let (_, coefficients) = known.as_ref().expect("it is known by here");
            let p = plan.parameters();
            let picture = LowDelayPicture::of_coefficients(&p, ONE_WAVELET, coefficients)
                .ok_or_else(|| format!("no index fits: {plan:?}"))?;
            encoded.push(Sliced {
                plan: *plan,
                picture,
            });
        }
        Ok(encoded)
    }

    /// How many slices there are.
    pub fn slices(&self) -> String {
        let picture = &self.picture.parameters.picture;
        format!("{} x {}", picture.slices_across, picture.slices_down)
    }

    /// The samples of all components.
    pub fn samples(&self) -> usize {
        self.picture.components().iter().map(sample_area).sum()
    }

    /// The bits of all slices for each sample.
    pub fn bits_a_sample(&self) -> f64 {
        8.0 * self.picture.bytes.len() as f64 / self.samples() as f64
    }

    /// A sequence header and the picture, and where its number stands.
    fn packet(&self) -> (Vec<u8>, usize) {
        let LowDelayPicture {
            parameters,
            wavelet,
            bytes,
        } = &self.picture;
        let mut stream = Stream::new(self.plan.format());
        let number_offset = stream.add_low_delay(0, parameters, *wavelet, bytes);
        (stream.bytes(), number_offset)
    }
}

/// Pictures of a size that have the same numbers, quantised with one index, in 1 to many slices. Each slice has
/// bytes for the largest.
pub fn growing(size: (u32, u32)) -> Vec<Sliced> {
    let plan = SlicePlan::new(size, ChromaFormat::HalfWidth);
    let mut p = plan.parameters();
    (p.picture.slices_across, p.picture.slices_down) = (1, 1);
    (p.numerator, p.denominator) = (LARGEST_NUMERATOR, 1);
    let [luma, first, second] = plan.coefficients();
    let quantised = quantise_low_delay(&p, &luma, &first, &second, |_| 0, Rounding::Floor)
        .expect("zeros need no bits");
    let count = |count| {
        (p.picture.slices_across, p.picture.slices_down) = (count, count);
        Sliced {
            plan,
            picture: in_slices(&p, &quantised),
        }
    };
    GROWING_SLICES.map(count).into()
}

/// A picture of quantised numbers that have one index, with bytes for its largest slice.
fn in_slices(p: &LowDelay, quantised: &QuantisedPicture) -> LowDelayPicture {
    let QuantisedPicture {
        luma,
        first_chroma,
        second_chroma,
        indices,
    } = quantised;
    let bytes = |slice| {
        let luma = part_bits(&p.picture, &p.luma(), slice, &[luma]);
        let chroma = part_bits(
            &p.picture,
            &p.chroma(),
            slice,
            &[first_chroma, second_chroma],
        );
        bytes_for(luma[0] + chroma[0]) as u32
    };
    let most = (0..p.slice_count()).map(bytes).max().expect("a slice");
    let p = LowDelay {
        numerator: most.min(LARGEST_NUMERATOR),
        ..p.clone()
    };
    let slice = SliceOptions {
        index: indices[0],
        ..SliceOptions::default()
    };
    let slices = uniform_slices(&p, slice);
    LowDelayPicture {
        bytes: encode_low_delay(&p, luma, first_chroma, second_chroma, &slices),
        parameters: p,
        wavelet: ONE_WAVELET,
    }
}

/// The planes of a picture; all components use one work plane.
#[derive(Clone, PartialEq, Eq)]
pub struct SlicedPlanes {
    pub coefficients: [Vec<i32>; COMPONENTS],
    work: Vec<i32>,
    pub samples: [Vec<i32>; COMPONENTS],
}

impl SlicedPlanes {
    /// Planes of zeros for a picture.
    pub fn new(picture: &LowDelayPicture) -> SlicedPlanes {
        let components = picture.components();
        SlicedPlanes {
            coefficients: components.each_ref().map(|p| vec![0; padded_area(p)]),
            work: vec![0; padded_area(&components[0])],
            samples: components.each_ref().map(|p| vec![0; sample_area(p)]),
        }
    }

    /// Unpacks a picture that is accepted in the library.
    pub fn unpack(&mut self, picture: &LowDelayPicture) {
        let lent = self.coefficients.each_mut().map(Vec::as_mut_slice);
        let used = unpack_low_delay(&picture.parameters, &picture.bytes, lent);
        assert_eq!(used, Ok(picture.bytes.len()), "a picture of whole slices");
    }

    /// Synthesises all components in the library.
    pub fn synthesise(&mut self, picture: &LowDelayPicture) {
        for (k, p) in picture.components().iter().enumerate() {
            let coefficients = &self.coefficients[k];
            let work = &mut self.work[..coefficients.len()];
            let samples = &mut self.samples[k];
            kafsillun::synthesise(&proved_parameters(p), coefficients, work, samples)
                .expect("a picture whose numbers fit");
        }
    }
}

/// The planes that the library leaves of a picture, if the reference leaves the same; or that it differs.
fn checked_planes(sliced: &Sliced) -> Result<SlicedPlanes, String> {
    let picture = &sliced.picture;
    let mut planes = SlicedPlanes::new(picture);
    planes.unpack(picture);
    planes.synthesise(picture);
    let mut others = SlicedPlanes::new(picture);
    let [luma, first, second] = &mut others.coefficients;
    reference::unpack_low_delay(&picture.parameters, &picture.bytes, luma, first, second);
    for (k, p) in picture.components().iter().enumerate() {
        let work = &mut others.work[..padded_area(p)];
        reference::synthesise(p, &others.coefficients[k], work, &mut others.samples[k]);
    }
    if planes == others {
        Ok(planes)
    } else {
        Err(format!("the reference differs: {sliced}"))
    }
}

/// Checks that the reference and libavcodec give the library's samples of a picture; or says who differs.
pub fn check(sliced: &Sliced) -> Result<(), String> {
    let planes = checked_planes(sliced)?;
    check_libavcodec(sliced, &planes.samples).map_err(|what| format!("{what}: {sliced}"))
}

/// Checks that pictures of the same numbers have the same planes, in the library and the reference; or says which
/// has others.
pub fn check_growth(pictures: &[Sliced]) -> Result<(), String> {
    let mut first = None;
    for sliced in pictures {
        let planes = checked_planes(sliced)?;
        if *first.get_or_insert_with(|| planes.clone()) != planes {
            return Err(format!("slices change the numbers: {sliced}"));
        }
    }
    Ok(())
}

/// Checks that libavcodec gives these samples, and that it reads the slices as they are meant.
fn check_libavcodec(sliced: &Sliced, samples: &[Vec<i32>; COMPONENTS]) -> Result<(), String> {
    if check_slices(&sliced.picture) != [Ok(()); COMPONENTS] {
        return Err("libavcodec misreads slices".to_string());
    }
    let shown = |sample: &i32| (sample + BitDepth::Eight.offset()).clamp(0, 255);
    for mut libavcodec in open_on_packet(sliced.packet()) {
        libavcodec.decode();
        for (k, p) in sliced.picture.components().iter().enumerate() {
            let expected: Vec<i32> = samples[k].iter().map(shown).collect();
            if libavcodec.samples(k, p.width, p.height) != expected {
                return Err(format!("libavcodec differs in component {k}"));
            }
        }
    }
    Ok(())
}

/// How fast the library and libavcodec are on a picture that was checked; decode is unpack and synthesise, one
/// after the other.
pub fn measure(sliced: &Sliced, effort: Effort) -> Speeds {
    let picture = &sliced.picture;
    let jobs: [fn(&mut SlicedPlanes, &LowDelayPicture); 3] = [
        SlicedPlanes::unpack,
        SlicedPlanes::synthesise,
        |planes, picture| {
            planes.unpack(picture);
            planes.synthesise(picture);
        },
    ];
    let mut planes = SlicedPlanes::new(picture);
    planes.unpack(picture);
    let planes = &RefCell::new(planes);
    let mut all = Vec::new();
    for job in jobs {
        let run = move || job(&mut planes.borrow_mut(), picture);
        all.push(Timed::new(sliced.samples(), effort.rounds, run));
    }
    for mut libavcodec in open_on_packet(sliced.packet()) {
        let run = move || libavcodec.decode();
        all.push(Timed::new(sliced.samples(), effort.rounds, run));
    }
    take_turns(&mut all);
    Speeds::of(&all, false)
}

/// Nanoseconds a sample of unpack on each of these pictures of one size, which take turns and use the same
/// planes.
pub fn measure_growth(pictures: &[Sliced], effort: Effort) -> Vec<f64> {
    let Some(first) = pictures.first() else {
        return Vec::new();
    };
    let planes = &RefCell::new(SlicedPlanes::new(&first.picture));
    let mut all = Vec::new();
    for sliced in pictures {
        let run = move || planes.borrow_mut().unpack(&sliced.picture);
        all.push(Timed::new(sliced.samples(), effort.rounds, run));
    }
    take_turns(&mut all);
    all.iter().map(|one| 1e3 / one.megasamples()).collect()
}
