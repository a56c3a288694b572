//! The decoders on one component: that they agree, and how fast they are.

use crate::components::{Codeblocks, Component};
use crate::libavcodec::Libavcodec;
use crate::timing::{take_turns, Timed};
use compare::proved_parameters;
use ffmpeg::stream::{BitDepth, COMPONENTS};
use reference::params::padded_area;

/// How many turns each decoder has on a component before the next one is measured.
#[derive(Clone, Copy, Debug)]
pub struct Effort {
    pub rounds: usize,
    /// The reference takes tenths of a second where the others take hundredths. With 0 it takes no part.
    pub reference_rounds: usize,
}

/// Megasamples a second of the three jobs.
#[derive(Clone, Copy, Debug)]
pub struct Jobs {
    pub unpack: f64,
    pub synthesise: f64,
    pub decode: f64,
}

/// Megasamples a second of every decoder.
#[derive(Clone, Copy, Debug)]
pub struct Speeds {
    pub proved: Jobs,
    pub reference: Option<Jobs>,
    /// libavcodec with SIMD code, and in plain C.
    pub libavcodec: Option<[f64; 2]>,
}

impl Jobs {
    /// The best of each.
    fn best(self, other: Jobs) -> Jobs {
        Jobs {
            unpack: self.unpack.max(other.unpack),
            synthesise: self.synthesise.max(other.synthesise),
            decode: self.decode.max(other.decode),
        }
    }
}

impl Speeds {
    /// The speeds of all that took turns: the library's three jobs, the reference's if it took part, and then
    /// libavcodec, if it is there.
    pub fn of(timed: &[Timed], with_reference: bool) -> Speeds {
        let mut speeds = timed.iter().map(Timed::megasamples);
        let mut jobs = || Jobs {
            unpack: speeds.next().expect("a job"),
            synthesise: speeds.next().expect("a job"),
            decode: speeds.next().expect("a job"),
        };
        let proved = jobs();
        let reference = with_reference.then(jobs);
        let libavcodec: Vec<f64> = speeds.collect();
        Speeds {
            proved,
            reference,
            libavcodec: libavcodec.try_into().ok(),
        }
    }

    /// The best of each.
    pub fn best(self, other: Speeds) -> Speeds {
        let references = self.reference.zip(other.reference);
        let both = self.libavcodec.zip(other.libavcodec);
        Speeds {
            proved: self.proved.best(other.proved),
            reference: references.map(|(a, b)| a.best(b)),
            libavcodec: both.map(|(a, b)| [a[0].max(b[0]), a[1].max(b[1])]),
        }
    }
}

/// The planes of a component.
#[derive(Clone, PartialEq, Eq)]
pub struct Planes {
    pub coefficients: Vec<i32>,
    pub work: Vec<i32>,
    pub samples: Vec<i32>,
}

impl Planes {
    /// Planes of zeros for a component.
    pub fn new(component: &Component) -> Planes {
        let area = padded_area(&component.parameters);
        Planes {
            coefficients: vec![0; area],
            work: vec![0; area],
            samples: vec![0; component.samples()],
        }
    }
}

/// The planes of a picture: each component has its own samples, and all use the other two planes.
pub struct PicturePlanes {
    planes: Planes,
    samples: Vec<Vec<i32>>,
}

impl PicturePlanes {
    /// Planes of zeros for a picture that has a component so many times.
    pub fn new(component: &Component, count: usize) -> PicturePlanes {
        let planes = Planes::new(component);
        let samples = vec![planes.samples.clone(); count];
        PicturePlanes { planes, samples }
    }

    /// Runs a job on all components, one after the other; they were checked.
    pub fn run(&mut self, component: &Component, job: Job) {
        for own in &mut self.samples {
            std::mem::swap(&mut self.planes.samples, own);
            assert_eq!(
                job(component, &mut self.planes),
                0,
                "a component that was checked"
            );
        }
    }
}

/// A job on a component; answers its status.
pub type Job = fn(&Component, &mut Planes) -> u32;

/// Unpack, synthesise and decode of the proved library.
pub const PROVED: [Job; 3] = [
    |m, planes| {
        let p = proved_parameters(&m.parameters);
        status(kafsillun::unpack(&p, &m.body, &mut planes.coefficients))
    },
    |m, planes| {
        let p = proved_parameters(&m.parameters);
        status(kafsillun::synthesise(
            &p,
            &planes.coefficients,
            &mut planes.work,
            &mut planes.samples,
        ))
    },
    |m, planes| {
        let p = proved_parameters(&m.parameters);
        status(kafsillun::decode(
            &p,
            &m.body,
            &mut planes.coefficients,
            &mut planes.work,
            &mut planes.samples,
        ))
    },
];

/// Unpack, synthesise and decode of the reference.
pub const REFERENCE: [Job; 3] = [
    |m, planes| reference::unpack(&m.parameters, &m.body, &mut planes.coefficients).status,
    |m, planes| {
        reference::synthesise(
            &m.parameters,
            &planes.coefficients,
            &mut planes.work,
            &mut planes.samples,
        )
        .status
    },
    |m, planes| {
        reference::decode(
            &m.parameters,
            &m.body,
            &mut planes.coefficients,
            &mut planes.work,
            &mut planes.samples,
        )
        .status
    },
];

/// The status of a job of the proved library.
fn status<T>(result: Result<T, kafsillun::Error>) -> u32 {
    result.map_or_else(|error| error.number(), |_| 0)
}

/// libavcodec with SIMD code and in plain C on a component, if it is installed. It takes no part where that is
/// not intra: it would add the prediction from a reference picture, too, which no one else does.
fn open_libavcodec(component: &Component) -> Vec<Libavcodec> {
    if component.parameters.intra {
        open_on_packet(component.packet())
    } else {
        Vec::new()
    }
}

/// libavcodec with SIMD code and in plain C, if it is installed, on a packet whose picture number stands at an
/// offset.
pub fn open_on_packet((packet, number_offset): (Vec<u8>, usize)) -> Vec<Libavcodec> {
    [true, false]
        .into_iter()
        .filter_map(|simd| Libavcodec::new(&packet, number_offset, simd))
        .collect()
}

/// Whether libavcodec's samples are those of document 01: its halving of wavelet 6 is another.
pub fn libavcodec_agrees(wavelet: u32) -> bool {
    wavelet != 6
}

/// Whether jobs, one after the other, are accepted and leave these planes.
fn leave(jobs: &[Job], component: &Component, expected: &Planes) -> bool {
    let mut planes = Planes::new(component);
    jobs.iter().all(|job| job(component, &mut planes) == 0) && planes == *expected
}

/// Checks that the jobs of the proved library leave the same planes, the reference's decode too and, if
/// asked to, its other jobs, and that libavcodec gives the same samples; or says who differs.
pub fn check(component: &Component, other_reference_jobs: bool) -> Result<(), String> {
    let [unpack, synthesise, decode] = PROVED;
    let mut planes = Planes::new(component);
    if decode(component, &mut planes) != 0 || !leave(&[unpack, synthesise], component, &planes) {
        return Err("the library's jobs differ, or one refuses".to_string());
    }
    let [unpack, synthesise, decode] = REFERENCE;
    if !leave(&[decode], component, &planes)
        || other_reference_jobs && !leave(&[unpack, synthesise], component, &planes)
    {
        return Err("the reference differs, or a job refuses".to_string());
    }
    check_libavcodec(component, &planes.samples)
}

/// Checks that libavcodec gives these samples. Where there are many codeblocks it takes no part: it
/// refuses more of them than a level has columns or rows.
fn check_libavcodec(component: &Component, samples: &[i32]) -> Result<(), String> {
    let p = &component.parameters;
    if !libavcodec_agrees(p.wavelet) || component.codeblocks != Codeblocks::ONE {
        return Ok(());
    }
    let shown = |sample: &i32| sample + BitDepth::Eight.offset();
    let samples: Vec<i32> = samples.iter().map(shown).collect();
    for mut libavcodec in open_libavcodec(component) {
        libavcodec.decode();
        for k in 0..COMPONENTS {
            if libavcodec.samples(k, p.width, p.height) != samples {
                return Err(format!("libavcodec differs in component {k}"));
            }
        }
    }
    Ok(())
}

/// How fast every decoder is on a component that was checked. Planes are allocated once and not cleared
/// between turns. The library and libavcodec decode it three times in a turn, as the components of a
/// picture.
pub fn measure(component: &Component, effort: Effort) -> Speeds {
    let mut timed = Vec::new();
    timed.extend(timed_jobs(component, PROVED, COMPONENTS, effort.rounds));
    if effort.reference_rounds > 0 {
        timed.extend(timed_jobs(component, REFERENCE, 1, effort.reference_rounds));
    }
    for mut libavcodec in open_libavcodec(component) {
        timed.push(Timed::new(
            COMPONENTS * component.samples(),
            effort.rounds,
            move || libavcodec.decode(),
        ));
    }
    take_turns(&mut timed);
    Speeds::of(&timed, effort.reference_rounds > 0)
}

/// Each of a decoder's jobs with planes of its own, the coefficients unpacked. A turn is a picture of so
/// many components.
fn timed_jobs(
    component: &Component,
    jobs: [Job; 3],
    count: usize,
    rounds: usize,
) -> [Timed<'_>; 3] {
    let [unpack, ..] = jobs;
    jobs.map(|job| {
        let mut picture = PicturePlanes::new(component, count);
        unpack(component, &mut picture.planes);
        Timed::new(count * component.samples(), rounds, move || {
            picture.run(component, job)
        })
    })
}
