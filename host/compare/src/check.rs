//! The three jobs in the proved library and in the reference.

use crate::case::Case;
use crate::guarded::{Entry, Guarded};
use reference::{Answer, Parameters};
use std::fmt;
use vectors::random::Random;

/// A public job.
#[derive(Clone, Copy, Debug, PartialEq, Eq)]
pub enum Job {
    Unpack,
    Synthesise,
    Decode,
}

impl Job {
    /// All three, in the order of [`Answers`].
    pub const ALL: [Job; 3] = [Job::Unpack, Job::Synthesise, Job::Decode];

    /// Its name.
    pub fn name(self) -> &'static str {
        match self {
            Job::Unpack => "unpack",
            Job::Synthesise => "synthesise",
            Job::Decode => "decode",
        }
    }

    /// Whether it can give a status (document 01, "Refusal numbers").
    pub fn gives(self, status: u32) -> bool {
        match self {
            Job::Unpack => matches!(status, 0 | 1 | 2 | 4 | 5 | 6..=9),
            Job::Synthesise => matches!(status, 0 | 1 | 2 | 3 | 5 | 10),
            Job::Decode => matches!(status, 0..=10),
        }
    }
}

/// The answers of unpack, synthesise and decode.
pub type Answers = [Answer; 3];

/// Where a decoder differs from the reference.
#[derive(Clone, Debug)]
pub struct Difference {
    pub job: Job,
    pub what: String,
}

impl fmt::Display for Difference {
    fn fmt(&self, f: &mut fmt::Formatter) -> fmt::Result {
        write!(f, "{}: {}", self.job.name(), self.what)
    }
}

/// The bytes and planes that a job may take. Unpack takes the bytes and the coefficients, synthesise the
/// planes and only reads the coefficients, decode everything.
pub struct Buffers<'a> {
    pub bytes: &'a [u8],
    pub coefficients: &'a mut [i32],
    pub work: &'a mut [i32],
    pub samples: &'a mut [i32],
}

/// A decoder: runs a job.
pub type Decoder = fn(&Parameters, Job, Buffers) -> Answer;

/// The parameters as the proved library takes them.
pub fn proved_parameters(p: &Parameters) -> kafsillun::Parameters {
    kafsillun::Parameters {
        width: p.width,
        height: p.height,
        depth: p.depth,
        wavelet: p.wavelet,
        intra: p.intra,
        codeblocks_across: p.codeblocks_across,
        codeblocks_down: p.codeblocks_down,
    }
}

/// The proved library.
pub fn proved(p: &Parameters, job: Job, buffers: Buffers) -> Answer {
    let p = &proved_parameters(p);
    let result = match job {
        Job::Unpack => kafsillun::unpack(p, buffers.bytes, buffers.coefficients),
        Job::Synthesise => {
            kafsillun::synthesise(p, buffers.coefficients, buffers.work, buffers.samples)
                .map(|()| 0)
        }
        Job::Decode => kafsillun::decode(
            p,
            buffers.bytes,
            buffers.coefficients,
            buffers.work,
            buffers.samples,
        ),
    };
    answer_of(result)
}

/// The answer that a result of the proved library stands for.
pub fn answer_of(result: Result<usize, kafsillun::Error>) -> Answer {
    match result {
        Ok(used) => Answer::accepted(used as u64),
        Err(error) => Answer::refused(error.number(), error.place() as u64),
    }
}

/// The reference decoder.
pub fn reference(p: &Parameters, job: Job, buffers: Buffers) -> Answer {
    match job {
        Job::Unpack => reference::unpack(p, buffers.bytes, buffers.coefficients),
        Job::Synthesise => {
            reference::synthesise(p, buffers.coefficients, buffers.work, buffers.samples)
        }
        Job::Decode => reference::decode(
            p,
            buffers.bytes,
            buffers.coefficients,
            buffers.work,
            buffers.samples,
        ),
    }
}

/// The memory that a job is buffers, guard zones included.
#[derive(Clone, Debug, PartialEq, Eq)]
struct Memory {
    bytes: Guarded<u8>,
    coefficients: Guarded<i32>,
    work: Guarded<i32>,
    samples: Guarded<i32>,
}

impl Memory {
    /// The bytes of a case, and rubbish in every plane and every guard zone; for synthesise, the case's
    /// coefficients.
    fn new(case: &Case, job: Job, random: &mut Random) -> Memory {
        Memory {
            bytes: Guarded::holding(random, &case.bytes),
            coefficients: match job {
                Job::Synthesise => Guarded::holding(random, &case.coefficients),
                _ => Guarded::rubbish(random, case.coefficients.len()),
            },
            work: Guarded::rubbish(random, case.work_length),
            samples: Guarded::rubbish(random, case.samples_length),
        }
    }

    /// The parts that a job is given.
    fn parts(&mut self) -> Buffers<'_> {
        Buffers {
            bytes: self.bytes.part(),
            coefficients: self.coefficients.part_mut(),
            work: self.work.part_mut(),
            samples: self.samples.part_mut(),
        }
    }

    /// The first difference from the reference's memory.
    fn first_difference(&self, reference: &Memory) -> Option<String> {
        let planes = [
            ("coefficients", &self.coefficients, &reference.coefficients),
            ("work", &self.work, &reference.work),
            ("samples", &self.samples, &reference.samples),
        ];
        planes
            .iter()
            .find_map(|(name, ours, theirs)| difference_in(name, ours, theirs))
            .or_else(|| difference_in("bytes", &self.bytes, &reference.bytes))
    }
}

/// The first difference between a plane of a decoder and the reference's.
pub fn difference_in<T: Entry + PartialEq + fmt::Display>(
    name: &str,
    ours: &Guarded<T>,
    theirs: &Guarded<T>,
) -> Option<String> {
    let (index, our_value, their_value) = ours.first_difference(theirs)?;
    let length = ours.part().len();
    let zone = if (0..length as isize).contains(&index) {
        ""
    } else {
        ", which lies in a guard zone,"
    };
    Some(format!(
        "{name}, entry {index} of {length}{zone} is {our_value}, in the reference {their_value}"
    ))
}

/// The difference between an answer and the reference's.
pub fn answers_differ(ours: Answer, theirs: Answer) -> Option<String> {
    (ours != theirs).then(|| {
        format!(
            "the answer is status {} place {}, the reference's status {} place {}",
            ours.status, ours.place, theirs.status, theirs.place
        )
    })
}

/// Runs one job in a decoder and the reference, over the same rubbish: the answer that both gave.
fn check_job(
    case: &Case,
    decoder: Decoder,
    job: Job,
    random: &mut Random,
) -> Result<Answer, Difference> {
    let p = &case.parameters;
    let mut ours = Memory::new(case, job, random);
    let mut theirs = ours.clone();
    let our_answer = decoder(p, job, ours.parts());
    let their_answer = reference(p, job, theirs.parts());
    match answers_differ(our_answer, their_answer).or_else(|| ours.first_difference(&theirs)) {
        Some(what) => Err(Difference { job, what }),
        None => Ok(our_answer),
    }
}

/// A generator of rubbish for a case.
fn rubbish_of(case: &Case) -> Random {
    Random::new(!case.seed)
}

/// Runs the three jobs in a decoder and the reference, and compares the answers, every plane, and the
/// memory around them: the answers that both gave.
pub fn check(case: &Case, decoder: Decoder) -> Result<Answers, Difference> {
    let mut random = rubbish_of(case);
    Ok([
        check_job(case, decoder, Job::Unpack, &mut random)?,
        check_job(case, decoder, Job::Synthesise, &mut random)?,
        check_job(case, decoder, Job::Decode, &mut random)?,
    ])
}

/// What a job gave: its answer, and each plane that it may write.
#[derive(Clone, Debug, PartialEq, Eq)]
pub struct Outcome {
    pub answer: Answer,
    pub planes: Vec<(&'static str, Vec<i32>)>,
}

impl fmt::Display for Outcome {
    fn fmt(&self, f: &mut fmt::Formatter) -> fmt::Result {
        let Answer { status, place } = self.answer;
        writeln!(f, "status {status} place {place}")?;
        for (name, plane) in &self.planes {
            write!(f, "{name}:")?;
            for number in plane {
                write!(f, " {number}")?;
            }
            writeln!(f)?;
        }
        Ok(())
    }
}

/// What each job of a decoder gives.
pub fn results(case: &Case, decoder: Decoder) -> [Outcome; 3] {
    let mut random = rubbish_of(case);
    Job::ALL.map(|job| {
        let mut memory = Memory::new(case, job, &mut random);
        let answer = decoder(&case.parameters, job, memory.parts());
        let planes = [
            ("coefficients", &memory.coefficients, job != Job::Synthesise),
            ("work", &memory.work, job != Job::Unpack),
            ("samples", &memory.samples, job != Job::Unpack),
        ];
        let written = planes.into_iter().filter(|(_, _, is_written)| *is_written);
        Outcome {
            answer,
            planes: written
                .map(|(name, plane, _)| (name, plane.part().to_vec()))
                .collect(),
        }
    })
}
