//! The job on pictures of low delay slices in the proved library and in the reference.

use super::LowDelayCase;
use crate::check::{answer_of, answers_differ, difference_in, Outcome};
use crate::guarded::Guarded;
use reference::{Answer, LowDelay};
use vectors::random::Random;

/// A decoder: unpacks bytes to the planes of luma, C1 and C2.
pub type LowDelayDecoder = fn(&LowDelay, &[u8], [&mut [i32]; 3]) -> Answer;

/// The names of the planes.
const NAMES: [&str; 3] = ["luma", "C1", "C2"];

/// Parameters as the proved library takes them.
pub fn proved_slices(p: &LowDelay) -> kafsillun::LowDelay {
    let picture = &p.picture;
    kafsillun::LowDelay {
        luma_width: picture.luma_width,
        luma_height: picture.luma_height,
        chroma_width: picture.chroma_width,
        chroma_height: picture.chroma_height,
        depth: picture.depth,
        intra: picture.intra,
        slices_across: picture.slices_across,
        slices_down: picture.slices_down,
        numerator: p.numerator,
        denominator: p.denominator,
        matrix: picture.matrix,
    }
}

/// The proved library.
pub fn proved_low_delay(p: &LowDelay, bytes: &[u8], planes: [&mut [i32]; 3]) -> Answer {
    let [luma, first_chroma, second_chroma] = planes;
    answer_of(kafsillun::unpack_low_delay(
        &proved_slices(p),
        bytes,
        luma,
        first_chroma,
        second_chroma,
    ))
}

/// The reference decoder.
pub fn reference_low_delay(p: &LowDelay, bytes: &[u8], planes: [&mut [i32]; 3]) -> Answer {
    let [luma, first_chroma, second_chroma] = planes;
    reference::unpack_low_delay(p, bytes, luma, first_chroma, second_chroma)
}

/// The memory that the job is given, guard zones included.
#[derive(Clone, Debug)]
struct Memory {
    bytes: Guarded<u8>,
    planes: [Guarded<i32>; 3],
}

impl Memory {
    /// The bytes of a picture, and rubbish in every plane and every guard zone.
    fn new(case: &LowDelayCase) -> Memory {
        let random = &mut Random::new(!case.seed);
        Memory {
            bytes: Guarded::holding(random, &case.job.bytes),
            planes: case
                .job
                .lengths
                .map(|length| Guarded::rubbish(random, length)),
        }
    }

    /// Has a decoder unpack the bytes.
    fn run(&mut self, p: &LowDelay, decoder: LowDelayDecoder) -> Answer {
        let planes = self.planes.each_mut().map(Guarded::part_mut);
        decoder(p, self.bytes.part(), planes)
    }

    /// The first difference from the reference's memory.
    fn first_difference(&self, reference: &Memory) -> Option<String> {
        let pairs = self.planes.iter().zip(&reference.planes);
        NAMES
            .iter()
            .zip(pairs)
            .find_map(|(name, (ours, theirs))| difference_in(name, ours, theirs))
            .or_else(|| difference_in("bytes", &self.bytes, &reference.bytes))
    }
}

/// Unpacks a picture in a decoder and the reference, over the same rubbish, and compares the answers, every plane,
/// and the memory around them: the answer that both gave, or what differs.
pub fn check_low_delay(case: &LowDelayCase, decoder: LowDelayDecoder) -> Result<Answer, String> {
    let p = &case.job.parameters;
    let mut ours = Memory::new(case);
    let mut theirs = ours.clone();
    let our_answer = ours.run(p, decoder);
    let their_answer = theirs.run(p, reference_low_delay);
    match answers_differ(our_answer, their_answer).or_else(|| ours.first_difference(&theirs)) {
        Some(what) => Err(what),
        None => Ok(our_answer),
    }
}

/// What a decoder gives for a picture.
pub fn low_delay_result(case: &LowDelayCase, decoder: LowDelayDecoder) -> Outcome {
    let mut memory = Memory::new(case);
    let answer = memory.run(&case.job.parameters, decoder);
    let planes = NAMES.into_iter().zip(memory.planes);
    Outcome {
        answer,
        planes: planes
            .map(|(name, plane)| (name, plane.part().to_vec()))
            .collect(),
    }
}
