//! What a refusal costs: calls that are refused, from the first check to the last row.

use crate::components::Component;
use crate::decoders::{Effort, Planes, PROVED};
use crate::timing::{take_turns, Timed};
use compare::{proved, reference, Buffers, Decoder, Job};
use reference::params::{padded_width, subband_at, Orientation, Parameters};
use reference::Answer;

/// A call of decode or synthesise.
pub struct Call {
    pub job: Job,
    /// Where it is refused, in words.
    pub place: &'static str,
    /// The answer that it must give.
    pub answer: Answer,
    parameters: Parameters,
    body: Vec<u8>,
    planes: Planes,
    /// How often a turn makes it.
    runs: usize,
}

/// How often a turn makes a call that is refused before any work.
const CHEAP_RUNS: usize = 100_000;

/// How many bytes from the end of a body are made 0, for a code that is too long.
const ZERO_BYTES: usize = 16;

impl Call {
    /// A call of decode on a component, and what it must answer.
    fn decode(component: &Component, place: &'static str, answer: Answer) -> Call {
        Call {
            job: Job::Decode,
            place,
            answer,
            parameters: component.parameters.clone(),
            body: component.body.clone(),
            planes: Planes::new(component),
            runs: 1,
        }
    }

    /// The same with parameters or a plane that the checks refuse.
    fn unchecked(component: &Component, status: u32, change: fn(&mut Call)) -> Call {
        let mut call = Call::decode(component, "before any work", Answer::refused(status, 0));
        call.runs = CHEAP_RUNS;
        change(&mut call);
        call
    }

    /// The same with other bytes.
    fn of_bytes(
        component: &Component,
        place: &'static str,
        answer: Answer,
        change: fn(&mut Vec<u8>),
    ) -> Call {
        let mut call = Call::decode(component, place, answer);
        change(&mut call.body);
        call
    }

    /// A call of synthesise on a component's coefficients.
    fn synthesise(component: &Component, place: &'static str, answer: Answer) -> Call {
        let mut call = Call::decode(component, place, answer);
        call.job = Job::Synthesise;
        let [unpack, ..] = PROVED;
        assert_eq!(unpack(component, &mut call.planes), 0, "a body in order");
        call
    }

    /// Makes the call in a decoder.
    fn run(&mut self, decoder: Decoder) -> Answer {
        let buffers = Buffers {
            bytes: &self.body,
            coefficients: &mut self.planes.coefficients,
            work: &mut self.planes.work,
            samples: &mut self.planes.samples,
        };
        decoder(&self.parameters, self.job, buffers)
    }

    /// The turns of the call.
    fn turns(&mut self, effort: Effort) -> Timed<'_> {
        Timed::repeated(1, self.runs, effort.rounds, move || {
            assert_eq!(self.run(proved), self.answer, "a call that was checked");
        })
    }
}

/// Calls that are refused before any work.
fn early(component: &Component) -> [Call; 5] {
    [
        Call::unchecked(component, 1, |call| call.parameters.width = 0),
        Call::unchecked(component, 2, |call| call.parameters.depth = 5),
        Call::unchecked(component, 3, |call| call.parameters.wavelet = 7),
        Call::unchecked(component, 4, |call| {
            call.parameters.codeblocks_down = [0; 5]
        }),
        Call::unchecked(component, 5, |call| call.planes.samples.truncate(1)),
    ]
}

/// Calls whose bytes are refused, in the first subband and in the last.
fn in_bytes(component: &Component) -> [Call; 4] {
    let (first, last) = (0, 3 * u64::from(component.parameters.depth));
    let call = |place, answer, change| Call::of_bytes(component, place, answer, change);
    [
        call("first subband", Answer::refused(6, first), Vec::clear),
        call("first subband", Answer::refused(7, first), |body| {
            body.fill(0)
        }),
        call("last subband", Answer::refused(6, last), |body| {
            body.pop();
        }),
        call(
            "last codes of the last subband",
            Answer::refused(7, last),
            |body| {
                let end = body.len();
                body[end - ZERO_BYTES..].fill(0);
            },
        ),
    ]
}

/// Puts two large coefficients at the last position of the last level, which synthesis with wavelet 1 adds
/// up in the last row.
fn enlarge_last_position(p: &Parameters, coefficients: &mut [i32]) {
    for orientation in [Orientation::LH, Orientation::HH] {
        let band = subband_at(p, p.depth, orientation);
        let row = band.top + band.height - 1;
        coefficients[row * padded_width(p) + band.left + band.width - 1] = i32::MAX;
    }
}

/// A call of synthesise that is refused in the last row.
fn in_last_row(component: &Component) -> Call {
    let p = &component.parameters;
    let answer = Answer::refused(10, p.depth.into());
    let mut call = Call::synthesise(component, "last row of the last level", answer);
    enlarge_last_position(p, &mut call.planes.coefficients);
    call
}

/// The calls on a component of wavelet 1, refused ones and for comparison accepted ones, each checked in
/// both decoders; or which is answered otherwise.
pub fn calls(component: &Component) -> Result<Vec<Call>, String> {
    let used = Answer::accepted(component.body.len() as u64);
    let mut calls: Vec<Call> = early(component).into();
    calls.extend(in_bytes(component));
    calls.push(Call::decode(component, "accepted", used));
    calls.push(in_last_row(component));
    calls.push(Call::synthesise(component, "accepted", Answer::accepted(0)));
    for call in &mut calls {
        for decoder in [proved, reference] {
            let answer = call.run(decoder);
            if answer != call.answer {
                let (job, place) = (call.job.name(), call.place);
                return Err(format!("{job}, {place}: the answer is {answer:?}"));
            }
        }
    }
    Ok(calls)
}

/// Microseconds of each call.
pub fn measure(calls: Vec<&mut Call>, effort: Effort) -> Vec<f64> {
    let timed = calls.into_iter().map(|call| call.turns(effort));
    let mut timed: Vec<Timed> = timed.collect();
    take_turns(&mut timed);
    timed.iter().map(|c| 1e6 * c.seconds()).collect()
}

#[cfg(test)]
mod tests {
    use super::*;
    use reference::params::padded_area;
    use reference::transform::{filter_line, FILTERS};
    use vectors::levels::build_picture;
    use vectors::pieces::plain;

    #[test]
    fn large_numbers_at_the_last_position_are_refused_in_the_last_row() {
        let p = plain(64, 48, 1, 1, true);
        let mut coefficients = vec![0; padded_area(&p)];
        enlarge_last_position(&p, &mut coefficients);
        let steps = FILTERS[1].steps;
        build_picture(&p, &coefficients, |mut picture| {
            assert!(picture.filter_columns(steps));
            for (y, row) in picture.numbers.chunks_mut(64).enumerate() {
                assert_eq!(filter_line(steps, row), y < 47, "row {y}");
            }
            picture
        });
    }
}
