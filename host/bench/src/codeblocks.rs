//! Unpack and decode of components that have the same coefficients in more or fewer codeblocks.

use crate::components::Component;
use crate::decoders::{Effort, PicturePlanes, PROVED};
use crate::timing::{take_turns, Timed};
use ffmpeg::stream::COMPONENTS;
use std::cell::RefCell;

/// Nanoseconds a sample of unpack and decode.
#[derive(Clone, Copy, Debug)]
pub struct CodeblockTimes {
    pub unpack: f64,
    pub decode: f64,
}

impl CodeblockTimes {
    /// The best of each.
    pub fn best(self, other: CodeblockTimes) -> CodeblockTimes {
        CodeblockTimes {
            unpack: self.unpack.min(other.unpack),
            decode: self.decode.min(other.decode),
        }
    }
}

/// How long either job takes on components of one size that were checked. All take turns, so that their
/// times can be compared, and use the same planes. A turn is a picture of three components.
pub fn measure(components: &[&Component], effort: Effort) -> Vec<CodeblockTimes> {
    let [unpack, _, decode] = PROVED;
    let Some(first) = components.first() else {
        return Vec::new();
    };
    let picture = &RefCell::new(PicturePlanes::new(first, COMPONENTS));
    let mut timed = Vec::new();
    for &component in components {
        for job in [unpack, decode] {
            let samples = COMPONENTS * component.samples();
            let run = move || picture.borrow_mut().run(component, job);
            timed.push(Timed::new(samples, effort.rounds, run));
        }
    }
    take_turns(&mut timed);
    let nanoseconds = |one: &Timed| 1e3 / one.megasamples();
    let times = |jobs: &[Timed]| CodeblockTimes {
        unpack: nanoseconds(&jobs[0]),
        decode: nanoseconds(&jobs[1]),
    };
    timed.chunks(2).map(times).collect()
}
