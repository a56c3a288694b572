//! Decoders with one fault each are found out.

use crate::fast_paths::{fast_unpack, found, read_values, CodedBand, NONE};
use compare::{check, reference, Buffers, Case, Decoder, Job};
use reference::unpack::{quantiser_factor, quantiser_offset, scaled};
use reference::{Answer, Parameters};

/// How many cases a decoder is tried on.
const CASES: u64 = 400;

/// Whether some case tells a decoder from the reference.
fn is_found_out(decoder: Decoder) -> bool {
    (1..=CASES).any(|seed| check(&Case::from_seed(seed), decoder).is_err())
}

/// The same parts, buffers on.
fn reborrowed<'a>(buffers: &'a mut Buffers) -> Buffers<'a> {
    Buffers {
        bytes: buffers.bytes,
        coefficients: buffers.coefficients,
        work: buffers.work,
        samples: buffers.samples,
    }
}

#[test]
fn the_reference_is_like_itself() {
    assert!(!is_found_out(reference));
}

#[test]
fn a_place_off_by_one_is_found() {
    fn off_by_one(p: &Parameters, job: Job, buffers: Buffers) -> Answer {
        let answer = reference(p, job, buffers);
        match answer.status {
            9 => Answer::refused(9, answer.place + 1),
            _ => answer,
        }
    }
    assert!(is_found_out(off_by_one));
}

#[test]
fn a_plane_not_zeroed_is_found() {
    fn keeps_coefficients(p: &Parameters, job: Job, mut buffers: Buffers) -> Answer {
        let before = buffers.coefficients.to_vec();
        let answer = reference(p, job, reborrowed(&mut buffers));
        if job == Job::Decode && answer.status == 10 {
            buffers.coefficients.copy_from_slice(&before);
        }
        answer
    }
    fn keeps_work(p: &Parameters, job: Job, mut buffers: Buffers) -> Answer {
        let before = buffers.work.to_vec();
        let answer = reference(p, job, reborrowed(&mut buffers));
        buffers.work.copy_from_slice(&before);
        answer
    }
    assert!(is_found_out(keeps_coefficients));
    assert!(is_found_out(keeps_work));
}

#[test]
fn a_plane_changed_by_a_refusal_is_found() {
    fn zeros_samples(p: &Parameters, job: Job, mut buffers: Buffers) -> Answer {
        let answer = reference(p, job, reborrowed(&mut buffers));
        if answer.status == 5 {
            buffers.samples.fill(0);
        }
        answer
    }
    assert!(is_found_out(zeros_samples));
}

#[test]
fn a_wrong_entry_is_found() {
    fn last_sample_wrong(p: &Parameters, job: Job, mut buffers: Buffers) -> Answer {
        let answer = reference(p, job, reborrowed(&mut buffers));
        if let (Job::Synthesise, 0, Some(last)) = (job, answer.status, buffers.samples.last_mut()) {
            *last ^= 1;
        }
        answer
    }
    assert!(is_found_out(last_sample_wrong));
}

#[test]
fn coefficients_written_by_synthesise_are_found() {
    fn writes_input(p: &Parameters, job: Job, mut buffers: Buffers) -> Answer {
        let answer = reference(p, job, reborrowed(&mut buffers));
        if job == Job::Synthesise && answer.status == 10 {
            buffers.coefficients.fill(0);
        }
        answer
    }
    assert!(is_found_out(writes_input));
}

/// Every picture has the offset of intra pictures.
const ALL_INTRA: u8 = 1;
/// The intra flag is inverted.
const INVERTED: u8 = 2;
/// The flag is looked at in level 0 only; the other levels have the offset of intra pictures.
const LEVEL_0: u8 = 3;
/// The offset of pictures that are not intra lacks the 4 that rounds it.
const NOT_ROUNDED: u8 = 4;
/// The same offset has no exception at index 0.
const INDEX_0: u8 = 5;

/// The offset of an index in a subband, with a fault.
fn offset_with_fault(coded: &CodedBand, fault: u8) -> i64 {
    let &CodedBand { p, band, index, .. } = coded;
    let factor = quantiser_factor(index);
    match fault {
        ALL_INTRA => quantiser_offset(index, true),
        INVERTED => quantiser_offset(index, !p.intra),
        LEVEL_0 => quantiser_offset(index, p.intra || band.level > 0),
        NOT_ROUNDED if !p.intra && index > 0 => 3 * factor / 8,
        INDEX_0 if !p.intra => (3 * factor + 4) / 8,
        _ => quantiser_offset(index, p.intra),
    }
}

/// Reads the codeblocks of a subband with a fault in the offset.
fn read_band(coded: &CodedBand, plane: &mut [i32], fault: u8) -> Result<(), u32> {
    let factor = quantiser_factor(coded.index);
    let offset = offset_with_fault(coded, fault);
    read_values(coded, plane, NONE, |number, _| {
        scaled(number, factor, offset)
    })
}

/// A decoder whose unpack has a fault in the offset.
fn other_offset<const FAULT: u8>(p: &Parameters, job: Job, buffers: Buffers) -> Answer {
    fast_unpack(p, job, buffers, read_band, FAULT)
}

/// A decoder that takes intra pictures for others, and others for intra pictures, where it dequantises.
pub fn inverted(p: &Parameters, job: Job, buffers: Buffers) -> Answer {
    other_offset::<INVERTED>(p, job, buffers)
}

#[test]
fn wrong_offsets_are_found_often() {
    assert_eq!(found(other_offset::<NONE>, CASES), 0);
    let faults: [(&str, Decoder); 5] = [
        ("all intra", other_offset::<ALL_INTRA>),
        ("inverted", inverted),
        ("level 0", other_offset::<LEVEL_0>),
        ("not rounded", other_offset::<NOT_ROUNDED>),
        ("index 0", other_offset::<INDEX_0>),
    ];
    for (name, decoder) in faults {
        let count = found(decoder, CASES);
        assert!(count >= 40, "{name}: {count} of {CASES} cases");
    }
}
