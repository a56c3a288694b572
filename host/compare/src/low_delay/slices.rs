//! The slices of pictures of each kind, at random.

use super::draft::{Draft, LUMA, MOST_BYTES};
use super::LowDelayKind;
use crate::bodies::{flip_bits, noise, random_bytes as some_bytes};
use crate::borders::{number_of_any_code, number_of_code, short_number};
use crate::scale::{number_at_a_border, number_that_fits, number_that_shows_rule, Scale};
use reference::encode_low_delay::longest_luma_length;
use reference::low_delay::{bits_for_values, luma_length_bits};
use reference::params::MAX_QUANTISER;
use reference::unpack::quantiser_factor;
use reference::{LowDelay, SlicedPicture};
use vectors::offsets::{indices_with_two_borders, largest_that_fits};
use vectors::pieces::{joined, LARGEST_NUMBER};
use vectors::random::Random;
use vectors::slices::{noise_slices, slope_slices};

/// The largest index that a slice can state.
const LARGEST_INDEX: u32 = 127;

/// The parameters, with their fraction of bytes, and the bytes of a picture of a kind.
pub fn random_bytes(
    random: &mut Random,
    kind: LowDelayKind,
    picture: SlicedPicture,
) -> (LowDelay, Vec<u8>) {
    match kind {
        LowDelayKind::Valid | LowDelayKind::Parameters | LowDelayKind::Planes => {
            let (p, bytes) = ordinary(random, picture).finish();
            let most = random.pick(&[0, 0, 1, 20]);
            (p, joined(bytes, &some_bytes(random, most)))
        }
        LowDelayKind::ManySlices => many_slices(random, picture).finish(),
        LowDelayKind::Picture => slope(random, picture),
        LowDelayKind::Cut => cut(random, picture),
        LowDelayKind::Flipped => {
            let (p, mut bytes) = ordinary(random, picture).finish();
            flip_bits(random, &mut bytes);
            (p, bytes)
        }
        LowDelayKind::Noise => noisy(random, picture),
        LowDelayKind::OneByte => {
            let mut draft = ordinary(random, picture);
            draft.set_bytes(random, 1);
            draft.finish()
        }
        LowDelayKind::LumaLength => luma_lengths(random, picture).finish(),
        LowDelayKind::Ends => ends(random, picture).finish(),
        LowDelayKind::Runs => runs(random, picture).finish(),
        LowDelayKind::Codes => codes(random, picture).finish(),
        LowDelayKind::Index => indices(random, picture).finish(),
        LowDelayKind::Fault => faulty(random, picture),
        LowDelayKind::JustFits => just_fits(random, picture).finish(),
        LowDelayKind::Prediction => predicted(random, picture).finish(),
        LowDelayKind::LongSlices => long_slices(random, picture).finish(),
        LowDelayKind::Large => large(random, picture).finish(),
    }
}

/// The largest index of a slice with which no subband's is refused.
fn largest_index(picture: &SlicedPicture) -> u32 {
    let least = picture.used_matrix().iter().min().expect("never empty");
    LARGEST_INDEX.min(MAX_QUANTISER as u32 + least)
}

/// An index that is not refused: 0, a small one or any, by the picture.
fn some_indices(random: &mut Random, picture: &SlicedPicture) -> impl FnMut(&mut Random) -> u32 {
    let largest = largest_index(picture);
    let most = random.pick(&[0, 12, 40, largest]).min(largest);
    move |random| random.range(0, most.into()) as u32
}

/// A number whose value has up to so many bits, or 1 or -1 where that has more.
fn number_of_bits(random: &mut Random, scale: Scale, bits: u32) -> i64 {
    let most = (4 << bits) / quantiser_factor(scale.index);
    let most = most.max(random.pick(&[0, 0, 0, 1]));
    random.range(-most, most)
}

/// Numbers of some size, in as many positions as the picture asks for.
fn ordinary_numbers(random: &mut Random, picture: SlicedPicture) -> Draft {
    let index = some_indices(random, &picture);
    let mut draft = Draft::new(random, picture, index);
    let bits = random.pick(&[1, 2, 4, 8, 8, 12, 20, 29]);
    // In 16 positions, how many are not 0.
    let density = random.pick(&[0, 1, 4, 8, 16]);
    draft.fill(random, |random, scale, _| {
        if random.range(1, 16) <= density {
            number_of_bits(random, scale, bits)
        } else {
            0
        }
    });
    draft
}

/// The same, with bytes for all numbers or for some.
fn ordinary(random: &mut Random, picture: SlicedPicture) -> Draft {
    let mut draft = ordinary_numbers(random, picture);
    if random.range(0, 2) > 0 {
        draft.set_enough_bytes(random);
    } else {
        let most = draft.needed_bytes() as i64;
        let bytes = random.range(1, most) as usize;
        draft.set_bytes(random, bytes);
    }
    draft
}

/// Many slices, of which one may state an index that is refused, though it may have no value.
fn many_slices(random: &mut Random, picture: SlicedPicture) -> Draft {
    let mut draft = ordinary(random, picture);
    if random.range(0, 2) == 0 {
        let slice = draft.random_slice(random);
        put_refused_index(random, &mut draft, slice);
    }
    draft
}

/// A slope in slices that have room for it, or else other numbers.
fn slope(random: &mut Random, picture: SlicedPicture) -> (LowDelay, Vec<u8>) {
    let mut draft = ordinary_numbers(random, picture);
    let bytes = draft.needed_bytes() + random.range(4, 40) as usize;
    draft.set_bytes(random, bytes);
    match slope_slices(random, &draft.parameters) {
        Some(bytes) => (draft.parameters, bytes),
        None => draft.finish(),
    }
}

/// Slices cut at any byte, or at the end of one.
fn cut(random: &mut Random, picture: SlicedPicture) -> (LowDelay, Vec<u8>) {
    let draft = ordinary(random, picture);
    let slice = draft.random_slice(random);
    let (p, mut bytes) = draft.finish();
    let any = random.range(0, bytes.len() as i64 - 1) as usize;
    let end = p.slice_start(slice + 1);
    bytes.truncate(random.pick(&[any, any, end - 1, p.slice_start(slice)]));
    (p, bytes)
}

/// Slices of noise, or bytes at random.
fn noisy(random: &mut Random, picture: SlicedPicture) -> (LowDelay, Vec<u8>) {
    let most_index = random.pick(&[20, largest_index(&picture), LARGEST_INDEX]);
    let mut draft = Draft::new(random, picture, |_| 0);
    let most = random.pick(&[2, 8, 30]);
    let bytes = random.range(1, most) as usize;
    draft.set_bytes(random, bytes);
    let p = draft.parameters;
    let bytes = if random.flag() {
        noise_slices(random, &p, most_index)
    } else {
        noise(random)
    };
    (p, bytes)
}

/// Slices with luma lengths of 0, of the bits left and about them; now and then one that is refused, and an index
/// with it that is refused too.
fn luma_lengths(random: &mut Random, picture: SlicedPicture) -> Draft {
    let mut draft = ordinary(random, picture);
    for slice in 0..draft.slices.len() {
        let longest = longest_luma_length(draft.slice_bytes(slice)) as u64;
        let (any, few) = (random.range(0, longest as i64) as u64, longest.min(9));
        let length = random.pick(&[0, 1.min(longest), longest, longest, longest - few, any]);
        draft.slices[slice].luma_length = Some(length);
    }
    if random.range(0, 3) == 0 {
        let slice = draft.random_slice(random);
        draft.slices[slice].luma_length = refused_length(random, &draft, slice);
        if random.range(0, 2) == 0 {
            put_refused_index(random, &mut draft, slice);
        }
    }
    draft
}

/// A luma length of a slice that exceeds the bits left, often by one; none where there is none.
fn refused_length(random: &mut Random, draft: &Draft, slice: usize) -> Option<u64> {
    let bytes = draft.slice_bytes(slice);
    let least = bits_for_values(bytes) as u64 + 1;
    let largest = (1 << luma_length_bits(bytes)) - 1;
    (least <= largest).then(|| {
        let any = random.range(least as i64, largest as i64) as u64;
        random.pick(&[least, least, any, largest])
    })
}

/// Slices whose luma part ends up to 10 bits before the end of its last code or behind it, and whose chroma part may
/// end inside a code too.
fn ends(random: &mut Random, picture: SlicedPicture) -> Draft {
    let index = some_indices(random, &picture);
    let mut draft = Draft::new(random, picture, index);
    draft.fill(random, |random, scale, _| {
        let bits = random.pick(&[0, 4, 4, 6, 8, 10]);
        let most = largest_that_fits(scale.index, scale.intra, false);
        match bits {
            0 => 0,
            _ => number_of_code(random, bits).clamp(-most, most),
        }
    });
    move_ends(random, &mut draft);
    draft
}

/// Gives slices about the bytes that their codes need, and luma lengths up to 10 bits from those of their codes.
fn move_ends(random: &mut Random, draft: &mut Draft) {
    let bytes = draft.needed_bytes() as i64 + random.range(-2, 1);
    draft.set_bytes(random, bytes.max(1) as usize);
    for slice in 0..draft.slices.len() {
        let whole = draft.code_bits(slice, LUMA) as i64;
        let longest = longest_luma_length(draft.slice_bytes(slice)) as i64;
        let length = (whole + random.range(-10, 10)).clamp(0, longest);
        draft.slices[slice].luma_length = Some(length as u64);
    }
}

/// Gives slices room for their codes, or about so.
fn set_about_enough_bytes(random: &mut Random, draft: &mut Draft) {
    if random.flag() {
        draft.set_enough_bytes(random);
    } else {
        move_ends(random, draft);
    }
}

/// Slices of short codes with runs of zeros between them.
fn runs(random: &mut Random, picture: SlicedPicture) -> Draft {
    let mut draft = Draft::new(random, picture, |random| random.range(0, 40) as u32);
    draft.fill_runs(random, short_number);
    set_about_enough_bytes(random, &mut draft);
    draft
}

/// Slices of codes of every length.
fn codes(random: &mut Random, picture: SlicedPicture) -> Draft {
    let mut draft = Draft::new(random, picture, |_| 0);
    draft.fill_runs(random, number_of_any_code);
    set_about_enough_bytes(random, &mut draft);
    draft
}

/// Slices whose indices are about some matrix entry, above or below it, or about the largest, and now and then one
/// that is refused; numbers that show the offset.
fn indices(random: &mut Random, picture: SlicedPicture) -> Draft {
    let largest = largest_index(&picture);
    let used = picture.used_matrix().to_vec();
    let mut draft = Draft::new(random, picture, |random| {
        let about = random.pick(&used) as i64 + random.range(-1, 2);
        let any = random.range(0, largest.into());
        random
            .pick(&[about, any, any, largest.into()])
            .clamp(0, largest.into()) as u32
    });
    let density = random.pick(&[2, 8, 16]);
    draft.fill_sparse(random, density, number_that_shows_rule);
    let slice = draft.random_slice(random);
    if random.flag() {
        draft.put(random, slice, number_that_shows_rule);
    }
    draft.set_enough_bytes(random);
    if random.range(0, 3) == 0 {
        put_refused_index(random, &mut draft, slice);
    }
    draft
}

/// Has a slice state an index that is refused, often the least; where there is none, any.
fn put_refused_index(random: &mut Random, draft: &mut Draft, slice: usize) {
    let least = LARGEST_INDEX.min(largest_index(&draft.parameters.picture) + 1);
    let any = random.range(least.into(), LARGEST_INDEX.into()) as u32;
    draft.slices[slice].index = random.pick(&[least, least, any]);
}

/// The faults of a slice.
#[derive(Clone, Copy, Debug, PartialEq, Eq)]
enum Fault {
    Cut,
    LumaLength,
    Index,
    LongCode,
    LargeValue,
}

/// Slices in order but for a fault in one of them, or two: both in one slice, in two that are next to each other,
/// or anywhere; and now and then cut besides.
fn faulty(random: &mut Random, picture: SlicedPicture) -> (LowDelay, Vec<u8>) {
    const FAULTS: [Fault; 6] = [
        Fault::Cut,
        Fault::LumaLength,
        Fault::Index,
        Fault::LongCode,
        Fault::LongCode,
        Fault::LargeValue,
    ];
    let mut draft = ordinary_numbers(random, picture);
    let count = draft.slices.len();
    let first = draft.random_slice(random);
    let any = draft.random_slice(random);
    let mut faults = vec![(first, random.pick(&FAULTS))];
    if random.range(0, 3) > 0 {
        let second = random.pick(&[first, first, first, (first + 1) % count, any]);
        faults.push((second, random.pick(&FAULTS)));
    }
    if random.range(0, 3) == 0 {
        faults.push((any.max(first), Fault::Cut));
    }
    for &(slice, fault) in &faults {
        match fault {
            Fault::LongCode => draft.put(random, slice, long_number),
            Fault::LargeValue => draft.put(random, slice, number_at_a_border),
            _ => (),
        }
    }
    draft.set_enough_bytes(random);
    let mut end = draft.parameters.slice_start(count);
    for &(slice, fault) in &faults {
        match fault {
            Fault::LumaLength => {
                draft.slices[slice].luma_length = refused_length(random, &draft, slice);
            }
            Fault::Index => put_refused_index(random, &mut draft, slice),
            Fault::Cut => {
                let slice = draft.parameters.slice_range(slice);
                let any = random.range(slice.start as i64, slice.end as i64 - 1) as usize;
                end = end.min(random.pick(&[any, slice.end - 1]));
            }
            _ => (),
        }
    }
    let (p, mut bytes) = draft.finish();
    bytes.truncate(end);
    (p, bytes)
}

/// A number whose code has 32 data bits or more, or just does not.
fn long_number(random: &mut Random, _: Scale) -> i64 {
    let largest = LARGEST_NUMBER as i64;
    let any = largest + 1 + random.range(0, 1 << 40);
    random.pick(&[-1, 1]) * random.pick(&[largest + 1, largest + 1, any, largest])
}

/// Slices of numbers that just fit 32 bits with the indices of their subbands; most often one is about the first
/// that does not, in this picture or in one of the other kind.
fn just_fits(random: &mut Random, picture: SlicedPicture) -> Draft {
    let two_borders = indices_with_two_borders();
    let largest = largest_index(&picture);
    let entry = random.pick(picture.used_matrix());
    let mut draft = Draft::new(random, picture, |random| {
        let (any, large) = (random.range(0, 115) as u32, random.range(104, 115) as u32);
        let differs = random.pick(&two_borders);
        let index = random.pick(&[any, large, differs, differs]);
        (index + entry).min(largest)
    });
    let density = random.pick(&[1, 4, 16]);
    draft.fill_sparse(random, density, number_that_fits);
    let slice = draft.random_slice(random);
    if random.range(0, 3) > 0 {
        draft.put(random, slice, number_at_a_border);
    } else {
        draft.put(random, slice, number_that_fits);
    }
    draft.set_enough_bytes(random);
    draft
}

/// Slices in which level 0 of one component, or of two, has a large number or many, so that prediction leaves 32
/// bits or just does not.
fn predicted(random: &mut Random, picture: SlicedPicture) -> Draft {
    let index = some_indices(random, &picture);
    let mut draft = Draft::new(random, picture, index);
    for _ in 0..random.pick(&[1, 1, 2]) {
        let component = random.range(0, 2) as usize;
        let sign = random.pick(&[-1, 1]);
        let is_full = random.range(0, 3) == 0;
        let mut is_first = true;
        for slice in 0..draft.slices.len() {
            let scale = draft.scale(slice, 0);
            let most = largest_that_fits(scale.index, true, sign < 0);
            let mut positions = draft.positions(slice, component);
            positions.retain(|position| position.subband == 0);
            for position in positions {
                let small = random.pick(&[0, 0, 0, 0, 1, -1]);
                let number = if is_first {
                    most
                } else if is_full {
                    random.range(most / 2, most)
                } else {
                    small
                };
                is_first = false;
                draft.planes[component][position.entry] = sign * number;
            }
        }
    }
    draft.set_enough_bytes(random);
    draft
}

/// Slices of up to thousands of bytes, with luma lengths anywhere.
fn long_slices(random: &mut Random, picture: SlicedPicture) -> Draft {
    let mut draft = ordinary_numbers(random, picture);
    let (some, many) = (random.range(300, 3000), random.range(3000, 20_000));
    let bytes = random.pick(&[some, some, some, some, many, MOST_BYTES as i64]);
    draft.set_bytes(random, bytes as usize);
    for slice in 0..draft.slices.len() {
        let longest = longest_luma_length(draft.slice_bytes(slice)) as u64;
        let any = random.range(0, longest as i64) as u64;
        draft.slices[slice].luma_length = random.pick(&[None, Some(any), Some(longest)]);
    }
    draft
}

/// Slices of many values: most of them 0, the others small.
fn large(random: &mut Random, picture: SlicedPicture) -> Draft {
    let index = some_indices(random, &picture);
    let mut draft = Draft::new(random, picture, index);
    draft.fill(random, |random, scale, is_predicted| {
        let number = random.pick(&[0, 0, 0, 0, 0, 0, 1, -1, 1, -5]);
        // Prediction adds up many.
        let is_small = scale.index < 60 || !is_predicted && scale.index < 100;
        if is_small {
            number
        } else {
            0
        }
    });
    draft.set_enough_bytes(random);
    draft
}
