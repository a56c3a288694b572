//! Stored recordings for refusals 1 to 10, and for the order in which they are looked for.
//!
//! Refusal 4 can't occur: a count is 0, which means 1, or 1..255.

use crate::pieces::{
    body_of_zeros, joined, numbers, plain, signed_numbers, subband_bytes, with_codeblocks,
    LARGEST_NUMBER,
};
use crate::random::Random;
use crate::recording_vectors::{entry_of, synthesis_entry, Recording};
use crate::synthesis_vectors::{out_and_back, refused_at, SynthesisJob};
use reference::encode::{encode_body, encode_subbands, EncodeOptions, SubbandOptions};
use reference::params::{
    padded_area, padded_height, padded_width, subbands, Parameters, Subband, MAX_QUANTISER,
};
use reference::recording::Entry;
use reference::unpack::dequantise;

pub(crate) const MAX: i64 = i32::MAX as i64;
pub(crate) const MIN: i64 = i32::MIN as i64;

/// A value whose code has 32 data bits.
pub(crate) const TOO_LONG: i64 = 1 << 32;

/// Every recording of this module.
pub fn refused_recordings() -> Vec<Recording> {
    let mut random = Random::new(30);
    let mut recordings = parameter_recordings();
    for (name, fault) in FAULTS {
        recordings.push(fault_recording(&mut random, name, fault));
    }
    recordings.push(Recording::new("refused-9-predicted", &predicted_too_far()));
    recordings.extend(synthesis_recordings(&mut random));
    recordings.extend(order_recordings(&mut random));
    recordings
}

/// Sizes, depths, wavelets and padded areas out of range; the body would be accepted, where its depth can
/// be.
fn parameter_recordings() -> Vec<Recording> {
    let of = |p: Parameters| entry_of(&p, body_of_zeros(p.depth.min(4)));
    let size = |(width, height)| of(plain(width, height, 1, 1, true));
    let depth = |depth| of(plain(5, 4, depth, 1, true));
    let wavelet = |wavelet| of(plain(5, 4, 2, wavelet, false));
    let area = |(width, height, depth)| of(plain(width, height, depth, 1, true));
    vec![
        Recording::new(
            "refused-1-sizes",
            &[
                (0, 5),
                (5, 0),
                (0, 0),
                (4097, 1),
                (1, 4097),
                (4352, 1),
                (65535, 65535),
                (5, 32768),
                (5, 5),
            ]
            .map(size),
        ),
        Recording::new(
            "refused-2-depths",
            &[5, 6, 8, 32, 64, 128, 255, 4].map(depth),
        ),
        Recording::new("refused-3-wavelets", &[7, 8, 16, 128, 255, 6].map(wavelet)),
        Recording::new(
            "refused-5-areas",
            &[
                (129, 127, 1),
                (129, 128, 0),
                (128, 129, 0),
                (1, 1025, 4),
                (1025, 1, 4),
                (4096, 4, 3),
                (4096, 5, 0),
                (1, 4096, 4),
                (4096, 4096, 4),
                (8, 9, 4),
            ]
            .map(area),
        ),
    ]
}

/// The bytes of a body from a subband on, given those that would follow the subband.
pub(crate) type Fault = fn(&Subband, &[u8]) -> Vec<u8>;

/// Each way to be refused 6 to 9 that any subband has, and those that show which comes first.
const FAULTS: [(&str, Fault); 19] = [
    ("refused-6-no-bytes-left", |_, _| vec![]),
    ("refused-6-inside-a-length", |_, _| vec![0x00, 0x00]),
    ("refused-6-inside-an-index", |_, _| vec![0b0010_0000]),
    ("refused-6-length-overruns-by-one", |_, behind| {
        joined(numbers(&[behind.len() as u64 + 1, 0]), behind)
    }),
    ("refused-6-largest-length", |_, behind| {
        joined(numbers(&[LARGEST_NUMBER, MAX_QUANTISER]), behind)
    }),
    ("refused-7-in-a-length", |_, behind| {
        joined(numbers(&[LARGEST_NUMBER + 1, 0]), behind)
    }),
    ("refused-7-in-an-index", |_, behind| {
        joined(numbers(&[1, LARGEST_NUMBER + 1]), behind)
    }),
    ("refused-7-in-a-value", |band, behind| {
        joined(values(band, 0, TOO_LONG), behind)
    }),
    ("refused-7-bytes-of-0", |_, _| vec![0; 8]),
    ("refused-8-index-116", |band, behind| {
        joined(values(band, MAX_QUANTISER + 1, 1), behind)
    }),
    ("refused-8-largest-index", |_, behind| {
        joined(numbers(&[1, LARGEST_NUMBER]), behind)
    }),
    ("refused-9-one-too-large", |band, behind| {
        joined(values(band, 0, MAX + 1), behind)
    }),
    ("refused-9-one-too-small", |band, behind| {
        joined(values(band, 0, MIN - 1), behind)
    }),
    ("refused-9-through-a-factor", |band, behind| {
        // Too large with the smaller of the two offsets, so with both.
        let too_large = |&m: &i64| dequantise(m, 100, false) > i128::from(MAX);
        let m = (1..).find(too_large).expect("a number that is too large");
        joined(values(band, 100, -m), behind)
    }),
    // The index is looked at before the length.
    ("order-8-before-a-length-that-overruns", |_, behind| {
        joined(numbers(&[behind.len() as u64 + 1, 116]), behind)
    }),
    ("order-8-before-the-largest-length", |_, _| {
        numbers(&[LARGEST_NUMBER, 116])
    }),
    // The index must have been read.
    ("order-7-in-a-length-before-8", |_, behind| {
        joined(numbers(&[LARGEST_NUMBER + 1, 116]), behind)
    }),
    // The length is looked at before any value.
    ("order-6-before-7-in-a-value", |band, _| {
        shortened(values(band, 0, TOO_LONG))
    }),
    ("order-6-before-9", |band, _| {
        shortened(values(band, 0, MAX + 1))
    }),
];

/// A subband of small values, but for the last.
pub(crate) fn values(band: &Subband, index: u64, last: i64) -> Vec<u8> {
    let mut list: Vec<i64> = (0..band.width * band.height)
        .map(|k| [1, 0, -2, 0, 1][k % 5])
        .collect();
    *list.last_mut().expect("a subband has values") = last;
    // A byte more than the values need, so that they are whole without the last byte.
    subband_bytes(index, &joined(signed_numbers(&list), &[0]))
}

/// All bytes but the last.
fn shortened(mut bytes: Vec<u8>) -> Vec<u8> {
    bytes.pop();
    bytes
}

/// A fault at every subband of a component of depth 4, and at one of each depth 0, 1 and 2. The subbands
/// before it, and those behind where the fault keeps them, are in order.
pub(crate) fn fault_recording(random: &mut Random, name: &str, fault: Fault) -> Recording {
    let mut entries = Vec::new();
    let places = (0..13).map(|number| (4, number));
    for (depth, number) in places.chain([(0, 0), (1, 3), (2, 4)]) {
        let p = plain(9, 7, depth, number as u32 % 7, number % 2 == 0);
        let bands = random_subbands(random, &p);
        let behind = bands[number + 1..].concat();
        let fault = fault(&subbands(&p)[number], &behind);
        entries.push(entry_of(&p, joined(bands[..number].concat(), &fault)));
    }
    Recording::new(name, &entries)
}

/// The bytes of each subband of a component of small numbers.
fn random_subbands(random: &mut Random, p: &Parameters) -> Vec<Vec<u8>> {
    let plane: Vec<i64> = (0..padded_area(p))
        .map(|_| random.pick(&[0, 0, 1, -1, 2, -3]))
        .collect();
    let options = SubbandOptions {
        quantiser: random.range(0, 12) as u64,
        ..SubbandOptions::default()
    };
    encode_subbands(p, &plane, &EncodeOptions::uniform(p, options))
}

/// An entry of depth 0 with these values.
fn row(width: u32, height: u32, intra: bool, list: &[i64]) -> Entry {
    let p = plain(width, height, 0, 0, intra);
    entry_of(&p, subband_bytes(0, &signed_numbers(list)))
}

/// Entries of predicted values that leave 32 bits in the top row, in the left column and inside; and a value beyond
/// them that prediction would bring back.
pub(crate) fn predicted_too_far() -> Vec<Entry> {
    let mut entries = Vec::new();
    for list in [
        [MAX, 1, 0, 0],
        [MIN, -1, 0, 0],
        [1, MAX, 0, 0],
        [-1, MIN, 0, 0],
    ] {
        entries.push(row(4, 1, true, &list));
        entries.push(row(1, 4, true, &list));
    }
    for list in [[MAX, 0, 0, 1], [MIN, 0, 0, -1], [5, MAX - 5, 0, MAX]] {
        entries.push(row(2, 2, true, &list));
    }
    for list in [[-1, MAX + 1], [1, MIN - 1]] {
        entries.push(row(2, 1, true, &list));
    }
    // A codeblock that is flagged is predicted too: MAX beside it, and 1 below.
    let p = with_codeblocks(&plain(2, 2, 0, 0, true), 2, 2);
    let plane = [MAX, 0, 0, 1];
    let options = EncodeOptions::uniform(&p, SubbandOptions::default());
    entries.push(entry_of(&p, encode_body(&p, &plane, &options)));
    entries
}

/// Refusal 10 at each level, for a number that comes back, and for one in the padding alone.
fn synthesis_recordings(random: &mut Random) -> Vec<Recording> {
    let mut recordings = Vec::new();
    for level in 1..=4 {
        let entries: Vec<Entry> = (0..7)
            .map(|wavelet| synthesis_entry(&refused_at(random, wavelet, level)))
            .collect();
        recordings.push(Recording::new(
            format!("refused-10-at-level-{level}"),
            &entries,
        ));
    }
    let entries: Vec<Entry> = (0..7)
        .map(|wavelet| synthesis_entry(&out_and_back(random, wavelet)))
        .collect();
    recordings.push(Recording::new("refused-10-out-and-back", &entries));
    let entries: Vec<Entry> = in_the_padding().iter().map(synthesis_entry).collect();
    recordings.push(Recording::new("refused-10-in-the-padding", &entries));
    recordings
}

/// Jobs refused for a number of the padding alone: the Haar filter takes MAX, 2 to MAX - 1, MAX + 1, and
/// the second column or row is padding.
pub(crate) fn in_the_padding() -> [SynthesisJob; 2] {
    [(1, 2, [i32::MAX, 2, 0, 0]), (2, 1, [i32::MAX, 0, 2, 0])].map(|(width, height, plane)| {
        SynthesisJob {
            parameters: plain(width, height, 1, 3, false),
            coefficients: plane.into(),
        }
    })
}

/// Two faults or more in one entry.
fn order_recordings(random: &mut Random) -> Vec<Recording> {
    vec![
        parameter_order("order-1-2-3-5", &body_of_zeros(2)),
        parameter_order("order-1-2-3-5-without-bytes", &[]),
        value_order(),
        prediction_order(),
        unpack_before_synthesis(random),
        lowest_level(random),
    ]
}

/// Every set of refusals 1, 2, 3 and 5, over this body; without any of them the depth is 2.
pub(crate) fn parameter_order(name: &str, body: &[u8]) -> Recording {
    let faults: [fn(&mut Parameters); 4] = [
        |p| p.width = 0,
        |p| p.depth = 9,
        |p| p.wavelet = 9,
        |p| p.height = 4096,
    ];
    let mut entries = Vec::new();
    for set in 0..16 {
        let mut p = plain(5, 4, 2, 1, true);
        for (k, fault) in faults.iter().enumerate() {
            if set >> k & 1 == 1 {
                fault(&mut p);
            }
        }
        entries.push(entry_of(&p, body.to_vec()));
    }
    Recording::new(name, &entries)
}

/// 7 and 9 in one subband: the earlier value is given.
fn value_order() -> Recording {
    let entries = [
        [MAX + 1, TOO_LONG, 0],
        [TOO_LONG, MAX + 1, 0],
        [1, MIN - 1, TOO_LONG],
        [1, TOO_LONG, MIN - 1],
        // These stand, so the next value decides.
        [MIN, TOO_LONG, MAX + 1],
        [MAX, MAX + 1, TOO_LONG],
    ];
    let both = [false, true].map(|intra| entries.map(|list| row(3, 1, intra, &list)));
    Recording::new("order-7-and-9-in-a-subband", &both.concat())
}

/// A prediction that is 9 comes after its subband's values and before the next subband.
fn prediction_order() -> Recording {
    let mut entries = Vec::new();
    for list in [
        [MAX, 1, TOO_LONG, 0],
        [MAX, 1, 0, MAX + 1],
        [MIN, -1, 0, TOO_LONG],
        [MIN, -1, 0, 0],
    ] {
        entries.push(row(4, 1, true, &list));
    }
    let next: [Vec<u8>; 5] = [
        vec![],
        numbers(&[1000, 0]),
        vec![0; 8],
        numbers(&[1, 116]),
        subband_bytes(0, &signed_numbers(&[MAX + 1])),
    ];
    for intra in [true, false] {
        for fault in &next {
            let p = plain(3, 2, 1, 1, intra);
            let low = subband_bytes(0, &signed_numbers(&[MAX, 1]));
            entries.push(entry_of(&p, joined(low, fault)));
        }
    }
    Recording::new("order-prediction-after-its-subband", &entries)
}

/// A component refused 10 at level 1, and with each fault in its last subband.
fn unpack_before_synthesis(random: &mut Random) -> Recording {
    let mut entries = Vec::new();
    for wavelet in [0, 6] {
        let job = refused_at(random, wavelet, 1);
        let p = &job.parameters;
        entries.push(synthesis_entry(&job));
        let options = EncodeOptions::uniform(p, SubbandOptions::default());
        let bands = encode_subbands(p, &job.coefficients, &options);
        let start = bands[..12].concat();
        for fault in [
            vec![],
            vec![0; 8],
            numbers(&[1, 116]),
            subband_bytes(0, &signed_numbers(&[MAX + 1])),
        ] {
            entries.push(entry_of(p, joined(start.clone(), &fault)));
        }
    }
    Recording::new("order-6-to-9-before-10", &entries)
}

/// Components that level 4 refuses, alone and with a lower level that does.
fn lowest_level(random: &mut Random) -> Recording {
    let mut entries = Vec::new();
    for wavelet in [1, 3, 5] {
        let last = refused_at(random, wavelet, 4);
        entries.push(synthesis_entry(&last));
        for level in 1..=3 {
            let mut both = refused_at(random, wavelet, level);
            let p = &both.parameters;
            for index in 0..padded_area(p) {
                let (x, y) = (index % padded_width(p), index / padded_width(p));
                // What lies outside the lower levels is level 4.
                if x >= padded_width(p) / 2 || y >= padded_height(p) / 2 {
                    both.coefficients[index] = last.coefficients[index];
                }
            }
            entries.push(synthesis_entry(&both));
        }
    }
    Recording::new("order-lowest-level-of-10", &entries)
}
