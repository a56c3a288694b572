//! Stored recordings for refusal 12: entries that would be accepted, but don't use their whole body
//! (document 02, "Left-over bytes are a fault"); and for its place in the order, after 1 to 10.
//!
//! Beside them are recordings of bodies that are used to their last byte, though only just. One recording
//! for 12, `refused-12-after-the-used-part`, is made with those of bytes that are not read, in
//! [`crate::recording_vectors`].

use crate::pieces::{
    bits, body_of_zeros, joined, numbers, plain, random_body, signed_numbers, subband_bytes,
    with_codeblocks, with_random_codeblocks, EARLY_ENDS_OF_ONE, EARLY_ENDS_OF_TWO, LARGEST_NUMBER,
};
use crate::random::Random;
use crate::recording_vectors::{
    entry_of, random_entry, random_picture, synthesis_entry, Recording,
};
use crate::refused_recordings::{
    fault_recording, in_the_padding, parameter_order, predicted_too_far, values, Fault, MAX, MIN,
    TOO_LONG,
};
use crate::samples::{three_pictures, whole_case};
use crate::synthesis_vectors::{edge_jobs, out_and_back, refused_at};
use reference::encode::{encode_subbands, EncodeOptions, SubbandOptions};
use reference::params::{padded_area, Parameters, MAX_QUANTISER};
use reference::recording::{Entry, ENTRY_BYTES, MAX_FILE};

/// The most bytes that a body can have: those of a file of one entry without its table.
const MAX_BODY: usize = MAX_FILE - 1 - ENTRY_BYTES;

/// Every recording of this module.
pub fn left_over_recordings() -> Vec<Recording> {
    let mut random = Random::new(33);
    [
        one_byte(&mut random),
        many_bytes(&mut random),
        places(),
        last_subbands(&mut random),
        more_of_the_same(&mut random),
        pictures(&mut random),
        neighbours(&mut random),
        orders(&mut random),
    ]
    .into_iter()
    .flatten()
    .collect()
}

/// The same entry with bytes behind its body.
fn with_behind(mut entry: Entry, behind: &[u8]) -> Entry {
    entry.body.extend(behind);
    entry
}

/// So many bytes that differ from their neighbours.
fn filling(bytes: usize) -> Vec<u8> {
    (0..bytes).map(|k| (k % 251) as u8).collect()
}

/// A small entry of a depth that is accepted and uses its whole body. Size, wavelet and intra go by k,
/// codeblocks and values are at random.
fn whole(random: &mut Random, depth: u32, k: u32) -> Entry {
    let p = plain(
        1 + 5 * k % 13,
        1 + 3 * k % 11,
        depth,
        k % 7,
        k.is_multiple_of(2),
    );
    let p = with_random_codeblocks(random, &p);
    random_entry(random, &p)
}

/// Bodies of every depth that are used to their last byte, and the same with one byte behind.
fn one_byte(random: &mut Random) -> Vec<Recording> {
    let mut entries = Vec::new();
    let mut longer = Vec::new();
    for depth in 0..=4 {
        for (k, byte) in (0..).zip([0x00, 0x80, 0xFF]) {
            let entry = whole(random, depth, 3 * depth + k);
            longer.push(with_behind(entry.clone(), &[byte]));
            entries.push(entry);
        }
    }
    vec![
        Recording::new("bytes-used-to-the-last", &entries),
        Recording::new("refused-12-one-byte", &longer),
    ]
}

/// From 2 to 20,000 bytes left over, and as many as a file can hold.
fn many_bytes(random: &mut Random) -> Vec<Recording> {
    let counts = [
        2, 3, 4, 7, 8, 9, 15, 16, 127, 128, 255, 256, 257, 1000, 4096, 20_000,
    ];
    let entries: Vec<Entry> = (0..)
        .zip(counts)
        .map(|(k, count)| with_behind(whole(random, k % 5, k), &filling(count)))
        .collect();
    let smallest = entry_of(&plain(1, 1, 0, 0, true), body_of_zeros(0));
    vec![
        Recording::new("refused-12-many-bytes", &entries),
        Recording::new(
            "refused-12-most-bytes",
            &[with_behind(smallest, &vec![0; MAX_BODY - 1])],
        ),
    ]
}

/// A body of one subband that states so many bytes, with its header. It has one value, in the first byte.
fn body_of(bytes: usize) -> Vec<u8> {
    if bytes == 1 {
        return body_of_zeros(0);
    }
    // Index 0 leaves out a number of bytes where the code of the length grows; another index has it.
    for index in 0..=MAX_QUANTISER {
        for header in 1..bytes.min(8) {
            let length = bytes - header;
            let mut data = bits("0010");
            data.extend(filling(length - 1));
            let body = subband_bytes(index, &data);
            if body.len() == bytes {
                return body;
            }
        }
    }
    panic!("no subband of {bytes} bytes")
}

/// Places of one to five digits, those before and after a power of 2, and the largest there can be.
fn places() -> Vec<Recording> {
    let entry = |place| with_behind(entry_of(&plain(1, 1, 0, 0, false), body_of(place)), &[0x80]);
    let list = [
        1, 2, 9, 10, 99, 100, 127, 128, 255, 256, 999, 1000, 4096, 9999, 10_000, 32_768,
    ];
    vec![
        Recording::new("refused-12-places", &list.map(entry)),
        Recording::new("refused-12-largest-place", &[entry(MAX_BODY - 1)]),
    ]
}

/// What the last subband is: of length 0, longer than its values, or shorter.
fn last_subbands(random: &mut Random) -> Vec<Recording> {
    let mut recordings = vec![after_a_length_of_0(random)];
    recordings.extend(after_a_length_not_used_up(random));
    recordings.extend(after_an_early_end());
    recordings
}

/// Bytes behind a last subband of length 0: all subbands are so, or only the last is.
fn after_a_length_of_0(random: &mut Random) -> Recording {
    let mut entries = Vec::new();
    for skipped in [0x80, 0xFF, 0xA5] {
        for (depth, bytes) in [(0, 13), (1, 13), (4, 14)] {
            let p = plain(3, 4, depth, 6, true);
            entries.push(entry_of(&p, vec![skipped; bytes]));
        }
    }
    for depth in 1..=4 {
        let p = plain(6, 5, depth, depth, false);
        let mut bands = subbands_of_values(random, &p, SubbandOptions::default());
        bands.pop();
        entries.push(entry_of(&p, joined(bands.concat(), &[0xC1, 0x00, 0xC1])));
    }
    Recording::new("refused-12-after-a-length-of-0", &entries)
}

/// Last subbands with bytes that no value needs, which count as used, and the same with a byte behind.
fn after_a_length_not_used_up(random: &mut Random) -> Vec<Recording> {
    let mut entries = Vec::new();
    let mut longer = Vec::new();
    for depth in 0..=4 {
        for slack in [1, 2, 300] {
            let p = plain(7, 3, depth, 2, depth % 2 == 1);
            let options = SubbandOptions {
                slack: filling(slack),
                ..SubbandOptions::default()
            };
            let mut bands = subbands_of_values(random, &p, SubbandOptions::default());
            bands.pop();
            bands.extend(subbands_of_values(random, &p, options).pop());
            let entry = entry_of(&p, bands.concat());
            longer.push(with_behind(entry.clone(), &[0x01]));
            entries.push(entry);
        }
    }
    vec![
        Recording::new("bytes-unused-in-the-last-length", &entries),
        Recording::new("refused-12-after-bytes-unused-in-the-last-length", &longer),
    ]
}

/// Bytes of 0 behind a subband whose values go on past its length.
fn after_an_early_end() -> [Recording; 2] {
    [
        ("refused-12-after-an-early-end", EARLY_ENDS_OF_ONE, 1),
        (
            "refused-12-after-an-early-end-with-flags",
            EARLY_ENDS_OF_TWO,
            2,
        ),
    ]
    .map(|(name, texts, across)| {
        let p = with_codeblocks(&plain(5, 2, 0, 0, false), across, 1);
        let body = |text| joined(subband_bytes(0, &bits(text)), &[0, 0, 0]);
        Recording::new(name, &texts.map(|text| entry_of(&p, body(text))))
    })
}

/// The bytes of each subband of a component, every value of which is 1 to 9.
fn subbands_of_values(
    random: &mut Random,
    p: &Parameters,
    options: SubbandOptions,
) -> Vec<Vec<u8>> {
    let plane: Vec<i64> = (0..padded_area(p)).map(|_| random.range(1, 9)).collect();
    encode_subbands(p, &plane, &EncodeOptions::uniform(p, options))
}

/// Left-over bytes that could be read: one more subband, the three of one more level, the body again, or
/// the body of another component.
fn more_of_the_same(random: &mut Random) -> Vec<Recording> {
    let mut subband = Vec::new();
    let mut level = Vec::new();
    let mut component = Vec::new();
    for depth in 0..=4 {
        for behind in [
            vec![0x80],
            subband_bytes(4, &signed_numbers(&[1, -1, 2])),
            subband_bytes(0, &[0xFF; 40]),
        ] {
            subband.push(with_behind(whole(random, depth, depth + 2), &behind));
        }
        let p = plain(9, 7, depth, depth, depth % 2 == 0);
        if depth < 4 {
            let deeper = plain(9, 7, depth + 1, depth, depth % 2 == 0);
            level.push(entry_of(&p, random_body(random, &deeper, 20)));
            level.push(entry_of(&p, body_of_zeros(depth + 1)));
        }
        let entry = entry_of(&p, random_body(random, &p, 20));
        let twice = entry.body.clone();
        component.push(with_behind(entry.clone(), &twice));
        component.push(with_behind(entry.clone(), &whole_case().body));
        let next = whole(random, 4 - depth, depth + 5);
        component.push(with_behind(entry, &next.body));
    }
    vec![
        Recording::new("refused-12-one-more-subband", &subband),
        Recording::new("refused-12-one-more-level", &level),
        Recording::new("refused-12-one-more-component", &component),
    ]
}

/// Components with many samples, none of which is printed: a picture of each wavelet with zeros up to a
/// multiple of 64 bytes; and the largest padded areas, longest rows and longest columns.
fn pictures(random: &mut Random) -> Vec<Recording> {
    let mut padded = Vec::new();
    for wavelet in 0..7 {
        let p = plain(24, 17, wavelet % 4 + 1, wavelet, wavelet % 2 == 0);
        let p = with_random_codeblocks(random, &p);
        let entry = random_picture(random, &p, 60);
        let zeros = 64 - entry.body.len() % 64;
        padded.push(with_behind(entry, &vec![0; zeros]));
    }
    let sizes = [
        (128, 128, 4),
        (128, 128, 0),
        (4096, 4, 2),
        (4, 4096, 1),
        (1, 1024, 4),
        (1009, 1, 4),
        (4096, 1, 0),
        (1, 4096, 2),
        (1, 1, 4),
    ];
    let large = sizes.map(|(width, height, depth)| {
        let p = plain(width, height, depth, 0, true);
        entry_of(&p, joined(body_of_zeros(depth), &[0x00]))
    });
    vec![
        Recording::new("refused-12-padded-pictures", &padded),
        Recording::new("refused-12-large-pictures", &large),
    ]
}

/// Entries with left-over bytes beside others: accepted ones, refused ones, and the one whose bytes they
/// are.
fn neighbours(random: &mut Random) -> Vec<Recording> {
    let sixteen: Vec<Entry> = (0..16).map(|k| whole(random, k % 5, k)).collect();
    let longer: Vec<Entry> = (1..)
        .zip(&sixteen)
        .map(|(k, entry)| with_behind(entry.clone(), &filling(k)))
        .collect();

    // Left-over bytes in every second entry or so, an empty body, and refusals 6, 7 and 10.
    let mut between = sixteen.clone();
    for k in [1, 3, 4, 7, 9, 11, 13, 14] {
        between[k] = longer[k].clone();
    }
    between[6].body.clear();
    between[8].body.truncate(1);
    between[10].body.splice(0..0, [0; 8]);
    between[12] = synthesis_entry(&edge_jobs()[1]);

    // Zeros up to a multiple of 4 bytes, none where there is one.
    let mut padded = sixteen.clone();
    for entry in &mut padded {
        let bytes = entry.body.len().next_multiple_of(4);
        entry.body.resize(bytes, 0);
    }

    let first_and_last = [
        longer[0].clone(),
        sixteen[1].clone(),
        sixteen[2].clone(),
        longer[3].clone(),
    ];
    vec![
        Recording::new("entries-left-over-16", &longer),
        Recording::new("entries-left-over-between-accepted", &between),
        Recording::new("entries-left-over-first-and-last", &first_and_last),
        Recording::new("entries-padded-to-4-bytes", &padded),
        Recording::new("entries-cut-anywhere", &cut_anywhere()),
    ]
}

/// Two bodies of 8 bytes each, which the table divides in eight ways, only one of them right.
fn cut_anywhere() -> Vec<Entry> {
    let [first, second, _] = three_pictures();
    let bytes = joined(first.body, &second.body);
    let mut entries = Vec::new();
    for cut in [0, 2, 7, 8, 9, 10, 12, 16] {
        for part in [&bytes[..cut], &bytes[cut..]] {
            entries.push(entry_of(&first.parameters, part.to_vec()));
        }
    }
    entries
}

/// Bytes that no subband states.
const LEFT_OVER: [u8; 3] = [0x80, 0x00, 0xFF];

/// The same entry with those behind its body.
fn with_left_over(entry: Entry) -> Entry {
    with_behind(entry, &LEFT_OVER)
}

/// Faults in a subband, the rest of the body being in order, and bytes left over behind it.
const FAULTS_BEFORE_LEFT_OVER: [(&str, Fault); 5] = [
    // The length overruns by one all the bytes there are, which so aren't used.
    ("order-6-before-12", |_, behind| {
        let bytes = joined(behind.to_vec(), &LEFT_OVER);
        joined(numbers(&[bytes.len() as u64 + 1, 0]), &bytes)
    }),
    ("order-7-before-12", |band, behind| {
        [&values(band, 0, TOO_LONG), behind, &LEFT_OVER].concat()
    }),
    ("order-7-in-a-length-before-12", |_, behind| {
        [&numbers(&[LARGEST_NUMBER + 1, 0]), behind, &LEFT_OVER].concat()
    }),
    ("order-8-before-12", |band, behind| {
        [&values(band, MAX_QUANTISER + 1, 1), behind, &LEFT_OVER].concat()
    }),
    ("order-9-before-12", |band, behind| {
        [&values(band, 0, MAX + 1), behind, &LEFT_OVER].concat()
    }),
];

/// Another refusal and left-over bytes: 1 to 10 come before 12.
fn orders(random: &mut Random) -> Vec<Recording> {
    let mut recordings = vec![parameter_order("order-1-2-3-5-before-12", &[0x80; 13])];
    for (name, fault) in FAULTS_BEFORE_LEFT_OVER {
        recordings.push(fault_recording(random, name, fault));
    }
    let entries: Vec<Entry> = predicted_too_far()
        .into_iter()
        .map(with_left_over)
        .collect();
    recordings.push(Recording::new("order-9-predicted-before-12", &entries));
    let mut jobs = Vec::new();
    for wavelet in 0..7 {
        jobs.push(refused_at(random, wavelet, wavelet % 4 + 1));
        jobs.push(out_and_back(random, wavelet));
    }
    jobs.extend(in_the_padding());
    let entries: Vec<Entry> = jobs
        .iter()
        .map(synthesis_entry)
        .map(with_left_over)
        .collect();
    recordings.push(Recording::new("order-10-before-12", &entries));
    recordings.extend(edges());
    recordings
}

/// The last that isn't refused 1 to 10, and the first that is, each with left-over bytes.
fn edges() -> Vec<Recording> {
    let parameters = [
        plain(4096, 1, 0, 0, true),
        plain(4097, 1, 0, 0, true),
        plain(5, 4, 4, 0, true),
        plain(5, 4, 5, 0, true),
        plain(5, 4, 1, 6, true),
        plain(5, 4, 1, 7, true),
        plain(128, 128, 1, 0, true),
        plain(129, 127, 1, 0, true),
    ]
    .map(|p| entry_of(&p, joined(body_of_zeros(p.depth), &LEFT_OVER)));

    // Lengths of all bytes but one, of all, which leaves none over, and of one more.
    let p = plain(2, 1, 0, 0, false);
    let data = [0xFF; 6];
    let mut bytes: Vec<Entry> = [5, 6, 7]
        .map(|length| entry_of(&p, joined(numbers(&[length, 0]), &data)))
        .into();
    // A value that has 31 data bits and fits, one that doesn't fit, one of 32 data bits; and the indices.
    for (index, value) in [
        (0, MAX),
        (0, MAX + 1),
        (0, TOO_LONG),
        (0, MIN),
        (0, MIN - 1),
        (MAX_QUANTISER, 0),
        (MAX_QUANTISER + 1, 0),
    ] {
        let body = subband_bytes(index, &signed_numbers(&[value, 0]));
        bytes.push(entry_of(&p, joined(body, &LEFT_OVER)));
    }
    let jobs = edge_jobs();
    bytes.extend(jobs.iter().map(synthesis_entry).map(with_left_over));
    vec![
        Recording::new("order-edges-of-1-2-3-5-before-12", &parameters),
        Recording::new("order-edges-of-6-to-10-before-12", &bytes),
    ]
}
