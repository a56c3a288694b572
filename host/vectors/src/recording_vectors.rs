//! Stored recordings, and the output that is expected of the program for them.
//!
//! Each recording has a name; `vectors recordings DIR` writes NAME.rec and NAME.txt. Bodies come
//! from [`mod@reference::encode`], a seeded generator, or single bits, and every text from
//! [`read_recording`], so the files are the same in every run.
//!
//! Here are recordings of accepted entries, and of accepted ones beside refused ones;
//! [`crate::difference_recordings`] has those made for the offset of difference pictures,
//! [`crate::refused_recordings`] those for refusals 1 to 10, [`crate::left_over_recordings`] those for 12,
//! [`crate::wrong_tables`] those whose table is wrong or nearly so.

use crate::difference_recordings::difference_recordings;
use crate::left_over_recordings::left_over_recordings;
use crate::pictures::{encode_coefficients, picture_coefficients};
use crate::pieces::{
    bits, joined, plain, random_body, random_options, signed_numbers, sparse_body, subband_bytes,
    with_codeblocks, with_random_codeblocks, zeros_first, EARLY_ENDS_OF_ONE, EARLY_ENDS_OF_TWO,
};
use crate::random::Random;
use crate::refused_recordings::refused_recordings;
use crate::synthesis_vectors::{edge_jobs, SynthesisJob};
use crate::wrong_tables::table_recordings;
use reference::encode::{encode_body, encode_subbands, EncodeOptions, SubbandOptions};
use reference::params::{
    padded_area, padded_width, subband_at, subbands, Orientation, Parameters, MAX_QUANTISER,
};
use reference::recording::{read_recording, write_recording, Entry};

/// A recording and its name.
pub struct Recording {
    pub name: String,
    pub file: Vec<u8>,
}

impl Recording {
    /// A recording of these entries.
    pub fn new(name: impl Into<String>, entries: &[Entry]) -> Recording {
        Recording {
            name: name.into(),
            file: write_recording(entries),
        }
    }

    /// What the program prints for it.
    pub fn text(&self) -> String {
        read_recording(&self.file)
    }
}

/// Every stored recording.
pub fn recordings() -> Vec<Recording> {
    [
        wavelet_recordings(),
        size_recordings(),
        area_recordings(),
        codeblock_recordings(),
        quantiser_recordings(),
        difference_recordings(),
        byte_recordings(),
        extreme_recordings(),
        entry_recordings(),
        refused_recordings(),
        left_over_recordings(),
        table_recordings(),
    ]
    .into_iter()
    .flatten()
    .collect()
}

/// An entry of these parameters and this body.
pub fn entry_of(p: &Parameters, body: Vec<u8>) -> Entry {
    Entry {
        parameters: p.clone(),
        body,
    }
}

/// An entry of a call of synthesise: its coefficients in a body.
pub fn synthesis_entry(job: &SynthesisJob) -> Entry {
    let p = &job.parameters;
    assert!(!p.intra);
    let options = EncodeOptions::uniform(p, SubbandOptions::default());
    entry_of(p, encode_body(p, &job.coefficients, &options))
}

/// An entry that states a picture: its samples, repeated into the padding, analysed and quantised.
pub fn picture_entry(p: &Parameters, samples: &[i64], options: &EncodeOptions) -> Entry {
    let coefficients = picture_coefficients(p, samples);
    entry_of(p, encode_coefficients(p, &coefficients, options))
}

/// An entry of a picture with a slope, a sharp edge of a height and some noise, its layout and its
/// quantiser indices at random.
pub fn random_picture(random: &mut Random, p: &Parameters, height_of_edge: i64) -> Entry {
    let edge = random.range(0, i64::from(p.width) - 1);
    let lean = random.range(-2, 2);
    let mut samples = Vec::new();
    for y in 0..i64::from(p.height) {
        for x in 0..i64::from(p.width) {
            let beyond = 4 * (x - edge) >= lean * y;
            let slope = (x + 2 * y) / 4 % 12 - 6;
            let noise = random.range(-2, 2);
            samples.push(slope + noise + i64::from(beyond) * height_of_edge);
        }
    }
    let options = EncodeOptions {
        subbands: subbands(p)
            .iter()
            .map(|_| SubbandOptions {
                quantiser: random.range(0, 10) as u64,
                ..random_options(random)
            })
            .collect(),
    };
    picture_entry(p, &samples, &options)
}

/// An entry of numbers at random, half of them 0, in every subband.
pub fn random_entry(random: &mut Random, p: &Parameters) -> Entry {
    let bound = 1 << random.range(0, 12);
    entry_of(p, random_body(random, p, bound))
}

/// Every wavelet and depth: a picture, and a small component of numbers at random, one of them intra;
/// codeblocks and layouts at random.
fn wavelet_recordings() -> Vec<Recording> {
    let small = [(1, 1), (2, 1), (1, 3), (3, 5), (7, 6), (16, 8), (17, 9)];
    let large = [(24, 17), (33, 18), (19, 30), (16, 16), (40, 11)];
    let mut random = Random::new(24);
    let mut recordings = Vec::new();
    for wavelet in 0..7 {
        let mut entries = Vec::new();
        for depth in 0..=4 {
            let k = (wavelet + depth) as usize;
            let intra = k.is_multiple_of(2);
            let (width, height) = large[k % large.len()];
            let p = plain(width, height, depth, wavelet, intra);
            let p = with_random_codeblocks(&mut random, &p);
            let height_of_edge = random.pick(&[-90, 60, 120]);
            entries.push(random_picture(&mut random, &p, height_of_edge));
            let (width, height) = small[k % small.len()];
            let p = plain(width, height, depth, wavelet, !intra);
            let p = with_random_codeblocks(&mut random, &p);
            entries.push(random_entry(&mut random, &p));
        }
        recordings.push(Recording::new(
            format!("picture-wavelet-{wavelet}"),
            &entries,
        ));
    }
    recordings
}

/// One sample, one column, one row, odd sizes, and the longest row and column.
fn size_recordings() -> Vec<Recording> {
    let mut random = Random::new(25);
    let lists: [(&str, &[(u32, u32)]); 4] = [
        ("size-1-by-1", &[(1, 1); 5]),
        (
            "size-1-by-n",
            &[(1, 2), (1, 3), (1, 16), (1, 17), (1, 100), (1, 65)],
        ),
        (
            "size-n-by-1",
            &[(2, 1), (3, 1), (16, 1), (17, 1), (100, 1), (65, 1)],
        ),
        (
            "size-odd",
            &[(3, 5), (5, 3), (7, 7), (15, 17), (9, 33), (31, 11)],
        ),
    ];
    let mut recordings = Vec::new();
    for (name, sizes) in lists {
        let mut entries = Vec::new();
        for (k, &(width, height)) in sizes.iter().enumerate() {
            let intra = k % 2 == 0;
            let k = k as u32;
            let p = plain(width, height, k % 5, k, intra);
            entries.push(random_entry(&mut random, &p));
            let p = plain(width, height, (k + 1) % 5, 6 - k, intra);
            entries.push(random_entry(&mut random, &p));
        }
        recordings.push(Recording::new(name, &entries));
    }
    for (name, p) in [
        ("size-4096-by-4", plain(4096, 4, 2, 2, true)),
        ("size-4-by-4096", plain(4, 4096, 1, 6, false)),
    ] {
        let p = with_random_codeblocks(&mut random, &p);
        recordings.push(Recording::new(name, &[random_picture(&mut random, &p, 9)]));
    }
    recordings
}

/// Padded areas of 16,384, the largest there may be.
fn area_recordings() -> Vec<Recording> {
    let mut random = Random::new(26);
    let square = with_codeblocks(&plain(128, 128, 4, 0, true), 3, 3);
    let padded = [plain(1, 1024, 4, 1, true), plain(1009, 1, 4, 5, false)];
    vec![
        Recording::new(
            "area-16384-of-128-by-128",
            &[random_picture(&mut random, &square, 40)],
        ),
        Recording::new(
            "area-16384-by-padding",
            &padded.map(|p| random_picture(&mut random, &p, 40)),
        ),
    ]
}

/// Default counts, counts above the depth, flags set and not, empty codeblocks, and prediction through
/// flagged ones.
fn codeblock_recordings() -> Vec<Recording> {
    let mut random = Random::new(27);
    let mut recordings = Vec::new();

    // A count of 0 beside another, in the table; its body is that of a count of 1.
    let mut entries = Vec::new();
    for (across, down) in [(3, 1), (1, 3), (2, 1), (1, 255)] {
        for intra in [true, false] {
            let p = with_codeblocks(&plain(7, 5, 2, 1, intra), across, down);
            let mut with_zeros = random_entry(&mut random, &p);
            let zero = |count: u32| if count == 1 { 0 } else { count };
            with_zeros.parameters.codeblocks_across = p.codeblocks_across.map(zero);
            with_zeros.parameters.codeblocks_down = p.codeblocks_down.map(zero);
            entries.push(with_zeros);
        }
    }
    recordings.push(Recording::new(
        "codeblocks-default-in-one-of-a-pair",
        &entries,
    ));

    let mut entries = Vec::new();
    for depth in 0..=4 {
        let p = plain(6, 7, depth, depth, depth % 2 == 0);
        let mut with_zeros = random_entry(&mut random, &p);
        with_zeros.parameters = with_codeblocks(&p, 0, 0);
        entries.push(with_zeros);
    }
    recordings.push(Recording::new("codeblocks-default-everywhere", &entries));

    // Counts above the depth, of any value: the body is that of the others.
    let mut entries = Vec::new();
    for depth in 0..4 {
        for above in [0, 2, 255] {
            let p = with_codeblocks(&plain(5, 9, depth, 2, above == 2), 2, 1);
            let mut changed = random_entry(&mut random, &p);
            for level in depth as usize + 1..5 {
                changed.parameters.codeblocks_across[level] = above;
                changed.parameters.codeblocks_down[level] = 255 - above;
            }
            entries.push(changed);
        }
    }
    recordings.push(Recording::new("codeblocks-above-the-depth", &entries));

    let mut entries = Vec::new();
    for (width, height) in [(5, 4), (2, 3), (8, 1), (17, 3)] {
        for (across, down) in [(7, 2), (2, 9), (255, 1), (1, 255)] {
            let p = with_codeblocks(&plain(width, height, 1, 0, across == 7), across, down);
            let body = sparse_body(&mut random, &p, SubbandOptions::default());
            entries.push(entry_of(&p, body));
        }
    }
    recordings.push(Recording::new("codeblocks-more-than-columns", &entries));

    for (name, flag_zero_codeblocks) in [
        ("codeblocks-zeros-skipped", true),
        ("codeblocks-zeros-written", false),
    ] {
        let mut entries = Vec::new();
        for (across, down) in [(2, 1), (1, 2), (4, 3), (8, 8), (13, 5)] {
            for intra in [false, true] {
                let p = with_codeblocks(&plain(11, 9, 2, 4, intra), across, down);
                let options = SubbandOptions {
                    quantiser: 6,
                    skip_if_zero: false,
                    flag_zero_codeblocks,
                    ..SubbandOptions::default()
                };
                entries.push(entry_of(&p, sparse_body(&mut random, &p, options)));
            }
        }
        recordings.push(Recording::new(name, &entries));
    }

    let mut entries = Vec::new();
    for intra in [false, true] {
        let p = with_codeblocks(&plain(4, 4, 0, 1, intra), 2, 2);
        for data in [
            "0 0010 0011 1 1 1 1 1",
            "1 0 0010 1 1 1 1 1",
            "1 1 0 00110 00110 1 1 1",
            "0 1 1 1 0110 1 1 0 0010 0010 0010 0010",
            "1 1 1 1",
        ] {
            entries.push(entry_of(&p, subband_bytes(0, &bits(data))));
        }
    }
    recordings.push(Recording::new(
        "codeblocks-prediction-through-skipped",
        &entries,
    ));

    // Only the last of 65,025 codeblocks has the value, behind the flags of all the others.
    let p = with_codeblocks(&plain(1, 1, 0, 5, true), 255, 255);
    let entries = [
        vec![0xFF],
        vec![0x00],
        joined(vec![0x00; 8128], &bits("0 011 1 000")),
        joined(vec![0xFF; 8128], &bits("0 011 0 000")),
    ]
    .map(|data| entry_of(&p, subband_bytes(10, &data)));
    recordings.push(Recording::new("codeblocks-255-by-255", &entries));
    recordings
}

/// Every quantiser index. One number of each subband is 1 or -1, not all at the same position, so that no sum
/// leaves 32 bits.
fn quantiser_recordings() -> Vec<Recording> {
    let entries = entries_of_every_index(2, false, |k, _| (k % 2, k / 2 % 2, 1));
    vec![Recording::new("quantiser-every-index", &entries)]
}

/// Every quantiser index: 13 to a component of depth 4, and the highest, 4 to one of depth 1. Level 0 has so many
/// columns and rows. Each subband has one number, above and below 0 in turn; its column, its row and its
/// magnitude follow from the subband's number in stream order and its index.
pub(crate) fn entries_of_every_index(
    size: u32,
    intra: bool,
    number: impl Fn(usize, u32) -> (usize, usize, i64),
) -> Vec<Entry> {
    let mut entries = Vec::new();
    let mut index = 0;
    while index <= MAX_QUANTISER {
        let depth = if index < 104 { 4 } else { 1 };
        let p = plain(size << depth, size << depth, depth, 3, intra);
        let mut plane = vec![0i64; padded_area(&p)];
        let mut options = EncodeOptions::uniform(&p, SubbandOptions::default());
        for (k, band) in subbands(&p).iter().enumerate() {
            let (x, y, magnitude) = number(k, index as u32);
            let sign = if k % 2 == 0 { 1 } else { -1 };
            plane[(band.top + y) * padded_width(&p) + band.left + x] = sign * magnitude;
            options.subbands[k].quantiser = index;
            index += 1;
        }
        entries.push(entry_of(&p, encode_body(&p, &plane, &options)));
    }
    entries
}

/// Bytes and bits that aren't read (those after the used part of a body are refused 12), bits that are read
/// past a stated length, and subbands of length 0.
fn byte_recordings() -> Vec<Recording> {
    let mut random = Random::new(28);
    let mut recordings = Vec::new();

    let mut entries = Vec::new();
    for behind in [&[0x00][..], &[0xFF; 3], &[0x00; 40], &[0x30, 0x16, 0x80]] {
        for depth in [0, 3] {
            let p = plain(6, 5, depth, 4, depth == 0);
            let mut longer = random_entry(&mut random, &p);
            longer.body.extend(behind);
            entries.push(longer);
        }
    }
    recordings.push(Recording::new("refused-12-after-the-used-part", &entries));

    // The same numbers with 0, 1, 2 and 30 bytes of the length not used in each subband.
    let p = with_codeblocks(&plain(9, 6, 2, 2, true), 2, 2);
    let plane: Vec<i64> = (0..padded_area(&p)).map(|_| random.range(-9, 9)).collect();
    let layout = |change: &dyn Fn(&mut SubbandOptions)| {
        let mut options = SubbandOptions::default();
        change(&mut options);
        let options = EncodeOptions::uniform(&p, options);
        entry_of(&p, encode_body(&p, &plane, &options))
    };
    let entries = [0, 1, 2, 30].map(|slack| layout(&|options| options.slack = vec![0x2A; slack]));
    recordings.push(Recording::new("bytes-unused-in-a-length", &entries));
    let entries = [false, true].map(|fill| layout(&|options| options.fill = fill));
    recordings.push(Recording::new("bits-before-boundaries", &entries));

    // Each subband of 5 x 2 values that ends early has bytes of 0s behind, which a reader that passes the
    // length would find: those of the next subband, or, where it is the last, those of the next body.
    let ended_early = |name: &str, texts: [&str; 9], across, body: &dyn Fn(Vec<u8>) -> Vec<u8>| {
        let p = with_codeblocks(&plain(10, 4, 1, 3, false), across, 1);
        let entries = texts.map(|text| entry_of(&p, body(subband_bytes(0, &bits(text)))));
        Recording::new(name, &entries)
    };
    let zeros = zeros_first(&[0xFF; 2]);
    let first = |band: Vec<u8>| [&band[..], &zeros, &[0x80; 2]].concat();
    let last = |band: Vec<u8>| [&zeros[..], &[0x80; 2], &band].concat();
    recordings.extend([
        ended_early("bits-past-the-length", EARLY_ENDS_OF_ONE, 1, &first),
        ended_early(
            "bits-past-the-length-with-flags",
            EARLY_ENDS_OF_TWO,
            2,
            &first,
        ),
        ended_early("bits-past-the-body", EARLY_ENDS_OF_ONE, 1, &last),
        ended_early("bits-past-the-body-with-flags", EARLY_ENDS_OF_TWO, 2, &last),
    ]);

    let mut entries = Vec::new();
    for skipped in [0x80, 0xFF, 0xA5] {
        for depth in [0, 1, 4] {
            let p = plain(3, 4, depth, 6, true);
            entries.push(entry_of(&p, vec![skipped; subbands(&p).len()]));
        }
        // Some of the subbands alone.
        let p = plain(8, 8, 2, 0, true);
        let plane: Vec<i64> = (0..padded_area(&p)).map(|_| random.range(1, 9)).collect();
        let options = EncodeOptions::uniform(&p, SubbandOptions::default());
        let mut bands = encode_subbands(&p, &plane, &options);
        for number in [1, 2, 5] {
            bands[number] = vec![skipped];
        }
        entries.push(entry_of(&p, bands.concat()));
    }
    recordings.push(Recording::new("subbands-of-length-0", &entries));
    recordings
}

/// The extremes of 32 bits, as values, as predicted values and as samples.
fn extreme_recordings() -> Vec<Recording> {
    let (max, min) = (i64::from(i32::MAX), i64::from(i32::MIN));
    let mut recordings = Vec::new();

    let mut entries = Vec::new();
    for (intra, list) in [
        (false, [max, min, 0, min, max, 1]),
        (true, [max, 0, min, 0, 0, 0]),
        (true, [min, 0, max, 0, 0, 0]),
        (true, [1, max - 1, 0, 0, 0, 0]),
        (true, [-1, min + 1, 0, 0, 0, 0]),
    ] {
        for (width, height) in [(6, 1), (3, 2), (1, 6)] {
            let p = plain(width, height, 0, 0, intra);
            entries.push(entry_of(&p, subband_bytes(0, &signed_numbers(&list))));
        }
    }
    recordings.push(Recording::new("extremes-as-values", &entries));

    // The Haar filter without a shift repeats a lone value of LL, and so does prediction.
    let mut entries = Vec::new();
    for depth in 1..=4 {
        for value in [max, min] {
            for intra in [false, true] {
                let p = plain(5, 3, depth, 3, intra);
                let low = subband_at(&p, 0, Orientation::LL);
                let mut list = vec![0; low.width * low.height];
                list[0] = value;
                let body = subband_bytes(0, &signed_numbers(&list));
                let zeros = vec![0x80; 3 * depth as usize];
                entries.push(entry_of(&p, joined(body, &zeros)));
            }
        }
    }
    recordings.push(Recording::new("extremes-through-synthesis", &entries));

    // The last number that fits a lifting step and the first that doesn't, at both ends.
    let entries: Vec<Entry> = edge_jobs().iter().map(synthesis_entry).collect();
    recordings.push(Recording::new("extremes-of-a-lifting-step", &entries));

    // Codes of 30 and 31 data bits, ended by a 1 or by the end of the data, which is a minus too.
    let p = plain(3, 1, 0, 0, false);
    let mut entries = Vec::new();
    for list in [
        [(1 << 30) - 1, 1 - (1 << 30), 5],
        [(1 << 31) - 2, 2 - (1 << 31), -5],
        [1, max, min],
        [min, max, -1],
    ] {
        entries.push(entry_of(&p, subband_bytes(0, &signed_numbers(&list))));
    }
    // Behind the end of the data there are 0s, which the next subband starts with.
    let p = plain(6, 2, 1, 3, false);
    for last in ["00 00", "00 01", "01 00"] {
        let data = bits(&["1 1", &"00".repeat(29), last].concat());
        let body = [
            &subband_bytes(0, &data)[..],
            &zeros_first(&[0xFF]),
            &[0x80; 2],
        ]
        .concat();
        entries.push(entry_of(&p, body));
    }
    recordings.push(Recording::new("extremes-of-codes", &entries));
    recordings
}

/// Few entries and many, with refused ones between.
fn entry_recordings() -> Vec<Recording> {
    let mut random = Random::new(29);
    let mut any = |k: u32| {
        let intra = k.is_multiple_of(3);
        let p = plain(1 + 2 * k % 11, 1 + 3 * k % 7, k % 5, k % 7, intra);
        let p = with_random_codeblocks(&mut random, &p);
        random_entry(&mut random, &p)
    };
    let sixteen: Vec<Entry> = (0..16).map(&mut any).collect();
    // Each refusal that an entry can have, and accepted ones around it.
    let mut between: Vec<Entry> = (16..32).map(&mut any).collect();
    between[1].parameters.width = 0;
    between[2].parameters.depth = 5;
    between[4].parameters.wavelet = 7;
    between[6].parameters.width = 4096;
    between[6].parameters.height = 4096;
    between[8].body.truncate(1);
    between[9].body.splice(0..0, [0; 8]);
    between[11].body.splice(0..0, subband_bytes(116, &[0xFF]));
    between[13] = entry_of(
        &plain(2, 1, 0, 0, true),
        subband_bytes(0, &signed_numbers(&[i64::from(i32::MIN), -1])),
    );
    between[14] = synthesis_entry(&edge_jobs()[1]);
    let at_the_ends: Vec<Entry> = [1, 0, 3, 8].map(|k| between[k].clone()).into();
    vec![
        Recording::new("entries-16", &sixteen),
        Recording::new("entries-2", &sixteen[3..5]),
        Recording::new("entries-refused-between-accepted", &between),
        Recording::new("entries-refused-first-and-last", &at_the_ends),
    ]
}
