//! The recordings in `vectors/recordings`: that they are what the command makes, and what they cover.

use crate::common::*;
use reference::codes::{BitReader, PastEnd};
use reference::params::{padded_area, padded_width, subbands, Subband};
use reference::recording::parse;
use reference::transform::fits_32_bits;
use reference::unpack::codeblock_start;
use reference::{read_recording, write_recording, Entry, Parameters};
use std::collections::BTreeSet;
use vectors::headers::{headers, Header};
use vectors::runs::{run_decode, run_unpack};
use vectors::synthesis_vectors::{filtered_level, level_end_fits, SynthesisJob};

const REFUSED: &str = "refused 11\n";

/// The recordings of the folder.
fn stored() -> Vec<Stored> {
    stored_recordings("vectors/recordings")
}

#[test]
fn the_command_writes_the_stored_files() {
    assert_writes_folder("recordings", "vectors/recordings");
}

#[test]
fn each_text_is_that_of_its_recording() {
    let stored = stored();
    assert!(stored.len() >= 171, "{} recordings", stored.len());
    for recording in &stored {
        let text = read_recording(&recording.file);
        assert!(text == recording.text, "{} differs", recording.name);
    }
}

/// An entry of a stored recording and what its text says of it.
struct Case {
    recording: String,
    /// The entry's bytes in the table.
    row: Vec<u8>,
    entry: Entry,
    /// The byte behind its body in the file, if there is one.
    behind: Option<u8>,
    /// The refusal's number and place, if it is refused.
    refused: Option<(u32, u64)>,
    /// Its samples, if it is accepted.
    samples: Vec<i32>,
}

/// Every entry of the recordings whose table is right; their texts must have exactly the lines that
/// document 01 gives them.
fn cases() -> Vec<Case> {
    let mut cases = Vec::new();
    for recording in stored() {
        if recording.text == REFUSED {
            continue;
        }
        let mut lines = recording.text.strip_suffix('\n').unwrap().split('\n');
        let mut body_end = 1 + 26 * usize::from(recording.file[0]);
        for (k, entry) in parse(&recording.file).unwrap().into_iter().enumerate() {
            let p = &entry.parameters;
            let line = lines.next().unwrap();
            let line = line.strip_prefix(&format!("entry {k}: ")).unwrap();
            let mut refused = None;
            let mut samples = Vec::new();
            if let Some(numbers) = line.strip_prefix("refused ") {
                let (number, place) = numbers.split_once(" place ").unwrap();
                refused = Some((number.parse().unwrap(), place.parse().unwrap()));
            } else {
                assert_eq!(line, format!("{} x {}", p.width, p.height));
                for _ in 0..p.height {
                    let row = lines.next().unwrap().split(' ');
                    let before = samples.len();
                    samples.extend(row.map(|word| word.parse::<i32>().unwrap()));
                    assert_eq!(samples.len() - before, p.width as usize);
                }
            }
            body_end += entry.body.len();
            cases.push(Case {
                recording: recording.name.clone(),
                behind: recording.file.get(body_end).copied(),
                row: recording.file[1 + 26 * k..][..26].to_vec(),
                entry,
                refused,
                samples,
            });
        }
        assert_eq!(lines.next(), None, "{}", recording.name);
    }
    cases
}

/// Fails unless at least so many cases are of a kind.
fn assert_cases(cases: &[Case], least: usize, kind: &str, is: impl Fn(&Case) -> bool) {
    let count = cases.iter().filter(|case| is(case)).count();
    assert!(count >= least, "{kind}: {count} of at least {least}");
}

#[test]
fn every_refusal_is_there() {
    let cases = cases();
    for number in [1, 2, 3, 5] {
        assert_cases(&cases, 8, &format!("refused {number}"), |case| {
            case.refused == Some((number, 0))
        });
    }
    for (number, least) in [(6, 5), (7, 5), (8, 4), (9, 3)] {
        for place in 0..13 {
            let kind = format!("refused {number} place {place}");
            assert_cases(&cases, least, &kind, |case| {
                case.refused == Some((number, place)) && case.entry.parameters.depth == 4
            });
        }
        for (depth, place) in [(0, 0), (1, 3), (2, 4)] {
            let kind = format!("refused {number} place {place} depth {depth}");
            assert_cases(&cases, 3, &kind, |case| {
                case.refused == Some((number, place)) && case.entry.parameters.depth == depth
            });
        }
    }
    for level in 1..=4 {
        for wavelet in 0..7 {
            let kind = format!("refused 10 level {level} wavelet {wavelet}");
            assert_cases(&cases, 1, &kind, |case| {
                case.refused == Some((10, level)) && case.entry.parameters.wavelet == wavelet
            });
        }
    }
    // A number that leaves 32 bits and comes back, and one that pad removal drops.
    for wavelet in 0..7 {
        assert_cases(&cases, 1, &format!("out and back {wavelet}"), |case| {
            let p = &case.entry.parameters;
            p.wavelet == wavelet
                && p.depth == 1
                && case.refused == Some((10, 1))
                && level_end_fits(&synthesis_job(&case.entry))
        });
    }
    for (width, height) in [(1, 2), (2, 1)] {
        assert_cases(
            &cases,
            1,
            &format!("padding of {width} x {height}"),
            |case| {
                let p = &case.entry.parameters;
                (p.width, p.height) == (width, height)
                    && case.refused == Some((10, 1))
                    && kept_part_fits(&synthesis_job(&case.entry))
            },
        );
    }
    // No other can occur in an entry.
    let possible = [1, 2, 3, 5, 6, 7, 8, 9, 10, 12];
    for case in &cases {
        if let Some((number, _)) = case.refused {
            assert!(possible.contains(&number), "{}", case.recording);
        }
    }
}

/// The call of synthesise that decoding an entry makes.
fn synthesis_job(entry: &Entry) -> SynthesisJob {
    let (given, coefficients) = run_unpack(&entry.parameters, &entry.body);
    assert_eq!(given.status, 0);
    SynthesisJob {
        parameters: entry.parameters.clone(),
        coefficients,
    }
}

/// Whether the numbers that pad removal keeps fit 32 bits after the filters of a job of depth 1, though
/// others don't.
fn kept_part_fits(job: &SynthesisJob) -> bool {
    let p = &job.parameters;
    let picture = filtered_level(job);
    let fits = |width: usize, height: usize| {
        (0..height).all(|y| (0..width).all(|x| fits_32_bits(picture.get(x, y))))
    };
    fits(p.width as usize, p.height as usize) && !fits(picture.width, picture.height)
}

/// The refusals of a recording's entries, in order; 0 place 0 where accepted.
fn refusals(cases: &[Case], recording: &str) -> Vec<(u32, u64)> {
    cases
        .iter()
        .filter(|case| case.recording == recording)
        .map(|case| case.refused.unwrap_or((0, 0)))
        .collect()
}

#[test]
fn names_say_what_is_refused() {
    let cases = cases();
    for case in &cases {
        if let Some(rest) = case.recording.strip_prefix("refused-") {
            let number: u32 = rest.split('-').next().unwrap().parse().unwrap();
            match case.refused {
                Some((given, _)) => assert_eq!(given, number, "{}", case.recording),
                None => assert!(number <= 5, "{}", case.recording),
            }
        }
    }
    // One way to be refused at every subband.
    let mut count = 0;
    let names: BTreeSet<&str> = cases.iter().map(|case| &case.recording[..]).collect();
    for name in names {
        let ways = ["6-", "7-", "8-", "9-"];
        let number = ways.iter().find_map(|way| {
            let rest = name
                .strip_prefix("refused-")
                .or_else(|| name.strip_prefix("order-"))?;
            rest.starts_with(way).then(|| way[..1].parse().unwrap())
        });
        let others = [
            "refused-9-predicted",
            "order-6-to-9-before-10",
            "order-7-and-9-in-a-subband",
            "order-9-predicted-before-12",
        ];
        if let Some(number) = number.filter(|_| !others.contains(&name)) {
            let places = (0..13).chain([0, 3, 4]);
            let expected: Vec<(u32, u64)> = places.map(|place| (number, place)).collect();
            assert_eq!(refusals(&cases, name), expected, "{name}");
            count += 1;
        }
    }
    assert_eq!(count, 24);
    assert_eq!(refusals(&cases, "refused-9-predicted"), [(9, 0); 14]);
    // Parameters out of range, and at the end some that aren't.
    for (name, number, count) in [
        ("refused-1-sizes", 1, 8),
        ("refused-2-depths", 2, 7),
        ("refused-3-wavelets", 3, 5),
        ("refused-5-areas", 5, 9),
    ] {
        let mut expected = vec![(number, 0); count];
        expected.push((0, 0));
        assert_eq!(refusals(&cases, name), expected, "{name}");
    }
    for level in 1..=4 {
        let name = format!("refused-10-at-level-{level}");
        assert_eq!(refusals(&cases, &name), [(10, level); 7]);
    }
}

#[test]
fn the_first_refusal_is_given() {
    let cases = cases();
    // Each set of a width of 0, a depth of 9, a wavelet of 9 and a padded area above 16,384.
    for (name, otherwise) in [
        ("order-1-2-3-5", (0, 0)),
        ("order-1-2-3-5-without-bytes", (6, 0)),
        ("order-1-2-3-5-before-12", (12, 7)),
    ] {
        let expected: Vec<(u32, u64)> = (0..16)
            .map(|set| match set {
                _ if set & 1 == 1 => (1, 0),
                _ if set & 2 == 2 => (2, 0),
                _ if set & 4 == 4 => (3, 0),
                _ if set & 8 == 8 => (5, 0),
                _ => otherwise,
            })
            .collect();
        assert_eq!(refusals(&cases, name), expected);
    }
    let values = [9, 7, 9, 7, 7, 9].map(|number| (number, 0));
    assert_eq!(
        refusals(&cases, "order-7-and-9-in-a-subband"),
        [values, values].concat()
    );
    let level_0 = [(7, 0), (9, 0), (7, 0), (9, 0)];
    let intra = [(9, 0); 5];
    let not_intra = [(6, 1), (6, 1), (7, 1), (8, 1), (9, 1)];
    assert_eq!(
        refusals(&cases, "order-prediction-after-its-subband"),
        [&level_0[..], &intra, &not_intra].concat()
    );
    let last = [(10, 1), (6, 12), (7, 12), (8, 12), (9, 12)];
    assert_eq!(
        refusals(&cases, "order-6-to-9-before-10"),
        [last, last].concat()
    );
    let levels = [(10, 4), (10, 1), (10, 2), (10, 3)];
    assert_eq!(
        refusals(&cases, "order-lowest-level-of-10"),
        [levels, levels, levels].concat()
    );
    // A body without bytes, whatever else there is.
    assert_cases(&cases, 20, "no bytes", |case| {
        case.entry.body.is_empty() && case.refused == Some((6, 0))
    });
}

#[test]
fn every_wavelet_and_depth_is_accepted() {
    let cases = cases();
    for wavelet in 0..7 {
        for depth in 0..=4 {
            let of = |case: &Case| {
                let p = &case.entry.parameters;
                case.refused.is_none() && p.wavelet == wavelet && p.depth == depth
            };
            for intra in [false, true] {
                let kind = format!("wavelet {wavelet} depth {depth} intra {intra}");
                assert_cases(&cases, 1, &kind, |case| {
                    of(case) && case.entry.parameters.intra == intra
                });
            }
            let kind = format!("wavelet {wavelet} depth {depth} values in every subband");
            assert_cases(&cases, 1, &kind, |case| {
                of(case) && has_values_in_every_subband(&case.entry)
            });
        }
    }
}

/// Whether each subband of an entry has a coefficient other than 0.
fn has_values_in_every_subband(entry: &Entry) -> bool {
    let p = &entry.parameters;
    let (_, plane) = run_unpack(p, &entry.body);
    subbands(p).iter().all(|band| {
        (band.top..band.top + band.height).any(|y| {
            let row = &plane[y * padded_width(p)..][..padded_width(p)];
            row[band.left..band.left + band.width]
                .iter()
                .any(|&value| value != 0)
        })
    })
}

#[test]
fn every_size_is_there() {
    let cases = cases();
    let accepted = |case: &Case, width: u32, height: u32| {
        let p = &case.entry.parameters;
        case.refused.is_none() && p.width == width && p.height == height
    };
    for depth in 0..=4 {
        assert_cases(&cases, 2, &format!("1 x 1 depth {depth}"), |case| {
            accepted(case, 1, 1) && case.entry.parameters.depth == depth
        });
    }
    for (width, height) in [(1, 100), (100, 1), (15, 17), (4096, 4), (4, 4096)] {
        assert_cases(&cases, 1, &format!("{width} x {height}"), |case| {
            accepted(case, width, height)
        });
    }
    assert_cases(&cases, 30, "padded", |case| {
        case.refused.is_none() && padded_area(&case.entry.parameters) > case.samples.len()
    });
    // The largest padded area and the next above, 129 x 127 at depth 1.
    assert_cases(&cases, 5, "an area of 16,384", |case| {
        case.refused.is_none() && padded_area(&case.entry.parameters) == 16_384
    });
    let largest = cases
        .iter()
        .filter(|case| case.refused.is_none())
        .map(|case| padded_area(&case.entry.parameters))
        .max();
    assert_eq!(largest, Some(16_384));
    assert_cases(&cases, 1, "129 x 127", |case| {
        let p = &case.entry.parameters;
        let given = case.refused == Some((5, 0));
        given && (p.width, p.height, p.depth) == (129, 127, 1) && padded_area(p) == 16_640
    });
}

/// What the bytes of an entry hold that decode accepts.
#[derive(Default)]
struct Contents {
    /// Subbands of length 0.
    skipped_subbands: usize,
    /// The quantiser indices of the others.
    indices: Vec<u64>,
    /// Codeblocks with values that are flagged, empty ones that are, and empty ones that aren't.
    codeblocks: [usize; 3],
    /// Subbands whose values or flags go on past the stated length.
    past_the_length: usize,
    /// Those that have a byte of 0 behind them in the body.
    past_the_length_before_0: usize,
    /// Of the last subband: its length, how many bytes of it no value or flag needs, and whether they go on
    /// past it.
    last_length: usize,
    last_unused: usize,
    last_ends_early: bool,
    /// Bytes after the last subband.
    bytes_left: usize,
}

/// Reads the bytes of an entry that decode accepts, and leaves the values aside.
fn contents(entry: &Entry) -> Contents {
    let p = &entry.parameters;
    let mut contents = Contents::default();
    for Header { band, index, data } in headers(p, &entry.body).unwrap() {
        let behind = &entry.body[data.end..];
        let data = &entry.body[data];
        contents.last_length = data.len();
        contents.last_unused = 0;
        contents.last_ends_early = false;
        contents.bytes_left = behind.len();
        let Some(index) = index else {
            contents.skipped_subbands += 1;
            continue;
        };
        contents.indices.push(index);
        let within = read_codeblocks(p, &band, &mut BitReader::new(data, PastEnd::Missing));
        if within.is_err() {
            contents.past_the_length += 1;
            contents.past_the_length_before_0 += usize::from(behind.first() == Some(&0));
            contents.last_ends_early = true;
        }
        let mut reader = BitReader::new(data, PastEnd::One);
        let read = read_codeblocks(p, &band, &mut reader).unwrap();
        contents.last_unused = data.len() - reader.align();
        for (count, more) in contents.codeblocks.iter_mut().zip(read) {
            *count += more;
        }
    }
    contents
}

/// The counts of a subband's codeblocks, or the status of a number that can't be read.
fn read_codeblocks(
    p: &Parameters,
    band: &Subband,
    reader: &mut BitReader,
) -> Result<[usize; 3], u32> {
    let across = p.codeblocks_across[band.level as usize] as usize;
    let down = p.codeblocks_down[band.level as usize] as usize;
    let mut counts = [0; 3];
    for block in 0..across * down {
        let (x, y) = (block % across, block / across);
        let side =
            |size, k, count| codeblock_start(size, k + 1, count) - codeblock_start(size, k, count);
        let values = side(band.width, x, across) * side(band.height, y, down);
        let flagged = across * down > 1 && reader.bit()? == 1;
        counts[0] += usize::from(flagged && values > 0);
        counts[1] += usize::from(flagged && values == 0);
        counts[2] += usize::from(!flagged && values == 0);
        if !flagged {
            for _ in 0..values {
                reader.signed_number()?;
            }
        }
    }
    Ok(counts)
}

/// Every accepted entry.
fn accepted() -> Vec<Case> {
    cases()
        .into_iter()
        .filter(|case| case.refused.is_none())
        .collect()
}

#[test]
fn every_kind_of_codeblock_is_there() {
    let cases = accepted();
    let kinds = [
        ("skipped", 40),
        ("empty and skipped", 35),
        ("empty and not skipped", 30),
    ];
    for (k, (kind, least)) in kinds.into_iter().enumerate() {
        for intra in [false, true] {
            assert_cases(&cases, least, kind, |case| {
                case.entry.parameters.intra == intra && contents(&case.entry).codeblocks[k] > 0
            });
        }
    }
    // The counts of a level, as the table has them.
    let pair = |case: &Case, level: usize| (case.row[8 + 2 * level], case.row[9 + 2 * level]);
    let used = |case: &Case| 0..=case.entry.parameters.depth as usize;
    let above = |case: &Case| case.entry.parameters.depth as usize + 1..5;
    assert_cases(&cases, 4, "default down beside another across", |case| {
        used(case).any(|level| pair(case, level).0 > 1 && pair(case, level).1 == 0)
    });
    assert_cases(&cases, 4, "default across beside another down", |case| {
        used(case).any(|level| pair(case, level).0 == 0 && pair(case, level).1 > 1)
    });
    assert_cases(&cases, 5, "default everywhere", |case| {
        case.row[8..18].iter().all(|&count| count == 0)
    });
    assert_cases(&cases, 4, "255 each way", |case| {
        pair(case, 0) == (255, 255)
    });
    for count in [0, 255] {
        assert_cases(&cases, 4, "counts above the depth", |case| {
            above(case).any(|level| pair(case, level).0 == count)
                && used(case).all(|level| pair(case, level).0 != count)
        });
    }
    let narrow = |band: &Subband, p: &Parameters| {
        p.codeblocks_across[band.level as usize] as usize > band.width
    };
    let low = |band: &Subband, p: &Parameters| {
        p.codeblocks_down[band.level as usize] as usize > band.height
    };
    let any = |case: &Case, is: &dyn Fn(&Subband, &Parameters) -> bool| {
        let p = &case.entry.parameters;
        subbands(p).iter().any(|band| is(band, p))
    };
    assert_cases(&cases, 70, "more codeblocks than columns", |case| {
        any(case, &narrow)
    });
    assert_cases(&cases, 70, "more codeblocks than rows", |case| {
        any(case, &low)
    });
}

#[test]
fn every_quantiser_index_is_accepted() {
    let cases = accepted();
    for intra in [false, true] {
        let indices: BTreeSet<u64> = cases
            .iter()
            .filter(|case| case.entry.parameters.intra == intra)
            .flat_map(|case| contents(&case.entry).indices)
            .collect();
        assert!(indices.into_iter().eq(0..=115), "intra {intra}");
    }
}

#[test]
fn every_use_of_bytes_is_there() {
    let cases = accepted();
    assert!(cases.len() >= 380, "{} accepted", cases.len());
    for case in &cases {
        let used = answer(0, case.entry.body.len() as u64);
        let given = run_unpack(&case.entry.parameters, &case.entry.body).0;
        assert_eq!(given, used, "{}", case.recording);
        assert_eq!(contents(&case.entry).bytes_left, 0, "{}", case.recording);
    }
    assert_cases(&cases, 70, "bits past a length", |case| {
        contents(&case.entry).past_the_length > 0
    });
    // A reader that passes the length would find 0s: in the next subband, or in the next body.
    assert_cases(&cases, 17, "bits past a length before a 0", |case| {
        contents(&case.entry).past_the_length_before_0 > 0
    });
    assert_cases(&cases, 15, "bits past a body before a 0", |case| {
        contents(&case.entry).last_ends_early && case.behind == Some(0)
    });
    assert_cases(&cases, 90, "a subband of length 0", |case| {
        contents(&case.entry).skipped_subbands > 0
    });
    // The stated length counts as used.
    for depth in 0..=4 {
        assert_cases(&cases, 3, "a last length not used up", |case| {
            case.entry.parameters.depth == depth && contents(&case.entry).last_unused > 0
        });
    }
    // The used part is the largest that there may be in a file.
    assert_cases(&cases, 1, "a file used to its end", |case| {
        case.entry.body.len() == 65_536 - 27
    });
}

/// Every entry with left-over bytes.
fn left_over() -> Vec<Case> {
    let is = |case: &Case| matches!(case.refused, Some((12, _)));
    cases().into_iter().filter(is).collect()
}

#[test]
fn left_over_bytes_follow_the_used_part() {
    for case in &left_over() {
        let (p, body) = (&case.entry.parameters, &case.entry.body);
        let (_, place) = case.refused.unwrap();
        let left = contents(&case.entry).bytes_left;
        assert!(left > 0, "{}", case.recording);
        assert_eq!(place, (body.len() - left) as u64, "{}", case.recording);
        // The job accepts the component and says so many bytes; without the others the entry is accepted.
        assert_eq!(
            run_decode(p, body).0,
            answer(0, place),
            "{}",
            case.recording
        );
        let mut whole = case.entry.clone();
        whole.body.truncate(place as usize);
        let text = read_recording(&write_recording(&[whole]));
        let first = format!("entry 0: {} x {}\n", p.width, p.height);
        assert!(text.starts_with(&first), "{}", case.recording);
    }
}

#[test]
fn every_kind_of_left_over_bytes_is_there() {
    let cases = left_over();
    assert!(cases.len() >= 210, "{} left over", cases.len());
    let left = |case: &Case| contents(&case.entry).bytes_left;
    let place = |case: &Case| case.refused.unwrap().1;
    for depth in 0..=4 {
        for intra in [false, true] {
            let kind = format!("left over depth {depth} intra {intra}");
            assert_cases(&cases, 9, &kind, |case| {
                let p = &case.entry.parameters;
                p.depth == depth && p.intra == intra
            });
        }
        assert_cases(&cases, 5, "values in every subband", |case| {
            case.entry.parameters.depth == depth && has_values_in_every_subband(&case.entry)
        });
    }
    for wavelet in 0..7 {
        assert_cases(
            &cases,
            10,
            &format!("left over wavelet {wavelet}"),
            |case| case.entry.parameters.wavelet == wavelet,
        );
    }
    for count in [1, 2, 3, 8, 255, 256, 257, 65_508] {
        assert_cases(&cases, 1, &format!("{count} left over"), |case| {
            left(case) == count
        });
    }
    for number in [
        1, 2, 9, 10, 99, 100, 255, 256, 999, 1000, 9999, 10_000, 65_508,
    ] {
        assert_cases(&cases, 1, &format!("place {number}"), |case| {
            place(case) == number
        });
    }
    for byte in [0x00, 0x80, 0xFF] {
        assert_cases(&cases, 5, &format!("{byte} left over alone"), |case| {
            left(case) == 1 && case.entry.body.last() == Some(&byte)
        });
    }
    // The last subband has length 0, ends before its values do, or goes on behind them.
    assert_cases(&cases, 40, "after a length of 0", |case| {
        contents(&case.entry).last_length == 0
    });
    assert_cases(&cases, 30, "after an early end", |case| {
        contents(&case.entry).last_ends_early
    });
    assert_cases(&cases, 30, "after a length not used up", |case| {
        contents(&case.entry).last_unused > 0
    });
    // The bytes are a subband, or a body of the entry's own parameters.
    assert_cases(&cases, 40, "one more subband", |case| {
        let rest = &case.entry.body[place(case) as usize..];
        subband_end(rest) == Some(rest.len())
    });
    assert_cases(&cases, 15, "one more component", |case| {
        let rest = &case.entry.body[place(case) as usize..];
        run_decode(&case.entry.parameters, rest).0 == answer(0, rest.len() as u64)
    });
    // Samples that aren't printed: as many as there may be, and others than 0.
    assert_cases(&cases, 8, "an area of 16,384", |case| {
        padded_area(&case.entry.parameters) == 16_384
    });
    assert_cases(&cases, 130, "samples other than 0", |case| {
        let (_, _, _, samples) = run_decode(&case.entry.parameters, &case.entry.body);
        samples.iter().any(|&sample| sample != 0)
    });
}

/// Where a subband that starts these bytes ends, if it does.
fn subband_end(bytes: &[u8]) -> Option<usize> {
    let mut header = BitReader::new(bytes, PastEnd::Missing);
    let length = header.number().ok()? as usize;
    if length > 0 {
        header.number().ok()?;
    }
    let end = header.align() + length;
    (end <= bytes.len()).then_some(end)
}

/// Where an entry's subbands end by their stated lengths, if they do.
fn stated_end(entry: &Entry) -> Option<usize> {
    let mut end = 0;
    for _ in 0..1 + 3 * entry.parameters.depth {
        end += subband_end(&entry.body[end..])?;
    }
    Some(end)
}

#[test]
fn refusals_1_to_10_come_before_left_over_bytes() {
    let cases = cases();
    // The body goes on behind its last subband, but the refusal is another.
    for (number, least) in [(1, 5), (3, 3), (5, 2), (7, 17), (8, 17), (9, 32), (10, 18)] {
        assert_cases(&cases, least, &format!("{number} before 12"), |case| {
            case.refused.is_some_and(|refused| refused.0 == number)
                && case.recording.ends_with("-before-12")
                && stated_end(&case.entry).is_some_and(|end| end < case.entry.body.len())
        });
    }
    // There is no last subband: the depth is out of range, or a length overruns bytes that are there.
    assert_cases(&cases, 5, "2 before 12", |case| {
        case.refused == Some((2, 0)) && case.recording.ends_with("-before-12")
    });
    assert_cases(&cases, 17, "6 before 12", |case| {
        matches!(case.refused, Some((6, _))) && case.recording.ends_with("-before-12")
    });
    let levels = (0..7).flat_map(|wavelet| [(10, wavelet % 4 + 1), (10, 1)]);
    assert_eq!(
        refusals(&cases, "order-10-before-12"),
        levels.chain([(10, 1), (10, 1)]).collect::<Vec<_>>()
    );
    assert_eq!(
        refusals(&cases, "order-9-predicted-before-12"),
        [(9, 0); 14]
    );
    // The last that isn't refused 1 to 10, and the first that is.
    assert_eq!(
        refusals(&cases, "order-edges-of-1-2-3-5-before-12"),
        [
            (12, 1),
            (1, 0),
            (12, 13),
            (2, 0),
            (12, 4),
            (3, 0),
            (12, 4),
            (5, 0)
        ]
    );
    let numbers: Vec<u32> = refusals(&cases, "order-edges-of-6-to-10-before-12")
        .iter()
        .map(|(number, _)| *number)
        .collect();
    assert_eq!(numbers, [12, 0, 6, 12, 9, 7, 12, 9, 12, 8, 12, 10, 12, 10]);
}

#[test]
fn the_extremes_of_32_bits_are_printed() {
    let cases = cases();
    for extreme in [i32::MIN, i32::MAX] {
        for depth in 0..=4 {
            for intra in [false, true] {
                let kind = format!("{extreme} depth {depth} intra {intra}");
                assert_cases(&cases, 1, &kind, |case| {
                    let p = &case.entry.parameters;
                    p.depth == depth && p.intra == intra && case.samples.contains(&extreme)
                });
            }
        }
    }
}

#[test]
fn entries_stand_beside_each_other() {
    let cases = cases();
    let answers = |name| refusals(&cases, name);
    assert_eq!(answers("entries-16"), [(0, 0); 16]);
    let numbers = |name| -> Vec<u32> { answers(name).iter().map(|(number, _)| *number).collect() };
    assert_eq!(
        numbers("entries-refused-between-accepted"),
        [0, 1, 2, 0, 3, 0, 5, 0, 6, 7, 0, 8, 0, 9, 10, 0]
    );
    assert_eq!(
        answers("entries-refused-first-and-last"),
        [(1, 0), (0, 0), (0, 0), (6, 0)]
    );
    assert_eq!(answers("table-right-16-empty-bodies"), [(6, 0); 16]);
    assert_eq!(numbers("entries-left-over-16"), [12; 16]);
    assert_eq!(
        numbers("entries-left-over-between-accepted"),
        [0, 12, 0, 12, 12, 0, 6, 12, 6, 12, 7, 12, 10, 12, 12, 0]
    );
    assert_eq!(numbers("entries-left-over-first-and-last"), [12, 0, 0, 12]);
    let padded = numbers("entries-padded-to-4-bytes");
    assert!(padded.contains(&0) && padded.contains(&12));
    // Two bodies of 8 bytes, cut after 0, 2, 7, 8, 9, 10, 12 and 16 of their bytes.
    assert_eq!(
        answers("entries-cut-anywhere"),
        [
            [(6, 0), (12, 8)],
            [(6, 1), (12, 8)],
            [(6, 3), (0, 0)],
            [(0, 0), (0, 0)],
            [(12, 8), (6, 0)],
            [(12, 8), (6, 3)],
            [(12, 8), (6, 2)],
            [(12, 8), (6, 0)],
        ]
        .concat()
    );
    assert_eq!(
        answers("entries-cut-one-byte-late"),
        [(12, 8), (6, 0), (0, 0)]
    );
    assert_eq!(answers("table-right-boundary-moved"), [(0, 0); 3]);
}

/// What can be wrong with a recording's form (document 01, "A recording").
#[derive(Clone, Copy, Debug, PartialEq, Eq, PartialOrd, Ord)]
enum Breach {
    TooLarge,
    NoCount,
    Count,
    ShortTable,
    Intra,
    ZeroByte,
    Offset,
    End,
}

/// All that is wrong with a file, a body's end being the sum that is given of its start and length.
fn breaches(file: &[u8], sum: fn(u64, u32) -> u64) -> BTreeSet<Breach> {
    let mut found = BTreeSet::new();
    let mut check = |breach, wrong| {
        if wrong {
            found.insert(breach);
        }
    };
    check(Breach::TooLarge, file.len() > 65_536);
    let Some(&count) = file.first() else {
        return BTreeSet::from([Breach::NoCount]);
    };
    check(Breach::Count, count == 0 || count > 16);
    let Some(table) = file.get(1..1 + 26 * count as usize) else {
        check(Breach::ShortTable, true);
        return found;
    };
    let mut end = 1 + table.len() as u64;
    for row in table.chunks(26) {
        let four = |at: usize| u32::from_be_bytes(row[at..at + 4].try_into().unwrap());
        check(Breach::Intra, row[6] > 1);
        check(Breach::ZeroByte, row[7] != 0);
        check(Breach::Offset, u64::from(four(18)) != end);
        end = sum(end, four(22));
    }
    check(Breach::End, end != file.len() as u64);
    found
}

#[test]
fn every_way_a_table_can_be_wrong_is_there() {
    let exact = |start: u64, length: u32| start + u64::from(length);
    let wrapped = |start: u64, length: u32| u64::from((start as u32).wrapping_add(length));
    let mut wrong = Vec::new();
    let mut right_if_sums_wrapped = 0;
    for recording in stored() {
        let found = breaches(&recording.file, exact);
        assert_eq!(
            found.is_empty(),
            recording.text != REFUSED,
            "{}",
            recording.name
        );
        if !found.is_empty() {
            right_if_sums_wrapped += usize::from(breaches(&recording.file, wrapped).is_empty());
            wrong.push(found);
        }
    }
    assert!(wrong.len() >= 50, "{} wrong tables", wrong.len());
    for (breach, least) in [
        (Breach::TooLarge, 1),
        (Breach::NoCount, 1),
        (Breach::Count, 2),
        (Breach::ShortTable, 8),
        (Breach::Intra, 4),
        (Breach::ZeroByte, 3),
        (Breach::Offset, 6),
        (Breach::End, 7),
    ] {
        let alone = BTreeSet::from([breach]);
        let count = wrong.iter().filter(|found| **found == alone).count();
        assert!(
            count >= least,
            "{breach:?} alone: {count} of at least {least}"
        );
    }
    assert_eq!(right_if_sums_wrapped, 3);
}
