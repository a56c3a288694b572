//! The proved library and the reference agree; the command does the same for many more.

use compare::round_trip::{RoundTrip, RoundTrips};
use compare::work::Tally;
use compare::work::Work;
use compare::{
    check, plane_of_kind, proved, reference, Buffers, Case, Decoder, Job, Kind, PlaneKind,
    Statistics,
};
use reference::params::padded_area;
use reference::unpack::quantiser_factor;
use reference::{Answer, Parameters};
use vectors::pieces::{self, signed_numbers, subband_bytes};
use vectors::random::Random;

/// So many seeds from 1 on.
fn seeds(count: u64) -> Work {
    Work {
        first: 1,
        count,
        threads: 2,
    }
}

#[test]
fn components_are_alike() {
    let (statistics, failures) = seeds(4000).run(false, |seed, statistics: &mut Statistics| {
        let answers = check(&Case::from_seed(seed), proved).map_err(|error| error.to_string())?;
        statistics.add(&answers);
        Ok(())
    });
    assert_eq!(failures, []);
    assert_eq!(statistics.too_rare(), [""; 0]);
    assert_eq!(statistics.cases(), 4000);
}

#[test]
fn planes_come_back_from_their_analysis() {
    let (trips, failures) = seeds(4000).run(false, |seed, trips: &mut RoundTrips| {
        let trip = RoundTrip::from_seed(seed);
        trips.add(&trip, trip.run()?);
        Ok(())
    });
    assert_eq!(failures, []);
    assert_eq!(trips.too_rare(), [""; 0]);
}

#[test]
fn bodies_cut_at_every_byte_are_alike() {
    let mut cuts = 0;
    for seed in 1.. {
        let case = Case::from_seed(seed);
        let is_body = matches!(case.kind, Kind::Valid | Kind::Picture | Kind::Extreme);
        if !is_body || case.bytes.len() > 80 {
            continue;
        }
        for length in 0..case.bytes.len() {
            let mut cut = case.clone();
            cut.bytes.truncate(length);
            if let Err(difference) = check(&cut, proved) {
                panic!("seed {seed} cut to {length} bytes: {difference}");
            }
            cuts += 1;
        }
        if cuts > 4000 {
            break;
        }
    }
}

/// A line that is lifted exactly is lifted in parts of 256 numbers, and a sweep takes eight pairs of rows at
/// a turn: rows, and halves of rows, about one part, two and four, in pictures of up to three turns.
#[test]
fn wide_pictures_of_large_numbers_are_alike() {
    const KINDS: [PlaneKind; 3] = [
        PlaneKind::ManyBits,
        PlaneKind::ExtremeLevel,
        PlaneKind::Brink,
    ];
    let random = &mut Random::new(1);
    let mut answers = [0; 2];
    for width in [255, 256, 257, 511, 512, 513, 514, 1023, 1024, 1025, 1026] {
        for height in [2, 15, 16, 17, 34] {
            for wavelet in 0..=6 {
                let p = pieces::plain(width, height, 1, wavelet, false);
                let kind = random.pick(&KINDS);
                let case = Case {
                    parameters: p.clone(),
                    bytes: Vec::new(),
                    coefficients: plane_of_kind(random, kind, &p),
                    plane_kind: kind,
                    work_length: padded_area(&p),
                    samples_length: (width * height) as usize,
                    ..Case::from_seed(1)
                };
                match check(&case, proved) {
                    Ok([_, synthesised, _]) => answers[usize::from(synthesised.status == 10)] += 1,
                    Err(difference) => panic!("{p:?}, {kind:?}: {difference}"),
                }
            }
        }
    }
    let [accepted, refused] = answers;
    assert!(accepted > 80 && refused > 80, "{answers:?}");
}

/// What a decoder's unpack answers, and the plane.
fn unpacked(decoder: Decoder, p: &Parameters, bytes: &[u8]) -> (Answer, Vec<i32>) {
    let mut coefficients = vec![-1; padded_area(p)];
    let buffers = Buffers {
        bytes,
        coefficients: &mut coefficients,
        work: &mut [],
        samples: &mut [],
    };
    (decoder(p, Job::Unpack, buffers), coefficients)
}

/// A component of one number among 80 values, in level 0 or in level 1.
fn component_of_one(index: u32, number: i64, at: usize, level: u32) -> (Parameters, Vec<u8>) {
    let mut row = [0; 80];
    row[at] = number;
    let band = subband_bytes(index.into(), &signed_numbers(&row));
    let p = pieces::plain(80 << level, 1 << level, level, 0, false);
    let bytes = match level {
        0 => band,
        _ => [vec![0x80], band, vec![0x80; 2]].concat(),
    };
    (p, bytes)
}

/// Both offsets at every index: the small numbers whose values may be looked up and the next ones, and those
/// about the largest that fit 32 bits; where many bits follow, which a lookup needs, and where none does.
#[test]
fn numbers_about_every_border_are_alike() {
    let mut answers = [0; 2];
    for index in 0..=115 {
        let about = (4 << 31) / quantiser_factor(index);
        let sizes = (1..=16).chain(about - 2..=about + 2);
        let numbers = sizes.flat_map(|size| [-size, size]);
        for (number, at) in numbers.flat_map(|number| [(number, 3), (number, 79)]) {
            for (level, intra) in [(0, false), (0, true), (1, false), (1, true)] {
                let (mut p, bytes) = component_of_one(index, number, at, level);
                p.intra = intra;
                let ours = unpacked(proved, &p, &bytes);
                let is_alike = ours == unpacked(reference, &p, &bytes);
                assert!(is_alike, "index {index}, number {number}, {p:?}");
                answers[usize::from(ours.0.status == 9)] += 1;
            }
        }
    }
    let [accepted, refused] = answers;
    assert!(accepted > 30_000 && refused > 5000, "{answers:?}");
}
