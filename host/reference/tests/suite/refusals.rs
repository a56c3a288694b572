//! Which refusal is given, where, and what the planes hold (document 01, "Refusal numbers").

use crate::common::*;
use reference::jobs::INITIAL_ENTRY;
use reference::params::{padded_area, padded_height, padded_width, sample_area};
use reference::{
    analyse, decode, encode_body, synthesise, unpack, Answer, EncodeOptions, Parameters,
    SubbandOptions,
};

/// The statuses of unpack, synthesise and decode for these lengths of coefficients, work and samples;
/// a job that refuses must give place 0 and leave every plane unchanged.
fn statuses(p: &Parameters, lengths: [usize; 3]) -> [u32; 3] {
    let bytes = [0xFF; 40];
    [0, 1, 2].map(|job| {
        let [mut coefficients, mut work, mut samples] =
            lengths.map(|length| vec![INITIAL_ENTRY; length]);
        let answer = match job {
            0 => unpack(p, &bytes, &mut coefficients),
            1 => synthesise(p, &coefficients, &mut work, &mut samples),
            _ => decode(p, &bytes, &mut coefficients, &mut work, &mut samples),
        };
        if answer.status != 0 {
            assert_eq!(answer.place, 0);
            for plane in [coefficients, work, samples] {
                assert!(plane.iter().all(|&entry| entry == INITIAL_ENTRY));
            }
        }
        answer.status
    })
}

/// A change that puts one fault into parameters or lengths.
type Fault = fn(&mut Parameters, &mut [usize; 3]);

#[test]
fn each_fault_alone_and_in_order() {
    let faults: [(Fault, [u32; 3]); 5] = [
        (|p, _| p.height = 0, [1, 1, 1]),
        (|p, _| p.depth = 5, [2, 2, 2]),
        (|p, _| p.wavelet = 7, [0, 3, 3]),
        (|p, _| p.codeblocks_down[2] = 0, [4, 0, 4]),
        (|_, lengths| *lengths = [17, 15, 7], [5, 5, 5]),
    ];
    // Every set of faults: each job gives the first one it looks for.
    for set in 0u32..32 {
        let mut p = plain(3, 2, 2, 1, true);
        let mut lengths = [16, 16, 6];
        let mut expected = [0, 0, 0];
        for (k, (fault, given)) in faults.iter().enumerate() {
            if set >> k & 1 == 1 {
                fault(&mut p, &mut lengths);
                for job in 0..3 {
                    if expected[job] == 0 {
                        expected[job] = given[job];
                    }
                }
            }
        }
        assert_eq!(statuses(&p, lengths), expected, "set {set}");
    }
}

#[test]
fn any_value_of_a_parameter_is_answered() {
    let good = plain(3, 2, 2, 1, true);
    let lengths = [16, 16, 6];
    for bad in [0, 4097, 65_536, 1 << 31, u32::MAX] {
        for change in [
            (|p, bad| p.width = bad) as fn(&mut Parameters, u32),
            |p, bad| p.height = bad,
        ] {
            let mut p = good.clone();
            change(&mut p, bad);
            assert_eq!(statuses(&p, lengths), [1, 1, 1]);
        }
    }
    for bad in [5, 31, 32, 63, 64, 127, 128, 1 << 31, u32::MAX] {
        let mut p = good.clone();
        p.depth = bad;
        assert_eq!(statuses(&p, lengths), [2, 2, 2]);
    }
    for bad in [7, 8, 255, 256, u32::MAX] {
        let mut p = good.clone();
        p.wavelet = bad;
        assert_eq!(statuses(&p, lengths), [0, 3, 3]);
    }
    for bad in [0, 256, 257, 65_536, u32::MAX] {
        for level in 0..5 {
            let expected = if level <= 2 { [4, 0, 4] } else { [0, 0, 0] };
            let mut p = good.clone();
            p.codeblocks_across[level] = bad;
            assert_eq!(statuses(&p, lengths), expected);
            let mut p = good.clone();
            p.codeblocks_down[level] = bad;
            assert_eq!(statuses(&p, lengths), expected);
        }
    }
}

#[test]
fn the_ends_of_the_ranges_are_accepted() {
    // Every byte given is 0xFF: each subband has length 0.
    let p = plain(4096, 1, 0, 6, true);
    assert_eq!(statuses(&p, [4096; 3]), [0; 3]);
    let p = plain(1, 4096, 4, 0, false);
    assert_eq!(statuses(&p, [65_536, 65_536, 4096]), [0; 3]);
    let mut p = plain(1, 1, 4, 6, true);
    p.codeblocks_across = [255; 5];
    p.codeblocks_down = [255; 5];
    assert_eq!(statuses(&p, [256, 256, 1]), [0; 3]);
}

#[test]
fn each_plane_needs_its_length() {
    let p = plain(3, 2, 2, 1, true);
    assert_eq!((padded_width(&p), padded_height(&p)), (4, 4));
    assert_eq!((padded_area(&p), sample_area(&p)), (16, 6));
    assert_eq!(statuses(&p, [16, 16, 6]), [0, 0, 0]);
    for wrong in [0, 15, 17] {
        assert_eq!(statuses(&p, [wrong, 16, 6]), [5, 5, 5]);
        assert_eq!(statuses(&p, [16, wrong, 6]), [0, 5, 5]);
    }
    for wrong in [0, 5, 7, 16] {
        assert_eq!(statuses(&p, [16, 16, wrong]), [0, 5, 5]);
    }
}

#[test]
fn padded_sizes() {
    let size = |width, height, depth| {
        let p = plain(width, height, depth, 0, false);
        (padded_width(&p), padded_height(&p))
    };
    assert_eq!(size(1, 1, 0), (1, 1));
    assert_eq!(size(1, 1, 4), (16, 16));
    assert_eq!(size(16, 17, 4), (16, 32));
    assert_eq!(size(5, 9, 1), (6, 10));
    assert_eq!(size(4095, 4096, 3), (4096, 4096));
}

#[test]
fn analysis_makes_the_checks_of_synthesis() {
    let p = plain(3, 2, 2, 1, true);
    assert!(analyse(&p, &[0; 16]).is_ok());
    assert_eq!(analyse(&p, &[0; 15]), Err(answer(5, 0)));
    assert_eq!(
        analyse(&plain(3, 2, 2, 7, true), &[0; 16]),
        Err(answer(3, 0))
    );
    assert_eq!(
        analyse(&plain(3, 2, 5, 7, true), &[0; 16]),
        Err(answer(2, 0))
    );
    assert_eq!(
        analyse(&plain(0, 2, 5, 7, true), &[0; 16]),
        Err(answer(1, 0))
    );
}

/// Unpack and decode must both refuse a body so, with zeros in every plane.
fn assert_body_refused(p: &Parameters, body: &[u8], expected: Answer) {
    assert_eq!(
        run_unpack(p, body),
        (expected, vec![0; padded_area(p)]),
        "body {body:?}"
    );
    assert_eq!(
        run_decode(p, body),
        (
            expected,
            vec![0; padded_area(p)],
            vec![0; padded_area(p)],
            vec![0; sample_area(p)]
        ),
        "body {body:?}"
    );
}

#[test]
fn bytes_ending_early_in_each_subband() {
    // Every subband has a header byte and two bytes of data.
    let p = plain(8, 8, 2, 1, true);
    let mut body = Vec::new();
    for _ in 0..7 {
        body.extend(subband_bytes(0, &[0xFF, 0xFF]));
    }
    assert_eq!(run_decode(&p, &body).0, answer(0, 21));
    for length in 0..21 {
        assert_body_refused(&p, &body[..length], answer(6, length as u64 / 3));
    }
    // Bytes after the last subband aren't looked at.
    body.extend([0, 0, 0]);
    assert_eq!(run_decode(&p, &body).0, answer(0, 21));
}

#[test]
fn bytes_ending_inside_a_header() {
    let p = plain(2, 2, 1, 1, true);
    // A length that doesn't end; an index that doesn't begin, or doesn't end.
    assert_body_refused(&p, &bits("00000000"), answer(6, 0));
    assert_body_refused(&p, &bits("1000 0000 0000 0000"), answer(6, 1));
    assert_body_refused(&p, &bits("0000 0010 0"), answer(6, 0));
    assert_body_refused(&p, &bits("1111 1111 0010 0000"), answer(6, 1));
    // Length 7 takes seven bits, and the index's only bit is a 0.
    assert_body_refused(&p, &bits("0000 0010"), answer(6, 0));
}

#[test]
fn length_zero_uses_whole_bytes_only() {
    // The skipped bits may have any value; no index follows a length of 0.
    let p = plain(2, 2, 1, 1, true);
    for skipped in [0x80, 0xFF, 0xA5, 0x80 | 0x2A] {
        assert_eq!(run_unpack(&p, &[skipped; 4]), (answer(0, 4), vec![0; 4]));
    }
}

#[test]
fn index_is_checked_before_the_length() {
    let p = plain(2, 2, 1, 1, true);
    // Length 255, index 116, and no data.
    let header = SubbandOptions {
        quantiser: 116,
        stated_length: Some(255),
        ..SubbandOptions::default()
    };
    let body = encode_body(&p, &[0; 4], &EncodeOptions::uniform(&p, header));
    assert_body_refused(&p, &body, answer(8, 0));
    let header = SubbandOptions {
        quantiser: 115,
        stated_length: Some(255),
        ..SubbandOptions::default()
    };
    let body = encode_body(&p, &[0; 4], &EncodeOptions::uniform(&p, header));
    assert_body_refused(&p, &body, answer(6, 0));
}

#[test]
fn the_earliest_refusal_in_reading_order() {
    let p = plain(2, 1, 0, 1, true);
    let too_large = "00".repeat(30) + "01" + "1" + "0";
    let too_long = "00".repeat(32) + "1" + "0";
    // In one subband: 9 before 7, 7 before 9.
    let body = subband_bytes(0, &bits(&(too_large.clone() + &too_long)));
    assert_body_refused(&p, &body, answer(9, 0));
    let body = subband_bytes(0, &bits(&(too_long.clone() + &too_large)));
    assert_body_refused(&p, &body, answer(7, 0));
    // 2^31 with minus stands, so the next number decides.
    let smallest = "00".repeat(30) + "01" + "1" + "1";
    let body = subband_bytes(0, &bits(&(smallest.clone() + &too_long)));
    assert_body_refused(&p, &body, answer(7, 0));
    // Prediction comes after the subband's last number: -2^31 and -1 would be 9 there.
    let p = plain(3, 1, 0, 1, true);
    let body = subband_bytes(0, &bits(&(smallest.clone() + "0011" + &too_long)));
    assert_body_refused(&p, &body, answer(7, 0));
    let body = subband_bytes(0, &bits(&(smallest.clone() + "0011" + "1")));
    assert_body_refused(&p, &body, answer(9, 0));
    // And before the next subband is read.
    let p = plain(3, 1, 1, 1, true);
    let body = subband_bytes(0, &bits(&(smallest + "0011")));
    assert_body_refused(&p, &body, answer(9, 0));
    let p = plain(3, 1, 1, 1, false);
    assert_body_refused(&p, &body, answer(6, 1));
}

#[test]
fn places_count_subbands_in_stream_order() {
    let p = plain(5, 7, 4, 1, true);
    for subband in 0..13 {
        // Length 0 as often as needed, then a fault.
        let mut body = vec![0x80; subband];
        body.extend(subband_bytes(116, &[0xFF]));
        assert_body_refused(&p, &body, answer(8, subband as u64));
        let mut body = vec![0x80; subband];
        body.extend([0; 8]);
        assert_body_refused(&p, &body, answer(7, subband as u64));
    }
    assert_eq!(run_decode(&p, &[0x80; 13]).0, answer(0, 13));
}

#[test]
fn decode_refused_in_synthesis_clears_every_plane() {
    // LL is the smallest number and LH is 1.
    let p = plain(2, 1, 1, 3, false);
    let coefficients = [i32::MIN, 0, 1, 0];
    let options = EncodeOptions::uniform(&p, SubbandOptions::default());
    let body = encode_body(&p, &coefficients, &options);
    let (accepted, unpacked) = run_unpack(&p, &body);
    assert_eq!(accepted, answer(0, body.len() as u64));
    assert_eq!(unpacked, coefficients);
    assert_eq!(
        run_decode(&p, &body),
        (answer(10, 1), vec![0; 4], vec![0; 4], vec![0; 2])
    );
}

#[test]
fn the_next_subband_starts_where_the_length_ends() {
    // Level 0 uses 4 bits of 3 bytes.
    let p = plain(2, 2, 1, 3, false);
    let mut body = subband_bytes(0, &[0b0010_0000, 0, 0]);
    body.extend(subband_bytes(0, &bits("0110")));
    body.extend([0x80, 0x80]);
    assert_eq!(run_unpack(&p, &body), (answer(0, 8), vec![1, 2, 0, 0]));
}

#[test]
fn decode_is_unpack_then_synthesise() {
    // Bytes at random, most of them ones so that codes are short, or few so that they are long.
    let mut random = Random::new(12);
    let mut seen = [0; 11];
    for _ in 0..3000 {
        let mut p = plain(
            random.range(1, 9) as u32,
            random.range(1, 9) as u32,
            random.range(0, 4) as u32,
            random.range(0, 6) as u32,
            random.flag(),
        );
        for level in 0..5 {
            p.codeblocks_across[level] = random.pick(&[1, 1, 2, 3]);
            p.codeblocks_down[level] = random.pick(&[1, 1, 2, 3]);
        }
        let mut body = Vec::new();
        let kind = random.range(0, 3);
        for _ in 0..=3 * p.depth {
            let length = random.pick(&[0, 1, 8, 20, 50]);
            let data: Vec<u8> = (0..length)
                .map(|_| match kind {
                    0 => (random.bits() | random.bits()) as u8,
                    1 => (random.bits() & random.bits()) as u8,
                    2 => (random.bits() & random.bits() & random.bits()) as u8,
                    _ => random.bits() as u8,
                })
                .collect();
            if random.range(0, 20) == 0 {
                body.extend(data);
            } else if length == 0 {
                body.push(0x80);
            } else {
                body.extend(subband_bytes(random.range(0, 117) as u64, &data));
            }
        }
        let (unpacked, coefficients) = run_unpack(&p, &body);
        let (decoded, kept, work, samples) = run_decode(&p, &body);
        assert_eq!(work, vec![0; padded_area(&p)]);
        if unpacked.status != 0 {
            assert!((6..=9).contains(&unpacked.status));
            assert!(unpacked.place <= u64::from(3 * p.depth));
            assert_eq!(decoded, unpacked);
            assert!(coefficients.iter().chain(&kept).all(|&entry| entry == 0));
            assert!(samples.iter().all(|&entry| entry == 0));
        } else {
            assert!(unpacked.place <= body.len() as u64);
            let (synthesised, _, expected) = run_synthesise(&p, &coefficients);
            assert_eq!(samples, expected);
            if synthesised.status != 0 {
                assert_eq!(synthesised.status, 10);
                assert!((1..=u64::from(p.depth)).contains(&synthesised.place));
                assert_eq!(decoded, synthesised);
                assert!(kept.iter().chain(&samples).all(|&entry| entry == 0));
            } else {
                assert_eq!(synthesised.place, 0);
                assert_eq!(decoded, unpacked);
                assert_eq!(kept, coefficients);
            }
        }
        seen[decoded.status as usize] += 1;
    }
    // Each answer that can be given was given.
    for status in [0, 6, 7, 8, 9, 10] {
        assert!(seen[status] > 10, "{seen:?}");
    }
}
