//! Calls in which every field of the parameters, every plane and every length matters.

use kafsillun::{decode, synthesise, unpack, Parameters, Refusal};

/// What each entry of a plane is before a call.
const BEFORE: i32 = -77;

/// The whole case of document 01.
const WHOLE_CASE: [u8; 8] = [0x30, 0x16, 0x30, 0x18, 0x30, 0x70, 0x30, 0x20];

/// The parameters of the whole case.
fn whole_case() -> Parameters {
    Parameters {
        depth: 1,
        wavelet: 3,
        intra: true,
        ..Parameters::new(2, 2)
    }
}

/// The refusal of each job, or none, with planes of these lengths.
fn refusals(p: &Parameters, lengths: [usize; 3]) -> [Option<Refusal>; 3] {
    let [mut coefficients, mut work, mut samples] = lengths.map(|length| vec![0; length]);
    let bytes = [0x80; 13];
    [
        unpack(p, &bytes, &mut coefficients).err(),
        synthesise(p, &coefficients, &mut work, &mut samples).err(),
        decode(p, &bytes, &mut coefficients, &mut work, &mut samples).err(),
    ]
    .map(|error| error.map(|error| error.refusal()))
}

/// The same with planes of the lengths that a component of 5 by 3 and depth 4 needs.
fn refusals_of_changed(change: impl Fn(&mut Parameters)) -> [Option<Refusal>; 3] {
    let mut p = Parameters {
        depth: 4,
        ..Parameters::new(5, 3)
    };
    change(&mut p);
    refusals(&p, [256, 256, 15])
}

/// The plane unpacked from these bytes, which are all used.
fn unpacked(p: &Parameters, bytes: &[u8]) -> Vec<i32> {
    let mut coefficients = vec![BEFORE; p.padded_area().unwrap()];
    assert_eq!(unpack(p, bytes, &mut coefficients), Ok(bytes.len()));
    coefficients
}

/// The samples of a component of depth 1 and 6 by 1 with a wavelet.
fn synthesised(wavelet: u32) -> [i32; 6] {
    let p = Parameters {
        depth: 1,
        wavelet,
        ..Parameters::new(6, 1)
    };
    let coefficients = [100, -37, 60, 20, 11, -50, 9, 40, -3, 8, -25, 31];
    let (mut work, mut samples) = ([BEFORE; 12], [BEFORE; 6]);
    assert_eq!(
        synthesise(&p, &coefficients, &mut work, &mut samples),
        Ok(())
    );
    assert_eq!(work, [0; 12]);
    samples
}

#[test]
fn the_whole_case() {
    let p = whole_case();
    let (mut coefficients, mut work, mut samples) = ([BEFORE; 4], [BEFORE; 4], [BEFORE; 4]);
    assert_eq!(unpack(&p, &WHOLE_CASE, &mut coefficients), Ok(8));
    assert_eq!(coefficients, [10, 4, -2, 1]);
    assert_eq!(
        synthesise(&p, &coefficients, &mut work, &mut samples),
        Ok(())
    );
    assert_eq!((work, samples), ([0; 4], [9, 12, 7, 11]));
    let (mut coefficients, mut work, mut samples) = ([BEFORE; 4], [BEFORE; 4], [BEFORE; 4]);
    assert_eq!(
        decode(&p, &WHOLE_CASE, &mut coefficients, &mut work, &mut samples),
        Ok(8)
    );
    assert_eq!(coefficients, [10, 4, -2, 1]);
    assert_eq!((work, samples), ([0; 4], [9, 12, 7, 11]));
}

#[test]
fn width_and_height_are_told_apart() {
    // Six values of 1, predicted: length 3, quantiser 0, six times 0010.
    let bytes = [0b00001100, 0x22, 0x22, 0x22];
    let plane = |width, height| {
        let p = Parameters {
            intra: true,
            ..Parameters::new(width, height)
        };
        unpacked(&p, &bytes)
    };
    assert_eq!(plane(3, 2), [1, 2, 3, 2, 3, 4]);
    assert_eq!(plane(2, 3), [1, 2, 2, 3, 3, 4]);
    assert_eq!(plane(6, 1), [1, 2, 3, 4, 5, 6]);
}

#[test]
fn intra_is_level_0_predicted() {
    let bytes = [0x30, 0x22];
    for (intra, plane) in [(false, [1, 1]), (true, [1, 2])] {
        let p = Parameters {
            intra,
            ..Parameters::new(2, 1)
        };
        assert_eq!(unpacked(&p, &bytes), plane);
    }
}

#[test]
fn every_count_has_its_level_and_direction() {
    // In the first subband of a level of two codeblocks, the first is skipped and the second starts
    // with 1: that shows whether they stand side by side or one below the other.
    for level in 0..5 {
        for across in [true, false] {
            let mut p = Parameters {
                depth: 4,
                ..Parameters::new(32, 32)
            };
            if across {
                p.codeblocks_across[level] = 2;
            } else {
                p.codeblocks_down[level] = 2;
            }
            let subband = if level == 0 { 0 } else { 3 * level - 2 };
            let mut bytes = vec![0x80; subband];
            // Length 1, quantiser 0; the flags 1 and 0, then 1; the ones that follow are zeros.
            bytes.extend([0x30, 0b1000_1011]);
            bytes.extend(vec![0x80; 12 - subband]);
            let size = if level == 0 { 2 } else { 1 << level };
            let left = if level == 0 { 0 } else { size };
            let place = if across {
                left + size / 2
            } else {
                left + size / 2 * 32
            };
            let mut plane = vec![0; 32 * 32];
            plane[place] = 1;
            assert_eq!(unpacked(&p, &bytes), plane, "level {level}, {across}");
        }
    }
}

#[test]
fn every_wavelet_is_told_apart() {
    // What the reference decoder makes of it.
    let expected = [
        [44, 9, -33, 8, 36, 8],
        [44, 13, -33, 13, 36, 3],
        [44, 8, -35, 7, 36, 8],
        [87, 103, -69, -46, 94, 28],
        [44, 52, -34, -23, 47, 14],
        [56, -9, -69, 17, 36, -30],
        [34, 8, -34, 7, 30, 5],
    ];
    for (wavelet, samples) in expected.into_iter().enumerate() {
        assert_eq!(synthesised(wavelet as u32), samples, "wavelet {wavelet}");
    }
}

#[test]
fn every_field_is_checked() {
    use Refusal::{Codeblocks, Depth, Size, Wavelet};
    assert_eq!(refusals_of_changed(|_| ()), [None; 3]);
    for size in [0, 4097, 1 << 16, u32::MAX] {
        let refused = [Some(Size); 3];
        assert_eq!(refusals_of_changed(|p| p.width = size), refused);
        assert_eq!(refusals_of_changed(|p| p.height = size), refused);
    }
    for depth in [5, 1 << 16, u32::MAX] {
        assert_eq!(refusals_of_changed(|p| p.depth = depth), [Some(Depth); 3]);
    }
    for wavelet in [7, 1 << 16, u32::MAX] {
        assert_eq!(
            refusals_of_changed(|p| p.wavelet = wavelet),
            [None, Some(Wavelet), Some(Wavelet)]
        );
    }
    let refused = [Some(Codeblocks), None, Some(Codeblocks)];
    for level in 0..5 {
        for count in [0, 256, u32::MAX] {
            assert_eq!(
                refusals_of_changed(|p| p.codeblocks_across[level] = count),
                refused
            );
            assert_eq!(
                refusals_of_changed(|p| p.codeblocks_down[level] = count),
                refused
            );
        }
    }
}

#[test]
fn counts_above_the_depth_are_not_looked_at() {
    for depth in 0..5 {
        let mut p = Parameters {
            depth,
            ..Parameters::new(16, 16)
        };
        for level in depth as usize + 1..5 {
            p.codeblocks_across[level] = 0;
            p.codeblocks_down[level] = 256;
        }
        assert_eq!(refusals(&p, [256; 3]), [None; 3], "depth {depth}");
    }
}

#[test]
fn every_length_is_checked() {
    use Refusal::PlaneLength;
    let p = Parameters {
        depth: 4,
        ..Parameters::new(5, 3)
    };
    let refused = Some(PlaneLength);
    for (lengths, expected) in [
        ([256, 256, 15], [None, None, None]),
        ([255, 256, 15], [refused, refused, refused]),
        ([257, 256, 15], [refused, refused, refused]),
        ([0, 256, 15], [refused, refused, refused]),
        ([256, 255, 15], [None, refused, refused]),
        ([256, 257, 15], [None, refused, refused]),
        ([256, 0, 15], [None, refused, refused]),
        ([256, 256, 14], [None, refused, refused]),
        ([256, 256, 16], [None, refused, refused]),
        ([256, 256, 256], [None, refused, refused]),
        ([256, 256, 0], [None, refused, refused]),
        ([0, 0, 0], [refused, refused, refused]),
    ] {
        assert_eq!(refusals(&p, lengths), expected, "{lengths:?}");
    }
}

#[test]
fn the_length_of_the_bytes_matters() {
    let p = whole_case();
    for length in 0..8 {
        let mut coefficients = [BEFORE; 4];
        let error = unpack(&p, &WHOLE_CASE[..length], &mut coefficients).unwrap_err();
        assert_eq!(error.number(), 6);
        assert_eq!(error.place(), length / 2);
        assert_eq!(coefficients, [0; 4]);
    }
}

#[test]
fn refusals_1_to_5_change_no_plane_and_10_zeros_all() {
    let p = Parameters {
        wavelet: 7,
        ..whole_case()
    };
    let (mut coefficients, mut work, mut samples) = ([1; 4], [2; 4], [3; 4]);
    let error = decode(&p, &WHOLE_CASE, &mut coefficients, &mut work, &mut samples).unwrap_err();
    assert_eq!((error.number(), error.place()), (3, 0));
    assert_eq!((coefficients, work, samples), ([1; 4], [2; 4], [3; 4]));

    let p = whole_case();
    let coefficients = [i32::MAX, i32::MIN, i32::MAX, i32::MIN];
    let error = synthesise(&p, &coefficients, &mut work, &mut samples).unwrap_err();
    assert_eq!((error.number(), error.place()), (10, 1));
    assert_eq!((work, samples), ([0; 4], [0; 4]));
}
