//! Calls in which every field of a picture's parameters, every plane and every length matters.

use kafsillun::{unpack_low_delay, Error, LowDelay, Refusal};

/// What each entry of a plane is before a call.
const BEFORE: i32 = -77;

/// Two slices with a matrix, side by side.
const SLICES: [u8; 9] = [0x08, 0xF0, 0x8E, 0x5F, 0x04, 0x53, 0xCA, 0x47, 0x6F];

/// A matrix of these first entries, and zeros.
fn matrix(first: &[u32]) -> [u32; 13] {
    let mut matrix = [0; 13];
    matrix[..first.len()].copy_from_slice(first);
    matrix
}

/// The picture of these slices.
fn picture() -> LowDelay {
    LowDelay {
        depth: 1,
        intra: true,
        slices_across: 2,
        numerator: 9,
        denominator: 2,
        matrix: matrix(&[2, 0, 0, 1]),
        ..LowDelay::new((4, 2), (2, 2))
    }
}

/// The answer and the planes of luma, C1 and C2, which have these lengths.
fn call(p: &LowDelay, bytes: &[u8], lengths: [usize; 3]) -> (Result<usize, Error>, [Vec<i32>; 3]) {
    let mut planes = lengths.map(|length| vec![BEFORE; length]);
    let [luma, first, second] = &mut planes;
    let result = unpack_low_delay(p, bytes, luma, first, second);
    (result, planes)
}

/// The planes of an accepted picture, all of whose bytes are used.
fn unpacked(p: &LowDelay, bytes: &[u8]) -> [Vec<i32>; 3] {
    let (result, planes) = call(p, bytes, p.padded_areas().unwrap());
    assert_eq!(result, Ok(bytes.len()));
    planes
}

/// The refusal of a changed picture of luma 5 by 3, chroma 3 by 2 and depth 4, with planes of the lengths it needs.
fn refusal_of_changed(change: impl Fn(&mut LowDelay)) -> Option<Refusal> {
    let mut p = LowDelay {
        depth: 4,
        ..LowDelay::new((5, 3), (3, 2))
    };
    change(&mut p);
    let (result, _) = call(&p, &[0x01; 6], [256; 3]);
    result.err().map(|error| error.refusal())
}

#[test]
fn the_picture_of_two_slices() {
    let [luma, first, second] = unpacked(&picture(), &SLICES);
    assert_eq!(luma, [5, 3, -3, 0, 0, 2, 3, 0]);
    assert_eq!(first, [1, 0, 0, 0]);
    assert_eq!(second, [-1, 4, 0, 0]);
    // Bytes left over are not looked at.
    let (result, planes) = call(&picture(), &[&SLICES[..], &[0; 3]].concat(), [8, 4, 4]);
    assert_eq!((result, planes), (Ok(9), [luma, first, second]));
}

/// One slice of index 0: 16 bits of luma, four times 1; then 1 and -1 in turn, three times.
const ONES: [u8; 9] = [0x00, 0x40, 0x88, 0x88, 0x8C, 0x8C, 0x8F, 0xFF, 0xFF];

/// A picture of these sizes for those bytes.
fn ones(luma: (u32, u32), chroma: (u32, u32), intra: bool) -> [Vec<i32>; 3] {
    let p = LowDelay {
        intra,
        numerator: 9,
        ..LowDelay::new(luma, chroma)
    };
    unpacked(&p, &ONES)
}

#[test]
fn sizes_and_intra_are_told_apart() {
    let [luma, first, second] = ones((2, 2), (3, 1), false);
    assert_eq!((luma, first, second), (vec![1; 4], vec![1; 3], vec![-1; 3]));
    let [luma, first, second] = ones((2, 2), (3, 1), true);
    assert_eq!(luma, [1, 2, 2, 3]);
    assert_eq!((first, second), (vec![1, 2, 3], vec![-1, -2, -3]));
    assert_eq!(ones((4, 1), (1, 3), true)[0], [1, 2, 3, 4]);
    assert_eq!(ones((1, 4), (1, 3), true)[0], [1, 2, 3, 4]);
    assert_eq!(ones((2, 1), (2, 2), true)[1], [1, 2, 2, 2]);
    assert_eq!(ones((2, 1), (4, 1), true)[1], [1, 2, 3, 3]);
}

#[test]
fn slices_across_and_down_are_told_apart() {
    // Six slices of one byte: the bit 0 makes C1's first value -2, by the index of the slice.
    let bytes = [0, 2, 4, 6, 8, 10];
    let plane = |across, down| {
        let p = LowDelay {
            slices_across: across,
            slices_down: down,
            ..LowDelay::new((1, 1), (3, 2))
        };
        unpacked(&p, &bytes)[1].clone()
    };
    assert_eq!(plane(3, 2), [-2, -3, -4, -4, -5, -6]);
    // The first two slices have no row; the fourth and the last have two columns.
    assert_eq!(plane(2, 3), [-4, -4, 0, -5, -6, 0]);
    // Every other slice has no column.
    assert_eq!(plane(6, 1), [-3, -4, -6, 0, 0, 0]);
}

#[test]
fn the_fraction_says_how_many_bytes_are_used() {
    for (numerator, denominator, used) in [
        (1, 1, 4),
        (3, 2, 6),
        (7, 4, 7),
        (65535, 65534, 4),
        (5, 1, 20),
    ] {
        let p = LowDelay {
            slices_across: 2,
            slices_down: 2,
            numerator,
            denominator,
            ..LowDelay::new((1, 1), (1, 1))
        };
        assert_eq!(call(&p, &[0; 30], [1; 3]).0, Ok(used));
        let error = call(&p, &[0; 30][..used - 1], [1; 3]).0.unwrap_err();
        assert_eq!((error.number(), error.slice()), (6, Some(3)));
    }
}

#[test]
fn every_matrix_entry_has_its_subband() {
    // One slice of 3 bytes at index 127: 115 is the most, so an entry of 12 is needed in every subband.
    let bytes = [0xFE, 0x0F, 0xFF];
    for depth in 0..5 {
        let p = LowDelay {
            depth,
            numerator: 3,
            matrix: [12; 13],
            ..LowDelay::new((1, 1), (1, 1))
        };
        let area = 1 << (2 * depth);
        assert_eq!(call(&p, &bytes, [area; 3]).0, Ok(3));
        for subband in 0..13 {
            let mut p = p.clone();
            p.matrix[subband] = 11;
            let is_used = subband as u32 <= 3 * depth;
            let number = |p: &LowDelay| call(p, &bytes, [area; 3]).0.map_err(|e| e.number());
            assert_eq!(number(&p), if is_used { Err(8) } else { Ok(3) });
            p.matrix[subband] = 128;
            assert_eq!(number(&p), if is_used { Err(13) } else { Ok(3) });
        }
    }
}

#[test]
fn every_field_is_checked() {
    use Refusal::{Depth, PlaneLength, Size, Slices};
    assert_eq!(refusal_of_changed(|_| ()), None);
    for size in [0, 4097, 1 << 16, u32::MAX] {
        assert_eq!(refusal_of_changed(|p| p.luma_width = size), Some(Size));
        assert_eq!(refusal_of_changed(|p| p.luma_height = size), Some(Size));
        assert_eq!(refusal_of_changed(|p| p.chroma_width = size), Some(Size));
        assert_eq!(refusal_of_changed(|p| p.chroma_height = size), Some(Size));
    }
    for depth in [5, 1 << 16, u32::MAX] {
        assert_eq!(refusal_of_changed(|p| p.depth = depth), Some(Depth));
    }
    for count in [0, 256, u32::MAX] {
        assert_eq!(
            refusal_of_changed(|p| p.slices_across = count),
            Some(Slices)
        );
        assert_eq!(refusal_of_changed(|p| p.slices_down = count), Some(Slices));
    }
    for number in [0, 1 << 16, u32::MAX] {
        assert_eq!(refusal_of_changed(|p| p.numerator = number), Some(Slices));
        assert_eq!(refusal_of_changed(|p| p.denominator = number), Some(Slices));
    }
    assert_eq!(refusal_of_changed(|p| p.denominator = 2), Some(Slices));
    // A size of 17 needs another plane.
    for change in [
        (|p| p.luma_width = 17) as fn(&mut LowDelay),
        |p| p.luma_height = 17,
        |p| p.chroma_width = 17,
        |p| p.chroma_height = 17,
        |p| p.depth = 3,
    ] {
        assert_eq!(refusal_of_changed(change), Some(PlaneLength));
    }
}

#[test]
fn every_length_is_checked() {
    for (lengths, number) in [
        ([8, 4, 4], None),
        ([7, 4, 4], Some(5)),
        ([9, 4, 4], Some(5)),
        ([8, 3, 4], Some(5)),
        ([8, 5, 4], Some(5)),
        ([8, 4, 3], Some(5)),
        ([8, 4, 5], Some(5)),
        ([4, 8, 4], Some(5)),
        ([0, 0, 0], Some(5)),
    ] {
        let (result, planes) = call(&picture(), &SLICES, lengths);
        assert_eq!(result.err().map(|error| error.number()), number);
        let is_unchanged = planes.iter().flatten().all(|&entry| entry == BEFORE);
        assert_eq!(is_unchanged, number.is_some(), "{lengths:?}");
    }
    for length in 0..9 {
        let (result, planes) = call(&picture(), &SLICES[..length], [8, 4, 4]);
        let error = result.unwrap_err();
        assert_eq!(
            (error.number(), error.place()),
            (6, usize::from(length >= 4))
        );
        assert_eq!(planes.concat(), [0; 16]);
    }
}

#[test]
fn refusals_name_the_slice_or_prediction() {
    // The second slice has 27 bits left and states 63 of luma.
    let mut bytes = SLICES;
    bytes[4..6].copy_from_slice(&[0x05, 0xFF]);
    let (result, planes) = call(&picture(), &bytes, [8, 4, 4]);
    let error = result.unwrap_err();
    assert_eq!(
        (error.refusal(), error.slice()),
        (Refusal::LumaLength, Some(1))
    );
    assert_eq!(planes.concat(), [0; 16]);
    // 2^31 - 1, a code of 64 bits, and 1 in a row: the second is predicted by the first.
    let p = LowDelay {
        intra: true,
        numerator: 11,
        ..LowDelay::new((2, 1), (1, 1))
    };
    let bytes = [0x01, 0x10, 0, 0, 0, 0, 0, 0, 0, 0x08, 0xBF];
    let error = call(&p, &bytes, [2, 1, 1]).0.unwrap_err();
    assert_eq!((error.number(), error.place(), error.slice()), (9, 1, None));
    let message = "refused 9: a coefficient does not fit 32 bits, in prediction";
    assert_eq!(error.to_string(), message);
}
