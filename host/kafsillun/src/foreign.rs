//! The declarations of `include/kafsillun.h` in Rust.
//!
//! Nothing but tests ties them to the archive: those below compare them with the header, and those in
//! `tests/fields.rs` and `tests/low_delay.rs` call the library so that every field matters.

/// `KafsillunParameters`.
#[repr(C)]
#[derive(Clone, Copy, Debug)]
pub struct Parameters {
    pub width: u32,
    pub height: u32,
    pub depth: u32,
    pub wavelet: u32,
    /// Non-zero is yes.
    pub intra: u32,
    pub codeblocks_across: [u32; 5],
    pub codeblocks_down: [u32; 5],
}

/// `KafsillunLowDelay`.
#[repr(C)]
#[derive(Clone, Copy, Debug)]
pub struct LowDelay {
    pub luma_width: u32,
    pub luma_height: u32,
    pub chroma_width: u32,
    pub chroma_height: u32,
    pub depth: u32,
    /// Non-zero is yes.
    pub intra: u32,
    pub slices_across: u32,
    pub slices_down: u32,
    pub numerator: u32,
    pub denominator: u32,
    pub matrix: [u32; 13],
}

/// `KafsillunAnswer`.
#[repr(C)]
#[derive(Clone, Copy, Debug, PartialEq, Eq)]
pub struct Answer {
    pub status: u32,
    pub place: usize,
}

// Each pointer is followed by the number of elements behind it. The library keeps no pointer and has
// no state. Planes that a call may write must not share memory with any other of its slices.
extern "C" {
    pub fn kafsillun_unpack(
        p: Parameters,
        bytes: *const u8,
        bytes_length: usize,
        coefficients: *mut i32,
        coefficients_length: usize,
    ) -> Answer;

    pub fn kafsillun_synthesise(
        p: Parameters,
        coefficients: *const i32,
        coefficients_length: usize,
        work: *mut i32,
        work_length: usize,
        samples: *mut i32,
        samples_length: usize,
    ) -> Answer;

    pub fn kafsillun_decode(
        p: Parameters,
        bytes: *const u8,
        bytes_length: usize,
        coefficients: *mut i32,
        coefficients_length: usize,
        work: *mut i32,
        work_length: usize,
        samples: *mut i32,
        samples_length: usize,
    ) -> Answer;

    pub fn kafsillun_unpack_low_delay(
        p: LowDelay,
        bytes: *const u8,
        bytes_length: usize,
        luma: *mut i32,
        luma_length: usize,
        first_chroma: *mut i32,
        first_chroma_length: usize,
        second_chroma: *mut i32,
        second_chroma_length: usize,
    ) -> Answer;
}

#[cfg(test)]
mod tests {
    use super::*;
    use crate::Refusal;
    use std::mem::{align_of, offset_of, size_of};
    use std::path::{Path, PathBuf};
    use std::process::Command;

    /// A C program that gives the header's functions the types declared above, and prints the size
    /// and alignment of each struct, the offset and size of each of its fields, and every status.
    const LAYOUT: &str = r#"
        #include <stddef.h>
        #include <stdio.h>
        #include "kafsillun.h"

        typedef KafsillunParameters P;
        typedef KafsillunLowDelay L;
        typedef KafsillunAnswer A;

        #define TYPE_OF(f, t) _Static_assert(_Generic(&f, t: 1, default: 0), #f)
        TYPE_OF(kafsillun_unpack, A (*)(P, const uint8_t *, size_t, int32_t *, size_t));
        TYPE_OF(kafsillun_synthesise, A (*)(P, const int32_t *, size_t, int32_t *, size_t,
            int32_t *, size_t));
        TYPE_OF(kafsillun_decode, A (*)(P, const uint8_t *, size_t, int32_t *, size_t,
            int32_t *, size_t, int32_t *, size_t));
        TYPE_OF(kafsillun_unpack_low_delay, A (*)(L, const uint8_t *, size_t, int32_t *, size_t,
            int32_t *, size_t, int32_t *, size_t));

        #define TYPE(t) printf(#t " %zu %zu\n", sizeof(t), _Alignof(t))
        #define FIELD(t, f) printf(#t "." #f " %zu %zu\n", offsetof(t, f), sizeof(((t *)0)->f))
        #define NUMBER(s) printf(#s " %d\n", s)

        int main(void) {
            TYPE(P);
            FIELD(P, width);
            FIELD(P, height);
            FIELD(P, depth);
            FIELD(P, wavelet);
            FIELD(P, intra);
            FIELD(P, codeblocks_across);
            FIELD(P, codeblocks_down);
            TYPE(L);
            FIELD(L, luma_width);
            FIELD(L, luma_height);
            FIELD(L, chroma_width);
            FIELD(L, chroma_height);
            FIELD(L, depth);
            FIELD(L, intra);
            FIELD(L, slices_across);
            FIELD(L, slices_down);
            FIELD(L, numerator);
            FIELD(L, denominator);
            FIELD(L, matrix);
            TYPE(A);
            FIELD(A, status);
            FIELD(A, place);
            NUMBER(KAFSILLUN_ACCEPTED);
            NUMBER(KAFSILLUN_SIZE_REFUSED);
            NUMBER(KAFSILLUN_DEPTH_REFUSED);
            NUMBER(KAFSILLUN_WAVELET_REFUSED);
            NUMBER(KAFSILLUN_CODEBLOCKS_REFUSED);
            NUMBER(KAFSILLUN_PLANE_REFUSED);
            NUMBER(KAFSILLUN_BYTES_END_EARLY);
            NUMBER(KAFSILLUN_CODE_TOO_LONG);
            NUMBER(KAFSILLUN_QUANTISER_REFUSED);
            NUMBER(KAFSILLUN_VALUE_OUT_OF_RANGE);
            NUMBER(KAFSILLUN_SYNTHESIS_OUT_OF_RANGE);
            NUMBER(KAFSILLUN_SLICES_REFUSED);
            NUMBER(KAFSILLUN_LUMA_LENGTH_REFUSED);
            return 0;
        }
    "#;

    /// The header's names of the refusals.
    const REFUSALS: [(&str, Refusal); 12] = [
        ("SIZE_REFUSED", Refusal::Size),
        ("DEPTH_REFUSED", Refusal::Depth),
        ("WAVELET_REFUSED", Refusal::Wavelet),
        ("CODEBLOCKS_REFUSED", Refusal::Codeblocks),
        ("PLANE_REFUSED", Refusal::PlaneLength),
        ("BYTES_END_EARLY", Refusal::BytesEnd),
        ("CODE_TOO_LONG", Refusal::CodeTooLong),
        ("QUANTISER_REFUSED", Refusal::Quantiser),
        ("VALUE_OUT_OF_RANGE", Refusal::CoefficientRange),
        ("SYNTHESIS_OUT_OF_RANGE", Refusal::SynthesisRange),
        ("SLICES_REFUSED", Refusal::Slices),
        ("LUMA_LENGTH_REFUSED", Refusal::LumaLength),
    ];

    /// Adds the same lines for a struct declared above to a text.
    macro_rules! add_layout {
        ($text:ident, $name:literal, $type:ty: $($field:ident)*) => {
            $text += &format!("{} {} {}\n", $name, size_of::<$type>(), align_of::<$type>());
            $(
                let size = size_of_field(|whole: &$type| whole.$field);
                let name = stringify!($field);
                $text += &format!("{}.{name} {} {size}\n", $name, offset_of!($type, $field));
            )*
        };
    }

    /// The size of the field that a function takes.
    fn size_of_field<T, F>(_: fn(&T) -> F) -> usize {
        size_of::<F>()
    }

    /// What the C program prints if the structs declared above are those of the header.
    fn layout() -> String {
        let mut text = String::new();
        add_layout!(text, "P", Parameters:
            width height depth wavelet intra codeblocks_across codeblocks_down);
        add_layout!(text, "L", LowDelay:
            luma_width luma_height chroma_width chroma_height depth intra slices_across slices_down
            numerator denominator matrix);
        add_layout!(text, "A", Answer: status place);
        text += "KAFSILLUN_ACCEPTED 0\n";
        for (name, refusal) in REFUSALS {
            text += &format!("KAFSILLUN_{name} {}\n", refusal.number());
        }
        text
    }

    /// A folder of this test's own.
    fn scratch() -> PathBuf {
        let name = format!("kafsillun-layout-{}", std::process::id());
        let folder = std::env::temp_dir().join(name);
        std::fs::create_dir_all(&folder).unwrap();
        folder
    }

    #[test]
    fn structs_and_functions_are_those_of_the_header() {
        let repository = Path::new(env!("CARGO_MANIFEST_DIR")).join("../..");
        let folder = scratch();
        let (source, program) = (folder.join("layout.c"), folder.join("layout"));
        std::fs::write(&source, LAYOUT).unwrap();
        let compiled = Command::new("cc")
            .args(["-std=c11", "-Wall", "-Wextra", "-Werror", "-pedantic", "-I"])
            .arg(repository.join("include"))
            .arg("-o")
            .arg(&program)
            .arg(&source)
            .output()
            .expect("a C compiler, cc");
        assert!(
            compiled.status.success(),
            "{}",
            String::from_utf8_lossy(&compiled.stderr)
        );
        let printed = Command::new(&program).output().unwrap();
        std::fs::remove_dir_all(&folder).unwrap();
        assert_eq!(String::from_utf8_lossy(&printed.stdout), layout());
    }

    /// Parameters of a row of two values.
    fn row_of_two(intra: u32) -> Parameters {
        Parameters {
            width: 2,
            height: 1,
            depth: 0,
            wavelet: 0,
            intra,
            codeblocks_across: [1; 5],
            codeblocks_down: [1; 5],
        }
    }

    /// Parameters of a picture of one slice of three bytes, whose components are a value each.
    fn picture_of_one(intra: u32) -> LowDelay {
        LowDelay {
            luma_width: 1,
            luma_height: 1,
            chroma_width: 1,
            chroma_height: 1,
            depth: 0,
            intra,
            slices_across: 1,
            slices_down: 1,
            numerator: 3,
            denominator: 1,
            matrix: [0; 13],
        }
    }

    /// Values of the intra flag.
    const FLAGS: [u32; 9] = [0, 1, 2, 3, 0x80, 0x100, 0x1_0000, 1 << 31, u32::MAX];

    #[test]
    fn every_intra_but_0_is_yes() {
        // Length 1, quantiser 0, then 1 and 1.
        let bytes = [0x30, 0b0010_0010];
        for intra in FLAGS {
            let mut coefficients = [7; 2];
            // SAFETY: each pointer and length are of one slice, and the slices are apart.
            let answer = unsafe {
                kafsillun_unpack(
                    row_of_two(intra),
                    bytes.as_ptr(),
                    bytes.len(),
                    coefficients.as_mut_ptr(),
                    coefficients.len(),
                )
            };
            let accepted = Answer {
                status: 0,
                place: 2,
            };
            assert_eq!(answer, accepted, "intra {intra}");
            assert_eq!(coefficients, [1, if intra == 0 { 1 } else { 2 }]);
        }
    }

    #[test]
    fn every_intra_but_0_is_yes_of_a_picture() {
        // Index 12, four bits of luma: 1. Chroma is 0 and 0.
        let bytes = [0x18, 0x42, 0xFF];
        for intra in FLAGS {
            let (mut luma, mut first, mut second) = ([7], [7], [7]);
            // SAFETY: each pointer and length are of one slice, and the slices are apart.
            let answer = unsafe {
                kafsillun_unpack_low_delay(
                    picture_of_one(intra),
                    bytes.as_ptr(),
                    bytes.len(),
                    luma.as_mut_ptr(),
                    luma.len(),
                    first.as_mut_ptr(),
                    first.len(),
                    second.as_mut_ptr(),
                    second.len(),
                )
            };
            let accepted = Answer {
                status: 0,
                place: 3,
            };
            assert_eq!(answer, accepted, "intra {intra}");
            assert_eq!(
                [luma, first, second],
                [[12 - i32::from(intra == 0)], [0], [0]]
            );
        }
    }

    #[test]
    fn an_empty_slice_may_be_null() {
        use std::ptr::{null, null_mut};
        let mut coefficients = [7; 2];
        // SAFETY: nothing is behind a null pointer, and the lengths say so.
        let answers = unsafe {
            [
                kafsillun_unpack(row_of_two(1), null(), 0, coefficients.as_mut_ptr(), 2),
                kafsillun_unpack(row_of_two(1), null(), 0, null_mut(), 0),
                kafsillun_synthesise(row_of_two(1), null(), 0, null_mut(), 0, null_mut(), 0),
                kafsillun_unpack_low_delay(
                    picture_of_one(1),
                    null(),
                    0,
                    null_mut(),
                    0,
                    null_mut(),
                    0,
                    null_mut(),
                    0,
                ),
            ]
        };
        assert_eq!(answers.map(|answer| answer.status), [6, 5, 5, 5]);
        assert_eq!(answers.map(|answer| answer.place), [0; 4]);
        assert_eq!(coefficients, [0; 2]);
    }
}
