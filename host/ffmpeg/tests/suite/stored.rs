//! Low delay pictures that FFmpeg confirmed: vectors/README.md says how they were made.

use ffmpeg::low_delay::case::LowDelayCase;
use ffmpeg::low_delay::eligibility::check_slices;
use ffmpeg::low_delay::stored::{
    file_name, picture_bytes, picture_text, read_pictures, PICTURES_OF_FILE,
};
use ffmpeg::low_delay::LowDelayPicture;
use ffmpeg::proved;
use ffmpeg::stream::{ChromaFormat, COMPONENTS};
use std::collections::BTreeSet;
use std::fs;
use std::path::{Path, PathBuf};

/// The path of a stored file.
fn stored(chroma: ChromaFormat, ending: &str) -> PathBuf {
    let folder = Path::new(env!("CARGO_MANIFEST_DIR")).join("../../vectors/ffmpeg-low-delay");
    folder.join(file_name(chroma)).with_extension(ending)
}

/// The stored pictures of a chroma format.
fn stored_pictures(chroma: ChromaFormat) -> Vec<LowDelayPicture> {
    let file = fs::read(stored(chroma, "bin")).expect("a stored file");
    read_pictures(&file).expect("a file of pictures")
}

/// The samples of a picture.
fn samples(picture: &LowDelayPicture) -> [Vec<i32>; COMPONENTS] {
    let components = picture.components();
    let planes = proved::unpack_picture(picture).expect("it is accepted");
    [0, 1, 2].map(|k| proved::synthesise(&components[k], &planes[k]).expect("it fits 32 bits"))
}

#[test]
fn unpack_and_synthesise_give_the_stored_samples() {
    for chroma in ChromaFormat::ALL {
        let expected = fs::read_to_string(stored(chroma, "txt")).expect("a stored text");
        let pictures = stored_pictures(chroma);
        assert_eq!(pictures.len(), PICTURES_OF_FILE);
        let text: String = pictures
            .iter()
            .map(|picture| picture_text(picture, &samples(picture)))
            .collect();
        assert!(text == expected, "{}", chroma.name());
    }
}

#[test]
fn stored_pictures_are_of_many_kinds() {
    let pictures = ChromaFormat::ALL.map(stored_pictures).concat();
    let set =
        |number: fn(&LowDelayPicture) -> u32| BTreeSet::from_iter(pictures.iter().map(number));
    assert!((0..=5).all(|wavelet| set(|picture| picture.wavelet).contains(&wavelet)));
    assert!((1..=4).all(|depth| set(|picture| picture.parameters.picture.depth).contains(&depth)));
    assert!(set(|picture| picture.parameters.denominator).len() > 3);
    let has_several = |picture: &&LowDelayPicture| {
        let indices = BTreeSet::from_iter(picture.indices());
        indices.len() > 1
    };
    assert!(pictures.iter().filter(has_several).count() > 10);
    for picture in &pictures {
        assert!(picture.parameters.picture.intra);
        assert_eq!(check_slices(picture), [Ok(()); COMPONENTS]);
    }
}

#[test]
fn a_picture_is_read_as_it_was_written() {
    let case = LowDelayCase::from_seed(3);
    let file: Vec<u8> = case.pictures.iter().flat_map(picture_bytes).collect();
    assert_eq!(read_pictures(&file), Some(case.pictures));
    assert_eq!(read_pictures(&file[..file.len() - 1]), None);
    assert_eq!(read_pictures(&file[..20]), None);
    assert_eq!(read_pictures(&[]), Some(Vec::new()));
}
