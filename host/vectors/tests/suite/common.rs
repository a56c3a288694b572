//! Helpers shared by the tests.

use reference::codes::{BitReader, PastEnd};
use reference::params::{padded_area, padded_width, subbands, Subband, MAX_QUANTISER};
use reference::unpack::{codeblock_start, dequantise};
use reference::{Answer, Parameters};
use std::collections::BTreeSet;
use std::path::{Path, PathBuf};
use std::process::Command;
use vectors::headers::headers;
use vectors::Vectors;

/// A status and a place.
pub fn answer(status: u32, place: u64) -> Answer {
    Answer { status, place }
}

/// The folder of a proved crate.
pub fn crate_folder(name: &str) -> PathBuf {
    repository("crates").join(name)
}

/// Fails unless a file has these bytes.
pub fn assert_stored(file: &Path, bytes: &[u8]) {
    let stored = std::fs::read(file).unwrap();
    assert!(stored == bytes, "{} differs", file.display());
}

/// Fails unless a command writes these vectors, and says where it can't.
pub fn assert_writes_vectors(command: &str, vectors: &Vectors) {
    assert_writes(command, &[&vectors.input, vectors.output.as_bytes()]);
}

/// Fails unless a command writes a file with each of these bytes, and says where it can't.
pub fn assert_writes(command: &str, contents: &[&[u8]]) {
    let folder = PathBuf::from(env!("CARGO_TARGET_TMPDIR"));
    let files: Vec<PathBuf> = (0..contents.len())
        .map(|k| folder.join(format!("{command}.{k}")))
        .collect();
    let write = |files: &[PathBuf]| {
        Command::new(env!("CARGO_BIN_EXE_vectors"))
            .arg(command)
            .args(files)
            .output()
            .unwrap()
    };
    let output = write(&files);
    assert_eq!(output.status.code(), Some(0));
    assert!(output.stdout.is_empty() && output.stderr.is_empty());
    for (file, bytes) in files.iter().zip(contents) {
        assert_stored(file, bytes);
    }
    // No file can stand inside a file.
    let nowhere: Vec<PathBuf> = files.iter().map(|file| file.join("file")).collect();
    let output = write(&nowhere);
    assert_eq!(output.status.code(), Some(1));
    assert!(!output.stderr.is_empty());
}

/// A recording of a folder and its text.
pub struct Stored {
    pub name: String,
    pub file: Vec<u8>,
    pub text: String,
}

/// A path of the repository.
fn repository(path: &str) -> PathBuf {
    Path::new(env!("CARGO_MANIFEST_DIR"))
        .join("../..")
        .join(path)
}

/// The names of a folder's files, but for README.md.
fn file_names(folder: &Path) -> BTreeSet<String> {
    let mut names: BTreeSet<String> = std::fs::read_dir(folder)
        .unwrap()
        .map(|file| file.unwrap().file_name().into_string().unwrap())
        .collect();
    names.remove("README.md");
    names
}

/// The recordings of a folder of the repository, which has nothing else but their texts.
pub fn stored_recordings(folder: &str) -> Vec<Stored> {
    let folder = repository(folder);
    let names = file_names(&folder);
    let mut recordings = Vec::new();
    for name in names.iter().filter_map(|name| name.strip_suffix(".rec")) {
        recordings.push(Stored {
            name: name.to_string(),
            file: std::fs::read(folder.join(format!("{name}.rec"))).unwrap(),
            text: std::fs::read_to_string(folder.join(format!("{name}.txt"))).unwrap(),
        });
    }
    assert_eq!(names.len(), 2 * recordings.len());
    recordings
}

/// Fails unless a command writes exactly the files of a folder of the repository, and
/// says where it can't.
pub fn assert_writes_folder(command: &str, folder: &str) {
    let write = |folder: &Path| {
        Command::new(env!("CARGO_BIN_EXE_vectors"))
            .arg(command)
            .arg(folder)
            .output()
            .unwrap()
    };
    let written = PathBuf::from(env!("CARGO_TARGET_TMPDIR")).join(format!("{command}.folder"));
    if written.exists() {
        std::fs::remove_dir_all(&written).unwrap();
    }
    let output = write(&written);
    assert_eq!(output.status.code(), Some(0));
    assert!(output.stdout.is_empty() && output.stderr.is_empty());
    let stored = repository(folder);
    assert_eq!(file_names(&written), file_names(&stored));
    for name in file_names(&written) {
        let bytes = std::fs::read(written.join(&name)).unwrap();
        assert_stored(&stored.join(&name), &bytes);
    }
    // No folder can be made inside a file.
    let output = write(&stored.join("README.md").join("folder"));
    assert_eq!(output.status.code(), Some(1));
    assert!(!output.stderr.is_empty());
}

/// What the bytes of a component state.
pub struct Stated {
    /// The quantiser index of each subband, or none where its length is 0.
    pub indices: Vec<Option<u32>>,
    /// The numbers before they are dequantised, laid out as a coefficient plane.
    pub numbers: Vec<i64>,
}

/// A number other than 0 that bytes state.
#[derive(Clone, Copy, Debug)]
pub struct Number {
    pub subband: usize,
    pub index: u32,
    pub number: i64,
    /// Where its value stands in the coefficient plane.
    pub entry: usize,
}

/// What the bytes of a component state, or none where refusal 6, 7 or 8 ends the reading. The parameters must be
/// in range.
pub fn stated(p: &Parameters, bytes: &[u8]) -> Option<Stated> {
    let mut stated = Stated {
        indices: Vec::new(),
        numbers: vec![0; padded_area(p)],
    };
    for header in headers(p, bytes)? {
        if header.index > Some(MAX_QUANTISER) {
            return None;
        }
        stated.indices.push(header.index.map(|index| index as u32));
        if header.index.is_some() {
            read_numbers(p, &header.band, &bytes[header.data], &mut stated.numbers)?;
        }
    }
    Some(stated)
}

/// Puts the numbers of a subband's codeblocks into a plane, or gives none where refusal 7 ends the reading.
fn read_numbers(p: &Parameters, band: &Subband, data: &[u8], plane: &mut [i64]) -> Option<()> {
    let across = p.codeblocks_across[band.level as usize] as usize;
    let down = p.codeblocks_down[band.level as usize] as usize;
    let mut reader = BitReader::new(data, PastEnd::One);
    let side =
        |size, k, count| codeblock_start(size, k, count)..codeblock_start(size, k + 1, count);
    for block in 0..across * down {
        if across * down > 1 && reader.bit().ok()? == 1 {
            continue;
        }
        for y in side(band.height, block / across, down) {
            for x in side(band.width, block % across, across) {
                plane[(band.top + y) * padded_width(p) + band.left + x] =
                    reader.signed_number().ok()?;
            }
        }
    }
    Some(())
}

impl Stated {
    /// Every number other than 0.
    pub fn all(&self, p: &Parameters) -> Vec<Number> {
        let mut list = Vec::new();
        for (subband, band) in subbands(p).iter().enumerate() {
            for place in 0..band.width * band.height {
                let (x, y) = (place % band.width, place / band.width);
                let entry = (band.top + y) * padded_width(p) + band.left + x;
                if self.numbers[entry] != 0 {
                    list.push(Number {
                        subband,
                        index: self.indices[subband].expect("a length other than 0"),
                        number: self.numbers[entry],
                        entry,
                    });
                }
            }
        }
        list
    }

    /// Those to which prediction adds nothing, or 0 at the corner: their values stand in the plane as they are.
    pub fn not_predicted(&self, p: &Parameters) -> Vec<Number> {
        let mut list = self.all(p);
        list.retain(|number| !p.intra || number.subband > 0 || number.entry == 0);
        list
    }
}

impl Number {
    /// Its value in a picture that is intra or isn't.
    pub fn value(&self, intra: bool) -> i128 {
        dequantise(self.number, self.index, intra)
    }
}
