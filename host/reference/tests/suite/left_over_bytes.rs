//! Left-over bytes: an entry that is accepted but doesn't use its whole body (document 02, "Left-over
//! bytes are a fault").

use crate::common::*;
use reference::jobs::run_jobs;
use reference::params::padded_area;
use reference::recording::MAX_FILE;
use reference::{
    encode_body, read_recording, write_recording, EncodeOptions, Entry, Parameters, SubbandOptions,
};
use vectors::pieces::{numbers, signed_numbers, LARGEST_NUMBER};

/// An entry of these parameters and this body.
fn entry(p: &Parameters, body: &[u8]) -> Entry {
    Entry {
        parameters: p.clone(),
        body: body.to_vec(),
    }
}

/// What the program prints for one entry.
fn printed(p: &Parameters, body: &[u8]) -> String {
    read_recording(&write_recording(&[entry(p, body)]))
}

/// The line of entry 0 refused.
fn line(number: u32, place: usize) -> String {
    format!("entry 0: refused {number} place {place}\n")
}

/// Parameters and bodies that are used to their last byte, with what they print: subbands of length 0, of
/// data that is just long enough, of data that ends early, and of data that is longer than its values.
fn whole_bodies() -> Vec<(Parameters, Vec<u8>, &'static str)> {
    let worked_case = vec![0x30, 0x16, 0x30, 0x18, 0x30, 0x70, 0x30, 0x20];
    vec![
        (plain(2, 2, 1, 3, true), worked_case, "2 x 2\n9 12\n7 11\n"),
        (plain(3, 1, 0, 0, true), vec![0xFF], "3 x 1\n0 0 0\n"),
        (
            plain(1, 1, 0, 0, false),
            subband_bytes(5, &bits("00001 1")),
            "1 x 1\n-9\n",
        ),
        (
            plain(3, 1, 0, 0, false),
            subband_bytes(0, &bits("11 00 00 00")),
            "3 x 1\n0 0 -7\n",
        ),
        (
            plain(1, 2, 0, 0, false),
            subband_bytes(0, &[0b0010_1000, 0, 0xFF, 0]),
            "1 x 2\n1\n0\n",
        ),
        (
            plain(2, 1, 1, 1, false),
            [&[0x80; 3], &subband_bytes(3, &[0xFF; 300])[..]].concat(),
            "2 x 1\n0 0\n",
        ),
    ]
}

#[test]
fn a_body_used_to_its_last_byte_is_accepted() {
    for (p, body, text) in whole_bodies() {
        assert_eq!(printed(&p, &body), format!("entry 0: {text}"));
    }
}

#[test]
fn one_byte_left_over_is_refused_without_samples() {
    for (p, body, _) in whole_bodies() {
        for byte in [0x00, 0x01, 0x80, 0xFF] {
            let longer = [&body[..], &[byte]].concat();
            assert_eq!(printed(&p, &longer), line(12, body.len()), "{body:?}");
        }
    }
}

#[test]
fn any_number_of_bytes_may_be_left_over() {
    // The place is where the used part ends, however far the body goes on.
    let p = plain(1, 1, 0, 0, true);
    let body = subband_bytes(5, &bits("00001 1"));
    let room = MAX_FILE - 27 - body.len();
    for left in [1, 2, 3, 7, 8, 9, 127, 128, 255, 256, 257, 32_768, room] {
        for byte in [0x00, 0xFF] {
            let longer = [&body[..], &vec![byte; left]].concat();
            assert_eq!(printed(&p, &longer), line(12, 2), "{left} left over");
        }
    }
    let largest = write_recording(&[entry(&p, &[&body[..], &vec![0; room]].concat())]);
    assert_eq!(largest.len(), 65_536);
}

#[test]
fn the_bytes_used_may_be_few_or_nearly_all() {
    // A stated length that ends one byte before the end of the largest file.
    let p = plain(1, 1, 0, 0, false);
    let header = subband_bytes(0, &[0; 65_000]).len() - 65_000;
    let body = subband_bytes(0, &vec![0x80; MAX_FILE - 28 - header]);
    assert_eq!(printed(&p, &body), "entry 0: 1 x 1\n0\n");
    assert_eq!(
        printed(&p, &[&body[..], &[0x80]].concat()),
        line(12, 65_508)
    );
}

#[test]
fn left_over_bytes_may_be_anything() {
    // One more subband, a whole component, the body once more, and what would be refused 6, 7 or 8.
    for (p, body, _) in whole_bodies() {
        for behind in [
            vec![0x80],
            subband_bytes(0, &[0xFF]),
            vec![0x80; 13],
            body.clone(),
            vec![0x00],
            vec![0x00; 8],
            subband_bytes(116, &[0xFF]),
        ] {
            let longer = [body.clone(), behind].concat();
            assert_eq!(printed(&p, &longer), line(12, body.len()), "{longer:?}");
        }
    }
}

#[test]
fn every_depth_has_left_over_bytes() {
    let mut random = Random::new(40);
    for depth in 0..=4 {
        let p = plain(7, 5, depth, depth, depth % 2 == 0);
        // Bytes of length 0, each of them a subband: a body of so many, and of one more or fewer.
        let bands = 1 + 3 * depth as usize;
        assert_eq!(printed(&p, &vec![0xA5; bands - 1]), line(6, bands - 1));
        assert_eq!(printed(&p, &vec![0xA5; bands]).lines().count(), 6);
        assert_eq!(printed(&p, &vec![0xA5; bands + 1]), line(12, bands));
        // Values in every subband.
        let plane: Vec<i64> = (0..padded_area(&p)).map(|_| random.range(1, 9)).collect();
        let options = EncodeOptions::uniform(&p, SubbandOptions::default());
        let body = encode_body(&p, &plane, &options);
        assert_eq!(printed(&p, &body).lines().count(), 6);
        for left in [1, 2, 40] {
            let longer = [&body[..], &vec![0x80; left]].concat();
            assert_eq!(printed(&p, &longer), line(12, body.len()));
        }
    }
}

#[test]
fn a_length_that_is_not_used_up_is_not_left_over() {
    // The last of four subbands states one byte or more, and its value, 1, takes four bits of the first.
    let p = plain(2, 2, 1, 3, false);
    let start = [0x80, 0x80, 0x80];
    for data in [&[0x28][..], &[0x28, 0xAA], &[0x28, 0xAA, 0xFF, 0x00]] {
        let body = [&start, &subband_bytes(0, data)[..]].concat();
        assert_eq!(printed(&p, &body), "entry 0: 2 x 2\n0 -1\n0 0\n");
        let longer = [&body[..], &[0xAA]].concat();
        assert_eq!(printed(&p, &longer), line(12, body.len()));
    }
    // Outside the stated length the same bytes are left over.
    let body = [&start[..], &subband_bytes(0, &[0x28]), &[0xAA, 0xFF]].concat();
    assert_eq!(printed(&p, &body), line(12, 5));
}

#[test]
fn an_empty_body_is_6() {
    for depth in 0..=4 {
        assert_eq!(printed(&plain(3, 2, depth, 1, true), &[]), line(6, 0));
    }
}

/// Parameters and bodies that are refused 1 to 10, with the number and the place. More bytes behind a body
/// are not used, and change nothing.
fn refused() -> Vec<(Parameters, Vec<u8>, u32, usize)> {
    let (min, max) = (i64::from(i32::MIN), i64::from(i32::MAX));
    let good = plain(2, 2, 1, 3, true);
    let changed = |number, change: fn(&mut Parameters)| {
        let mut p = good.clone();
        change(&mut p);
        (p, vec![0x80; 4], number, 0)
    };
    let last = |number, band: Vec<u8>| (good.clone(), [&[0x80; 3], &band[..]].concat(), number, 3);
    let values = |list: &[i64]| subband_bytes(0, &signed_numbers(list));
    let low_and_vertical = [&values(&[min])[..], &[0x80], &values(&[1]), &[0x80]].concat();
    vec![
        changed(1, |p| p.width = 0),
        changed(2, |p| p.depth = 5),
        changed(3, |p| p.wavelet = 7),
        changed(5, |p| (p.width, p.height) = (4096, 4096)),
        last(6, numbers(&[1000, 0])),
        last(7, numbers(&[LARGEST_NUMBER + 1, 0])),
        last(7, numbers(&[1, LARGEST_NUMBER + 1])),
        last(7, values(&[1 << 32])),
        last(8, subband_bytes(116, &[0xFF])),
        last(9, values(&[max + 1])),
        (plain(2, 1, 0, 3, true), values(&[max, 1]), 9, 0),
        (plain(2, 1, 1, 3, false), low_and_vertical, 10, 1),
    ]
}

#[test]
fn refusals_1_to_10_come_first() {
    let mut numbers = Vec::new();
    for (p, body, number, place) in refused() {
        for left_over in [&[][..], &[0x80], &[0x00, 0x00], &[0xFF; 40]] {
            let longer = [&body, left_over].concat();
            assert_eq!(printed(&p, &longer), line(number, place), "{longer:?}");
        }
        numbers.push(number);
    }
    numbers.dedup();
    assert_eq!(numbers, [1, 2, 3, 5, 6, 7, 8, 9, 10]);
}

#[test]
fn a_table_that_is_wrong_is_11() {
    let p = plain(1, 1, 0, 0, true);
    let file = write_recording(&[entry(&p, &[0x80, 0x00]), entry(&p, &[0x80])]);
    assert_eq!(
        read_recording(&file),
        "entry 0: refused 12 place 1\nentry 1: 1 x 1\n0\n"
    );
    // A byte behind the last body is left over by the table, not by an entry.
    assert_eq!(
        read_recording(&[&file[..], &[0x00]].concat()),
        "refused 11\n"
    );
    // The table is looked at before any entry: intra 2 at the second.
    let mut wrong = file;
    wrong[1 + 26 + 6] = 2;
    assert_eq!(read_recording(&wrong), "refused 11\n");
}

#[test]
fn the_entries_beside_it_are_decoded() {
    let p = plain(2, 1, 0, 0, false);
    let accepted = entry(&p, &subband_bytes(0, &bits("0010 0111")));
    let left_over = entry(&p, &[&accepted.body[..], &[0x00, 0x80]].concat());
    let text = |entries: &[&Entry]| {
        let entries: Vec<Entry> = entries.iter().map(|&entry| entry.clone()).collect();
        read_recording(&write_recording(&entries))
    };
    assert_eq!(
        text(&[&accepted, &left_over, &accepted]),
        "entry 0: 2 x 1\n1 -2\nentry 1: refused 12 place 2\nentry 2: 2 x 1\n1 -2\n"
    );
    assert_eq!(
        text(&[&left_over, &accepted, &left_over]),
        "entry 0: refused 12 place 2\nentry 1: 2 x 1\n1 -2\nentry 2: refused 12 place 2\n"
    );
    // The place counts from the body's start, wherever the body lies.
    let lines: Vec<String> = (0..16)
        .map(|k| format!("entry {k}: refused 12 place 2\n"))
        .collect();
    assert_eq!(text(&[&left_over; 16]), lines.concat());
}

#[test]
fn a_body_cut_at_the_wrong_entry() {
    // Two bodies of two bytes each. The table may divide the four bytes between them anywhere.
    let p = plain(1, 1, 0, 0, false);
    let first = subband_bytes(0, &bits("0010"));
    let second = subband_bytes(0, &bits("0110"));
    let bytes = [first, second].concat();
    let text = |cut: usize| {
        let (first, second) = bytes.split_at(cut);
        read_recording(&write_recording(&[entry(&p, first), entry(&p, second)]))
    };
    for (cut, first, second) in [
        (0, "refused 6 place 0", "refused 12 place 2"),
        // The three bytes happen to be a body: length 1, index 16, value 2.
        (1, "refused 6 place 0", "1 x 1\n38"),
        (2, "1 x 1\n1", "1 x 1\n2"),
        (3, "refused 12 place 2", "refused 6 place 0"),
        (4, "refused 12 place 2", "refused 6 place 0"),
    ] {
        let expected = format!("entry 0: {first}\nentry 1: {second}\n");
        assert_eq!(text(cut), expected, "cut after {cut}");
    }
}

#[test]
fn the_library_jobs_keep_answering_bytes_used() {
    for (p, body, _) in whole_bodies() {
        let used = answer(0, body.len() as u64);
        let (unpacked, decoded) = (run_unpack(&p, &body), run_decode(&p, &body));
        assert_eq!((unpacked.0, decoded.0), (used, used));
        // Answer and planes are the same with bytes behind.
        for behind in [&[0x00][..], &[0x80; 13], &[0xFF; 1000]] {
            let longer = [&body, behind].concat();
            assert_eq!(run_unpack(&p, &longer), unpacked);
            assert_eq!(run_decode(&p, &longer), decoded);
        }
    }
    let text = "\
unpack 2 2 1 3 1  1 1 1 1 1 1 1 1 1 1  4  301630183070302000FF
decode 2 2 1 3 1  1 1 1 1 1 1 1 1 1 1  4 4 4  301630183070302080
";
    let expected = "\
status 0 place 8
coefficients: 10 4 -2 1
status 0 place 8
coefficients: 10 4 -2 1
work: 0 0 0 0
samples: 9 12 7 11
";
    assert_eq!(run_jobs(text).unwrap(), expected);
}

#[test]
fn an_entry_says_what_decode_answers() {
    // Bodies at random, some cut and some with bytes behind.
    let mut random = Random::new(41);
    let mut seen = [0; 13];
    for _ in 0..2000 {
        let p = plain(
            random.range(1, 5) as u32,
            random.range(1, 5) as u32,
            random.range(0, 4) as u32,
            random.range(0, 6) as u32,
            random.flag(),
        );
        let mut body = Vec::new();
        for _ in 0..1 + 3 * p.depth {
            let length = random.range(0, 4) as usize;
            let data: Vec<u8> = (0..length).map(|_| random.bits() as u8).collect();
            body.extend(match length {
                0 => vec![0x80],
                _ => subband_bytes(random.range(0, 20) as u64, &data),
            });
        }
        let change = random.range(-4, 4);
        body.truncate(body.len().saturating_add_signed(change.min(0) as isize));
        body.extend((0..change).map(|_| random.bits() as u8));
        let (given, _, _, samples) = run_decode(&p, &body);
        let whole = given == answer(0, body.len() as u64);
        let status = match given.status {
            0 if !whole => 12,
            status => status,
        };
        let text = printed(&p, &body);
        if whole {
            let rows = text.strip_prefix(&format!("entry 0: {} x {}\n", p.width, p.height));
            let numbers: Vec<i32> = rows
                .unwrap()
                .split_ascii_whitespace()
                .map(|word| word.parse().unwrap())
                .collect();
            assert_eq!(numbers, samples);
        } else {
            assert_eq!(text, line(status, given.place as usize));
        }
        seen[status as usize] += 1;
    }
    assert!(seen[0] > 100 && seen[6] > 100 && seen[12] > 100, "{seen:?}");
}
