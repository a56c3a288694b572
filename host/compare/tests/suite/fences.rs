//! The proved library reads and writes nothing but what it is buffers: here each part lies against memory
//! that may not be touched at all.

use compare::{
    low_delay_result, proved, proved_low_delay, results, Buffers, Case, Job, LowDelayCase,
};
use std::ffi::{c_int, c_void};
use std::ptr::null_mut;
use std::slice;

extern "C" {
    fn mmap(
        address: *mut c_void,
        length: usize,
        protection: c_int,
        flags: c_int,
        file: c_int,
        offset: i64,
    ) -> *mut c_void;
    fn mprotect(address: *mut c_void, length: usize, protection: c_int) -> c_int;
    fn munmap(address: *mut c_void, length: usize) -> c_int;
}

const NO_ACCESS: c_int = 0;
const READ_AND_WRITE: c_int = 3;
const PRIVATE_ANONYMOUS: c_int = 0x22;
const PAGE: usize = 4096;

/// Entries between two pages that may not be touched, against the one before them or the one behind.
struct Fenced<T> {
    pages: *mut u8,
    size: usize,
    first: *mut T,
    length: usize,
}

impl<T: Copy> Fenced<T> {
    /// These entries.
    fn new(entries: &[T], against_end: bool) -> Fenced<T> {
        let bytes = size_of_val(entries);
        let inner = bytes.next_multiple_of(PAGE);
        let size = inner + 2 * PAGE;
        // SAFETY: new pages are nobody else's; the entries fit the inner ones, and are aligned there as
        // a page and their whole size are.
        unsafe {
            let pages = mmap(null_mut(), size, NO_ACCESS, PRIVATE_ANONYMOUS, -1, 0).cast::<u8>();
            assert!(pages as isize != -1, "no memory");
            let start = pages.add(PAGE);
            if inner > 0 {
                assert_eq!(mprotect(start.cast(), inner, READ_AND_WRITE), 0);
            }
            let unused = if against_end { inner - bytes } else { 0 };
            let first = start.add(unused).cast::<T>();
            first.copy_from_nonoverlapping(entries.as_ptr(), entries.len());
            Fenced {
                pages,
                size,
                first,
                length: entries.len(),
            }
        }
    }

    /// The entries.
    fn part(&mut self) -> &mut [T] {
        // SAFETY: they were written, and only this owns them.
        unsafe { slice::from_raw_parts_mut(self.first, self.length) }
    }
}

impl<T> Drop for Fenced<T> {
    fn drop(&mut self) {
        // SAFETY: these pages were mapped together, and nothing borrows them any more.
        unsafe {
            munmap(self.pages.cast(), self.size);
        }
    }
}

#[test]
fn nothing_outside_the_planes_and_bytes_is_touched() {
    for seed in 1..=1500 {
        let case = Case::from_seed(seed);
        let expected = results(&case, proved);
        for (job, expected) in Job::ALL.into_iter().zip(expected) {
            for against_end in [false, true] {
                let mut bytes = Fenced::new(&case.bytes, against_end);
                let mut coefficients = Fenced::new(&case.coefficients, against_end);
                let mut work = Fenced::new(&vec![7; case.work_length], against_end);
                let mut samples = Fenced::new(&vec![7; case.samples_length], against_end);
                let buffers = Buffers {
                    bytes: bytes.part(),
                    coefficients: coefficients.part(),
                    work: work.part(),
                    samples: samples.part(),
                };
                let answer = proved(&case.parameters, job, buffers);
                assert_eq!(answer, expected.answer, "seed {seed}");
            }
        }
    }
}

#[test]
fn nothing_outside_the_planes_and_bytes_of_a_picture_is_touched() {
    for seed in 1..=1500 {
        let case = LowDelayCase::from_seed(seed);
        let expected = low_delay_result(&case, proved_low_delay);
        for against_end in [false, true] {
            let mut bytes = Fenced::new(&case.job.bytes, against_end);
            let mut planes = case
                .job
                .lengths
                .map(|length| Fenced::new(&vec![7; length], against_end));
            let lent = planes.each_mut().map(Fenced::part);
            let answer = proved_low_delay(&case.job.parameters, bytes.part(), lent);
            assert_eq!(answer, expected.answer, "seed {seed}");
        }
    }
}
