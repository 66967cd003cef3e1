//! The engine under comparison: the C functions of `include/case_access.h`, on slices.

use reference::Index;

/// `ACCESS_RECORD_OCTETS` of the header.
pub const RECORD_OCTETS: usize = 6192;

/// Where a record has its index: numbers of two octets, the firsts, the counts, the places.
pub const INDEX: usize = 4968;

/// A record that the caller owns, aligned to 8: of its octets only the index is looked at here.
#[derive(Clone, PartialEq)]
#[repr(C, align(8))]
pub struct Record(pub [u8; RECORD_OCTETS]);

extern "C" {
    fn access_load(record: *mut Record, bundle: *const u8, bundle_length: usize) -> u64;

    fn access_answer(
        record: *mut Record,
        calls: *const u8,
        calls_length: usize,
        answers: *mut u8,
        answers_length: usize,
    ) -> u64;

    fn access_write(record: *const Record, out: *mut u8, out_length: usize) -> u64;

    fn access_rewrite(
        bundle: *const u8,
        bundle_length: usize,
        out: *mut u8,
        out_length: usize,
    ) -> u64;

    fn access_replay(
        bundle: *const u8,
        bundle_length: usize,
        calls: *const u8,
        calls_length: usize,
        answers: *mut u8,
        answers_length: usize,
    ) -> u64;
}

impl Record {
    /// As a record must be before its first load.
    pub fn zeroed() -> Record {
        Record([0; RECORD_OCTETS])
    }
}

/// The index in a record's octets.
pub fn index(record: &Record) -> Index {
    let octets = record.0[INDEX..].chunks_exact(2);
    let mut numbers = octets.map(|pair| u16::from_ne_bytes([pair[0], pair[1]]));
    let mut next = |_| numbers.next().expect("the record has an index");
    Index {
        firsts: std::array::from_fn(&mut next),
        counts: std::array::from_fn(&mut next),
        places: std::array::from_fn(&mut next),
    }
}

/// Loads a bundle into a lent record, as `reference::load` does.
pub fn load(record: &mut Record, bundle: &[u8]) -> u64 {
    // SAFETY: the record was zeroed once and then changed by the engine, or by a test in octets that
    // are no truth values; the pointer comes with the length of the slice it is taken from.
    unsafe { access_load(record, bundle.as_ptr(), bundle.len()) }
}

/// Answers calls on a lent record, as `reference::answer` does.
pub fn answer(record: &mut Record, calls: &[u8], answers: &mut [u8]) -> u64 {
    // SAFETY: as above.
    unsafe {
        access_answer(
            record,
            calls.as_ptr(),
            calls.len(),
            answers.as_mut_ptr(),
            answers.len(),
        )
    }
}

/// Writes a lent record, as `reference::write` does.
pub fn write(record: &Record, out: &mut [u8]) -> u64 {
    // SAFETY: as above.
    unsafe { access_write(record, out.as_mut_ptr(), out.len()) }
}

/// Loads a bundle and writes it again, as `reference::rewrite` does.
pub fn rewrite(bundle: &[u8], out: &mut [u8]) -> u64 {
    // SAFETY: each pointer comes with the length of the slice it is taken from.
    unsafe { access_rewrite(bundle.as_ptr(), bundle.len(), out.as_mut_ptr(), out.len()) }
}

/// Loads a bundle and answers calls, as `reference::replay` does.
pub fn replay(bundle: &[u8], calls: &[u8], answers: &mut [u8]) -> u64 {
    // SAFETY: each pointer comes with the length of the slice it is taken from.
    unsafe {
        access_replay(
            bundle.as_ptr(),
            bundle.len(),
            calls.as_ptr(),
            calls.len(),
            answers.as_mut_ptr(),
            answers.len(),
        )
    }
}
