//! The record that the library is lent, and the library's functions on it. All that is unsafe stands here.

use std::mem::MaybeUninit;

/// `ACCESS_RECORD_OCTETS` of `include/case_access.h`.
pub(crate) const RECORD_OCTETS: usize = 6192;

/// A result's number, and its value: a line or a length.
pub(crate) struct Packed {
    pub(crate) number: u8,
    pub(crate) value: usize,
}

/// The octets of a record. Some lie between its fields and need not be set, so none is read here.
#[derive(Clone)]
#[repr(C, align(8))]
pub(crate) struct Record(MaybeUninit<[u8; RECORD_OCTETS]>);

extern "C" {
    fn access_load(record: *mut Record, bundle: *const u8, bundle_length: usize) -> u64;
    fn access_answer(
        record: *mut Record,
        calls: *const u8,
        calls_length: usize,
        answers: *mut u8,
        answers_length: usize,
    ) -> u64;
    fn access_write(record: *const Record, out: *mut u8, out_length: usize) -> u64;
}

impl Record {
    /// The record of zeros, which any load may overwrite.
    pub(crate) fn zero() -> Box<Record> {
        Box::new(Record(MaybeUninit::zeroed()))
    }

    /// Loads a bundle: number and line.
    pub(crate) fn load(&mut self, bundle: &[u8]) -> Packed {
        // SAFETY: `self` was zeroed and changed by the library alone; the slice lies apart from it.
        packed(unsafe { access_load(self, bundle.as_ptr(), bundle.len()) })
    }

    /// Answers calls of 8 octets by answers of 5: the count of answers.
    pub(crate) fn answer(&mut self, calls: &[u8], answers: &mut [u8]) -> u64 {
        let (asked, room) = (calls.len(), answers.len());
        // SAFETY: as for `load`; `answers` is lent to nobody else.
        unsafe { access_answer(self, calls.as_ptr(), asked, answers.as_mut_ptr(), room) }
    }

    /// Writes the record as a bundle: number and length.
    pub(crate) fn write(&self, out: &mut [u8]) -> Packed {
        // SAFETY: as for `load`; the library only reads the record.
        packed(unsafe { access_write(self, out.as_mut_ptr(), out.len()) })
    }
}

/// A result is number * 2^32 + value.
fn packed(result: u64) -> Packed {
    Packed {
        number: (result >> 32) as u8,
        value: (result & 0xFFFF_FFFF) as usize,
    }
}
