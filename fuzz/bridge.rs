//! The reference under names of its own, for C.

use reference::Policy;
use std::slice::{from_raw_parts, from_raw_parts_mut};

/// A record of the reference's own, which stays to the end.
#[no_mangle]
pub extern "C" fn reference_record() -> *mut Policy {
    Box::into_raw(Box::new(Policy::zeroed()))
}

/// Makes a record as it is before the first load.
///
/// # Safety
/// The record is one of `reference_record`.
#[no_mangle]
pub unsafe extern "C" fn reference_zero(record: *mut Policy) {
    *record = Policy::zeroed();
}

/// `access_load`, by the reference.
///
/// # Safety
/// The record is one of `reference_record`; each other pointer comes with the length of what it
/// points to.
#[no_mangle]
pub unsafe extern "C" fn reference_load(
    record: *mut Policy,
    bundle: *const u8,
    bundle_length: usize,
) -> u64 {
    reference::load(&mut *record, from_raw_parts(bundle, bundle_length))
}

/// `access_answer`, by the reference.
///
/// # Safety
/// As above.
#[no_mangle]
pub unsafe extern "C" fn reference_answer(
    record: *mut Policy,
    calls: *const u8,
    calls_length: usize,
    answers: *mut u8,
    answers_length: usize,
) -> u64 {
    let calls = from_raw_parts(calls, calls_length);
    reference::answer(&mut *record, calls, from_raw_parts_mut(answers, answers_length))
}

/// `access_write`, by the reference.
///
/// # Safety
/// As above.
#[no_mangle]
pub unsafe extern "C" fn reference_write(
    record: *const Policy,
    out: *mut u8,
    out_length: usize,
) -> u64 {
    reference::write(&*record, from_raw_parts_mut(out, out_length))
}

/// The index of a record: by label the first places, then the numbers of edges; then the places.
///
/// # Safety
/// The record is one of `reference_record`; the other pointer is to so many numbers.
#[no_mangle]
pub unsafe extern "C" fn reference_index(record: *const Policy, numbers: *mut [u16; 544]) {
    let index = (*record).index();
    let all = [&index.firsts[..], &index.counts, &index.places].concat();
    (*numbers).copy_from_slice(&all);
}

/// `access_rewrite`, by the reference.
///
/// # Safety
/// Each pointer comes with the length of what it points to.
#[no_mangle]
pub unsafe extern "C" fn reference_rewrite(
    bundle: *const u8,
    bundle_length: usize,
    out: *mut u8,
    out_length: usize,
) -> u64 {
    let bundle = from_raw_parts(bundle, bundle_length);
    reference::rewrite(bundle, from_raw_parts_mut(out, out_length))
}

/// `access_replay`, by the reference.
///
/// # Safety
/// Each pointer comes with the length of what it points to.
#[no_mangle]
pub unsafe extern "C" fn reference_replay(
    bundle: *const u8,
    bundle_length: usize,
    calls: *const u8,
    calls_length: usize,
    answers: *mut u8,
    answers_length: usize,
) -> u64 {
    let bundle = from_raw_parts(bundle, bundle_length);
    let calls = from_raw_parts(calls, calls_length);
    reference::replay(bundle, calls, from_raw_parts_mut(answers, answers_length))
}
