//! The fields of the engine's record, without the octets that lie between them, and other values in
//! the place of some.

use crate::engine::{Record, INDEX, RECORD_OCTETS};
use reference::Index;
use std::mem::{offset_of, size_of};

/// The record, laid out as C does; truth values are octets here.
#[derive(PartialEq)]
#[repr(C)]
pub struct Fields {
    objects: u8,
    user_count: usize,
    user_objects: [u8; 255],
    user_roles: [u16; 255],
    edge_count: usize,
    edges: [[u8; 512]; 3],
    formula_count: usize,
    formulas: [[u8; 64]; 3],
    demarcation_count: usize,
    demarcations: [u64; 20],
    hierarchy_count: usize,
    hierarchy: [[u8; 380]; 2],
    principal_count: usize,
    principals: [[u8; 20]; 2],
    exclusion_count: usize,
    exclusions: [[u8; 190]; 2],
    prerequisite_count: usize,
    prerequisites: [[u8; 380]; 2],
    method_count: usize,
    method_forms: [u8; 32],
    method_privileges: [u64; 32],
    index: [u16; 16 + 16 + 512],
    /// The pair, what is known, the values.
    memo: [u8; 2 + 64 + 64],
}

const _: () = assert!(size_of::<Fields>() == RECORD_OCTETS);
const _: () = assert!(offset_of!(Fields, index) == INDEX);

impl Fields {
    /// Those of a record.
    pub fn of(record: &Record) -> Fields {
        // SAFETY: the record has the size and the alignment, and every octet may be any.
        unsafe { std::ptr::from_ref(record).cast::<Fields>().read() }
    }

    /// The same with the memo of a loaded record: it "has the pair (0, 0) and knows nothing, its
    /// values zero".
    pub fn with_memo_emptied(self) -> Fields {
        let memo = [0; 130];
        Fields { memo, ..self }
    }
}

/// Puts an index into a record's octets.
pub fn put_index(record: &mut Record, index: &Index) {
    let numbers = [&index.firsts[..], &index.counts, &index.places].concat();
    let octets = record.0[INDEX..].chunks_exact_mut(2);
    for (octets, number) in octets.zip(numbers) {
        octets.copy_from_slice(&number.to_ne_bytes());
    }
}

/// Puts formulas into a record's octets, as many as there are; "unused places zero".
pub fn put_formulas(record: &mut Record, formulas: &[[u8; 3]]) {
    let count = formulas.len().to_ne_bytes();
    let place = offset_of!(Fields, formula_count);
    record.0[place..place + count.len()].copy_from_slice(&count);
    let columns = record.0[offset_of!(Fields, formulas)..].chunks_exact_mut(64);
    for (number, column) in columns.take(3).enumerate() {
        column.fill(0);
        for (octet, formula) in column.iter_mut().zip(formulas) {
            *octet = formula[number];
        }
    }
}
