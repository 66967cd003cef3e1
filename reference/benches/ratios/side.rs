//! The two implementations, by the same functions.

use crate::engine::{self, Record};
use reference::Policy;

/// A record that is lent.
pub trait Lent {
    fn load(&mut self, bundle: &[u8]) -> u64;
    fn answer(&mut self, calls: &[u8], answers: &mut [u8]) -> u64;
    fn write(&self, out: &mut [u8]) -> u64;
}

/// The functions on bytes that each implementation has, and a record of its own.
pub struct Side {
    pub rewrite: fn(&[u8], &mut [u8]) -> u64,
    pub replay: fn(&[u8], &[u8], &mut [u8]) -> u64,
    pub record: fn() -> Box<dyn Lent>,
}

/// The engine, through its C functions.
pub const ENGINE: Side = Side {
    rewrite: engine::rewrite,
    replay: engine::replay,
    record: || Box::new(Record::zeroed()),
};

/// The reference.
pub const REFERENCE: Side = Side {
    rewrite: reference::rewrite,
    replay: reference::replay,
    record: || Box::new(Policy::zeroed()),
};

impl Lent for Record {
    fn load(&mut self, bundle: &[u8]) -> u64 {
        engine::load(self, bundle)
    }

    fn answer(&mut self, calls: &[u8], answers: &mut [u8]) -> u64 {
        engine::answer(self, calls, answers)
    }

    fn write(&self, out: &mut [u8]) -> u64 {
        engine::write(self, out)
    }
}

impl Lent for Policy {
    fn load(&mut self, bundle: &[u8]) -> u64 {
        reference::load(self, bundle)
    }

    fn answer(&mut self, calls: &[u8], answers: &mut [u8]) -> u64 {
        reference::answer(self, calls, answers)
    }

    fn write(&self, out: &mut [u8]) -> u64 {
        reference::write(self, out)
    }
}
