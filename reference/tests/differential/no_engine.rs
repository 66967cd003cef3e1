//! The reference by the names of the engine's functions, where there is no engine.

pub use reference::{answer, load, replay, rewrite, write, Policy as Record};

/// The index of a record.
pub fn index(record: &Record) -> reference::Index {
    record.index()
}
