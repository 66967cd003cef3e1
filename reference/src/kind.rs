//! The kinds of line, with their body lengths and limits.

pub const HEAD: u8 = 0x01;
pub const USER: u8 = 0x02;
pub const EDGE: u8 = 0x03;
pub const FORMULA: u8 = 0x04;
pub const DEMARCATION: u8 = 0x05;
pub const HIERARCHY: u8 = 0x06;
pub const PRINCIPAL: u8 = 0x07;
pub const EXCLUSION: u8 = 0x08;
pub const PREREQUISITE: u8 = 0x09;
pub const METHOD: u8 = 0x0A;
pub const END: u8 = 0xFF;

/// "03 edge: ... At most 512."
pub const MOST_EDGES: usize = 512;

/// The body length of a kind, or none for an unknown kind (the list under "The bundle").
pub fn body_length(kind: u8) -> Option<usize> {
    match kind {
        HEAD | HIERARCHY | PRINCIPAL | EXCLUSION | PREREQUISITE => Some(2),
        USER | EDGE | FORMULA => Some(3),
        DEMARCATION => Some(8),
        METHOD => Some(9),
        END => Some(6),
        _ => None,
    }
}
