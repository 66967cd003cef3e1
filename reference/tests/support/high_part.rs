//! The ops that have a part, and which part makes a formula high.

/// An op with one part or two, and whether a, and whether b, is the high one; a number that is no
/// part is never high.
#[derive(Clone, Copy)]
pub struct HighPart {
    pub name: &'static str,
    pub op: u8,
    pub high: [bool; 2],
}

const A: [bool; 2] = [true, false];
const B: [bool; 2] = [false, true];
const BOTH: [bool; 2] = [true, true];

/// Every op with a part; ops 5 and 6 have two, of which a, b or both may be the high one.
pub const HIGH_PARTS: [HighPart; 11] = [
    high_part("op 4", 4, A),
    high_part("op 5, a", 5, A),
    high_part("op 5, b", 5, B),
    high_part("op 5, a and b", 5, BOTH),
    high_part("op 6, a", 6, A),
    high_part("op 6, b", 6, B),
    high_part("op 6, a and b", 6, BOTH),
    high_part("op 7", 7, B),
    high_part("op 8", 8, B),
    high_part("op 9", 9, B),
    high_part("op 11", 11, B),
];

/// One of them.
const fn high_part(name: &'static str, op: u8, high: [bool; 2]) -> HighPart {
    HighPart { name, op, high }
}

impl HighPart {
    /// The formula that has a formula as its high part. The other number is the lower part of ops 5
    /// and 6, the label of 7 and 8, the slot of 9 and 11, and 0 for op 4.
    pub fn over(self, part: u8, other: u8) -> [u8; 3] {
        let [a, b] = self.high.map(|high| if high { part } else { other });
        [self.op, a, b]
    }
}
