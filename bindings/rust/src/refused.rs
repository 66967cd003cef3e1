//! The grounds for refusing, by document 01's table.

use std::error::Error;
use std::fmt;

/// Why a call was refused. Whatever is refused changes nothing.
///
/// Three numbers of the table are missing. 17 is a decision, [`Denied`](crate::Decision::Denied); 18 cannot
/// arise, since [`Engine::write`](crate::Engine::write) takes the room that it needs; nor can 19, since every
/// engine was loaded.
#[derive(Clone, Copy, Debug, PartialEq, Eq, Hash)]
#[non_exhaustive]
pub enum Refused {
    /// 1: a line is empty, odd, has another character, or the final 0A is missing.
    WrongCharacters {
        /// The line, counted from 1.
        line: u32,
    },
    /// 2: a line has under 3 octets, or its length octet is wrong.
    WrongLength {
        /// The line, counted from 1.
        line: u32,
    },
    /// 3: a line's octets do not add to zero.
    WrongSum {
        /// The line, counted from 1.
        line: u32,
    },
    /// 4: a line's kind is unknown, misplaced, or of another body length.
    WrongKind {
        /// The line, counted from 1.
        line: u32,
    },
    /// 5: one line over a kind's limit.
    OverLimit {
        /// The line, counted from 1.
        line: u32,
    },
    /// 6: a number is out of range or names nothing.
    OutOfRange {
        /// The line, counted from 1.
        line: u32,
    },
    /// 7: a line does not rise above the one before it.
    NotRising {
        /// The line, counted from 1.
        line: u32,
    },
    /// 8: the end line is missing or its numbers are wrong.
    WrongEnd {
        /// The line, counted from 1; for a missing end, one past the last.
        line: u32,
    },
    /// 9: the hierarchy or the prerequisites hold a circle.
    Circle {
        /// The end line.
        line: u32,
    },
    /// 10: an edit's label or object is out of range.
    EdgeOutOfRange,
    /// 11: the edge to add is there.
    EdgePresent,
    /// 12: the edge to remove is not there.
    EdgeAbsent,
    /// 13: there are 512 edges.
    EdgesFull,
    /// 14: no such method.
    NoMethod,
    /// 15: no such object.
    NoObject,
    /// 16: the requestor is not a user.
    NotUser,
    /// 20: a member of a ticket's set is no principal or is not enabled.
    NotEnabled,
    /// 21: a ticket's set is not consistent.
    NotConsistent,
    /// 22: a ticket's set does not meet the guard.
    GuardNotMet,
}

impl Refused {
    /// What the library's number means. The line is of use for loading alone.
    pub(crate) fn of_number(number: u8, line: u32) -> Refused {
        match number {
            1 => Refused::WrongCharacters { line },
            2 => Refused::WrongLength { line },
            3 => Refused::WrongSum { line },
            4 => Refused::WrongKind { line },
            5 => Refused::OverLimit { line },
            6 => Refused::OutOfRange { line },
            7 => Refused::NotRising { line },
            8 => Refused::WrongEnd { line },
            9 => Refused::Circle { line },
            10 => Refused::EdgeOutOfRange,
            11 => Refused::EdgePresent,
            12 => Refused::EdgeAbsent,
            13 => Refused::EdgesFull,
            14 => Refused::NoMethod,
            15 => Refused::NoObject,
            16 => Refused::NotUser,
            20 => Refused::NotEnabled,
            21 => Refused::NotConsistent,
            22 => Refused::GuardNotMet,
            _ => panic!("the library refused with {number}: it is not the one this package is for"),
        }
    }

    /// Document 01's number.
    pub fn number(self) -> u8 {
        self.row().0
    }

    /// The line of a refused bundle, counted from 1.
    pub fn line(self) -> Option<u32> {
        match self {
            Refused::WrongCharacters { line }
            | Refused::WrongLength { line }
            | Refused::WrongSum { line }
            | Refused::WrongKind { line }
            | Refused::OverLimit { line }
            | Refused::OutOfRange { line }
            | Refused::NotRising { line }
            | Refused::WrongEnd { line }
            | Refused::Circle { line } => Some(line),
            _ => None,
        }
    }

    /// The cause in words.
    pub fn text(self) -> &'static str {
        self.row().1
    }

    /// The row of document 01's table: number and cause.
    fn row(self) -> (u8, &'static str) {
        match self {
            Refused::WrongCharacters { .. } => (
                1,
                "line empty, odd, with another character, or without final 0A",
            ),
            Refused::WrongLength { .. } => (2, "line under 3 octets, or its length octet wrong"),
            Refused::WrongSum { .. } => (3, "line sum not zero"),
            Refused::WrongKind { .. } => (4, "kind unknown, misplaced, or of another body length"),
            Refused::OverLimit { .. } => (5, "one line over its kind's limit"),
            Refused::OutOfRange { .. } => (6, "a body number out of range or naming nothing"),
            Refused::NotRising { .. } => (7, "line not rising"),
            Refused::WrongEnd { .. } => (8, "end line missing or its numbers wrong"),
            Refused::Circle { .. } => (9, "circle in the hierarchy or the prerequisites"),
            Refused::EdgeOutOfRange => (10, "label or object out of range"),
            Refused::EdgePresent => (11, "edge is there"),
            Refused::EdgeAbsent => (12, "edge is not there"),
            Refused::EdgesFull => (13, "512 edges"),
            Refused::NoMethod => (14, "no such method"),
            Refused::NoObject => (15, "no such object"),
            Refused::NotUser => (16, "requestor is not a user"),
            Refused::NotEnabled => (20, "member is no principal or is not enabled"),
            Refused::NotConsistent => (21, "set is not consistent"),
            Refused::GuardNotMet => (22, "set does not meet the guard"),
        }
    }
}

/// As in `refused (3), line 5: line sum not zero`.
impl fmt::Display for Refused {
    fn fmt(&self, f: &mut fmt::Formatter<'_>) -> fmt::Result {
        let (number, text) = self.row();
        match self.line() {
            Some(line) => write!(f, "refused ({number}), line {line}: {text}"),
            None => write!(f, "refused ({number}): {text}"),
        }
    }
}

impl Error for Refused {}
