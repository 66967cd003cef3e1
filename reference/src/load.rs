//! The loader.

use crate::body;
use crate::kind;
use crate::line;
use crate::policy::Policy;
use crate::relation::has_circle;

/// What a refused bundle returns: "number, line".
#[derive(Clone, Copy, Debug, PartialEq, Eq)]
pub struct Refusal {
    pub number: u8,
    pub line: usize,
}

/// The state of reading a bundle from the top.
struct Reading {
    policy: Policy,
    lines: usize,
    sum: u32,
    last_kind: Option<u8>,
}

impl Policy {
    /// "Lines are numbered from 1 and read from the top".
    pub fn load(text: &[u8]) -> Result<Policy, Refusal> {
        let mut reading = Reading {
            policy: Policy::blank(),
            lines: 0,
            sum: 0,
            last_kind: None,
        };
        for line in text.split_inclusive(|&byte| byte == b'\n') {
            reading.take(line).map_err(|number| Refusal {
                number,
                line: reading.lines + 1,
            })?;
        }
        reading.finish()
    }
}

impl Reading {
    /// "within one, 1 to 7 in order, then 8 at an end line."
    fn take(&mut self, text: &[u8]) -> Result<(), u8> {
        let octets = line::octets(text)?;
        line::check_frame(&octets)?;
        let kind = octets[1];
        let body = &octets[2..octets.len() - 1];
        refuse_unless(self.in_place(kind, body), 4)?;
        refuse_unless(!body::is_full(&self.policy, kind), 5)?;
        refuse_unless(body::in_range(&self.policy, kind, body), 6)?;
        refuse_unless(body::rises(&self.policy, kind, body), 7)?;
        refuse_unless(kind != kind::END || self.ends_well(body), 8)?;
        body::store(&mut self.policy, kind, body);
        self.lines += 1;
        self.sum += line::plain_sum(&octets);
        self.last_kind = Some(kind);
        Ok(())
    }

    /// Number 4 is the opposite: "kind unknown, misplaced, or of another body length".
    fn in_place(&self, kind: u8, body: &[u8]) -> bool {
        kind::body_length(kind) == Some(body.len()) && self.may_follow(kind)
    }

    /// "Kinds never fall from line to line"; head "first and once"; "A second head, or a line
    /// after the end, is 4".
    fn may_follow(&self, kind: u8) -> bool {
        match self.last_kind {
            None => kind == kind::HEAD,
            Some(kind::END) => false,
            Some(last) => kind != kind::HEAD && last <= kind,
        }
    }

    /// "count of earlier lines (2 octets), plain sum of all octets of earlier lines, checks
    /// included (4 octets)."
    fn ends_well(&self, body: &[u8]) -> bool {
        line::number(&body[..2]) == self.lines as u64
            && line::number(&body[2..]) == u64::from(self.sum)
    }

    /// "end line missing (line: one past the last)" is 8; "Circles are looked for when all lines
    /// passed", 9 with the end line.
    fn finish(self) -> Result<Policy, Refusal> {
        if self.last_kind != Some(kind::END) {
            return Err(Refusal {
                number: 8,
                line: self.lines + 1,
            });
        }
        if has_circle(&self.policy.hierarchy) || has_circle(&self.policy.prerequisites) {
            return Err(Refusal {
                number: 9,
                line: self.lines,
            });
        }
        Ok(self.policy)
    }
}

/// The number of the first cause that does not pass.
fn refuse_unless(passes: bool, number: u8) -> Result<(), u8> {
    if passes {
        Ok(())
    } else {
        Err(number)
    }
}
