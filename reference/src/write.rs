//! The writer.

use crate::kind::*;
use crate::line;
use crate::policy::Policy;

impl Policy {
    /// "The writer puts the lines in the order above"; "The memo isn't written." The record is one
    /// that some bundle loads to.
    pub fn write(&self) -> Vec<u8> {
        let mut lines = self.earlier_lines();
        lines.push(end_line(&lines));
        lines.iter().flat_map(|octets| line::text(octets)).collect()
    }

    /// The octets of every line but the end line, in the order of the kinds.
    fn earlier_lines(&self) -> Vec<Vec<u8>> {
        let mut lines = vec![line::sealed(HEAD, &[1, self.objects])];
        lines.extend(self.graph_lines());
        lines.extend(self.formula_lines());
        lines.extend(self.demarcation_lines());
        lines.extend(self.principal_lines());
        lines.extend(self.method_lines());
        lines
    }

    /// "02 user: object, roles (2 octets ...)"; "03 edge: label 0 to 15, from, to."
    fn graph_lines(&self) -> Vec<Vec<u8>> {
        let users = self.users.iter().map(|(&object, &roles)| {
            let [high, low] = roles.to_be_bytes();
            line::sealed(USER, &[object, high, low])
        });
        let edges = self
            .edges
            .iter()
            .map(|&(label, from, to)| line::sealed(EDGE, &[label, from, to]));
        users.chain(edges).collect()
    }

    /// "04 formula: op, a, b."
    fn formula_lines(&self) -> Vec<Vec<u8>> {
        self.formulas
            .iter()
            .map(|formula| line::sealed(FORMULA, &[formula.op, formula.a, formula.b]))
            .collect()
    }

    /// "05 demarcation: privileges (8 octets ...)"; "06 hierarchy: inferior, superior."
    fn demarcation_lines(&self) -> Vec<Vec<u8>> {
        let demarcations = self
            .demarcations
            .iter()
            .map(|privileges| line::sealed(DEMARCATION, &privileges.to_be_bytes()));
        let hierarchy = self
            .hierarchy
            .iter()
            .map(|&(low, high)| line::sealed(HIERARCHY, &[low, high]));
        demarcations.chain(hierarchy).collect()
    }

    /// "07 principal (a ground): formula, demarcation."; "08 exclusion: p, q"; "09 prerequisite:
    /// p, q".
    fn principal_lines(&self) -> Vec<Vec<u8>> {
        let principals = self
            .principals
            .iter()
            .map(|principal| line::sealed(PRINCIPAL, &[principal.formula, principal.demarcation]));
        let exclusions = self
            .exclusions
            .iter()
            .map(|&(p, q)| line::sealed(EXCLUSION, &[p, q]));
        let prerequisites = self
            .prerequisites
            .iter()
            .map(|&(p, q)| line::sealed(PREREQUISITE, &[p, q]));
        principals.chain(exclusions).chain(prerequisites).collect()
    }

    /// "0A method: form (0 one-of, 1 all-of), privileges (8 octets)."
    fn method_lines(&self) -> Vec<Vec<u8>> {
        self.methods
            .iter()
            .map(|method| {
                let mut body = vec![u8::from(method.all_of)];
                body.extend(method.privileges.to_be_bytes());
                line::sealed(METHOD, &body)
            })
            .collect()
    }
}

/// "FF end, last and once: count of earlier lines (2 octets), plain sum of all octets of earlier
/// lines, checks included (4 octets)."
fn end_line(earlier: &[Vec<u8>]) -> Vec<u8> {
    let count = earlier.len() as u16;
    let sum: u32 = earlier.iter().map(|octets| line::plain_sum(octets)).sum();
    let body = [&count.to_be_bytes()[..], &sum.to_be_bytes()[..]].concat();
    line::sealed(END, &body)
}
