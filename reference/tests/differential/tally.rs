//! What a run came across, counted on results that both implementations agree on.

use crate::calls::TICKET;
use crate::cases::Case;
use crate::limits::reached;
use crate::outcome::Outcome;
use crate::sizes::LIMITS;
use crate::tally_height::Heights;
use crate::tally_lent::{Counts, Event};
use crate::tally_naming::Naming;
use crate::tally_order::Order;
use crate::tally_tickets::{Setting, Tickets};
use crate::watch::{Noted, Watch};
use reference::CALL_OCTETS;

/// Each refusal must occur at least so often in a run.
const LEAST: u64 = 50;

/// The causes of the contract's table and of its requests, by number.
const CAUSES: [&str; 22] = [
    "line empty, odd, other character, no final 0A",
    "under 3 octets, or length octet wrong",
    "line sum not zero",
    "kind unknown, misplaced, or of another body length",
    "one line over a kind's limit",
    "a body number out of range or naming nothing",
    "not rising",
    "end line missing or its numbers wrong",
    "circle",
    "edit: label or object out of range",
    "add: edge is there",
    "remove: edge isn't there",
    "add: 512 edges",
    "no such method",
    "no such object",
    "requestor isn't a user",
    "no set will do",
    "writer's buffer too short",
    "no bundle loads to this record",
    "ticket: a member is no principal or isn't enabled",
    "ticket: the set isn't consistent",
    "ticket: guard not met",
];

/// The counts.
#[derive(Default)]
pub struct Tally {
    bundles: u64,
    loaded: u64,
    lists: u64,
    calls: u64,
    /// By number, from 1 on.
    refusals: [u64; CAUSES.len() + 1],
    unknown_kinds: u64,
    /// By kind, 0 add and 1 remove.
    edits: [u64; 2],
    /// By kind, 0 eager and 1 lazy, then by members, the last for four and more.
    grants: [[u64; 5]; 2],
    /// Questions that evaluated something, and questions that needed nothing but the memo.
    evaluated: u64,
    from_memo: u64,
    /// By kind, 0 liberal and 1 strict, then 0 no and 1 yes.
    predicates: [[u64; 2]; 2],
    limits: [u64; LIMITS.len()],
    lent: Counts,
    tickets: Tickets,
    naming: Naming,
    heights: Heights,
    order: Order,
}

impl Tally {
    /// Counts a case's bundle by what came of rewriting it.
    pub fn bundle(&mut self, outcome: &Outcome, case: &Case) {
        let number = outcome.number();
        self.bundles += 1;
        self.refused(number);
        self.loaded += u64::from(number == 0);
        self.naming.bundle(outcome, case);
        self.heights.bundle(outcome, case);
        if let Some(lines) = &case.valid {
            let places = self.limits.iter_mut().zip(reached(lines));
            places.for_each(|(count, reached)| *count += u64::from(reached));
        }
    }

    /// Counts the writer's refusals.
    pub fn written(&mut self, number: u64) {
        if number == 18 {
            self.refused(number);
        }
    }

    /// Counts a number answered on a record that was never loaded.
    pub fn unloadable(&mut self, number: u8) {
        if number == 19 {
            self.refused(number.into());
        }
    }

    /// Counts what happened to a lent record.
    pub fn lent(&mut self, event: Event) {
        self.lent.add(event, true);
    }

    /// Counts a part of a list, with the room for its answers.
    pub fn part(&mut self, calls: &[u8], room: usize) {
        self.lent.add(Event::Part, true);
        self.lent.add(Event::EmptyPart, calls.is_empty());
        let whole = calls.len() / CALL_OCTETS;
        let piece = !calls.len().is_multiple_of(CALL_OCTETS);
        self.lent.add(Event::PieceOfCall, piece);
        self.lent.add(Event::ShortRoom, room / 5 < whole);
        let mut kinds = calls.chunks_exact(CALL_OCTETS).map(|call| call[0]);
        let tickets = whole.min(room / 5) > 0 && kinds.all(|kind| kind == TICKET);
        self.lent.add(Event::TicketsAlone, tickets);
    }

    /// Counts an answer on a lent record, if it is to a ticket, depends on a slot, may depend on a
    /// formula at the limit of height, or shows the order of sets.
    pub fn lent_answer(&mut self, call: &[u8], answer: &[u8], setting: Setting, noted: Noted) {
        self.tickets.add(call, answer[0], setting);
        self.naming.answer(call, answer, setting, noted);
        self.heights.answer(call, answer, setting);
        self.order.answer(call, setting, noted.shown);
    }

    /// Counts a write of a lent record.
    pub fn write(&mut self, number: u64) {
        self.lent.add(Event::Write, true);
        self.lent.add(Event::WriteTooShort, number == 18);
    }

    /// Counts a write that gave another bundle than was loaded, if it did.
    pub fn written_after(&mut self, edit: bool) {
        self.lent.add(Event::WriteAfterEdit, edit);
    }

    /// Counts a refusal; 0 is none.
    fn refused(&mut self, number: u64) {
        if number > 0 {
            self.refusals[number as usize] += 1;
        }
    }

    /// Counts the answers to the calls of a case, watched from their beginning.
    pub fn list<'a>(
        &mut self,
        case: &Case,
        answers: impl Iterator<Item = &'a [u8]>,
        mut watch: Watch,
    ) {
        let calls = &case.calls;
        self.lists += u64::from(!calls.is_empty());
        let mut setting = Setting::before_edits(false, &case.text);
        for (call, answer) in calls.iter().zip(answers) {
            self.calls += 1;
            self.answer(call[0], answer, setting.principal_count > 0);
            self.tickets.add(call, answer[0], setting);
            let noted = watch.note(call, answer);
            self.naming.answer(call, answer, setting, noted);
            self.heights.answer(call, answer, setting);
            self.order.answer(call, setting, noted.shown);
            setting.edited |= call[0] <= 1 && answer[0] == 0;
        }
    }

    /// Counts one answer by its call's kind.
    fn answer(&mut self, kind: u8, answer: &[u8], has_principals: bool) {
        let granted = answer[0] == 0;
        match kind {
            0 | 1 if granted => self.edits[usize::from(kind)] += 1,
            2 | 3 => self.question(kind, answer, has_principals),
            4 | 5 if granted => {
                self.predicates[usize::from(kind - 4)][usize::from(answer[3])] += 1;
            }
            0..=TICKET => self.refused(answer[0].into()),
            _ => self.unknown_kinds += 1,
        }
    }

    /// Counts a grant or refusal; an eager question on principals, or a set that is not empty,
    /// comes out of the memo if nothing was evaluated.
    fn question(&mut self, kind: u8, answer: &[u8], has_principals: bool) {
        self.refused(answer[0].into());
        let members: u32 = answer[1..4].iter().map(|octet| octet.count_ones()).sum();
        if answer[0] == 0 {
            self.grants[usize::from(kind - 2)][members.min(4) as usize] += 1;
        }
        let decided = answer[0] == 0 || answer[0] == 17;
        let needs_values = members > 0 || kind == 2 && has_principals;
        self.evaluated += u64::from(answer[4] > 0);
        self.from_memo += u64::from(decided && needs_values && answer[4] == 0);
    }

    /// Prints everything.
    pub fn print(&self) {
        println!("\n{:>9}  bundles, of which", self.bundles);
        println!("{:>9}  were loaded", self.loaded);
        println!("{:>9}  lists of calls on loaded bundles, with", self.lists);
        println!("{:>9}  calls", self.calls);
        println!("\nrefusals by number (19: a lent record before its first load)");
        for (number, cause) in (1..).zip(CAUSES) {
            println!("{:>9}  {number:>2}  {cause}", self.refusals[number]);
        }
        self.print_answers();
        self.tickets.print();
        self.naming.print();
        self.heights.print();
        self.order.print();
        self.lent.print();
        println!("\nvalid bundles by the limits they reach");
        for (name, count) in LIMITS.iter().zip(self.limits) {
            println!("{count:>9}  {name}");
        }
    }

    /// Prints what calls were answered with.
    fn print_answers(&self) {
        println!("\nquestions granted, by the members of the set");
        println!("           {:>9}{:>9}", "eager", "lazy");
        for (members, name) in ["0", "1", "2", "3", "4 up"].iter().enumerate() {
            let [eager, lazy] = self.grants.map(|counts| counts[members]);
            println!("      {name:<5}{eager:>9}{lazy:>9}");
        }
        println!("\nother answers");
        println!("{:>9}  questions that evaluated", self.evaluated);
        println!("{:>9}  questions from the memo alone", self.from_memo);
        for (name, [no, yes]) in ["liberal", "strict"].iter().zip(self.predicates) {
            println!("{yes:>9}  {name} yes");
            println!("{no:>9}  {name} no");
        }
        println!("{:>9}  edges added", self.edits[0]);
        println!("{:>9}  edges removed", self.edits[1]);
        println!("{:>9}  calls of an unknown kind", self.unknown_kinds);
    }

    /// What the run ought to have come across more often, or at all.
    pub fn gaps(&self) -> Vec<String> {
        let rare = (1..=CAUSES.len()).filter(|&number| self.refusals[number] < LEAST);
        let mut gaps: Vec<String> = rare
            .map(|number| format!("number {number} occurred fewer than {LEAST} times"))
            .collect();
        let missed = LIMITS.iter().zip(self.limits).filter(|limit| limit.1 == 0);
        gaps.extend(missed.map(|(name, _)| format!("no bundle reached: {name}")));
        gaps.extend(self.tickets.gaps(LEAST));
        gaps.extend(self.naming.gaps(LEAST));
        gaps.extend(self.heights.gaps(LEAST));
        gaps.extend(self.order.gaps(LEAST));
        gaps.extend(self.lent.gaps());
        gaps
    }
}
