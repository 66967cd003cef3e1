//! Lent records on one case: lists of calls given part by part, two records side by side, written
//! and loaded again on the way, and bundles that are refused.

use crate::calls::TICKET;
use crate::cases::{self, Case};
use crate::engine;
use crate::lent::Lent;
use crate::outcome::{Checked, Outcome};
use crate::random::Random;
use crate::support::{Call, SMALLEST};
use crate::tally::Tally;
use crate::tally_lent::Event;
use crate::tally_tickets::Setting;
use crate::watch::{Noted, Watch};
use reference::CALL_OCTETS;

/// A lent record on its way through a list of calls.
struct Walk<'a> {
    lent: Lent,
    /// The bundle whose record it had at first.
    text: &'a [u8],
    calls: &'a [Call],
    /// The answers so far, five octets each.
    answers: Vec<u8>,
    /// Where its answers are counted, and whether an edit was accepted.
    setting: Setting,
    /// Which of its answers depend on a slot.
    watch: Watch,
    /// Another record, loaded from what this one wrote, which gets the same calls.
    again: Option<Lent>,
}

/// Compares everything on lent records; the answers of a bundle that loads are watched.
pub fn compare(
    case: &Case,
    watch: Option<Watch>,
    random: &mut Random,
    tally: &mut Tally,
) -> Checked<()> {
    if random.one_in(16) {
        never_loaded(&case.calls, random, tally)?;
    }
    let beside = cases::beside(random);
    match watch {
        Some(watch) => side_by_side((case, watch), &beside, random, tally),
        None => refused(case, &beside, random, tally),
    }
}

/// The first calls of some, perhaps none, perhaps with a piece of the one after them; and the room
/// for their answers, now and then too little.
fn some_of<'a>(calls: &'a [u8], random: &mut Random) -> (&'a [u8], usize) {
    let whole = random.pick(&[0, 1, 1, 2, 4, calls.len()]) * CALL_OCTETS;
    let any = random.between(1, CALL_OCTETS - 1);
    let piece = random.pick(&[0, 0, 0, any, any, 4]);
    let given = &calls[..calls.len().min(whole + piece)];
    let enough = given.len() / CALL_OCTETS * 5;
    let any = random.below(enough + 1);
    let room = random.pick(&[enough, enough, enough, any]);
    (given, room + random.below(8))
}

/// The tickets that calls begin with, half the time, so that what these leave can be seen; else, or
/// where there is none, all the calls.
fn maybe_tickets_alone<'a>(calls: &'a [Call], random: &mut Random) -> &'a [Call] {
    match calls.iter().position(|call| call[0] != TICKET) {
        Some(tickets) if tickets > 0 && random.one_in(2) => &calls[..tickets],
        _ => calls,
    }
}

/// A record that is zero has no bundle: calls and writing are refused.
fn never_loaded(calls: &[Call], random: &mut Random, tally: &mut Tally) -> Checked<()> {
    let mut lent = Lent::zeroed();
    let room = (5 * calls.len(), random.octet());
    let outcome = lent.answer(calls.as_flattened(), room)?;
    let setting = Setting::before_edits(true, &[]);
    for (call, answer) in calls.iter().zip(outcome.buffer().chunks_exact(5)) {
        tally.unloadable(answer[0]);
        tally.lent_answer(call, answer, setting, Noted::default());
    }
    let outcome = lent.write((random.below(60), random.octet()))?;
    tally.unloadable(outcome.number() as u8);
    Ok(())
}

/// Two records, each on its own list, in turns, the first one watched; then its bundle into both.
fn side_by_side(
    (case, watch): (&Case, Watch),
    beside: &Case,
    random: &mut Random,
    tally: &mut Tally,
) -> Checked<()> {
    let mut first = Walk::start(Lent::loaded(&case.text)?, &case.text, &case.calls);
    first.watch = watch;
    let mut second = Walk::start(Lent::loaded(&beside.text)?, &beside.text, &beside.calls);
    tally.lent(Event::SideBySide);
    while !first.is_done() || !second.is_done() {
        let turn = first.is_done() || !second.is_done() && random.one_in(3);
        let walk = if turn { &mut second } else { &mut first };
        walk.next_step(random, tally)?;
    }
    first.finish(random, tally)?;
    second.finish(random, tally)?;
    load_over(first.lent, case, random, tally)?;
    load_over(second.lent, case, random, tally)
}

/// Loads a bundle over other rules or its own, with whatever they left in the memo; nothing of that
/// is left: it is written as it was read, and the last calls are answered as from a fresh load.
fn load_over(mut lent: Lent, case: &Case, random: &mut Random, tally: &mut Tally) -> Checked<()> {
    lent.load(&case.text)?;
    tally.lent(Event::LoadOverRules);
    let last = case.calls.len().saturating_sub(3);
    let mut walk = Walk::start(lent, &case.text, &case.calls[last..]);
    walk.write(random, tally)?;
    while !walk.is_done() {
        walk.part(random, tally)?;
    }
    walk.finish(random, tally)
}

/// A refused bundle over a record that held rules, which is then the smallest bundle's.
fn refused(case: &Case, beside: &Case, random: &mut Random, tally: &mut Tally) -> Checked<()> {
    let mut before = Walk::start(Lent::loaded(&beside.text)?, &beside.text, &beside.calls);
    for _ in 0..random.below(3) {
        before.next_step(random, tally)?;
    }
    load_refused(before.lent, &case.text, &case.calls, random, tally)
}

/// Loads a refused bundle into a record, which answers and is written as the blank one.
fn load_refused(
    mut lent: Lent,
    text: &[u8],
    calls: &[Call],
    random: &mut Random,
    tally: &mut Tally,
) -> Checked<()> {
    let value = lent.load(text)?;
    let outcome = Outcome::of(0, 0, |_| value);
    let fits = (1..=9).contains(&outcome.number());
    lent.must(fits, "load: not refused", &outcome, &outcome)?;
    tally.lent(Event::RefusedOverRules);
    let mut walk = Walk::start(lent, SMALLEST, calls);
    while !walk.is_done() {
        walk.part(random, tally)?;
    }
    walk.write(random, tally)?;
    walk.finish(random, tally)
}

impl<'a> Walk<'a> {
    /// A record at the beginning of a list, which is not watched yet.
    fn start(lent: Lent, text: &'a [u8], calls: &'a [Call]) -> Walk<'a> {
        Walk {
            lent,
            text,
            calls,
            answers: Vec::new(),
            setting: Setting::before_edits(true, text),
            watch: Watch::default(),
            again: None,
        }
    }

    /// How many calls were answered.
    fn place(&self) -> usize {
        self.answers.len() / 5
    }

    /// Whether all calls were answered.
    fn is_done(&self) -> bool {
        self.place() == self.calls.len()
    }

    /// A part of the list, mostly; or what may be done between two parts.
    fn next_step(&mut self, random: &mut Random, tally: &mut Tally) -> Checked<()> {
        match random.below(12) {
            0 => self.write(random, tally).map(|_| ()),
            1 => {
                self.lent.moved();
                Ok(())
            }
            2 | 3 => match self.again.take() {
                None => self.load_again(random, tally),
                Some(again) => self.load_altered(again, random, tally),
            },
            _ => self.part(random, tally),
        }
    }

    /// Gives the next calls and takes up their answers.
    fn part(&mut self, random: &mut Random, tally: &mut Tally) -> Checked<()> {
        let rest = maybe_tickets_alone(&self.calls[self.place()..], random);
        let (given, room) = some_of(rest.as_flattened(), random);
        let outcome = self.lent.answer(given, (room, random.octet()))?;
        let count = (given.len() / CALL_OCTETS).min(room / 5);
        let right = outcome.value == count as u64;
        let what = "answer: not as many as are whole and have room";
        self.lent.must(right, what, &outcome, &outcome)?;
        tally.part(given, room);
        let answers = &outcome.buffer()[..5 * count];
        self.answer_again(&given[..CALL_OCTETS * count], answers, random)?;
        for (call, answer) in rest.iter().zip(answers.chunks_exact(5)) {
            let noted = self.watch.note(call, answer);
            tally.lent_answer(call, answer, self.setting, noted);
            self.setting.edited |= call[0] <= 1 && answer[0] == 0;
        }
        self.answers.extend_from_slice(answers);
        Ok(())
    }

    /// The same calls on the record that was loaded from what this one wrote: the memo is not
    /// written, so evaluations may differ, numbers and sets may not.
    fn answer_again(&mut self, calls: &[u8], answers: &[u8], random: &mut Random) -> Checked<()> {
        let Some(again) = &mut self.again else {
            return Ok(());
        };
        let outcome = again.answer(calls, (answers.len(), random.octet()))?;
        let mut both = outcome
            .buffer()
            .chunks_exact(5)
            .zip(answers.chunks_exact(5));
        let alike = both.all(|(one, other)| one[..4] == other[..4]);
        let before = Outcome::of(answers.len(), 0, |out| {
            out.copy_from_slice(answers);
            outcome.value
        });
        let what = "answer: number or set changed by writing and loading";
        again.must(alike, what, &before, &outcome)
    }

    /// Writes into no room, which tells the length, into exactly enough and into some other; what
    /// was written.
    fn write(&mut self, random: &mut Random, tally: &mut Tally) -> Checked<Vec<u8>> {
        let needed = self.lent.write((0, random.octet()))?;
        tally.write(needed.number());
        let exact = (needed.value as u32) as usize;
        let outcome = self.write_into(exact, exact, random, tally)?;
        let text = outcome.buffer();
        let right = self.setting.edited || text == self.text;
        let expected = Outcome::of(self.text.len(), 0, |out| {
            out.copy_from_slice(self.text);
            out.len() as u64
        });
        let what = "write: not the bundle that was loaded";
        self.lent.must(right, what, &expected, &outcome)?;
        tally.written_after(self.setting.edited && text != self.text);
        let shorter = random.below(exact);
        let larger = exact + random.between(1, 100);
        let room = random.pick(&[exact - 1, shorter, larger]);
        self.write_into(room, exact, random, tally)?;
        Ok(text.to_vec())
    }

    /// Writes into so much room: 18 where it is less than what is needed.
    fn write_into(
        &mut self,
        room: usize,
        needed: usize,
        random: &mut Random,
        tally: &mut Tally,
    ) -> Checked<Outcome> {
        let outcome = self.lent.write((room, random.octet()))?;
        let number = if room < needed { 18 } else { 0 };
        let right = outcome.value == (number << 32) + needed as u64;
        self.lent
            .must(right, "write: room or no room", &outcome, &outcome)?;
        tally.write(number);
        Ok(outcome)
    }

    /// Writes, and loads what was written into another record, which writes the same.
    fn load_again(&mut self, random: &mut Random, tally: &mut Tally) -> Checked<()> {
        let text = self.write(random, tally)?;
        let mut again = Lent::zeroed();
        if random.one_in(2) {
            again.load(&cases::beside(random).text)?;
        }
        let value = again.load(&text)?;
        let outcome = again.write((text.len(), random.octet()))?;
        let same = value == 0 && outcome.buffer() == text;
        let what = "write: not the same after loading again";
        self.lent.must(same, what, &outcome, &outcome)?;
        tally.lent(Event::LoadedAgain);
        self.again = Some(again);
        Ok(())
    }

    /// Loads what this record writes, with one byte altered, into the other record.
    fn load_altered(&mut self, again: Lent, random: &mut Random, tally: &mut Tally) -> Checked<()> {
        let mut text = self.write(random, tally)?;
        let place = random.below(text.len());
        text[place] ^= random.octet_between(1, 255);
        let place = self.place();
        let next = self.calls.len().min(place + 3);
        load_refused(again, &text, &self.calls[place..next], random, tally)
    }

    /// All answers are those of one replay of the whole list on the bundle.
    fn finish(&mut self, random: &mut Random, tally: &mut Tally) -> Checked<()> {
        let calls = self.calls.as_flattened();
        let length = self.answers.len();
        let replay = |answers: &mut [u8]| engine::replay(self.text, calls, answers);
        let replayed = Outcome::of(length, random.octet(), replay);
        let found = Outcome::of(length, 0, |answers| {
            answers.copy_from_slice(&self.answers);
            self.calls.len() as u64
        });
        let same = replayed.value == found.value && replayed.buffer() == found.buffer();
        let what = "answer: in parts otherwise than by one replay";
        self.lent.must(same, what, &replayed, &found)?;
        tally.lent(Event::AsByReplay);
        Ok(())
    }
}
