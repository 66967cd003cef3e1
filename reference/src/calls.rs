//! The calls on bytes: over a record that the caller lends, and over a bundle alone.

use crate::line;
use crate::policy::Policy;
use crate::question::Answer;

/// The octets of a call: its kind, three numbers, and the set number in 4 octets.
pub const CALL_OCTETS: usize = 8;

/// Loads a bundle into a lent record. A refused one returns "number, line" and leaves the "blank
/// record".
pub fn load(record: &mut Policy, bundle: &[u8]) -> u64 {
    match Policy::load(bundle) {
        Ok(policy) => {
            *record = policy;
            packed(0, 0)
        }
        Err(refusal) => {
            *record = Policy::blank();
            packed(refusal.number, refusal.line)
        }
    }
}

/// "answers each call in turn, on the record that the calls before it left", here a lent one; "As
/// many calls are answered as are whole in calls and have room in answers; bytes past them stay."
pub fn answer(record: &mut Policy, calls: &[u8], answers: &mut [u8]) -> u64 {
    let mut count = 0;
    let whole = calls.chunks_exact(CALL_OCTETS);
    for (call, place) in whole.zip(answers.chunks_exact_mut(5)) {
        let answer = answer_one(record, call);
        place.copy_from_slice(&octets(answer));
        count += 1;
    }
    packed(0, count)
}

/// Writes a lent record: "Success is number 0, with ... the length"; 18 with the "length needed", 19
/// with "length 0", both leave the buffer; "bytes past the end stay".
pub fn write(record: &Policy, out: &mut [u8]) -> u64 {
    if !record.is_loadable() {
        return packed(19, 0);
    }
    let text = record.write();
    match out.get_mut(..text.len()) {
        Some(place) => {
            place.copy_from_slice(&text);
            packed(0, text.len())
        }
        None => packed(18, text.len()),
    }
}

/// "Loads a bundle and writes it again into out. A bundle that is refused: its number (1 to 9) and
/// the line; out stays."
pub fn rewrite(bundle: &[u8], out: &mut [u8]) -> u64 {
    let mut record = Policy::blank();
    match load(&mut record, bundle) {
        0 => write(&record, out),
        refused => refused,
    }
}

/// "Loads a bundle, then answers each call in turn"; "for a bundle that is refused its number, and
/// no answers."
pub fn replay(bundle: &[u8], calls: &[u8], answers: &mut [u8]) -> u64 {
    match Policy::load(bundle) {
        Ok(mut record) => answer(&mut record, calls, answers),
        Err(refusal) => packed(refusal.number, 0),
    }
}

/// The kinds are 0 add, 1 remove, 2 eager, 3 lazy, 4 liberal, 5 strict, 6 ticket; then come (label,
/// from, to) or (method, object, requestor), then the set number, "the high octet first", which
/// only a ticket has a use for. Another kind is answered with number 4 and changes nothing.
fn answer_one(record: &mut Policy, call: &[u8]) -> Answer {
    let [kind, x, y, z] = [call[0], call[1], call[2], call[3]];
    let set = line::number(&call[4..]) as u32;
    match kind {
        0 => plain(record.add_edge(x, y, z), 0),
        1 => plain(record.remove_edge(x, y, z), 0),
        2 => record.ask_eager(x, y, z),
        3 => record.ask_lazy(x, y, z),
        4 => yes_or_no(record.liberal(x, y, z)),
        5 => yes_or_no(record.strict(x, y, z)),
        6 => plain(record.check_ticket(x, y, z, set), 0),
        _ => plain(4, 0),
    }
}

/// "for liberal and strict 1 for yes"; "(for a refusal, no)".
fn yes_or_no(result: Result<bool, u8>) -> Answer {
    match result {
        Ok(yes) => plain(0, u32::from(yes)),
        Err(number) => plain(number, 0),
    }
}

/// "evaluations (0 but for questions)".
fn plain(number: u8, set: u32) -> Answer {
    Answer {
        number,
        set,
        evaluations: 0,
    }
}

/// "An answer is 5 octets: number, set number in 3 octets ..., evaluations", high octet first.
fn octets(answer: Answer) -> [u8; 5] {
    let [_, high, middle, low] = answer.set.to_be_bytes();
    [answer.number, high, middle, low, answer.evaluations]
}

/// "Results pack number and value: number · 2^32 + value."
fn packed(number: u8, value: usize) -> u64 {
    (u64::from(number) << 32) + value as u64
}
