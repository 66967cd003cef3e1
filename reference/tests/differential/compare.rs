//! Both implementations on one case.

use crate::cases::Case;
use crate::engine;
use crate::outcome::{same_if, Checked, Outcome};
use crate::parts;
use crate::random::Random;
use crate::tally::Tally;
use crate::watch::Watch;
use reference::CALL_OCTETS;

/// Runs the same call on both, which must return the same and leave the same bytes.
fn both(
    what: String,
    (length, fill): (usize, u8),
    of_reference: impl Fn(&mut [u8]) -> u64,
    of_engine: impl Fn(&mut [u8]) -> u64,
) -> Checked<Outcome> {
    let reference = Outcome::of(length, fill, of_reference);
    let engine = Outcome::of(length, fill, of_engine);
    let same = reference == engine;
    same_if(same, what, reference, engine)
}

/// Compares everything on one case.
pub fn compare(case: &Case, random: &mut Random, tally: &mut Tally) -> Checked<()> {
    let outcome = rewrites(case, random, tally)?;
    tally.bundle(&outcome, case);
    let loads = outcome.number() == 0;
    let watch = loads.then(|| Watch::of(&case.text, &case.calls));
    replay_whole(case, watch.clone(), random, tally)?;
    replay_short(case, random)?;
    parts::compare(case, watch, random, tally)
}

/// Compares rewriting into buffers of the right size, one short, larger, and none at all; what came
/// of the first.
fn rewrites(case: &Case, random: &mut Random, tally: &mut Tally) -> Checked<Outcome> {
    let exact = case.text.len();
    let outcome = rewrite(case, exact, random.octet())?;
    let larger = exact + random.between(1, 100);
    for length in [exact.saturating_sub(1), random.below(exact), larger, 0] {
        let outcome = rewrite(case, length, random.octet())?;
        tally.written(outcome.number());
    }
    Ok(outcome)
}

/// Compares rewriting once; whatever is written must be the text that was read.
fn rewrite(case: &Case, length: usize, fill: u8) -> Checked<Outcome> {
    let text = &case.text[..];
    let of_reference = |out: &mut [u8]| reference::rewrite(text, out);
    let of_engine = |out: &mut [u8]| engine::rewrite(text, out);
    let what = format!("rewrite into {length} bytes");
    let outcome = both(what, (length, fill), of_reference, of_engine)?;
    let written = length >= text.len() && outcome.buffer().starts_with(text);
    let right = match outcome.number() {
        0 => written && outcome.value == text.len() as u64,
        18 => length < text.len(),
        _ => case.valid.is_none(),
    };
    let again = Outcome::of(length, fill, of_engine);
    let what = format!("rewrite into {length} bytes: not what the text asks for");
    same_if(right, what, outcome, again)
}

/// Compares all calls with room for all answers, and a little more; those of a bundle that loads
/// are watched.
fn replay_whole(
    case: &Case,
    watch: Option<Watch>,
    random: &mut Random,
    tally: &mut Tally,
) -> Checked<()> {
    let calls = case.calls.as_flattened();
    let length = 5 * case.calls.len() + random.below(8);
    let outcome = replay(case, calls, (length, random.octet()))?;
    if let Some(watch) = watch {
        let right = watch.is_in_order(outcome.buffer());
        let what = "replay: not the sets and evaluations of the order".to_string();
        let outcome = same_if(right, what, outcome.clone(), outcome)?;
        tally.list(case, outcome.buffer().chunks_exact(5), watch);
    }
    Ok(())
}

/// Compares a beginning of the calls, with the last one cut or no room for its answer.
fn replay_short(case: &Case, random: &mut Random) -> Checked<()> {
    let whole = case.calls.as_flattened();
    let most = whole.len().min(6 * CALL_OCTETS - 1);
    let calls = &whole[..random.below(most + 1)];
    let room = random.below(5 * calls.len().div_ceil(CALL_OCTETS) + 8);
    replay(case, calls, (room, random.octet())).map(|_| ())
}

/// Compares one replay.
fn replay(case: &Case, calls: &[u8], buffer: (usize, u8)) -> Checked<Outcome> {
    let text = &case.text[..];
    both(
        format!("replay of {} bytes into {}", calls.len(), buffer.0),
        buffer,
        |answers| reference::replay(text, calls, answers),
        |answers| engine::replay(text, calls, answers),
    )
}
