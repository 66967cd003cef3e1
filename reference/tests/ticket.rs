//! Grant tickets: on the crown, and on random policies beside the sentences of the contract.

#[allow(dead_code)]
#[path = "differential/formulas.rs"]
mod formulas;
#[allow(dead_code)]
#[path = "differential/policy.rs"]
mod policy;
#[allow(dead_code)]
#[path = "differential/random.rs"]
mod random;
#[path = "ticket/sentences.rs"]
mod sentences;
#[allow(dead_code)]
#[path = "differential/sizes.rs"]
mod sizes;
mod support;

use policy::{policy, Lines};
use random::Random;
use reference::Policy;
use sentences::Sentences;
use sizes::Sizes;
use support::{bundle, crown};

const ANA: u8 = 1;
const BEN: u8 = 2;

/// So many random policies are tried.
const POLICIES: usize = 400;

/// So often each number must be answered on them.
const LEAST: usize = 1_000;

/// A fresh load of the crown's bundle.
fn fresh() -> Policy {
    Policy::load(&crown()).expect("the crown loads")
}

/// The number of a ticket on the crown.
fn on_crown(method: u8, requestor: u8, set: u32) -> u8 {
    fresh().check_ticket(method, 0, requestor, set)
}

#[test]
fn anas_tickets() {
    assert_eq!(on_crown(0, ANA, 0b110), 0);
    assert_eq!(on_crown(0, ANA, 0b010), 21);
    assert_eq!(on_crown(0, ANA, 0b011), 21);
    assert_eq!(on_crown(0, ANA, 0b111), 21);
    assert_eq!(on_crown(0, ANA, 0b100), 22);
    assert_eq!(on_crown(0, ANA, 0b001), 22);
    assert_eq!(on_crown(1, ANA, 0b001), 0);
    assert_eq!(on_crown(1, ANA, 0b101), 0);
    assert_eq!(on_crown(3, ANA, 0b110), 22);
}

#[test]
fn bens_tickets() {
    assert_eq!(on_crown(0, BEN, 0b010), 21);
    assert_eq!(on_crown(0, BEN, 0b110), 20);
    assert_eq!(on_crown(0, BEN, 0b100), 20);
    assert_eq!(on_crown(0, BEN, 0b011), 20);
}

#[test]
fn the_empty_set_is_consistent() {
    assert_eq!(on_crown(0, ANA, 0), 22);
    assert_eq!(on_crown(1, BEN, 0), 22);
    assert_eq!(on_crown(2, ANA, 0), 0);
    assert_eq!(on_crown(2, BEN, 0), 0);
}

#[test]
fn a_member_that_is_no_principal_is_20() {
    for member in 3..32 {
        assert_eq!(on_crown(0, ANA, 1 << member), 20);
        assert_eq!(on_crown(0, ANA, 1 << member | 0b110), 20);
        assert_eq!(on_crown(2, ANA, 1 << member), 20);
    }
    assert_eq!(on_crown(0, ANA, u32::MAX), 20);
}

#[test]
fn the_refusals_of_questions_come_first() {
    let sets = [0, 0b110, 0b010, 0b100, 1 << 31, u32::MAX];
    for set in sets {
        assert_eq!(fresh().check_ticket(4, 3, 0, set), 14);
        assert_eq!(fresh().check_ticket(0, 3, 0, set), 15);
        assert_eq!(fresh().check_ticket(0, 0, 0, set), 16);
        assert_eq!(fresh().check_ticket(0, 0, 3, set), 16);
        assert_eq!(Policy::zeroed().check_ticket(0, 0, 0, set), 19);
    }
}

#[test]
fn a_ticket_is_checked_on_the_present_graph() {
    let mut record = fresh();
    assert_eq!(record.ask_lazy(0, 0, ANA).set, 0b110);
    assert_eq!(record.remove_edge(1, 0, 1), 0);
    assert_eq!(record.check_ticket(0, 0, ANA, 0b110), 20);
    assert_eq!(record.add_edge(1, 0, 1), 0);
    assert_eq!(record.check_ticket(0, 0, ANA, 0b110), 0);
}

/// A small random policy, as lines.
fn small(random: &mut Random) -> Lines {
    let mut sizes = Sizes::small(random).naming(random);
    sizes.principals = sizes.principals.min(6);
    policy(random, &sizes)
}

/// The record of the lines: loaded, or loaded with one edge more or fewer and then edited.
fn record_of(lines: &Lines, random: &mut Random) -> Policy {
    let mut other = lines.clone();
    let edge = [3, 0, 0, 0].to_vec();
    let edited: fn(&mut Policy) -> u8 = match lines.iter().position(|line| *line == edge) {
        _ if random.one_in(2) => |_| 0,
        Some(place) => {
            other.remove(place);
            |record| record.add_edge(0, 0, 0)
        }
        None => {
            other.push(edge);
            other.sort_by_key(|line| {
                if line[0] == 3 {
                    line.clone()
                } else {
                    vec![line[0]]
                }
            });
            |record| record.remove_edge(0, 0, 0)
        }
    };
    let mut record = Policy::load(&bundle(&other)).expect("it loads");
    assert_eq!(edited(&mut record), 0);
    record
}

/// A question of the policy: a method, any object, and a user.
fn question(lines: &Lines, random: &mut Random) -> (u8, u8, u8) {
    let of = |kind: u8| lines.iter().filter(move |line| line[0] == kind);
    let users: Vec<u8> = of(2).map(|line| line[1]).collect();
    let method = random.below(of(10).count()) as u8;
    let object = random.below(lines[0][2].into()) as u8;
    (
        method,
        random.pick(&[object, users[0]]),
        random.pick(&users),
    )
}

/// Checks all sets of the principals and of one number more, and gives the accepted ones.
fn accepted(record: &Policy, lines: &Lines, asked: (u8, u8, u8), tally: &mut [usize]) -> Vec<u32> {
    let (method, object, requestor) = asked;
    let sentences = Sentences::of(lines, object, requestor);
    let number = |set| record.check_ticket(method, object, requestor, set);
    let mut accepted = Vec::new();
    for set in 0..2 << sentences.principal_count() {
        let found = number(set);
        assert_eq!(found, sentences.number(method, set), "{set:b} of {lines:?}");
        tally[usize::from(found)] += 1;
        if found == 0 {
            accepted.push(set);
        }
    }
    accepted
}

/// What the question grants is the first accepted set; where none is accepted it is denied.
fn compare_question(
    record: &Policy,
    lines: &Lines,
    (method, object, requestor): (u8, u8, u8),
    accepted: &[u32],
) {
    let sentences = Sentences::of(lines, object, requestor);
    let least = accepted.iter().min_by_key(|set| sentences.place(**set));
    let eager = record.clone().ask_eager(method, object, requestor);
    let lazy = record.clone().ask_lazy(method, object, requestor);
    for answer in [eager, lazy] {
        let granted = (answer.number == 0).then_some(&answer.set);
        assert_eq!(granted, least);
        assert!(answer.number == 0 || answer.number == 17);
    }
}

#[test]
fn tickets_on_random_policies_follow_the_sentences() {
    let mut tally = [0; 23];
    for place in 0..POLICIES {
        let mut random = Random::of_case(0x2026_0001, place);
        let lines = small(&mut random);
        let mut record = record_of(&lines, &mut random);
        for _ in 0..4 {
            let asked = question(&lines, &mut random);
            let before = record.clone();
            let accepted = accepted(&record, &lines, asked, &mut tally);
            assert_eq!(record, before);
            compare_question(&record, &lines, asked, &accepted);
            let (method, object, requestor) = asked;
            record.ask_lazy(method, object, requestor);
        }
    }
    for number in [0, 20, 21, 22] {
        assert!(tally[number] >= LEAST, "{number}: {}", tally[number]);
    }
}
