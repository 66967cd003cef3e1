//! The three functions over a lent record, on examples made by hand.

mod support;

use reference::{answer, load, replay, write, Policy};
use support::{bundle, call, crown, crown_lines, SMALLEST};

/// The question of the crown table's (a), and the edit of its (j).
const ASK: [u8; 4] = [3, 0, 0, 1];
const REMOVE: [u8; 4] = [1, 1, 0, 1];

/// A record with the crown's rules.
fn loaded() -> Policy {
    let mut record = Policy::zeroed();
    assert_eq!(load(&mut record, &crown()), 0);
    record
}

/// The answer to one call.
fn one(record: &mut Policy, numbers: [u8; 4]) -> [u8; 5] {
    ticket(record, numbers, 0)
}

/// The answer to one call with a set number.
fn ticket(record: &mut Policy, numbers: [u8; 4], set: u32) -> [u8; 5] {
    let mut answers = [0xAA; 5];
    assert_eq!(answer(record, &call(numbers, set), &mut answers), 1);
    answers
}

/// What a record writes, with room for more.
fn text(record: &Policy) -> Vec<u8> {
    let mut out = vec![0xAA; 1000];
    let value = write(record, &mut out);
    assert_eq!(value >> 32, 0);
    assert!(out[value as usize..].iter().all(|&byte| byte == 0xAA));
    out.truncate(value as usize);
    out
}

#[test]
fn each_call_finds_the_record_that_the_calls_before_it_left() {
    let mut record = loaded();
    let found = [ASK, ASK, REMOVE, ASK, REMOVE].map(|call| one(&mut record, call));
    let expected = [
        [0, 0, 0, 6, 2],
        [0, 0, 0, 6, 0],
        [0, 0, 0, 0, 0],
        [17, 0, 0, 0, 1],
        [12, 0, 0, 0, 0],
    ];
    assert_eq!(found, expected);
    let mut answers = [0; 25];
    let calls = [ASK, ASK, REMOVE, ASK, REMOVE].map(|numbers| call(numbers, 0));
    assert_eq!(replay(&crown(), calls.as_flattened(), &mut answers), 5);
    assert_eq!(answers, expected.as_flattened());
}

#[test]
fn calls_that_are_not_answered_leave_the_record() {
    let mut record = loaded();
    let mut answers = [0xAA; 9];
    assert_eq!(answer(&mut record, &[], &mut answers), 0);
    let [ask, remove] = [ASK, REMOVE].map(|numbers| call(numbers, 0));
    assert_eq!(answer(&mut record, &remove[..4], &mut answers), 0);
    assert_eq!(answer(&mut record, &remove[..7], &mut answers), 0);
    assert_eq!(answer(&mut record, &remove, &mut answers[..4]), 0);
    assert_eq!(answers, [0xAA; 9]);
    assert_eq!(record, loaded());
    let both = [ask, remove];
    assert_eq!(answer(&mut record, both.as_flattened(), &mut answers), 1);
    assert_eq!(answers, [0, 0, 0, 6, 2, 0xAA, 0xAA, 0xAA, 0xAA]);
    assert_eq!(text(&record), crown());
}

#[test]
fn refused_calls_leave_the_record_and_17_all_but_the_memo() {
    let mut record = loaded();
    let before = record.clone();
    for call in [
        [0, 0, 0, 1],
        [1, 9, 0, 1],
        [2, 9, 0, 1],
        [3, 0, 0, 0],
        [7; 4],
    ] {
        assert_ne!(one(&mut record, call)[0], 0);
        assert_eq!(record, before);
    }
    assert_eq!(one(&mut record, [3, 0, 0, 2]), [17, 0, 0, 0, 2]);
    assert_ne!(record, before);
    assert_eq!(text(&record), crown());
}

#[test]
fn tickets_leave_the_record_memo_included() {
    let mut record = loaded();
    let tickets = [
        ([6, 0, 0, 1], 0b110, 0),
        ([6, 0, 0, 1], 0b010, 21),
        ([6, 0, 0, 1], 0b100, 22),
        ([6, 0, 0, 2], 0b110, 20),
        ([6, 0, 0, 2], 1 << 31, 20),
        ([6, 0, 0, 0], 0b110, 16),
    ];
    for evaluations in [2, 0] {
        let before = record.clone();
        for (numbers, set, number) in tickets {
            let answers = ticket(&mut record, numbers, set);
            assert_eq!(answers, [number, 0, 0, 0, 0]);
            assert_eq!(record, before);
        }
        assert_eq!(one(&mut record, ASK), [0, 0, 0, 6, evaluations]);
    }
}

#[test]
fn what_is_written_after_an_edit_has_the_edit_and_no_memo() {
    let mut record = loaded();
    one(&mut record, REMOVE);
    one(&mut record, ASK);
    let lines = crown_lines();
    let left = lines.into_iter().filter(|line| line[..] != [3, 1, 0, 1]);
    assert_eq!(text(&record), bundle(&left.collect::<Vec<_>>()));
    let mut again = Policy::zeroed();
    assert_eq!(load(&mut again, &text(&record)), 0);
    assert_eq!(one(&mut again, ASK), [17, 0, 0, 0, 1]);
    assert_eq!(one(&mut record, ASK), [17, 0, 0, 0, 0]);
}

#[test]
fn a_second_load_replaces_and_a_refused_one_leaves_the_blank_record() {
    let mut record = loaded();
    one(&mut record, ASK);
    assert_eq!(load(&mut record, SMALLEST), 0);
    assert_eq!(record, Policy::blank());
    assert_eq!(load(&mut record, &crown()), 0);
    assert_eq!(record, loaded());
    assert_eq!(load(&mut record, b"0201"), (1 << 32) + 1);
    assert_eq!(record, Policy::blank());
    assert_eq!(one(&mut record, ASK), [14, 0, 0, 0, 0]);
    assert_eq!(one(&mut record, [0, 0, 0, 1]), [10, 0, 0, 0, 0]);
    assert_eq!(load(&mut record, &[]), (8 << 32) + 1);
    assert_eq!(text(&record), SMALLEST);
    assert_eq!(one(&mut record, [0, 0, 0, 0]), [0; 5]);
    assert_ne!(text(&record), SMALLEST);
}

#[test]
fn the_writer_refuses_with_18_and_19_and_leaves_the_buffer() {
    let exact = crown().len();
    let mut out = vec![0xAA; exact - 1];
    assert_eq!(write(&loaded(), &mut out), (18 << 32) + exact as u64);
    assert_eq!(write(&Policy::zeroed(), &mut out), 19 << 32);
    assert_eq!(out, vec![0xAA; exact - 1]);
}

#[test]
fn a_record_that_was_never_loaded_refuses_every_call_with_19() {
    let mut record = Policy::zeroed();
    for kind in 0..7 {
        assert_eq!(one(&mut record, [kind, 0, 0, 0]), [19, 0, 0, 0, 0]);
    }
    assert_eq!(one(&mut record, [7, 0, 0, 0]), [4, 0, 0, 0, 0]);
    assert_eq!(record, Policy::zeroed());
}
